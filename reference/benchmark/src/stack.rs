//! How much stack the proved checker uses: it is run on a stack of our own, painted
//! beforehand, and the deepest word that has changed is looked for.

use std::arch::asm;

use crate::files::Timed;
use crate::proved::{
    certificate_ask, certificate_check, certificate_check_numbered, certificate_check_small,
    certificate_round,
};

/// Far more than the checker uses, in words of eight bytes.
const WORDS: usize = 1 << 17;
const PAINT: u64 = 0xA5C3_96E1_D2B4_8778;

/// The bytes of stack that a check writes to, its return address among them, and its code.
pub fn of_check(file: &[u8]) -> (usize, u64) {
    measured(certificate_check as *const () as usize, file, 0, 0)
}

/// The same by the small limits.
pub fn of_small(file: &[u8]) -> (usize, u64) {
    measured(certificate_check_small as *const () as usize, file, 0, 0)
}

/// The same by the full limits for a file with its list, where it has one.
pub fn of_file(file: &Timed) -> (usize, u64) {
    let Some(numbers) = &file.numbers else { return of_check(&file.bytes) };
    let function = certificate_check_numbered as *const () as usize;
    measured(function, &file.bytes, numbers.as_ptr() as u64, numbers.len() as u64)
}

/// The bytes of stack that a round writes to, its return address among them, and its code.
pub fn of_round(file: &[u8], from: u64, count: u64) -> (usize, u64) {
    measured(certificate_round as *const () as usize, file, from, count)
}

/// The bytes of stack that a question writes to, its return address among them, and its code.
pub fn of_ask(file: &[u8], entry: u64, state: u64) -> (usize, u64) {
    measured(certificate_ask as *const () as usize, file, entry, state)
}

fn measured(function: usize, file: &[u8], third: u64, fourth: u64) -> (usize, u64) {
    let mut stack = vec![PAINT; WORDS];
    // Safe: each function takes these arguments or the first two, and the stack is large enough.
    let (top, code) = unsafe { call_on(&mut stack, function, file, third, fourth) };
    let untouched = stack.iter().take_while(|word| **word == PAINT).count();
    assert!(untouched > WORDS / 2, "the stack for the measurement is too small");
    ((top - untouched) * 8, code)
}

/// Calls a C function of the proved checker on the given stack, and says at which word of it
/// the stack began (the stack grows downwards, to word 0) and what the function returned.
///
/// The stack pointer is exchanged with `r12`, which a C function leaves as it was; so after
/// the call it gets its old value back. The stack begins at a multiple of 16, as calls in C
/// ask. A function with two parameters ignores the registers of the others.
///
/// # Safety
/// `function` is the address of a C function with these parameters, or the first two of them,
/// that is sound for any arguments, does not unwind and uses no more stack than there is.
unsafe fn call_on(stack: &mut [u64], function: usize, file: &[u8], third: u64, fourth: u64) -> (usize, u64) {
    let base = stack.as_mut_ptr();
    let top = stack.len() - (base.add(stack.len()) as usize % 16) / 8;
    let code: u64;
    asm!(
        "xchg rsp, r12",
        "call {function}",
        "mov rsp, r12",
        function = in(reg) function,
        inout("r12") base.add(top) => _,
        in("rdi") file.as_ptr(),
        in("rsi") file.len(),
        in("rdx") third,
        in("rcx") fourth,
        lateout("rax") code,
        clobber_abi("C"),
    );
    (top, code)
}
