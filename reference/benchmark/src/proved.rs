//! The proved checker by its C names (`crates/link`), with the reference's replies.

use reference::{Answer, Reply, Round};

extern "C" {
    pub(crate) fn certificate_check(file: *const u8, length: usize) -> u64;
    pub(crate) fn certificate_check_small(file: *const u8, length: usize) -> u64;
    pub(crate) fn certificate_check_numbered(
        file: *const u8,
        length: usize,
        numbers: *const u8,
        count: usize,
    ) -> u64;
    pub(crate) fn certificate_round(file: *const u8, length: usize, from: u64, count: u64) -> u64;
    pub(crate) fn certificate_ask(file: *const u8, length: usize, entry: u64, state: u64) -> u64;
}

/// The code of the proved checker's reply.
pub fn check(file: &[u8]) -> u64 {
    // It requires nothing of the bytes, reads no others and keeps nothing.
    unsafe { certificate_check(file.as_ptr(), file.len()) }
}

/// The code of the proved checker's reply by the small limits.
pub fn check_small(file: &[u8]) -> u64 {
    // As above.
    unsafe { certificate_check_small(file.as_ptr(), file.len()) }
}

/// The code of the proved checker's reply to a file with a caller's own rule numbers.
pub fn check_numbered(file: &[u8], numbers: &[u8]) -> u64 {
    // As above, for both.
    unsafe { certificate_check_numbered(file.as_ptr(), file.len(), numbers.as_ptr(), numbers.len()) }
}

/// The code of what a round of the proved checker's says.
pub fn check_round(file: &[u8], from: u64, count: u64) -> u64 {
    // As above.
    unsafe { certificate_round(file.as_ptr(), file.len(), from, count) }
}

/// The code of the proved checker's answer.
pub fn ask(file: &[u8], entry: u64, state: u64) -> u64 {
    // As above.
    unsafe { certificate_ask(file.as_ptr(), file.len(), entry, state) }
}

/// The reply that a code says, as `certificate.h` has it.
pub fn reply(code: u64) -> Reply {
    match code {
        0 => Reply::Accepted,
        _ => Reply::Refused { number: (code >> 32) as u8, place: (code as u32).into() },
    }
}

/// What a round's code says, as `certificate.h` has it.
pub fn round(code: u64) -> Round {
    match code {
        0 => Round::Ended,
        1..=0xFFFF_FFFF => Round::GoOn(code),
        _ => Round::Refused { number: (code >> 32) as u8, place: (code as u32).into() },
    }
}

/// The answer that a code says, as `certificate.h` has it.
pub fn answer(code: u64) -> Answer {
    match code {
        0 => Answer::Out,
        1 => Answer::In,
        _ => Answer::Refused { number: (code >> 32) as u8, place: code as u32 },
    }
}
