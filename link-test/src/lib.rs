//! The proved checker from Rust, by its C names (`crates/link`).

use reference::{Answer, Reply, Round};

extern "C" {
    fn certificate_check(file: *const u8, length: usize) -> u64;
    fn certificate_check_small(file: *const u8, length: usize) -> u64;
    fn certificate_check_numbered(file: *const u8, length: usize, numbers: *const u8, count: usize) -> u64;
    fn certificate_round(file: *const u8, length: usize, from: u64, count: u64) -> u64;
    fn certificate_ask(file: *const u8, length: usize, entry: u64, state: u64) -> u64;
}

/// The code of the proved checker's reply.
pub fn check(file: &[u8]) -> u64 {
    // It requires nothing of the bytes, reads no others and keeps nothing.
    unsafe { certificate_check(file.as_ptr(), file.len()) }
}

/// The code of the proved checker's reply by the small limits.
pub fn check_small(file: &[u8]) -> u64 {
    // As above.
    unsafe { certificate_check_small(file.as_ptr(), file.len()) }
}

/// The code of the proved checker's reply to a file with a caller's own rule numbers.
pub fn check_numbered(file: &[u8], numbers: &[u8]) -> u64 {
    // As above, for both.
    unsafe { certificate_check_numbered(file.as_ptr(), file.len(), numbers.as_ptr(), numbers.len()) }
}

/// The code of what a round of the proved checker's says.
pub fn round(file: &[u8], from: u64, count: u64) -> u64 {
    // As above.
    unsafe { certificate_round(file.as_ptr(), file.len(), from, count) }
}

/// The code of the proved checker's answer.
pub fn ask(file: &[u8], entry: u64, state: u64) -> u64 {
    // As above.
    unsafe { certificate_ask(file.as_ptr(), file.len(), entry, state) }
}

/// A reply's code, as `certificate.h` says it.
pub fn reply_code(reply: Reply) -> u64 {
    match reply {
        Reply::Accepted => 0,
        Reply::Refused { number, place } => refusal_code(number, place),
    }
}

/// A round's code, as `certificate.h` says it.
pub fn round_code(round: Round) -> u64 {
    match round {
        Round::Ended => 0,
        Round::GoOn(step) => step,
        Round::Refused { number, place } => refusal_code(number, place),
    }
}

/// An answer's code, as `certificate.h` says it.
pub fn answer_code(answer: Answer) -> u64 {
    match answer {
        Answer::Out => 0,
        Answer::In => 1,
        Answer::Refused { number, place } => refusal_code(number, place.into()),
    }
}

/// A place that does not fit 32 bits is told as the greatest that does.
fn refusal_code(number: u8, place: u64) -> u64 {
    (number as u64) << 32 | place.min(u32::MAX.into())
}
