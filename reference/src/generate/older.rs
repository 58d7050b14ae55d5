//! Pairs of a case with a file of version 1 or 2 and the same with the file of version 3 that says the same, no fact being needed off:
//! their replies are equal, where the layout is lawful and both files are short enough.

use crate::draft::Draft;
use crate::generate::random::Random;
use crate::generate::unknown::unknown_case;
use crate::generate::{any_case, Call, Case};
use crate::layout::{read_within, Limits};
use crate::version::Places;

/// The cases of the first `count` pairs of a seed, one after the other.
pub fn older(seed: u64, count: u64) -> impl Iterator<Item = Case> {
    (0..count).flat_map(move |index| pair(&mut Random::for_case(seed, index)))
}

/// A case of any sort whose file can be renewed, and that one.
fn pair(random: &mut Random) -> [Case; 2] {
    loop {
        let first = if random.chance(25) { unknown_case(random) } else { any_case(random) };
        if let Some(second) = renewed(&first) {
            return [first, second];
        }
    }
}

/// The case with its file in version 3; none where it is in version 3 already, or where one of the two has a faulty layout or is too
/// long.
pub fn renewed(case: &Case) -> Option<Case> {
    let limits = if case.call == Call::Small { Limits::SMALL } else { Limits::FULL };
    let file = read_within(&case.bytes, limits).ok()?;
    if Places::of(file.task.version).has_off() {
        return None;
    }
    let bytes = Draft { version: 3, ..Draft::of(&file) }.encode();
    (bytes.len() <= limits.bytes).then(|| Case { call: case.call.clone(), bytes })
}

/// Whether the second case is the first one renewed, and its reply the same.
pub fn unchanged([first, second]: [&Case; 2], replies: [&str; 2]) -> bool {
    renewed(first).as_ref() == Some(second) && replies[0] == replies[1]
}
