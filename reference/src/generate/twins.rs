//! Twins: a case with a file of version 1, and the same with the file of version 2 that has no unknown fact and is the same behind
//! its mask; and what their replies have in common.

use crate::generate::random::Random;
use crate::generate::{any_case, limits, Call, Case};
use crate::layout::{Limits, MAX_BYTES};
use crate::version::Places;

/// The cases of the first `count` pairs of a seed, one after the other.
pub fn twins(seed: u64, count: u64) -> impl Iterator<Item = Case> {
    (0..count).flat_map(move |index| pair(&mut Random::for_case(seed, index)))
}

/// A case of any sort whose file has a twin, and that one.
fn pair(random: &mut Random) -> [Case; 2] {
    loop {
        let first = match random.below(200) {
            0 => Case { call: Call::Check, bytes: limits::full_file(random.below(2)) },
            _ => any_case(random),
        };
        if let Some(bytes) = twin(&first.bytes) {
            return [first.clone(), Case { bytes, ..first }];
        }
    }
}

/// The bytes of version 2 with a mask of no facts put in; none where they are not of version 1 or end before the mask's place.
pub fn twin(bytes: &[u8]) -> Option<Vec<u8>> {
    let mask = Places::of(2).unknown?;
    let (before, after) = (bytes.get(..mask)?, bytes.get(mask..)?);
    if before[4] != 1 {
        return None;
    }
    let mut twin = [before, &[0; 8], after].concat();
    let length = u32::from_be_bytes(before[..4].try_into().ok()?).wrapping_add(8);
    twin[..4].copy_from_slice(&length.to_be_bytes());
    twin[4] = 2;
    Some(twin)
}

/// Whether the cases are twins, and the second reply follows from the first.
pub fn twinned(pair: [&Case; 2], replies: [&str; 2]) -> bool {
    let [first, second] = pair;
    let twins = first.call == second.call && twin(&first.bytes).as_ref() == Some(&second.bytes);
    twins && replies[1] == expected(second, replies[0])
}

/// The reply to the second of two twins: the first one's, byte places from the mask's on moved by it; but where the mask makes the
/// file too long.
fn expected(second: &Case, first: &str) -> String {
    let mut words = first.strip_prefix("refused ").into_iter().flat_map(|rest| rest.split(' '));
    let mut next = || words.next().and_then(|word| word.parse::<usize>().ok());
    let (number, place) = (next(), next());
    let length = second.bytes.len();
    let too_long_for_small = second.call == Call::Small && length > Limits::SMALL.bytes;
    match (number, place) {
        (Some(18), _) => first.into(),
        _ if length > MAX_BYTES => "refused 1 0".into(),
        (Some(1), _) => first.into(),
        _ if too_long_for_small => "refused 19 0".into(),
        (Some(number @ (2..=7 | 19)), Some(place)) if Some(place) >= Places::of(2).unknown => {
            format!("refused {number} {}", place + 8)
        }
        _ => first.into(),
    }
}
