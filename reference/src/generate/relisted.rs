//! Pairs of cases that differ only in the order in which explicit sets list their states, and what their replies have in common.

use std::ops::Range;

use crate::generate::listed::{listed_case, reorder};
use crate::generate::numbered::numbered_case;
use crate::generate::random::Random;
use crate::generate::rounds::round_case;
use crate::generate::small::small_case;
use crate::generate::{case, Case};
use crate::task::all_facts;
use crate::version::Places;

/// The cases of the first `count` pairs of a seed, one after the other.
pub fn relisted(seed: u64, count: u64) -> impl Iterator<Item = Case> {
    (0..count).flat_map(move |index| pair(&mut Random::for_case(seed, index)))
}

/// A case of any sort whose file has states to reorder, and the same case with them in another order. Most first files list them
/// ascending.
fn pair(random: &mut Random) -> [Case; 2] {
    let any_order = random.chance(25);
    loop {
        let first = match random.below(20) {
            0..=6 => case(random),
            7..=12 => listed_case(random),
            13 | 14 => numbered_case(random),
            15 | 16 => round_case(random),
            _ => small_case(random),
        };
        let fits = any_order || ascends(&first.bytes);
        if let Some(bytes) = reordered(random, &first.bytes).filter(|_| fits) {
            return [first.clone(), Case { bytes, ..first }];
        }
    }
}

/// The bytes with the states of each explicit set in another order; none where the bytes stay as they are.
fn reordered(random: &mut Random, bytes: &[u8]) -> Option<Vec<u8>> {
    let mut other = bytes.to_vec();
    for body in bodies(bytes) {
        let mut states: Vec<u64> = states(&bytes[body.clone()]).collect();
        reorder(random, &mut states);
        let mut places = other[body].chunks_exact_mut(8);
        states.iter().zip(&mut places).for_each(|(state, place)| place.copy_from_slice(&state.to_be_bytes()));
    }
    (other != bytes).then_some(other)
}

/// Whether each explicit set lists its states ascending, each once.
pub fn ascends(bytes: &[u8]) -> bool {
    bodies(bytes).into_iter().all(|body| states(&bytes[body]).is_sorted_by(|a, b| a < b))
}

/// The states in the bytes of a set's body.
fn states(body: &[u8]) -> impl Iterator<Item = u64> + '_ {
    body.chunks_exact(8).map(|bytes| bytes.iter().fold(0, |state, byte| state << 8 | *byte as u64))
}

/// Where the states of each explicit set stand, as far as counts and lengths lead to them.
pub fn bodies(bytes: &[u8]) -> Vec<Range<usize>> {
    let mut found = Vec::new();
    walk(bytes, &mut found);
    found
}

/// None where the bytes end before the last entry does.
fn walk(bytes: &[u8], found: &mut Vec<Range<usize>>) -> Option<()> {
    let number = |at: usize| Some(u16::from_be_bytes(bytes.get(at..at + 2)?.try_into().ok()?) as usize);
    let places = Places::in_bytes(bytes);
    let mut at = places.actions + places.action * number(places.action_count)?;
    for are_states in [false, true] {
        let entries = number(at)?;
        at += 2;
        for _ in 0..entries {
            let end = at + 2 + number(at)?;
            let entry = bytes.get(at + 2..end)?;
            if are_states && entry.first() == Some(&3) && entry.len() % 8 == 1 {
                found.push(at + 3..end);
            }
            at = end;
        }
    }
    Some(())
}

/// Whether the replies to a pair are alike: the same; or where an explicit set is refused with 5, each at the first state there that
/// names a fact of n or above.
pub fn alike(pair: [&Case; 2], replies: [&str; 2]) -> bool {
    let place = replies[0].strip_prefix("refused 5 ").and_then(|place| place.parse::<usize>().ok());
    let refused =
        place.and_then(|place| bodies(&pair[0].bytes).into_iter().find(|body| body.contains(&place)));
    match refused {
        None => replies[0] == replies[1],
        Some(body) => pair.iter().zip(replies).all(|(case, reply)| {
            let place = first_outside(&case.bytes, body.clone());
            place.is_some_and(|place| reply == format!("refused 5 {place}"))
        }),
    }
}

/// The place of the first state of a body that names a fact of n or above.
fn first_outside(bytes: &[u8], body: Range<usize>) -> Option<usize> {
    let outside = |state: u64| state & !all_facts(bytes[5]) != 0;
    let k = states(bytes.get(body.clone())?).position(outside)?;
    Some(body.start + 8 * k)
}
