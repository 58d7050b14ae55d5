//! Files with a caller's own rule numbers: a file of any sort that `cases` makes, its rule bytes rewritten by a
//! random list; nearly such files; and lists with faults.

use crate::generate::limits::shuffle;
use crate::generate::random::Random;
use crate::generate::{plain_file, Call, Case};
use crate::layout;
use crate::rules::RULES;

/// The first `count` cases of a seed, each a file to check with a list.
pub fn numbered(seed: u64, count: u64) -> impl Iterator<Item = Case> {
    (0..count).map(move |index| numbered_case(&mut Random::for_case(seed, index)))
}

pub(super) fn numbered_case(random: &mut Random) -> Case {
    let list = lawful(random);
    let mut bytes = plain_file(random);
    match random.below(100) {
        0..=59 => rewrite(random, &list, &mut bytes),
        60..=69 => {
            rewrite(random, &list, &mut bytes);
            let number = missing(random, &list);
            replace(random, &mut bytes, number);
        }
        70..=75 => {
            rewrite(random, &list, &mut bytes);
            let number = random.pick(&list);
            replace(random, &mut bytes, number);
        }
        76..=81 => (),
        _ => return faulty_case(random, list, bytes),
    }
    Case { call: Call::Numbered(list), bytes }
}

/// A lawful list: any numbers; 1 to 28 as they are, in another order, or mixed with those that follow; or some of
/// them exchanged for others.
fn lawful(random: &mut Random) -> Vec<u8> {
    let mut numbers: Vec<u8> = (1..=255).collect();
    match random.below(8) {
        0 => (),
        1 => shuffle(random, &mut numbers[..RULES.len()]),
        2 => shuffle(random, &mut numbers[..2 * RULES.len()]),
        3 => (0..random.between(1, 6))
            .for_each(|_| numbers.swap(random.below(RULES.len()), random.between(RULES.len(), 254))),
        _ => shuffle(random, &mut numbers),
    }
    numbers.truncate(RULES.len());
    numbers
}

/// The places of the rule bytes of a file whose layout is lawful: the steps stand last, of twelve bytes each.
fn rule_places(bytes: &[u8]) -> Vec<usize> {
    let steps = layout::read(bytes).map_or(0, |file| file.steps.len());
    (0..steps).map(|step| bytes.len() - 12 * (steps - step)).collect()
}

/// Rewrites the rule bytes by the list. What is no rule's number becomes one that the list lacks.
fn rewrite(random: &mut Random, list: &[u8], bytes: &mut [u8]) {
    for place in rule_places(bytes) {
        let number = list.get((bytes[place] as usize).wrapping_sub(1)).copied();
        bytes[place] = number.unwrap_or_else(|| missing(random, list));
    }
}

/// A number that the list lacks: mostly 0 or a rule's own, where it lacks one.
fn missing(random: &mut Random, list: &[u8]) -> u8 {
    let last = random.pick(&[0, RULES.len() as u8, RULES.len() as u8, RULES.len() as u8, 255]);
    let numbers: Vec<u8> = (0..=last).filter(|number| !list.contains(number)).collect();
    random.pick(&numbers)
}

/// Gives one step another rule byte.
fn replace(random: &mut Random, bytes: &mut [u8], number: u8) {
    let places = rule_places(bytes);
    if !places.is_empty() {
        bytes[random.pick(&places)] = number;
    }
}

/// A list with a fault, and the file as it should be, empty or broken.
fn faulty_case(random: &mut Random, mut list: Vec<u8>, mut bytes: Vec<u8>) -> Case {
    match random.below(4) {
        0 => bytes.clear(),
        1 => bytes.truncate(random.below(bytes.len() + 1)),
        _ => rewrite(random, &list, &mut bytes),
    }
    match random.below(4) {
        0 => change_length(random, &mut list),
        1 => list[some_place(random)] = 0,
        2 => repeat(random, &mut list),
        _ => {
            repeat(random, &mut list);
            list[some_place(random)] = 0;
        }
    }
    Case { call: Call::Numbered(list), bytes }
}

/// Another length, what is added being any bytes; now and then all of them are zero.
fn change_length(random: &mut Random, list: &mut Vec<u8>) {
    let length = random.pick(&[0, 1, 27, 29, 255, 256, 300]);
    list.resize_with(length.max(list.len()), || random.next() as u8);
    list.truncate(length);
    if random.chance(25) {
        list.fill(0);
    }
}

/// A place of a list: often the first, the last or the one in the middle.
fn some_place(random: &mut Random) -> usize {
    let any = random.below(RULES.len());
    random.pick(&[0, RULES.len() / 2, RULES.len() - 1, any])
}

/// Makes two bytes equal: neighbours, the last two, the first and the last, or any.
fn repeat(random: &mut Random, list: &mut [u8]) {
    let last = list.len() - 1;
    let (first, second) = match random.below(4) {
        0 => (last - 1, last),
        1 => (0, last),
        2 => {
            let at = random.below(last);
            (at, at + 1)
        }
        _ => {
            let at = random.below(last);
            (at, random.between(at + 1, last))
        }
    };
    list[second] = list[first];
}
