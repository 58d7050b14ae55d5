//! Rounds of checks: files of any sort that `cases` makes, begun at their first or last step, behind a step that fails, or
//! past the end, with counts of steps at the limits and one past them; and applications of rules to premises that nobody
//! has judged.

use crate::draft::Draft;
use crate::file::{File, Step};
use crate::generate::builder::Builder;
use crate::generate::random::Random;
use crate::generate::{applications, certificates, limits, plain_file, Call, Case};
use crate::layout::{self, MAX_STEPS};
use crate::rules::{entries_used, RULES};
use crate::{check, Reply};

/// The first `count` cases of a seed, each a round of a file's check.
pub fn rounds(seed: u64, count: u64) -> impl Iterator<Item = Case> {
    (0..count).map(move |index| round_case(&mut Random::for_case(seed, index)))
}

pub(super) fn round_case(random: &mut Random) -> Case {
    let (bytes, from) = match random.below(100) {
        0..=57 => {
            let bytes = plain_file(random);
            let from = beginning(random, &bytes);
            (bytes, from)
        }
        58 | 59 => {
            let bytes = limits::workload(random, 4).encode();
            (bytes, some_step(random, MAX_STEPS as u64))
        }
        _ => unjudged(random),
    };
    let count = some_count(random, steps(&bytes).saturating_sub(from));
    Case { call: Call::Round(from, count), bytes }
}

/// How many steps a file has whose layout is lawful; else 0.
fn steps(bytes: &[u8]) -> u64 {
    layout::read(bytes).map_or(0, |file| file.steps.len() as u64)
}

/// Where a round begins: now and then behind a step that fails.
fn beginning(random: &mut Random, bytes: &[u8]) -> u64 {
    let steps = steps(bytes);
    match check(bytes) {
        Reply::Refused { number: 8..=11, place } if place + 1 < steps && random.chance(40) => {
            random.between(place as usize + 1, steps as usize - 1) as u64
        }
        _ => some_step(random, steps),
    }
}

/// Any of so many steps, mostly the first or the last; or a number past them, also one whose low bytes are a step's.
fn some_step(random: &mut Random, steps: u64) -> u64 {
    let any = random.below(steps as usize) as u64;
    match random.below(24) {
        0..=6 => 0,
        7..=10 => steps.saturating_sub(1),
        11 => steps,
        12 => steps + 1,
        13 => u64::MAX - random.pick(&[0, 0, any]),
        14 => (1 << random.pick(&[16, 32, 63])) + any,
        _ => any,
    }
}

/// How many steps of those left: the limits and one past them, what is left and one less or more, or any.
fn some_count(random: &mut Random, left: u64) -> u64 {
    let any = random.between(1, left.max(1) as usize) as u64;
    match random.below(30) {
        0 => 0,
        1 => MAX_STEPS as u64 + 1,
        2 => u64::MAX - random.below(2) as u64,
        3 => (1 << random.pick(&[16, 32, 63])) + any,
        4..=6 => MAX_STEPS as u64,
        7..=9 => 1,
        10 | 11 => 2,
        12..=14 => left,
        15..=17 => left.saturating_sub(1),
        18..=20 => left + 1,
        _ => any,
    }
}

/// A certificate with an application of a rule to premises that would mostly fail themselves, and where to begin: mostly
/// at the application.
fn unjudged(random: &mut Random) -> (Vec<u8>, u64) {
    let (mut b, ending) = certificates::random(random);
    applications::add_pool(&mut b);
    let rule = with_premises(b.random);
    let slip = b.random.chance(15).then(|| b.random.below(applications::places(rule)));
    let first = b.file.steps.len();
    applications::apply_unproved(&mut b, rule, slip);
    let application = b.file.steps.len() - 1;
    for _ in 0..b.random.pick(&[0, 1, 1, 1, 1, 2]) {
        spoil(&mut b, first, application);
    }
    if b.random.chance(60) {
        certificates::finish(&mut b, ending);
    }
    let from = match b.random.below(20) {
        0 | 1 => b.random.between(first, application) as u64,
        2 => some_step(b.random, b.file.steps.len() as u64),
        _ => application as u64,
    };
    (Draft::of(&b.file).encode(), from)
}

/// A rule with premises. SD and ST, which a letter outside the file can pass, come more often.
fn with_premises(random: &mut Random) -> u8 {
    let numbers = RULES.iter().filter(|rule| rule.premises > 0).map(|rule| rule.number);
    random.pick(&numbers.chain([8, 8, 22, 22]).collect::<Vec<u8>>())
}

/// Changes premises of the application: an entry number becomes one that the file does not have, in all of them or in one;
/// a judgement kind becomes another or none; or fields that no pattern looks at get any values.
fn spoil(b: &mut Builder, first: usize, application: usize) {
    let premise = b.random.between(first, application - 1);
    let kind = b.file.steps[premise].kind;
    let used = entries_used(kind);
    match b.random.below(8) {
        0..=4 if used > 0 => {
            let old = b.file.steps[premise].entries[b.random.below(used)];
            let new = outside(b.random, &b.file, kind);
            let alone = b.random.chance(40).then_some(premise);
            let changed = b.file.steps[first..application].iter_mut().zip(first..);
            let changed = changed.filter(|(_, number)| alone.is_none_or(|alone| alone == *number));
            changed.for_each(|(step, _)| rename(step, kind, old, new));
        }
        5 | 6 => b.file.steps[premise].kind = b.random.pick(&[0, 1, 2, 3, 4, 5, 128, 255]),
        _ => disguise(b.random, &mut b.file.steps[premise], used),
    }
}

/// A number past the entries of the file: state sets, or action sets where the judgement is about those.
fn outside(random: &mut Random, file: &File, kind: u8) -> u16 {
    let entries = if kind == 2 { file.action_sets.len() } else { file.state_sets.len() } as u16;
    random.pick(&[entries, entries + 1, 600, u16::MAX])
}

/// Puts a new number in an old one's places, where the step is about entries of the same sort.
fn rename(step: &mut Step, kind: u8, old: u16, new: u16) {
    let used = entries_used(step.kind);
    if (step.kind == 2) == (kind == 2) {
        step.entries[..used].iter_mut().filter(|entry| **entry == old).for_each(|entry| *entry = new);
    }
}

/// Another rule, premises and unused entries: the judgement stays.
fn disguise(random: &mut Random, step: &mut Step, used: usize) {
    step.rule = random.next() as u8;
    step.premises = [random.next() as u16, random.next() as u16, 0];
    step.entries[used..].fill(random.next() as u16);
}
