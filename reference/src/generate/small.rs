//! Files for the check by small limits: at a limit, one or two from it, past several of them at once; with faults before and
//! behind what is too much, counts and lengths that say another number than there are, wrong length fields, cut files; and files
//! of any sort that `cases` makes.

use crate::draft::{sample, Draft, DraftActions, DraftSet};
use crate::file::Clause;
use crate::generate::limits::{fill, many_rules};
use crate::generate::listed::{reorder, repeat};
use crate::generate::random::Random;
use crate::generate::tasks::{need_off, some_off};
use crate::generate::{certificate, mutate, plain_file, Call, Case};
use crate::layout::{Limits, MAX_CLAUSES, MAX_STATE_SETS};
use crate::task::Action;
use crate::version::VERSIONS;

const SMALL: Limits = Limits::SMALL;

/// The first `count` cases of a seed, each a file to check by the small limits.
pub fn small(seed: u64, count: u64) -> impl Iterator<Item = Case> {
    (0..count).map(move |index| small_case(&mut Random::for_case(seed, index)))
}

pub(super) fn small_case(random: &mut Random) -> Case {
    let [states, steps, size] = [30, 30, 10].map(|percent| random.chance(percent));
    let bytes = if states || steps || size {
        let mut d = base(random, states, steps);
        add_entries(random, &mut d, states);
        if steps {
            let count = near(random, SMALL.steps);
            add_steps(random, &mut d, count);
        }
        if size {
            let bytes = near(random, SMALL.bytes);
            add_bytes(random, &mut d, bytes);
        }
        damaged(random, d)
    } else {
        plain_file(random)
    };
    Case { call: Call::Small, bytes }
}

/// A number within two of a limit: as often past it as not.
fn near(random: &mut Random, limit: usize) -> usize {
    random.pick(&[limit - 1, limit, limit, limit + 1, limit + 1, limit + 2])
}

/// A certificate: one that lists about as many states as it may, one of rule steps, or any.
fn base(random: &mut Random, states: bool, steps: bool) -> Draft {
    let form = random.below(2);
    if form == 0 && states {
        let count = near(random, SMALL.states);
        let different = if random.chance(50) { count } else { random.between(3, count) };
        let mut d = below(random, different);
        if let DraftSet::Explicit(states) = &mut d.state_sets[3] {
            repeat(random, states, count - different);
            maybe_reorder(random, states);
        }
        return d;
    }
    if form == 0 && steps {
        let count = near(random, SMALL.steps);
        let entries = random.between(10, 60);
        return many_rules(random, entries, count);
    }
    let mut d = certificate(random);
    if random.chance(70) {
        d.facts = d.facts.max(random.pick(&[10, 11, 12, 64]));
    }
    d
}

/// The sample's certificate over so many states, at least 3: the numbers below that, their bits being facts from some fact on.
/// Actions clear facts, or set one and clear those above it, which leads to a lower number; the goal's fact is above them all.
pub(super) fn below(random: &mut Random, count: usize) -> Draft {
    let bits = (count - 1).ilog2() as usize + 1;
    let facts = random.pick(&[bits + 1, bits + 2, 64]);
    let first = random.below(facts - bits);
    let cube = ((1 << bits) - 1) << first;
    let action = |random: &mut Random| {
        let set = first + random.below(bits - 1);
        match random.below(2) {
            0 => Action { pre: random.mask(cube, 2), add: 0, del: random.mask(cube, 1), ..Action::NOTHING },
            _ => Action {
                pre: random.mask(cube, 3),
                add: 1 << set,
                del: cube & !((2 << set) - 1),
                ..Action::NOTHING
            },
        }
    };
    let mut d = sample();
    d.facts = facts as u8;
    d.init = (random.below(count) as u64) << first;
    if random.chance(30) {
        // As many unknown facts as keep every initial state below the count.
        d.version = random.pick(&[2, 3]);
        d.unknown = random.mask(cube & !d.init, 2);
        while (d.init | d.unknown) >> first >= count as u64 {
            d.unknown &= !random.bit(d.unknown);
        }
    }
    d.goal = 1 << (facts - 1);
    d.goal_off = some_off(random, d.version, cube, d.goal);
    d.actions = (0..random.between(1, 6)).map(|_| action(random)).collect();
    need_off(random, d.version, cube, &mut d.actions);
    d.state_sets[3] = DraftSet::Explicit((0..count as u64).map(|state| state << first).collect());
    d
}

/// Adds a few entries that no step names, among them, where asked for, long lists of states; now and then as many as there may
/// be, or one more, which no small limit counts.
fn add_entries(random: &mut Random, d: &mut Draft, long: bool) {
    if random.chance(5) {
        let count =
            random.pick(&[MAX_STATE_SETS / 2 + 1, MAX_STATE_SETS, MAX_STATE_SETS, MAX_STATE_SETS + 1]);
        d.state_sets.resize(count.max(d.state_sets.len()), DraftSet::Empty);
        return;
    }
    for _ in 0..random.below(5) {
        let before = d.state_sets.len() as u16;
        let set = match random.below(6) {
            0 | 1 if long => {
                let count = near(random, SMALL.states);
                some_states(random, d.facts, count)
            }
            2 => some_states(random, d.facts, 2),
            3 => DraftSet::Horn(vec![Clause { positive: 0, negative: 1 }; 2]),
            _ => DraftSet::Union(random.below(before as usize) as u16, before - 1),
        };
        d.state_sets.push(set);
    }
}

/// So many states, ascending or not; where there are fewer, some name a fact that there is not.
fn some_states(random: &mut Random, facts: u8, count: usize) -> DraftSet {
    let apart = (1u128 << facts) as usize / count;
    let apart = random.between(1, apart.clamp(1, 1 << 20)) as u64;
    let mut states: Vec<u64> = (0..count as u64).map(|state| state * apart).collect();
    maybe_reorder(random, &mut states);
    DraftSet::Explicit(states)
}

/// As often as not another order.
fn maybe_reorder(random: &mut Random, states: &mut [u64]) {
    if random.chance(50) {
        reorder(random, states);
    }
}

/// Says earlier steps again before the last one, until there are so many.
fn add_steps(random: &mut Random, d: &mut Draft, count: usize) {
    while d.steps.len() < count {
        let last = d.steps.len() - 1;
        let again = d.steps[random.below(last)];
        d.steps.insert(last, again);
    }
}

/// Adds entries that no step names, until the file has so many bytes.
fn add_bytes(random: &mut Random, d: &mut Draft, bytes: usize) {
    let Some(mut rest) = bytes.checked_sub(d.encode().len() + 8) else { return };
    while rest > 100 {
        let body = rest - 3;
        let (states, clauses) = ((body / 8).min(SMALL.states), (body / 16).min(MAX_CLAUSES));
        let set = match d.facts {
            10.. if random.chance(50) => some_states(random, d.facts, states),
            _ => DraftSet::Horn(vec![Clause { positive: 1, negative: 0 }; clauses]),
        };
        rest -= match &set {
            DraftSet::Explicit(_) => 3 + 8 * states,
            _ => 3 + 16 * clauses,
        };
        d.state_sets.push(set);
    }
    fill(d, rest + 8);
}

/// The bytes, in half of the cases with a fault.
fn damaged(random: &mut Random, mut d: Draft) -> Vec<u8> {
    match random.below(20) {
        0..=9 => d.encode(),
        10..=12 => {
            spoil(random, &mut d);
            d.encode()
        }
        13 => {
            mutate::draft(random, &mut d);
            d.encode()
        }
        14 | 15 => mutate::bytes(random, &d),
        16..=18 => restated(random, &d),
        _ => with_wrong_length(random, d.encode()),
    }
}

/// Makes one item unlawful, before what is too much or behind it (replies 2 and 4 to 7), or takes the last step away (12).
fn spoil(random: &mut Random, d: &mut Draft) {
    let fact = 1u64.checked_shl(d.facts.into()).unwrap_or(0);
    let actions = d.actions.len() as u16;
    let set = random.below(d.state_sets.len());
    match random.below(11) {
        0 => d.version = VERSIONS.end() + 1,
        1 => d.facts = random.pick(&[0, 65]),
        2 => d.goal |= fact,
        3 => d.action_sets.push(DraftActions::List(vec![actions])),
        4 => d.action_sets.push(DraftActions::List((0..actions.min(1)).cycle().take(2).collect())),
        5 | 6 => d.state_sets[set] = DraftSet::Complement(set as u16),
        7 | 8 => drop(d.steps.pop()),
        9 => d.state_sets.push(DraftSet::TwoCnf(vec![Clause { positive: 1, negative: 3 }])),
        _ => {
            let Some(at) = some_list(random, d) else { return };
            let DraftSet::Explicit(states) = &mut d.state_sets[at] else { return };
            let k = random.pick(&[1, states.len() - 1]);
            states[k] |= fact;
        }
    }
}

/// Any explicit set of more than one state.
fn some_list(random: &mut Random, d: &Draft) -> Option<usize> {
    let long = |at: &usize| matches!(&d.state_sets[*at], DraftSet::Explicit(states) if states.len() > 1);
    let lists: Vec<usize> = (0..d.state_sets.len()).filter(long).collect();
    (!lists.is_empty()).then(|| random.pick(&lists))
}

/// The bytes with a step count, or a length of an explicit set, that says another number than there are.
fn restated(random: &mut Random, d: &Draft) -> Vec<u8> {
    let mut bytes = d.encode();
    let (place, number) = match some_list(random, d).filter(|_| random.chance(50)) {
        Some(set) => {
            let states = random.pick(&[511, 512, 513, 513, 514, 1024, 4096, 4097]);
            (place_of(d, set), 1 + 8 * states + random.pick(&[0, 0, 1, 7]))
        }
        None => {
            let place = bytes.len() - 12 * d.steps.len() - 2;
            (place, random.pick(&[0, 255, 256, 257, 257, 258, 2047, 2048, 2049, u16::MAX]))
        }
    };
    bytes[place..place + 2].copy_from_slice(&number.to_be_bytes());
    bytes
}

/// Where the entry of a state set begins.
fn place_of(d: &Draft, set: usize) -> usize {
    let before = Draft { state_sets: d.state_sets[..set].to_vec(), steps: Vec::new(), ..d.clone() };
    before.encode().len() - 2
}

/// The bytes with a length field that is near the right one.
fn with_wrong_length(random: &mut Random, mut bytes: Vec<u8>) -> Vec<u8> {
    let length = bytes.len() as u32;
    let wrong = random.pick(&[length, length - 5, length - 3, 0]);
    bytes[..4].copy_from_slice(&wrong.to_be_bytes());
    bytes
}
