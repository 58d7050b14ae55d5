//! The check by small limits: document 02, l, reading by reading; generated files against a walk over counts and lengths, and
//! beside the full check; explanations.

use std::collections::{BTreeMap, BTreeSet};

use reference::draft::{mend_length, sample, step, Draft, DraftActions, DraftSet};
use reference::explain::layout::{Allowed, LayoutFault};
use reference::explain::{explain, explain_small, why_small, Why};
use reference::fault::{Group, Item};
use reference::file::Clause;
use reference::generate::limits::{fill, full_file, many_action_sets, many_state_sets, workload};
use reference::generate::random::Random;
use reference::generate::small::small;
use reference::generate::{cases, damaged, Call};
use reference::layout::{self, Limits};
use reference::names::Names;
use reference::task::{Action, State};
use reference::words::describe;
use reference::{ask, check, check_small, Reply};

/// Where the sample has the length of its explicit set, its step count and its end.
const LIST: usize = 88;
const COUNT: usize = 136;
const END: usize = 234;

/// The replies by the small limits and by the full ones.
fn both(bytes: &[u8]) -> [String; 2] {
    [check_small(bytes), check(bytes)].map(|reply| reply.to_string())
}

fn refused(number: u8, place: usize) -> String {
    format!("refused {number} {place}")
}

const ACCEPTED: &str = "accepted";

type Change = fn(&mut Draft);

/// The sample with a change.
fn changed(change: impl FnOnce(&mut Draft)) -> Draft {
    let mut draft = sample();
    change(&mut draft);
    draft
}

/// Adds entries that no step names, so that the file has so many bytes.
fn enlarge(d: &mut Draft, bytes: usize) {
    let mut rest = bytes - d.encode().len();
    while rest > 100 {
        let clauses = ((rest - 50) / 16).min(256);
        d.state_sets.push(DraftSet::Horn(vec![Clause { positive: 0, negative: 3 }; clauses]));
        rest -= 3 + 16 * clauses;
    }
    fill(d, rest);
}

/// The sample with so many bytes.
fn of_size(bytes: usize) -> Draft {
    changed(|d| enlarge(d, bytes))
}

/// The sample over more facts, its explicit set the states below a number, which actions that clear facts do not leave.
fn with_states(count: usize) -> Draft {
    changed(|d| {
        d.facts = 14;
        d.goal = 1 << 13;
        d.actions.fill(Action { pre: 0, add: 0, del: 3, ..Action::NOTHING });
        d.state_sets[3] = DraftSet::Explicit((0..count as u64).collect());
    })
}

/// The sample with steps said again before its last one, so that there are so many.
fn with_steps(count: usize) -> Draft {
    changed(|d| d.steps.splice(7..7, vec![step(6, 0, &[0], &[]); count - 8]).for_each(drop))
}

/// The bytes with a number of two bytes at a place.
fn stated(mut bytes: Vec<u8>, place: usize, number: usize) -> Vec<u8> {
    bytes[place..place + 2].copy_from_slice(&(number as u16).to_be_bytes());
    bytes
}

/// The first so many bytes, with a length field that fits.
fn cut(bytes: &[u8], length: usize) -> Vec<u8> {
    let mut bytes = bytes[..length].to_vec();
    mend_length(&mut bytes);
    bytes
}

/// The size is that of the whole file with its length field.
#[test]
fn size() {
    for bytes in [16_383, 16_384] {
        let file = of_size(bytes).encode();
        assert_eq!((file.len(), both(&file)), (bytes, [ACCEPTED; 2].map(String::from)));
    }
    for bytes in [16_385, 16_386, 16_387, 16_388, 16_389, 32_768, 65_536] {
        let file = of_size(bytes).encode();
        assert_eq!((file.len(), both(&file)), (bytes, [refused(19, 0), ACCEPTED.into()]));
    }
    assert_eq!(both(&full_file(0)), [refused(19, 0), ACCEPTED.into()]);
}

/// Breaks the first clause of the set behind the sample's, which is a Horn set.
fn two_positive_facts(d: &mut Draft) {
    let DraftSet::Horn(clauses) = &mut d.state_sets[7] else { panic!("no clauses") };
    clauses[0].positive = 3;
}

/// After 1, whichever of its two checks gives it, and before the version and all that follows.
#[test]
fn order_at_the_size() {
    for bytes in [16_384, 16_385, 65_536] {
        let file = of_size(bytes).encode();
        for wrong in [bytes, bytes - 5, bytes - 3, 0, u32::MAX as usize] {
            let mut file = file.clone();
            file[..4].copy_from_slice(&(wrong as u32).to_be_bytes());
            assert_eq!(both(&file), [refused(1, 0), refused(1, 0)], "{bytes} {wrong}");
        }
    }
    assert_eq!(both(&full_file(1)), [refused(1, 0), refused(1, 0)]);
    for length in 0..4 {
        assert_eq!(both(&[0; 4][..length]), [refused(1, 0), refused(1, 0)]);
    }
    let changes: [(Change, u8, usize); 5] = [
        (|d| d.version = 9, 2, 4),
        (|d| d.facts = 0, 4, 5),
        (|d| d.goal = 4, 5, 14),
        (|d| d.state_sets[5] = DraftSet::Union(5, 0), 6, 125),
        (two_positive_facts, 7, COUNT + 3),
    ];
    for (change, number, place) in changes {
        for (bytes, expected) in [(16_384, refused(number, place)), (16_385, refused(19, 0))] {
            let mut d = of_size(bytes);
            change(&mut d);
            assert_eq!(both(&d.encode()), [expected, refused(number, place)], "{bytes}");
        }
    }
    // What runs past the end, or is left over.
    let mut file = sample().encode();
    file.resize(16_384, 0);
    mend_length(&mut file);
    assert_eq!(both(&file), [refused(3, END), refused(3, END)]);
    file.push(0);
    mend_length(&mut file);
    assert_eq!(both(&file), [refused(19, 0), refused(3, END)]);
    // A failing step.
    let mut d = of_size(16_385);
    d.steps[1].rule = 0;
    assert_eq!(both(&d.encode()), [refused(19, 0), refused(8, 1)]);
}

#[test]
fn states() {
    for count in [511, 512] {
        assert_eq!(both(&with_states(count).encode()), [ACCEPTED; 2], "{count}");
    }
    for count in [513, 514, 1024, 1980] {
        assert_eq!(both(&with_states(count).encode()), [refused(19, LIST), ACCEPTED.into()], "{count}");
    }
    // From here on the file's size is told first, so that 4,097 states are never seen as 4.
    for count in [2048, 4096] {
        assert_eq!(both(&with_states(count).encode()), [refused(19, 0), ACCEPTED.into()], "{count}");
    }
    assert_eq!(both(&with_states(4097).encode()), [refused(19, 0), refused(4, LIST)]);
    for count in [4096, 4097, 8191] {
        let file = stated(with_states(1900).encode(), LIST, 1 + 8 * count);
        assert_eq!(both(&file), [refused(3, LIST), refused(3, LIST)], "{count}");
    }
}

/// A set that no step names breaks the limit too; each set is counted by itself, and states as they are written.
#[test]
fn states_of_each_set_as_written() {
    let list = |count: u64| DraftSet::Explicit((0..count).collect());
    let two = |first, second| {
        let mut d = with_states(512);
        d.state_sets.extend([list(first), DraftSet::Empty, list(second)]);
        check_small(&d.encode()).to_string()
    };
    let first = COUNT + 8 * (512 - 3);
    assert_eq!(two(512, 512), ACCEPTED);
    assert_eq!(two(513, 512), refused(19, first));
    assert_eq!(two(512, 513), refused(19, first + 3 + 8 * 512 + 3));
    assert_eq!(two(514, 600), refused(19, first));
    let repeated = |count| {
        let mut d = with_states(3);
        d.state_sets[3] = DraftSet::Explicit([2, 0, 1].into_iter().cycle().take(count).collect());
        both(&d.encode())
    };
    assert_eq!([3, 511, 512].map(repeated), [[ACCEPTED; 2]; 3]);
    assert_eq!(repeated(513), [refused(19, LIST), ACCEPTED.into()]);
}

/// At the entry: past the end (3), kind (4), length (4), 19, then its states (5).
#[test]
fn order_at_a_set() {
    let file = with_states(513).encode();
    let end = LIST + 3 + 8 * 513;
    assert_eq!(both(&cut(&file, end - 1)), [refused(3, LIST), refused(3, LIST)]);
    assert_eq!(both(&cut(&file, LIST + 2)), [refused(3, LIST), refused(3, LIST)]);
    assert_eq!(both(&cut(&file, LIST + 1)), [refused(3, LIST), refused(3, LIST)]);
    assert_eq!(both(&cut(&file, end)), [refused(19, LIST), refused(3, end)]);
    for kind in [11, 255] {
        let mut file = file.clone();
        file[LIST + 2] = kind;
        assert_eq!(both(&file), [refused(4, LIST + 2), refused(4, LIST + 2)]);
    }
    for unfit in [8 * 513, 2 + 8 * 513, 8 * 514] {
        let file = stated(file.clone(), LIST, unfit);
        assert_eq!(both(&file), [refused(4, LIST), refused(4, LIST)], "{unfit}");
    }
    for (k, state) in [(0, 1 << 14), (1, 1 << 14), (512, 1 << 63)] {
        for (count, number) in [(512, 5), (513, 19)] {
            let mut d = with_states(count);
            let k = k.min(count - 1);
            let DraftSet::Explicit(states) = &mut d.state_sets[3] else { panic!("a list") };
            states[k] = state;
            let place = LIST + 3 + 8 * k;
            let small = refused(number, if number == 19 { LIST } else { place });
            assert_eq!(both(&d.encode()), [small, refused(5, place)], "{k} {count}");
        }
    }
}

#[test]
fn steps() {
    for count in [255, 256] {
        assert_eq!(both(&with_steps(count).encode()), [ACCEPTED; 2], "{count}");
    }
    for count in [257, 258, 1000, 1353] {
        assert_eq!(both(&with_steps(count).encode()), [refused(19, COUNT), ACCEPTED.into()], "{count}");
    }
    // From here on the file's size is told first.
    for count in [1354, 2047, 2048] {
        assert_eq!(both(&with_steps(count).encode()), [refused(19, 0), ACCEPTED.into()], "{count}");
    }
    assert_eq!(both(&with_steps(2049).encode()), [refused(19, 0), refused(4, COUNT)]);
}

/// At the count: past the end (3), range (4), 19, then the steps (3).
#[test]
fn order_at_the_steps() {
    let file = with_steps(257).encode();
    for length in [COUNT, COUNT + 1] {
        assert_eq!(both(&cut(&file, length)), [refused(3, COUNT), refused(3, COUNT)], "{length}");
    }
    let cut_at = |length: usize| both(&cut(&file, length));
    assert_eq!(cut_at(COUNT + 2), [refused(19, COUNT), refused(3, COUNT + 2)]);
    assert_eq!(cut_at(file.len() - 1), [refused(19, COUNT), refused(3, file.len() - 12)]);
    let said = |count: usize| both(&stated(sample().encode(), COUNT, count));
    for count in [0, 2049, 2050, 65_535] {
        assert_eq!(said(count), [refused(4, COUNT), refused(4, COUNT)], "{count}");
    }
    for count in [257, 2047, 2048] {
        assert_eq!(said(count), [refused(19, COUNT), refused(3, END)], "{count}");
    }
    for count in [9, 255, 256] {
        assert_eq!(said(count), [refused(3, END), refused(3, END)], "{count}");
    }
    // Fewer than there are: bytes are left over.
    let fewer = stated(file.clone(), COUNT, 256);
    assert_eq!(both(&fewer), [refused(3, file.len() - 12), refused(3, file.len() - 12)]);
    let left_over = [&file[..], &[0]].concat();
    assert_eq!(both(&cut(&left_over, left_over.len())), [refused(19, COUNT), refused(3, file.len())]);
}

/// Faults before a long list come first, those behind it later; the same for too many steps.
#[test]
fn front_to_back() {
    let before: [Change; 9] = [
        |d| d.version = 0,
        |d| d.facts = 65,
        |d| d.init = 1 << 20,
        |d| d.goal = 1 << 63,
        |d| d.actions = vec![Action::NOTHING; 257],
        |d| d.actions[1].del = 1 << 14,
        |d| d.action_sets.push(DraftActions::Union(0, 1)),
        |d| d.action_sets.push(DraftActions::List(vec![1, 1])),
        |d| d.state_sets[2] = DraftSet::Intersection(0, 2),
    ];
    let behind: [Change; 6] = [
        |d| d.state_sets[4] = DraftSet::Progression(4, 0),
        |d| d.state_sets[4] = DraftSet::Progression(3, 1),
        |d| d.state_sets.push(DraftSet::Explicit(vec![1 << 14])),
        |d| d.state_sets.push(DraftSet::Horn(vec![Clause { positive: 3, negative: 0 }])),
        |d| d.state_sets.push(DraftSet::TwoCnf(vec![Clause { positive: 0, negative: 7 }])),
        |d| d.state_sets.push(DraftSet::Horn(vec![Clause::default(); 257])),
    ];
    let mut told = BTreeSet::new();
    for (is_behind, change) in before.map(|one| (false, one)).into_iter().chain(behind.map(|one| (true, one)))
    {
        let mut d = with_states(513);
        change(&mut d);
        let [small, full] = both(&d.encode());
        assert_eq!(small, if is_behind { refused(19, LIST) } else { full.clone() });
        told.insert((is_behind, full["refused ".len()..][..1].to_string()));
        // All of these stand before the steps.
        d.state_sets[3] = DraftSet::Explicit(vec![0, 1, 2]);
        d.steps = with_steps(257).steps;
        let [small, full] = both(&d.encode());
        assert_eq!(small, full);
        assert_ne!(full, ACCEPTED);
    }
    let numbers =
        |is_behind| told.iter().filter(|one| one.0 == is_behind).map(|one| &*one.1).collect::<String>();
    assert_eq!((numbers(false), numbers(true)), ("24567".into(), "4567".into()));
    let no_steps = Draft { steps: Vec::new(), ..with_states(513) };
    assert_eq!(both(&no_steps.encode()), [refused(19, LIST), refused(4, COUNT + 8 * (513 - 3))]);
}

/// Replies about steps come last of all.
#[test]
fn steps_are_judged_behind_the_limits() {
    let failing: [(u8, Change); 5] = [
        (8, |d| d.steps[0].rule = 0),
        (9, |d| d.steps[0].entries[0] = 1),
        (10, |d| d.steps[1].rule = 1),
        (11, |d| d.init = (1 << d.facts) - 1),
        (12, |d| d.steps.truncate(d.steps.len() - 1)),
    ];
    for (number, change) in failing {
        for (draft, place) in [(with_states(513), LIST), (with_steps(258), COUNT), (of_size(16_400), 0)] {
            let mut d = draft;
            change(&mut d);
            let [small, full] = both(&d.encode());
            assert_eq!(small, refused(19, place), "{number}");
            assert!(full.starts_with(&format!("refused {number} ")), "{number}: {full}");
        }
        let mut d = with_states(512);
        d.steps.splice(7..7, vec![step(6, 0, &[0], &[]); 248]);
        change(&mut d);
        let [small, full] = both(&d.encode());
        assert_eq!(small, full);
        assert!(full.starts_with(&format!("refused {number} ")), "{number}: {full}");
    }
}

/// Of several breaches the first in the file is told.
#[test]
fn several_breaches() {
    let mut d = with_states(513);
    d.steps = with_steps(257).steps;
    assert_eq!(both(&d.encode()), [refused(19, LIST), ACCEPTED.into()]);
    enlarge(&mut d, 16_385);
    assert_eq!((d.encode().len(), both(&d.encode())), (16_385, [refused(19, 0), ACCEPTED.into()]));
    d.state_sets[3] = DraftSet::Explicit((0..512).collect());
    let count = d.encode().len() - 12 * 257 - 2;
    assert_eq!(both(&d.encode()), [refused(19, count), ACCEPTED.into()]);
    d.steps.remove(7);
    assert_eq!(both(&d.encode()), [ACCEPTED; 2]);
}

/// The states within reach.
fn reached(d: &Draft) -> BTreeSet<State> {
    let (mut reached, mut open) = (BTreeSet::from([d.init]), vec![d.init]);
    while let Some(s) = open.pop() {
        let after = d.actions.iter().filter(|a| a.applies(s)).map(|a| a.after(s));
        open.extend(after.filter(|t| reached.insert(*t)));
    }
    reached
}

/// The certificate that lists all states within reach, of which there are 512, or one more: fact 9 is on at first and off ever
/// after. With as many actions as there may be, it is far from the greatest size.
#[test]
fn the_certain_certificate() {
    let certain = |one_more: bool, actions: usize| {
        let mut d = sample();
        d.facts = 11;
        d.init = if one_more { 1 << 9 } else { 0 };
        d.goal = 1 << 10;
        d.actions = (0..9).map(|f| Action { pre: 0, add: 1 << f, del: 1 << 9, ..Action::NOTHING }).collect();
        d.actions.push(Action { pre: 0, add: 0, del: (1 << 10) - 1, ..Action::NOTHING });
        d.actions.resize(actions, Action::NOTHING);
        let states = reached(&d);
        assert_eq!(states.len(), 512 + one_more as usize);
        d.state_sets[3] = DraftSet::Explicit(states.into_iter().collect());
        d.encode()
    };
    for actions in [10, 256] {
        assert_eq!(both(&certain(false, actions)), [ACCEPTED; 2]);
        let place = LIST + 24 * (actions - 2);
        assert_eq!(both(&certain(true, actions)), [refused(19, place), ACCEPTED.into()]);
    }
    assert_eq!(certain(false, 256).len(), 10_402);
}

/// The other counts have their usual limits, and questions go by the full ones.
#[test]
fn what_is_no_breach() {
    let files = [
        (many_action_sets(0), ACCEPTED.to_string()),
        (many_state_sets(0), refused(10, 7)),
        (changed(|d| d.actions = vec![Action::NOTHING; 256]).encode(), ACCEPTED.into()),
        (workload(&mut Random::new(1), 2).encode(), ACCEPTED.into()),
        (workload(&mut Random::new(1), 3).encode(), ACCEPTED.into()),
    ];
    for (file, reply) in files {
        assert_eq!(both(&file), [reply.clone(), reply]);
    }
    let kinds = [
        DraftSet::Horn(vec![Clause::default(); 256]),
        DraftSet::TwoCnf(vec![Clause::default(); 256]),
        DraftSet::Explicit(Vec::new()),
    ];
    for set in kinds {
        assert_eq!(both(&changed(|d| d.state_sets.push(set)).encode()), [ACCEPTED; 2]);
    }
    for d in [with_states(513), with_states(4096), with_steps(257), of_size(16_385)] {
        assert!(matches!(check_small(&d.encode()), Reply::Refused { number: 19, .. }));
        assert_eq!(ask(&d.encode(), 3, 2).to_string(), "in");
    }
}

/// A breach behind the size, by counts and lengths alone: the first explicit entry with too many states, or the step count. None
/// too where these do not lead to one.
fn breach(bytes: &[u8]) -> Option<usize> {
    let number = |at: usize| Some(u16::from_be_bytes(bytes.get(at..at + 2)?.try_into().ok()?) as usize);
    let (head, action) = match bytes.get(4) {
        Some(2) => (30, 24),
        Some(3) => (38, 32),
        _ => (22, 24),
    };
    let mut at = head + 2 + action * number(head)?;
    let action_sets = number(at)?;
    at += 2;
    for _ in 0..action_sets {
        at += 2 + number(at)?;
    }
    let state_sets = number(at)?;
    at += 2;
    for _ in 0..state_sets {
        let entry = bytes.get(at + 2..at + 2 + number(at)?)?;
        if entry.first() == Some(&3) && entry.len() % 8 == 1 && (513..=4096).contains(&(entry.len() / 8)) {
            return Some(at);
        }
        at += 2 + entry.len();
    }
    (257..=2048).contains(&number(at)?).then_some(at)
}

/// The reply by the words of document 02: a breach at its place, unless the file has a fault before it.
fn expected(bytes: &[u8]) -> Reply {
    let full = check(bytes);
    match (full, breach(bytes)) {
        (Reply::Refused { number: 1, .. }, _) => full,
        _ if bytes.len() > 16_384 => Reply::Refused { number: 19, place: 0 },
        (Reply::Refused { number: 2..=7 | 16, place }, Some(at)) if place < at as u64 => full,
        (_, Some(at)) => Reply::Refused { number: 19, place: at as u64 },
        (_, None) => full,
    }
}

/// Generated files, whatever they were made for.
#[test]
fn generated_files_against_the_walk() {
    let others = cases(41, 3000).chain(damaged(&sample().encode(), 42, 500).collect::<Vec<_>>());
    let mut alike = 0;
    for case in small(43, 4000).chain(others) {
        let (reply, full) = (check_small(&case.bytes), check(&case.bytes));
        assert_eq!(reply, expected(&case.bytes), "{}", case.line());
        if !matches!(reply, Reply::Refused { number: 19, .. }) {
            assert_eq!(reply, full, "{}", case.line());
            alike += 1;
        }
        assert!(reply != Reply::Accepted || full == Reply::Accepted, "{}", case.line());
    }
    assert!(alike > 4000, "{alike}");
}

/// What a run of generated files reached.
#[derive(Default)]
struct Summary(BTreeMap<String, usize>);

impl Summary {
    fn add(&mut self, what: String) {
        *self.0.entry(what).or_default() += 1;
    }

    fn at_least(&self, least: usize, what: &str) {
        let count = self.0.get(what).copied().unwrap_or(0);
        assert!(count >= least, "{what}: {count}");
    }
}

/// A reply without its place.
fn outcome(reply: Reply) -> String {
    match reply {
        Reply::Accepted => ACCEPTED.into(),
        Reply::Refused { number, .. } => number.to_string(),
    }
}

/// Which limit a breach is of.
fn sort(bytes: &[u8], place: u64) -> &'static str {
    match (place, bytes.get(place as usize + 2)) {
        (0, _) => "size",
        (_, Some(3)) if bytes[place as usize] >= 16 => "states",
        _ => "steps",
    }
}

fn summary(seed: u64, count: u64) -> Summary {
    let mut summary = Summary::default();
    for case in small(seed, count) {
        let (bytes, reply, full) = (&case.bytes, check_small(&case.bytes), check(&case.bytes));
        assert_eq!((&case.call, case.reply()), (&Call::Small, reply.to_string()));
        summary.add(outcome(reply));
        if let Reply::Refused { number: 19, place } = reply {
            summary.add(format!("{}: {}", sort(bytes, place), outcome(full)));
        }
        if let (Reply::Refused { number: 1..=7 | 16, place }, Some(at)) = (reply, breach(bytes)) {
            assert!(place < at as u64);
            summary.add(format!("before a breach: {}", outcome(reply)));
        }
        summary.add(format!("{} bytes: {}", bytes.len(), outcome(reply)));
        let Ok(file) = layout::read(bytes) else { continue };
        summary.add(format!("{} steps: {}", file.steps.len(), outcome(reply)));
        let lists = Draft::of(&file).state_sets.into_iter().filter_map(|set| match set {
            DraftSet::Explicit(states) => Some(states.len()),
            _ => None,
        });
        summary.add(format!("{} states: {}", lists.max().unwrap_or(0), outcome(reply)));
    }
    summary
}

#[test]
fn the_generator_reaches_every_outcome() {
    let summary = summary(48, 6000);
    for number in (1..=12).chain([19]) {
        summary.at_least(60, &number.to_string());
    }
    for outcome in [ACCEPTED, "19"] {
        summary.at_least(1200, outcome);
    }
    // Both sides of each limit, in files that are lawful but for it.
    for (what, limit) in [("bytes", 16_384), ("states", 512), ("steps", 256)] {
        for number in [limit - 1, limit] {
            summary.at_least(10, &format!("{number} {what}: {ACCEPTED}"));
        }
        for number in [limit + 1, limit + 2] {
            summary.at_least(15, &format!("{number} {what}: 19"));
        }
    }
    for what in ["size", "states", "steps"] {
        summary.at_least(60, &format!("{what}: {ACCEPTED}"));
    }
    // Faults behind a breach, which the full check tells, and before one.
    for (what, numbers) in [
        ("size", &[2, 3, 4, 5, 6, 7, 11][..]),
        ("states", &[3, 4, 5, 6, 7, 8, 9, 11, 12]),
        ("steps", &[3, 8, 9, 11, 12]),
    ] {
        numbers.iter().for_each(|number| summary.at_least(2, &format!("{what}: {number}")));
    }
    for number in [1, 2, 4, 5, 6, 7] {
        summary.at_least(8, &format!("before a breach: {number}"));
    }
}

#[test]
fn the_same_seed_gives_the_same_files() {
    let lines = |seed, count| small(seed, count).map(|case| case.line()).collect::<Vec<String>>();
    assert_eq!(lines(5, 100)[..40], lines(5, 40));
    assert_ne!(lines(5, 40), lines(6, 40));
}

/// The field that is told where a file is refused with 19.
fn told(bytes: &[u8]) -> LayoutFault {
    match why_small(bytes) {
        (Reply::Refused { number: 19, .. }, Why::Layout(fault)) => fault,
        other => panic!("{other:?}"),
    }
}

#[test]
fn breaches_in_words() {
    let last_lines = |d: Draft| {
        let bytes = d.encode();
        let text = explain_small(&bytes, &Names::default());
        assert_eq!(text.lines().next(), Some(&*check_small(&bytes).to_string()));
        assert!(text.contains("\nThe file is held to the small limits, "), "{text}");
        let mut lines: Vec<String> = text.lines().map(String::from).collect();
        lines.split_off(lines.len() - 3)
    };
    assert_eq!(
        last_lines(of_size(16_385)),
        [
            "At byte 0, 16385 bytes: the file.",
            "The file has 16385 bytes.",
            "It may hold 4 to 16384 by the small limits.",
        ]
    );
    assert_eq!(
        last_lines(with_states(513)),
        [
            "At byte 88, 2 bytes: state set 3, its length.",
            "It holds 4105, for 513 states.",
            "It may hold 1 for the kind, here 3 (a list of states), and 8 for each of 0 to 512 items by the small limits.",
        ]
    );
    assert_eq!(
        last_lines(with_steps(257)),
        [
            "At byte 136, 2 bytes: the step count.",
            "It holds 257.",
            "It may hold 1 to 256 by the small limits."
        ]
    );
    // What is before the breach comes first, as text.
    let text = explain_small(&with_states(513).encode(), &Names::default());
    assert!(text.contains("\nset 2 goal\n\nAt byte 88"), "{text}");
    let fault = layout::read_within(&with_steps(300).encode(), Limits::SMALL).expect_err("too many steps");
    assert_eq!(describe(&fault, None), "refused 19 at byte 136: the step count is over the small limits");
}

/// The value of a breach: the field holds it, it is past what the field may hold, and with the greatest number that it may hold
/// in its place the breach is gone.
#[test]
fn breaches_as_values() {
    let mut seen: BTreeMap<&str, usize> = BTreeMap::new();
    for case in small(45, 1500) {
        let bytes = case.bytes;
        let Reply::Refused { number: 19, place } = check_small(&bytes) else { continue };
        let fault = told(&bytes);
        let most = match (fault.item, &fault.allowed) {
            (Item::Whole, Allowed::Numbers(range)) => {
                assert_eq!((range.clone(), fault.bytes.clone()), (4..16_385, 0..bytes.len()));
                assert!(fault.holds == Some(bytes.len() as u64) && bytes.len() > 16_384);
                *seen.entry("size").or_default() += 1;
                continue;
            }
            (Item::EntryLength(Group::StateSet, _), Allowed::Length { kind: 3, fixed: 0, each: 8, most }) => {
                *seen.entry("states").or_default() += 1;
                1 + 8 * *most as usize
            }
            (Item::Field("step count"), Allowed::Numbers(range)) => {
                *seen.entry("steps").or_default() += 1;
                range.end as usize - 1
            }
            other => panic!("{other:?}"),
        };
        let at = place as usize;
        let holds = u16::from_be_bytes([bytes[at], bytes[at + 1]]) as u64;
        assert_eq!((fault.bytes, fault.holds), (at..at + 2, Some(holds)));
        assert!(holds > most as u64);
        let same = |number: usize| {
            check_small(&stated(bytes.clone(), at, number)) == Reply::Refused { number: 19, place }
        };
        assert!(!same(most));
        assert!(same(if most == 256 { most + 1 } else { most + 8 }));
    }
    assert!(["size", "states", "steps"].iter().all(|what| seen[what] >= 20), "{seen:?}");
}

/// Where the reply is another, the explanation is the plain one but for the line about the limits.
#[test]
fn other_replies_are_explained_as_ever() {
    let (mut alike, names) = (0, Names::default());
    for case in small(46, 800).chain(cases(47, 800)) {
        if matches!(check_small(&case.bytes), Reply::Refused { number: 19, .. }) {
            continue;
        }
        let small = explain_small(&case.bytes, &names);
        let note = small.lines().find(|line| line.starts_with("The file is held to")).expect("the limits");
        assert_eq!(small.replacen(&format!("{note}\n"), "", 1), explain(&case.bytes, &names));
        alike += 1;
    }
    assert!(alike > 1000, "{alike}");
}
