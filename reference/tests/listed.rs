//! Explicit sets in any order and with repeats: document 02, b, reading by reading; the text form, explanations, and files that list
//! their states otherwise.

mod common;

use std::collections::{BTreeMap, BTreeSet};

use common::{has_state, Meaning};
use reference::assemble::{assemble, parse};
use reference::draft::{sample, step, Draft, DraftActions, DraftSet};
use reference::explain::counterexample::Counterexample;
use reference::explain::{explain, why, Why};
use reference::file::{File, StateSet};
use reference::generate::limits::shuffle;
use reference::generate::listed::listed;
use reference::generate::random::Random;
use reference::generate::relisted::{alike, ascends, bodies, relisted};
use reference::generate::{Call, Case};
use reference::layout;
use reference::names::Names;
use reference::show::{show, text};
use reference::task::{all_facts, Action};
use reference::{ask, check, check_round, check_small, Reply};

/// Where the sample has the length of its explicit set, and the first state.
const LIST: usize = 88;
const FIRST: usize = 91;

/// The sample with these states in its explicit set.
fn with_states(states: &[u64]) -> Draft {
    let mut d = sample();
    d.state_sets[3] = DraftSet::Explicit(states.to_vec());
    d
}

fn reply(states: &[u64]) -> String {
    check(&with_states(states).encode()).to_string()
}

/// All orders of these states.
fn orders(states: &[u64]) -> Vec<Vec<u64>> {
    let Some((last, others)) = states.split_last() else { return vec![vec![]] };
    let mut all = Vec::new();
    for order in orders(others) {
        all.extend((0..states.len()).map(|at| [&order[..at], &[*last], &order[at..]].concat()));
    }
    all
}

/// Every order of the sample's states, with every state repeated or two of them, is the same set.
#[test]
fn any_order_with_repeats() {
    for repeats in [vec![], vec![0], vec![2], vec![1, 1], vec![0, 1, 2]] {
        let all = orders(&[&[0, 1, 2], &repeats[..]].concat());
        assert!(all.len() >= 6);
        for states in all {
            let bytes = with_states(&states).encode();
            assert_eq!(check(&bytes).to_string(), "accepted", "{states:?}");
            assert_eq!(check_small(&bytes).to_string(), "accepted", "{states:?}");
            assert_eq!(check_round(&bytes, 0, 2048).to_string(), "ended", "{states:?}");
            let answers = [0, 1, 2, 3, 4].map(|state| ask(&bytes, 3, state).to_string());
            assert_eq!(answers, ["in", "in", "in", "out", "refused 13 0"], "{states:?}");
        }
    }
}

/// A state missing is missing in every order, and a repeat does not stand for it.
#[test]
fn a_missing_state_is_missed() {
    for (states, refusal) in [
        (&[0, 1, 1][..], "refused 11 1"),
        (&[0, 2, 0, 2], "refused 11 1"),
        (&[1, 2, 2, 1], "refused 11 5"),
        (&[0, 1, 2, 3, 3], "refused 11 2"),
    ] {
        for order in orders(states) {
            assert_eq!(reply(&order), refusal, "{order:?}");
        }
    }
}

/// One state so many times, and no state.
#[test]
fn a_single_state() {
    for count in [1, 2, 3, 100, 4096] {
        let mut d = with_states(&vec![2; count]);
        d.init = 2;
        d.actions = vec![Action { pre: 0, add: 2, del: 1, ..Action::NOTHING }];
        let bytes = d.encode();
        assert_eq!(check(&bytes).to_string(), "accepted", "{count}");
        assert_eq!([0, 1, 2, 3].map(|s| ask(&bytes, 3, s).to_string()), ["out", "out", "in", "out"]);
        d.actions[0].add = 3;
        assert_eq!(check(&d.encode()).to_string(), "refused 11 1", "{count}");
    }
    assert_eq!(reply(&[]), "refused 11 5");
}

/// The sample over more facts: its set has so many different states, and is as long as is said, by repeats. Actions clear facts.
fn repeated(different: u64, written: usize, order: fn(&mut Vec<u64>)) -> Draft {
    let mut states: Vec<u64> = (0..different).cycle().take(written).collect();
    order(&mut states);
    let mut d = with_states(&states);
    d.facts = 14;
    d.goal = 1 << 13;
    d.actions.fill(Action { pre: 0, add: 0, del: 3, ..Action::NOTHING });
    d
}

const ORDERS: [fn(&mut Vec<u64>); 4] = [
    |_| (),
    |states| states.sort_unstable(),
    |states| states.reverse(),
    |states| shuffle(&mut Random::new(3), states),
];

/// b1: states count as they are written, by the full limits and by the small ones.
#[test]
fn repeats_count_among_the_states() {
    for order in ORDERS {
        for different in [1, 2, 2048, 4095, 4096] {
            let replies =
                [4095, 4096, 4097].map(|written| check(&repeated(different, written, order).encode()));
            assert_eq!(replies.map(|reply| reply.to_string()), ["accepted", "accepted", "refused 4 88"]);
        }
        for different in [1, 2, 256, 511, 512] {
            let replies =
                [511, 512, 513].map(|written| check_small(&repeated(different, written, order).encode()));
            assert_eq!(replies.map(|reply| reply.to_string()), ["accepted", "accepted", "refused 19 88"]);
        }
    }
    // The length comes before the states.
    let mut d = repeated(2, 4097, |_| ());
    d.facts = 1;
    (d.goal, d.actions) = (1, Vec::new());
    assert_eq!(check(&d.encode()).to_string(), format!("refused 4 {}", LIST - 48));
}

/// b3: 5 at the first state in the file that names fact n or above, whatever the others are.
#[test]
fn the_first_bad_state_is_told() {
    for (states, k) in [
        (&[4, 0, 1, 2][..], 0),
        (&[2, 1, 4, 0], 2),
        (&[2, 2, 1 << 63, 4, 0, 4], 2),
        (&[0, 1, 2, 4, 1 << 63], 3),
        (&[2, 1, 0, 0, 0, 4], 5),
        (&[u64::MAX, u64::MAX], 0),
    ] {
        assert_eq!(reply(states), format!("refused 5 {}", FIRST + 8 * k), "{states:?}");
        let asked = ask(&with_states(states).encode(), 3, 0).to_string();
        assert_eq!(asked, format!("refused 5 {}", FIRST + 8 * k), "{states:?}");
    }
    // Of two sets the first in the file.
    let mut d = with_states(&[2, 4, 1]);
    d.state_sets.push(DraftSet::Explicit(vec![4]));
    assert_eq!(check(&d.encode()).to_string(), format!("refused 5 {}", FIRST + 8));
}

/// b4: lists of actions ascend strictly.
#[test]
fn action_lists_ascend() {
    let reply = |list: &[u16]| {
        let mut d = sample();
        d.action_sets.push(DraftActions::List(list.to_vec()));
        check(&d.encode()).to_string()
    };
    assert_eq!([&[][..], &[0], &[1], &[0, 1]].map(reply), ["accepted"; 4]);
    // The second list begins at byte 80.
    assert_eq!([&[1, 0][..], &[0, 0], &[1, 1], &[1, 0, 1]].map(reply), ["refused 7 82"; 4]);
    assert_eq!(reply(&[0, 1, 1]), "refused 7 84");
    assert_eq!(reply(&[0, 1, 0]), "refused 7 84");
}

/// b4: two entries with the same states are two entries, in whichever order they list them.
#[test]
fn the_same_states_in_two_entries() {
    for states in [[0, 1, 2], [2, 1, 0]] {
        let mut d = with_states(&[2, 0, 1]);
        d.state_sets.push(DraftSet::Explicit(states.to_vec()));
        // Both are within the other, and have the same statements.
        d.steps.splice(7..7, [step(1, 1, &[3, 7], &[]), step(1, 1, &[7, 3], &[]), step(1, 1, &[1, 7], &[])]);
        d.steps[10].premises[0] = 6;
        assert_eq!(check(&d.encode()).to_string(), "accepted");
        // PG's S is entry 3 in the premise and entry 7 in the conclusion.
        let mut other = d.clone();
        other.steps[4].entries[0] = 7;
        assert_eq!(check(&other.encode()).to_string(), "refused 9 4");
        // S[T] < S+0 with entry 7 on one side: true, and no premise of PG.
        d.state_sets[5] = DraftSet::Union(7, 0);
        d.state_sets.swap(5, 7);
        d.state_sets[7] = DraftSet::Union(5, 0);
        d.steps[1].entries = [4, 7];
        d.steps.drain(7..10);
        d.steps[7].premises[0] = 6;
        assert_eq!(check(&d.encode()).to_string(), "refused 9 4");
    }
}

/// Questions that look into an unordered set through other entries.
#[test]
fn questions_through_other_sets() {
    let mut d = with_states(&[2, 2, 0]);
    let first = d.state_sets.len() as u64;
    d.state_sets.extend([
        DraftSet::Complement(3),
        DraftSet::Union(3, 2),
        DraftSet::Intersection(3, 1),
        DraftSet::Regression(3, 0),
    ]);
    let bytes = d.encode();
    let asked = |entry| [0, 1, 2, 3].map(|state| ask(&bytes, entry, state) == reference::Answer::In);
    assert_eq!(asked(first), [false, true, false, true]);
    assert_eq!(asked(first + 1), [true, false, true, true]);
    assert_eq!(asked(first + 2), [true, false, false, false]);
    assert_eq!(asked(first + 3), [true; 4]);
}

/// The sample `found` lists its states as a search meets them.
#[test]
fn the_sample_of_states_as_found() {
    let found = parse(include_str!("../../samples/found.txt")).expect("a text");
    let (mut met, mut at) = (vec![found.init], 0);
    while at < met.len() {
        let state = met[at];
        if met.iter().position(|other| *other == state) == Some(at) {
            let after = found.actions.iter().filter(|a| a.applies(state)).map(|a| a.after(state));
            met.extend(after.filter(|other| *other != state));
        }
        at += 1;
    }
    assert_eq!(found.state_sets[3], DraftSet::Explicit(met.clone()));
    assert!(!met.is_sorted() && BTreeSet::from_iter(&met).len() + 2 < met.len(), "{met:?}");
    let bytes = include_bytes!("../../samples/found.cert");
    assert_eq!((check(bytes), check_small(bytes)), (Reply::Accepted, Reply::Accepted));
}

/// What is listed is shown and written as it is; only ascending states make ranges.
#[test]
fn the_text_form_keeps_the_order() {
    for (states, shown) in [
        (&[2, 1, 0][..], "2 1 0"),
        (&[1, 1, 1, 1], "1 1 1 1"),
        (&[3, 2, 1, 0, 1, 2, 3], "3 2 1 0..3"),
        (&[0, 0, 1, 2, 3, 3], "0 0..3 3"),
        (&[2, 3, 0, 1], "2 3 0 1"),
    ] {
        let bytes = with_states(states).encode();
        let written = show(&bytes);
        assert!(written.contains(&format!("\nset 3 explicit {shown}\n")), "{written}");
        assert_eq!(assemble(&written), Ok(bytes));
    }
    for case in listed(61, 1500) {
        let Ok(file) = layout::read(&case.bytes) else { continue };
        assert_eq!(Draft::of(&file).encode(), case.bytes);
        assert_eq!(assemble(&text(&Draft::of(&file))), Ok(case.bytes));
    }
}

/// A set with its states ascending, and the states that the checks go through.
fn explicit_sets(file: &File) -> Vec<(Vec<u64>, Vec<u64>)> {
    let spans = file.state_sets.iter().filter_map(|set| match set {
        StateSet::Explicit(listed) => Some(*listed),
        _ => None,
    });
    spans.map(|listed| (listed.written.of(&file.states).to_vec(), file.ascending(listed).to_vec())).collect()
}

/// The states of a set are gone through once each; a list that ascends is not copied.
#[test]
fn ascending_states_of_each_set() {
    let (mut copied, mut as_written) = (0, 0);
    for case in listed(62, 1500) {
        let Ok(file) = layout::read(&case.bytes) else { continue };
        let mut states = 0;
        for (written, ascending) in explicit_sets(&file) {
            let expected: Vec<u64> = BTreeSet::from_iter(written.iter().copied()).into_iter().collect();
            assert_eq!(ascending, expected);
            states += written.len();
            if written == ascending {
                as_written += 1;
            } else {
                states += ascending.len();
                copied += 1;
            }
        }
        assert_eq!(file.states.len(), states);
    }
    assert!(copied > 1000 && as_written > 500, "{copied} {as_written}");
}

/// A counterexample to a statement over unordered sets, with the lists as they are written and their lengths.
#[test]
fn explanations_show_lists_as_written() {
    let bytes = with_states(&[1, 0, 0, 1]).encode();
    let (reply, why) = why(&bytes);
    assert_eq!(reply, Reply::Refused { number: 11, place: 1 });
    let Why::Untrue(Counterexample::Progression { before, action: 1, after: 2 }) = why else {
        panic!("{why:?}")
    };
    let draft = with_states(&[1, 0, 0, 1]);
    assert!(has_state(&draft, 3, before, None) && !has_state(&draft, 5, 2, None));
    let told = explain(&bytes, &Names::default());
    assert!(told.contains("\n    in set 3 explicit 1 0 0 1\n"), "{told}");
    assert!(told.contains("not in set 3 explicit 1 0 0 1, which does not list it (4 states)\n"), "{told}");
    let told = explain(&with_states(&[2, 2, 1, 9, 0]).encode(), &Names::default());
    assert!(told.contains("\n# set 3 explicit 2 2 1 ...\n"), "{told}");
    assert!(told.contains("\nAt byte 115, 8 bytes: state set 3, state 3.\n"), "{told}");
    assert!(!told.contains("ascend"), "{told}");
}

/// The generated files against the meaning over all states.
#[test]
fn generated_files_against_the_slow_checker() {
    let (mut accepted, mut refused, mut asked) = (0, BTreeMap::<u8, usize>::new(), [0; 2]);
    for case in listed(63, 4000) {
        let file = match layout::read(&case.bytes) {
            Ok(file) => file,
            Err(fault) => {
                *refused.entry(fault.number).or_default() += 1;
                continue;
            }
        };
        if file.task.facts > 6 {
            continue;
        }
        match (check(&case.bytes), common::check(&file)) {
            (Reply::Accepted, Reply::Accepted) => accepted += 1,
            (Reply::Refused { number, place }, slow) => {
                assert_eq!(slow, Reply::Refused { number, place }, "{}", case.line());
                *refused.entry(number).or_default() += 1;
            }
            (fast, slow) => panic!("{fast} and {slow}: {}", case.line()),
        }
        let Call::Ask(entry, state) = case.call else { continue };
        let meaning = Meaning::of(&file);
        if state <= all_facts(file.task.facts) && meaning.depth(entry as u16).0 == 1 {
            let holds = meaning.states[entry as usize][state as usize];
            assert_eq!(case.reply(), if holds { "in" } else { "out" }, "{}", case.line());
            asked[holds as usize] += 1;
        }
    }
    assert!(accepted > 800 && asked.iter().all(|count| *count > 100), "{accepted} {asked:?}");
    assert!([5, 7, 9, 11].iter().all(|number| refused[number] > 40), "{refused:?}");
}

/// As many states as there may be, and one more, with repeats.
#[test]
fn the_generator_reaches_the_limits() {
    let mut seen: BTreeMap<(usize, bool, String), usize> = BTreeMap::new();
    for case in listed(64, 9000) {
        let Some(longest) = bodies(&case.bytes).into_iter().max_by_key(|body| body.len()) else { continue };
        let states: Vec<&[u8]> = case.bytes[longest].chunks(8).collect();
        let different = BTreeSet::from_iter(states.iter().copied()).len();
        let reply = match &case.call {
            Call::Ask(..) | Call::Round(..) => continue,
            _ => case.reply().split(' ').take(2).collect::<Vec<&str>>().join(" "),
        };
        *seen.entry((states.len(), different < states.len(), reply)).or_default() += 1;
    }
    let count = |states, reply: &str| seen.get(&(states, true, reply.to_string())).copied().unwrap_or(0);
    for (states, reply) in [(4096, "accepted"), (4097, "refused 4"), (512, "accepted"), (513, "refused 19")] {
        assert!(count(states, reply) >= 4, "{states} {reply}: {}", count(states, reply));
    }
    assert!(seen.keys().any(|(states, repeats, _)| *states == 4096 && !repeats));
}

/// The pairs of a seed.
fn pairs(seed: u64, count: u64) -> Vec<[Case; 2]> {
    let cases: Vec<Case> = relisted(seed, count).collect();
    assert_eq!(cases.len() as u64, 2 * count);
    cases.chunks(2).map(|pair| [pair[0].clone(), pair[1].clone()]).collect()
}

/// The bytes with the states of each set ascending, repeats kept.
fn sorted(bytes: &[u8]) -> Vec<u8> {
    let mut bytes = bytes.to_vec();
    for body in bodies(&bytes) {
        let mut states: Vec<Vec<u8>> = bytes[body.clone()].chunks(8).map(|state| state.to_vec()).collect();
        states.sort_unstable();
        bytes[body].copy_from_slice(&states.concat());
    }
    bytes
}

/// Each pair differs, and in the order of listed states alone; most first files list them ascending. Their replies are alike: every
/// number that there is comes up, and 5 in a set at two places.
#[test]
fn files_that_list_their_states_otherwise() {
    let mut seen: BTreeMap<String, usize> = BTreeMap::new();
    for pair in pairs(65, 4000) {
        let [first, second] = &pair;
        assert!(first.call == second.call && first.bytes != second.bytes);
        assert_eq!(sorted(&first.bytes), sorted(&second.bytes));
        let replies = pair.each_ref().map(|case| case.reply());
        assert!(
            alike(pair.each_ref(), replies.each_ref().map(|reply| &**reply)),
            "{replies:?}: {}",
            first.line()
        );
        let outcome = replies[0].split(' ').take(2).collect::<Vec<&str>>().join(" ");
        *seen.entry(outcome).or_default() += 1;
        *seen.entry("ascending at first".into()).or_default() += ascends(&first.bytes) as usize;
        if replies[0] != replies[1] {
            assert!(replies.iter().all(|reply| reply.starts_with("refused 5 ")), "{replies:?}");
            *seen.entry("two places".into()).or_default() += 1;
        }
    }
    let outcomes = (1..=13).chain([17, 18, 19]).map(|number| format!("refused {number}"));
    for outcome in outcomes.chain(["accepted", "in", "out", "ended", "go on", "two places"].map(String::from))
    {
        let count = seen.get(&outcome).copied().unwrap_or(0);
        assert!(count >= 10, "{outcome}: {count} of {seen:?}");
    }
    assert!(seen["accepted"] > 700 && seen["ascending at first"] >= 3000, "{seen:?}");
}

/// Replies that are not alike: another number or place, 5 at the other's place, at a later state or in one of them alone.
#[test]
fn replies_that_are_not_alike() {
    let pair = [&[2, 4, 1, 4][..], &[4, 2, 4, 1]].map(|states| {
        let bytes = with_states(states).encode();
        Case { call: Call::Check, bytes }
    });
    let [here, there] = pair.each_ref().map(|case| case.reply());
    assert_eq!((&*here, &*there), ("refused 5 99", "refused 5 91"));
    assert!(alike(pair.each_ref(), [&here, &there]));
    for replies in [
        [&*there, &here],
        [&here, &here],
        [&here, "refused 5 107"],
        [&here, "accepted"],
        ["accepted", &there],
        ["refused 11 1", "refused 11 2"],
        ["refused 11 1", "refused 10 1"],
        ["refused 5 6", "refused 5 14"],
        ["in", "out"],
    ] {
        assert!(!alike(pair.each_ref(), replies), "{replies:?}");
    }
    for replies in [["accepted"; 2], ["refused 5 6"; 2], ["refused 11 1"; 2]] {
        assert!(alike(pair.each_ref(), replies), "{replies:?}");
    }
}

#[test]
fn the_same_seed_gives_the_same_files() {
    let lines = |seed, count| listed(seed, count).map(|case| case.line()).collect::<Vec<String>>();
    assert_eq!(lines(5, 100)[..40], lines(5, 40));
    assert_ne!(lines(5, 40), lines(6, 40));
    assert_eq!(pairs(5, 40)[..20], pairs(5, 20));
    assert_ne!(pairs(5, 20), pairs(6, 20));
}
