//! Files at the limits, files that would blow up a naive checker, and the workloads.

use std::collections::BTreeSet;
use std::time::{Duration, Instant};

use reference::assemble::parse;
use reference::draft::{sample, step, Draft, DraftActions, DraftSet};
use reference::file::Clause;
use reference::generate::limits::{full_file, many_action_sets, many_state_sets, workload, WORKLOADS};
use reference::generate::random::Random;
use reference::task::Action;
use reference::{ask, check};

fn reply(draft: &Draft) -> String {
    check(&draft.encode()).to_string()
}

#[test]
fn counts_at_and_over_their_limits() {
    let actions = |count| {
        let mut d = sample();
        d.actions = vec![Action { pre: 0, add: 1, del: 2, ..Action::NOTHING }; count];
        reply(&d)
    };
    assert_eq!((actions(256), actions(257)), ("accepted".into(), "refused 4 22".into()));
    assert_eq!(actions(0), "accepted");
    let sets = |count| {
        let mut d = sample();
        d.state_sets.resize(count, DraftSet::Empty);
        reply(&d)
    };
    assert_eq!((sets(512), sets(513)), ("accepted".into(), "refused 4 77".into()));
    let action_sets = |count| {
        let mut d = sample();
        d.action_sets.resize(count, DraftActions::List(vec![1]));
        reply(&d)
    };
    assert_eq!((action_sets(256), action_sets(257)), ("accepted".into(), "refused 4 72".into()));
    let steps = |count: usize| {
        let mut d = sample();
        let last = d.steps.pop();
        d.steps.resize(count - 1, step(6, 0, &[0], &[]));
        d.steps.extend(last);
        reply(&d)
    };
    assert_eq!((steps(2048), steps(2049)), ("accepted".into(), "refused 4 136".into()));
}

#[test]
fn bodies_at_and_over_their_limits() {
    let states = |count: u64| {
        let mut d = sample();
        d.facts = 13;
        d.state_sets.push(DraftSet::Explicit((0..count).collect()));
        reply(&d)
    };
    assert_eq!((states(4096), states(4097)), ("accepted".into(), "refused 4 136".into()));
    let clauses = |count| {
        let mut d = sample();
        d.state_sets.push(DraftSet::TwoCnf(vec![Clause::default(); count]));
        reply(&d)
    };
    assert_eq!((clauses(256), clauses(257)), ("accepted".into(), "refused 4 136".into()));
    let listed = |count: u16| {
        let mut d = sample();
        d.actions = vec![Action { pre: 0, add: 1, del: 2, ..Action::NOTHING }; 256];
        d.action_sets.push(DraftActions::List((0..count).collect()));
        reply(&d)
    };
    let place = 24 + 256 * 24 + 2 + 3;
    assert_eq!((listed(256), listed(257)), ("accepted".into(), format!("refused 4 {place}")));
}

/// The sample `two_sets`: the states within reach are too many for one explicit set, and two hold them.
#[test]
fn more_states_than_one_set_holds() {
    let two = parse(include_str!("../../samples/two_sets.txt")).expect("a text");
    let (mut reached, mut open) = (BTreeSet::from([two.init]), vec![two.init]);
    while let Some(s) = open.pop() {
        let after = two.actions.iter().filter(|a| a.applies(s)).map(|a| a.after(s));
        open.extend(after.filter(|t| reached.insert(*t)));
    }
    assert!(reached.iter().copied().eq(0..=4096));
    assert_eq!(reply(&two), "accepted");
    // The sample's certificate for the same table, its explicit set the states up to one.
    let one = |last: u64| {
        let states = DraftSet::Explicit((0..=last).collect());
        let mut d = Draft { action_sets: sample().action_sets, steps: sample().steps, ..two.clone() };
        d.state_sets = sample().state_sets;
        d.state_sets[3] = states;
        reply(&d)
    };
    assert_eq!((one(4095), one(4096)), ("refused 11 5".into(), "refused 4 376".into()));
}

#[test]
fn the_greatest_length() {
    let (full, over) = (full_file(0), full_file(1));
    assert_eq!((full.len(), over.len()), (65_536, 65_537));
    assert_eq!(check(&full).to_string(), "accepted");
    assert_eq!(check(&over).to_string(), "refused 1 0");
}

#[test]
fn sixty_four_facts() {
    let mut d = sample();
    d.facts = 64;
    d.init = u64::MAX << 2;
    d.goal = u64::MAX;
    let high = d.init;
    d.state_sets[3] = DraftSet::Explicit(vec![high, high | 1, high | 2]);
    assert_eq!(reply(&d), "accepted");
    assert_eq!(ask(&d.encode(), 3, high | 2).to_string(), "in");
    assert_eq!(ask(&d.encode(), 3, u64::MAX).to_string(), "out");
    d.state_sets[3] = DraftSet::Horn(vec![Clause { positive: 0, negative: 3 }]);
    assert_eq!(reply(&d), "accepted");
    d.state_sets[3] = DraftSet::Horn(vec![Clause { positive: 0, negative: 1 << 63 | 1 }]);
    assert_eq!(reply(&d), "refused 11 1");
    d.facts = 63;
    assert_eq!(reply(&d), "refused 5 6");
}

#[test]
fn eight_leaves_a_side() {
    let replies: Vec<String> = [8, 9].map(|count| chain(count, 1)).into_iter().collect();
    assert_eq!(replies, ["accepted", "refused 10 7"]);
    let replies: Vec<String> = [8, 9].map(|count| chain(1, count)).into_iter().collect();
    assert_eq!(replies, ["accepted", "refused 10 7"]);
    // Inside the bracket counts with the left; the progression itself does not.
    let replies: Vec<String> = [(4, 4), (4, 5), (1, 7), (1, 8), (0, 8), (0, 9)].map(bracketed).into();
    let (yes, no) = ("accepted", "refused 10 7");
    assert_eq!(replies, [yes, no, yes, no, yes, no]);
}

/// Adds a tree of `count` leaves, each entry 3, to the draft.
fn tree(d: &mut Draft, first: u16, count: usize, join: fn(u16, u16) -> DraftSet) -> u16 {
    (1..count).fold(first, |root, _| {
        d.state_sets.push(join(root, 3));
        d.state_sets.len() as u16 - 1
    })
}

fn chain(left: usize, right: usize) -> String {
    let mut d = sample();
    let left = tree(&mut d, 3, left, DraftSet::Intersection);
    let right = tree(&mut d, 3, right, DraftSet::Union);
    d.steps.insert(7, step(1, 1, &[left, right], &[]));
    reply(&d)
}

fn bracketed((outside, inside): (usize, usize)) -> String {
    let mut d = sample();
    let inside = tree(&mut d, 3, inside, DraftSet::Intersection);
    d.state_sets.push(DraftSet::Progression(inside, 0));
    let led = d.state_sets.len() as u16 - 1;
    let left = tree(&mut d, led, outside + 1, DraftSet::Intersection);
    d.steps.insert(7, step(2, 1, &[left, 3], &[]));
    reply(&d)
}

/// Naive recursion over these would take longer than anyone waits.
#[test]
fn doubling_entries_are_answered_at_once() {
    let start = Instant::now();
    assert_eq!(check(&many_action_sets(0)).to_string(), "accepted");
    assert_eq!(check(&many_state_sets(0)).to_string(), "refused 10 7");
    assert_eq!(ask(&many_state_sets(0), 511, 0).to_string(), "refused 13 0");
    let mut d = sample();
    while d.state_sets.len() < 512 {
        let last = d.state_sets.len() as u16 - 1;
        d.state_sets.push(DraftSet::Union(last, last));
    }
    d.steps.insert(7, step(1, 1, &[3, 511], &[]));
    assert_eq!(reply(&d), "refused 10 7");
    assert!(start.elapsed() < Duration::from_millis(500), "{:?}", start.elapsed());
}

#[test]
fn workloads_are_accepted() {
    for number in WORKLOADS {
        let draft = workload(&mut Random::new(7), number);
        let bytes = draft.encode();
        let start = Instant::now();
        assert_eq!(check(&bytes).to_string(), "accepted", "workload {number}");
        assert!(start.elapsed() < Duration::from_secs(5), "workload {number}: {:?}", start.elapsed());
        match number {
            1 => assert_eq!(draft.actions.len(), 256),
            2 | 3 => assert!(draft.facts == 64 && draft.actions.len() == 256),
            4 => assert_eq!((draft.steps.len(), draft.state_sets.len()), (2048, 512)),
            6 | 7 => initial_states_are_listed(&draft),
            8..=10 => as_much_work_as(&draft, &workload(&mut Random::new(7), number - 7)),
            _ => {
                let DraftSet::Explicit(states) = &draft.state_sets[3] else { panic!("no listed states") };
                let different = BTreeSet::from_iter(states);
                assert_eq!((states.len(), different.len(), draft.actions.len()), (4083, 3712, 256));
                assert!(!states.is_sorted());
            }
        }
    }
}

/// A workload in version 3 beside the same in version 1: facts are needed off, the statements are the same, and the actions apply in as
/// many states; where states are listed, each of them in as many of these.
fn as_much_work_as(third: &Draft, first: &Draft) {
    assert_eq!((third.version, first.version, third.unknown), (3, 1, 0));
    assert_eq!((&third.state_sets, &third.steps), (&first.state_sets, &first.steps));
    assert_eq!((third.init, third.goal), (first.init, first.goal));
    assert!(third.goal_off != 0 && third.goal_off & third.goal == 0);
    for (new, old) in third.actions.iter().zip(&first.actions) {
        assert!(new.off != 0 && new.off & new.pre == 0);
        assert_eq!((new.add, new.del, new.pre & !old.pre), (old.add, old.del, 0));
        match &third.state_sets[3] {
            DraftSet::Explicit(states) => {
                let applying = |action: &Action| states.iter().filter(|s| action.applies(**s)).count();
                assert_eq!(applying(new), applying(old));
            }
            _ => {
                // Within reach the fact is always off.
                let added = first.actions.iter().fold(first.init, |on, action| on | action.add);
                assert_eq!((new.pre, new.off & added), (old.pre, 0));
            }
        }
    }
    let moved = third.actions.iter().zip(&first.actions).filter(|(new, old)| new.pre != old.pre).count();
    assert!(moved > 50 || !matches!(third.state_sets[3], DraftSet::Explicit(_)), "{moved}");
    assert_eq!(third.encode().len(), first.encode().len() + 8 + 8 + 8 * 256);
}

/// W1's table with 12 unknown facts: the 4,096 initial states are the listed ones, and without any one of them it is refused.
fn initial_states_are_listed(draft: &Draft) {
    let first = workload(&mut Random::new(7), 1);
    assert_eq!((&draft.actions, draft.goal, draft.facts), (&first.actions, first.goal, first.facts));
    let DraftSet::Explicit(states) = &draft.state_sets[3] else { panic!("no listed states") };
    assert_eq!((states.len(), draft.unknown.count_ones(), draft.unknown & draft.init), (4096, 12, 0));
    assert!(states.is_sorted_by(|a, b| a < b) && states.iter().all(|s| s & !draft.unknown == draft.init));
    for left_out in [0, 1, 2047, 4094, 4095] {
        let mut less = draft.clone();
        let DraftSet::Explicit(states) = &mut less.state_sets[3] else { panic!("no listed states") };
        states.remove(left_out);
        assert!(reply(&less).starts_with("refused 11 "), "{left_out}: {}", reply(&less));
    }
}
