//! The cases that stand in crates/vectors, so that the proved checker is held to them with no generator at hand: their replies are
//! those given today, every reply and rule is among them, and so are explicit sets in any order with repeats, unknown facts, and facts
//! needed off.

use std::collections::BTreeSet;
use std::path::PathBuf;

use reference::fault::{Cause, Fault, Item};
use reference::file::File;
use reference::generate::off::Misreading;
use reference::generate::relisted::bodies;
use reference::generate::{Call, Case};
use reference::layout::{self, Limits};
use reference::steps::{self, check_step};
use reference::task::Action;
use reference::{check, Reply};

fn read(name: &str) -> Vec<u8> {
    let folder = PathBuf::from(env!("CARGO_MANIFEST_DIR")).join("../crates/vectors");
    std::fs::read(folder.join(name)).expect("a file of crates/vectors")
}

/// The cases of records.
fn cases(mut records: &[u8]) -> Vec<Case> {
    let word = |bytes: &[u8]| u64::from_be_bytes(bytes.try_into().expect("eight bytes"));
    let mut list = Vec::new();
    while !records.is_empty() {
        let (head, rest) = records.split_at(21);
        let length = u32::from_be_bytes([head[17], head[18], head[19], head[20]]) as usize;
        let (first, second) = (word(&head[1..9]), word(&head[9..17]));
        let (numbers, rest) = rest.split_at(if head[0] == 2 { first as usize } else { 0 });
        let (bytes, rest) = rest.split_at(length);
        let call = match head[0] {
            0 => Call::Check,
            1 => Call::Ask(first, second),
            2 => Call::Numbered(numbers.to_vec()),
            3 => Call::Round(first, second),
            _ => Call::Small,
        };
        list.push(Case { call, bytes: bytes.to_vec() });
        assert!(records.starts_with(&list[list.len() - 1].record()));
        records = rest;
    }
    list
}

/// Where a reply changes, `reference/README.md` says how to make the cases anew.
#[test]
fn their_replies_are_those_given_today() {
    let replies = String::from_utf8(read("stdout")).expect("text");
    let cases = cases(&read("stdin"));
    assert_eq!(replies.lines().count(), cases.len());
    for (k, (case, reply)) in cases.iter().zip(replies.lines()).enumerate() {
        assert_eq!(case.reply(), reply, "case {}: {}", k + 1, case.line());
    }
}

/// Sets whose states do not ascend, in files that are accepted, refused with 5 there, or refused by a step; and as many states as there
/// may be, and one more, with repeats.
#[test]
fn states_in_any_order_are_among_them() {
    let (mut accepted, mut bad, mut untrue) = (0, 0, 0);
    let mut limits = BTreeSet::new();
    for case in cases(&read("stdin")) {
        for body in bodies(&case.bytes) {
            let states: Vec<&[u8]> = case.bytes[body.clone()].chunks(8).collect();
            let repeats = BTreeSet::from_iter(states.iter().copied()).len() < states.len();
            if states.is_sorted() && !repeats {
                continue;
            }
            match check(&case.bytes) {
                Reply::Accepted => accepted += 1,
                Reply::Refused { number: 5, place } if body.contains(&(place as usize)) => bad += 1,
                Reply::Refused { number: 8..=11, .. } => untrue += 1,
                _ => (),
            }
            if repeats && [512, 513, 4096, 4097].contains(&states.len()) {
                limits.insert(states.len());
            }
        }
    }
    assert!(accepted >= 100 && bad >= 5 && untrue >= 100, "{accepted} {bad} {untrue}");
    assert_eq!(limits, [512, 513, 4096, 4097].into());
}

/// Versions 2 and 3 with no unknown fact, with a few, with the 12 for which kind 1 gives leave and the 13 for which it gives none; and an
/// explicit set of 4,096 states in such a file.
#[test]
fn unknown_facts_are_among_them() {
    let (mut seen, mut longest) = (BTreeSet::new(), 0);
    for case in cases(&read("stdin")) {
        let Ok(file) = layout::read(&case.bytes) else { continue };
        if file.task.version > 1 {
            let reply = case.reply().split(' ').take(2).collect::<Vec<&str>>().join(" ");
            seen.insert((file.task.unknown.count_ones(), reply));
            let states = bodies(&case.bytes).into_iter().map(|body| body.len() / 8);
            longest = longest.max(states.max().unwrap_or(0));
        }
    }
    for unknown in [0, 1, 2, 12] {
        for reply in ["accepted", "refused 11"] {
            assert!(seen.contains(&(unknown, reply.to_string())), "{unknown}, {reply}");
        }
    }
    for unknown in [12, 13] {
        for reply in ["accepted", "refused 10"] {
            assert!(seen.contains(&(unknown, reply.to_string())), "{unknown}, {reply}");
        }
    }
    assert_eq!(longest, 4096);
}

/// Files of version 3, accepted and refused ones, that each misreading of the masks would reply otherwise to, and ones that it would
/// accept, where it takes untrue statements for true; an accepted one with an action that never applies, one with a goal of no state; a
/// goal of all states; 3 and 5 at either mask of facts off, and 16.
#[test]
fn facts_needed_off_are_among_them() {
    let (mut told, mut hidden) = (BTreeSet::new(), BTreeSet::new());
    let (mut forms, mut faults) = (BTreeSet::new(), BTreeSet::new());
    for case in cases(&read("stdin")) {
        if case.bytes.get(4) == Some(&3) {
            faults.insert(case.reply());
        }
        let Ok(file) = layout::read(&case.bytes) else { continue };
        if file.task.version != 3 || !case.is_check() {
            continue;
        }
        let (right, task) = (check(&case.bytes), &file.task);
        let accepted = right == Reply::Accepted;
        for misreading in Misreading::ALL {
            let misread = File { task: misreading.of(task), ..file.clone() };
            let wrong = Reply::from(steps::check(&misread));
            if wrong != right {
                told.insert((misreading, accepted));
                hidden.extend((wrong == Reply::Accepted).then_some(misreading));
            }
        }
        let never = task.actions.iter().any(Action::never_applies);
        let (on, off) = (task.goal, task.goal_off);
        let found = [never && accepted, on & off != 0 && accepted, on | off == 0];
        forms.extend(
            ["never", "no goal", "any goal"].into_iter().zip(found).filter(|one| one.1).map(|one| one.0),
        );
    }
    assert_eq!((told.len(), forms.len()), (2 * Misreading::ALL.len(), 3), "{told:?} {forms:?}");
    assert!(Misreading::ALL.iter().all(|one| hidden.contains(one) == one.accepts_untrue()), "{hidden:?}");
    for fault in ["refused 3 30", "refused 3 64", "refused 5 30", "refused 5 64", "refused 16 14"] {
        assert!(faults.contains(fault), "{fault}");
    }
}

#[test]
fn every_reply_and_rule_is_among_them() {
    let [mut replies, mut numbered, mut rounds, mut small] = [const { BTreeSet::new() }; 4];
    let mut breaches = BTreeSet::new();
    let mut passed = BTreeSet::new();
    for case in cases(&read("stdin")) {
        let reply = case.reply().split(' ').take(2).collect::<Vec<&str>>().join(" ");
        match case.call {
            Call::Check | Call::Ask(..) => replies.insert(reply),
            Call::Numbered(_) => numbered.insert(reply),
            Call::Round(..) => rounds.insert(reply),
            Call::Small => small.insert(reply),
        };
        if let Err(Fault { number: 19, cause, .. }) = layout::read_within(&case.bytes, Limits::SMALL) {
            breaches.insert(match cause {
                Cause::Layout(Item::Whole) => "bytes",
                Cause::Layout(Item::EntryLength(..)) => "states",
                _ => "steps",
            });
        }
        if !case.is_check() {
            continue;
        }
        let Ok(file) = layout::read(&case.bytes) else { continue };
        let steps = 0..file.steps.len();
        passed.extend(steps.take_while(|k| check_step(&file, *k).is_ok()).map(|k| file.steps[k].rule));
    }
    let all = |numbers: &[u8], others: &[&str]| -> BTreeSet<String> {
        let refusals = numbers.iter().map(|number| format!("refused {number}"));
        refusals.chain(others.iter().map(|other| other.to_string())).collect()
    };
    let numbers: Vec<u8> = (1..=12).chain([16]).collect();
    assert_eq!(replies, all(&[&numbers[..], &[13]].concat(), &["accepted", "in", "out"]));
    assert_eq!(numbered, all(&[&numbers[..], &[18]].concat(), &["accepted"]));
    assert_eq!(rounds, all(&[&numbers[..], &[17]].concat(), &["ended", "go on"]));
    assert_eq!(small, all(&[&numbers[..], &[19]].concat(), &["accepted"]));
    assert_eq!(breaches, ["bytes", "states", "steps"].into());
    assert_eq!(passed, (1..=28).collect());
}
