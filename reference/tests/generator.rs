//! The generator reaches every reply, rule and kind, and gives the same cases each time.

mod common;

use std::collections::BTreeMap;

use common::kind;
use reference::draft::{Draft, DraftActions};
use reference::generate::listed::listed;
use reference::generate::numbered::numbered;
use reference::generate::off::off;
use reference::generate::older::older;
use reference::generate::relisted::relisted;
use reference::generate::rounds::rounds;
use reference::generate::small::small;
use reference::generate::twins::twins;
use reference::generate::unknown::unknown;
use reference::generate::{cases, Call, Case};
use reference::layout;
use reference::steps::check_step;

/// What a run of cases reached.
#[derive(Default)]
struct Summary {
    replies: BTreeMap<String, usize>,
    passed: BTreeMap<u8, usize>,
    refused: BTreeMap<(u8, u8), usize>,
    kinds_accepted: BTreeMap<u8, usize>,
    action_kinds_accepted: BTreeMap<u8, usize>,
}

/// The reply without its place.
fn number(reply: &str) -> String {
    reply.split(' ').take(2).collect::<Vec<&str>>().join(" ")
}

fn summary(seed: u64, count: u64) -> Summary {
    let mut summary = Summary::default();
    for case in cases(seed, count) {
        let reply = case.reply();
        *summary.replies.entry(number(&reply)).or_default() += 1;
        let Ok(file) = layout::read(&case.bytes) else { continue };
        if !case.is_check() {
            continue;
        }
        for (k, step) in file.steps.iter().enumerate() {
            if let Err(fault) = check_step(&file, k) {
                *summary.refused.entry((step.rule, fault.number)).or_default() += 1;
                break;
            }
            *summary.passed.entry(step.rule).or_default() += 1;
        }
        if reply == "accepted" {
            count_kinds(&Draft::of(&file), &mut summary);
        }
    }
    summary
}

fn count_kinds(draft: &Draft, summary: &mut Summary) {
    for set in &draft.state_sets {
        *summary.kinds_accepted.entry(kind(set)).or_default() += 1;
    }
    for set in &draft.action_sets {
        let kind = match set {
            DraftActions::All => 0,
            DraftActions::List(_) => 1,
            DraftActions::Union(..) => 2,
        };
        *summary.action_kinds_accepted.entry(kind).or_default() += 1;
    }
}

#[test]
fn every_reply_rule_and_kind_is_reached() {
    let s = summary(1, 5000);
    for reply in (1..=13).chain([16]) {
        let count = s.replies.get(&format!("refused {reply}")).copied().unwrap_or(0);
        assert!(count >= 8, "reply {reply} appears {count} times");
    }
    assert!(s.replies["accepted"] >= 750, "{} accepted", s.replies["accepted"]);
    assert!(s.replies["in"] >= 50 && s.replies["out"] >= 50);
    for rule in 1..=28 {
        let passed = s.passed.get(&rule).copied().unwrap_or(0);
        assert!(passed >= 20, "rule {rule} passes {passed} times");
        let numbers: &[u8] = match rule {
            1..=4 => &[8, 10, 11],
            5 => &[8, 11],
            _ => &[8, 9],
        };
        for number in numbers {
            let refused = s.refused.get(&(rule, *number)).copied().unwrap_or(0);
            assert!(refused >= 1, "rule {rule} is never refused with {number}");
        }
    }
    assert!((0..=10).all(|k| s.kinds_accepted.get(&k).is_some_and(|count| *count >= 50)));
    assert!((0..=2).all(|k| s.action_kinds_accepted.get(&k).is_some_and(|count| *count >= 50)));
}

#[test]
fn the_same_seed_gives_the_same_cases() {
    let lines = |seed, count| cases(seed, count).map(|case| case.line()).collect::<Vec<String>>();
    assert_eq!(lines(5, 200), lines(5, 200));
    assert_eq!(lines(5, 200)[..50], lines(5, 50));
    assert_ne!(lines(5, 50), lines(6, 50));
    assert!(lines(0, 0).is_empty());
}

/// A fixed number pins the cases: it changes with any change of the generator.
#[test]
fn the_cases_of_seed_1_are_pinned() {
    let mut hash = 0xCBF2_9CE4_8422_2325u64;
    for byte in cases(1, 300).flat_map(|case| case.line().into_bytes()) {
        hash = (hash ^ byte as u64).wrapping_mul(0x100_0000_01B3);
    }
    assert_eq!(hash, PINNED, "{hash:#x}");
}

const PINNED: u64 = 0x4AC5_BC3F_4E35_5973;

#[test]
fn the_line_form_reads_back() {
    let others = numbered(9, 200).chain(rounds(9, 200)).chain(small(9, 200)).chain(listed(9, 200));
    let masks = unknown(9, 200).chain(off(9, 200));
    let pairs = relisted(9, 50).chain(twins(9, 50)).chain(older(9, 50));
    for case in cases(9, 500).chain(others).chain(masks).chain(pairs) {
        assert_eq!(Case::parse(&case.line()), Some(case));
    }
    let empty = Case { call: Call::Check, bytes: Vec::new() };
    assert_eq!(empty.line(), "check ");
    assert_eq!(Case::parse("check"), Some(empty));
    let listless = Case { call: Call::Numbered(Vec::new()), bytes: vec![1] };
    assert_eq!(listless.line(), "numbered - 01");
    let round = Case { call: Call::Round(u64::MAX, 2), bytes: vec![1] };
    assert_eq!(round.line(), "round 18446744073709551615 2 01");
    for line in [
        "",
        "check 0",
        "check 0g",
        "ask 1",
        "tell 00",
        "check 00 00",
        "ask -1 0 00",
        "numbered",
        "numbered 0 00",
        "round 1",
        "round 1 x 00",
        "round 18446744073709551616 2 00",
        "small 0",
        "small 1 00",
    ] {
        assert_eq!(Case::parse(line), None, "'{line}'");
    }
}

/// The list stands before the file, its length where a question has the entry; a round has its two numbers there.
#[test]
fn the_record_form() {
    let head = |kind: u8, first: u8, second: u8, length: u8| {
        [&[kind, 0, 0, 0, 0, 0, 0, 0, first, 0, 0, 0, 0, 0, 0, 0, second, 0, 0, 0], &[length][..]].concat()
    };
    let record = |call| Case { call, bytes: vec![7, 8] }.record();
    assert_eq!(record(Call::Check), [head(0, 0, 0, 2), vec![7, 8]].concat());
    assert_eq!(record(Call::Ask(3, 4)), [head(1, 3, 4, 2), vec![7, 8]].concat());
    assert_eq!(record(Call::Numbered(vec![5, 0, 6])), [head(2, 3, 0, 2), vec![5, 0, 6, 7, 8]].concat());
    assert_eq!(record(Call::Round(5, 9)), [head(3, 5, 9, 2), vec![7, 8]].concat());
    assert_eq!(record(Call::Small), [head(4, 0, 0, 2), vec![7, 8]].concat());
}
