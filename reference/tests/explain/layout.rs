//! Replies 1 to 7 and 16: the bytes of the field hold what is told, and what it may hold is tried out: with an
//! allowed value in its place the fault is gone, with one just outside it is back. The text before
//! the fault assembles to the beginning of the file.

use std::ops::Range;

use crate::{explained, facts, Explained, Tally};
use reference::assemble::parse;
use reference::draft::{mend_length, sample, Draft};
use reference::explain::layout::{Allowed, LayoutFault};
use reference::explain::Why;
use reference::fault::Item;
use reference::generate::limits::full_file;
use reference::generate::off::off;
use reference::generate::random::Random;
use reference::generate::unknown::unknown;
use reference::generate::{cases, damaged, mutate};
use reference::task::all_facts;
use reference::{check, Reply};

/// A refused file, and the field that is told.
struct Told<'a> {
    bytes: &'a [u8],
    fault: &'a LayoutFault,
    text: &'a str,
}

/// The number in the bytes, most significant byte first.
fn number(bytes: &[u8]) -> u64 {
    bytes.iter().fold(0, |number, byte| number * 256 + *byte as u64)
}

impl Told<'_> {
    /// The bytes of the field that the file has.
    fn field(&self) -> &[u8] {
        &self.bytes[self.fault.bytes.start..self.fault.bytes.end.min(self.bytes.len())]
    }

    /// Whether the file with these bytes in the field's place, or from there on, has the same fault.
    fn same_fault_with(&self, field: &[u8]) -> bool {
        let mut bytes = self.bytes.to_vec();
        let start = self.fault.bytes.start;
        bytes[start..start + field.len()].copy_from_slice(field);
        self.is_refused_so(&bytes)
    }

    fn is_refused_so(&self, bytes: &[u8]) -> bool {
        let place = self.fault.bytes.start as u64;
        check(bytes) == Reply::Refused { number: self.fault.number, place }
    }

    /// Whether the same fault is there with this number in the field, where the field can hold it.
    fn same_fault_at(&self, value: u64) -> Option<bool> {
        let width = self.field().len();
        let fits = width >= 8 || value < 1 << (8 * width);
        fits.then(|| self.same_fault_with(&value.to_be_bytes()[8 - width..]))
    }

    /// The field holds what is told, and the text says so in the line before the last.
    fn holds_what_is_told(&self) {
        let Some(value) = self.fault.holds else {
            assert_eq!(self.fault.number == 1, self.bytes.len() < 4, "{}", self.text);
            return;
        };
        let field = self.field();
        assert_eq!(value, number(&field[..field.len().min(8)]), "{}", self.text);
        let told = match self.fault.allowed {
            Allowed::FactsBelow(_) | Allowed::Without(_) => {
                format!("\nIt holds {value:#x}: facts {}, ", facts(value))
            }
            Allowed::Horn | Allowed::TwoLiteral => "\nIt holds (".to_string(),
            _ => format!("\nIt holds {value}.\n"),
        };
        assert!(self.text.contains(&told), "{told}\n{}", self.text);
    }

    /// Tries out what the field may hold.
    fn may_hold_what_is_told(&self) {
        let gone = |value: u64| assert_ne!(self.same_fault_at(value), Some(true), "{value}\n{}", self.text);
        let back = |value: u64| assert_ne!(self.same_fault_at(value), Some(false), "{value}\n{}", self.text);
        match &self.fault.allowed {
            Allowed::Numbers(range) => self.in_range(range),
            Allowed::Above(before) => {
                gone(before + 1);
                back(*before);
                assert_eq!(
                    *before,
                    number(&self.bytes[self.fault.bytes.start - self.field().len()..][..self.field().len()])
                );
            }
            Allowed::FactsBelow(n) => {
                gone(all_facts(*n));
                back(1 << n);
            }
            Allowed::Without(init) => {
                gone(0);
                gone(all_facts(self.bytes[5]) & !init);
                (0..64).map(|f| 1 << f).filter(|bit| init & bit != 0).for_each(back);
                assert_eq!(*init, number(&self.bytes[6..14]));
            }
            Allowed::Horn => self.clauses(&[(1, 3), (2, 0)], &[(3, 0)]),
            Allowed::TwoLiteral => self.clauses(&[(1, 2), (3, 0), (0, 3)], &[(3, 1), (1, 3)]),
            Allowed::Length { fixed, each, most, .. } => self.lengths(*fixed, *each, *most),
            Allowed::Whole { there } => {
                assert_eq!(*there, self.bytes.len() - self.fault.bytes.start);
                let mut longer = self.bytes.to_vec();
                longer.resize(self.fault.bytes.end - 1, 0);
                mend_length(&mut longer);
                assert!(self.is_refused_so(&longer), "{}", self.text);
                longer.push(0);
                mend_length(&mut longer);
                assert!(!self.is_refused_so(&longer), "{}", self.text);
            }
            Allowed::Nothing => {
                let mut shorter = self.bytes[..self.fault.bytes.start].to_vec();
                mend_length(&mut shorter);
                let past_the_layout = |reply| !matches!(reply, Reply::Refused { number: 1..=7 | 16, .. });
                assert!(past_the_layout(check(&shorter)), "{}", self.text);
            }
        }
    }

    fn in_range(&self, range: &Range<u64>) {
        // An entry of length 0 has no kind to go by, and with another length the next byte becomes its kind.
        let no_kind = matches!(self.fault.item, Item::EntryLength(..));
        let outside = [range.start.wrapping_sub(1), range.end];
        for value in outside.into_iter().filter(|_| !no_kind) {
            assert_ne!(self.same_fault_at(value), Some(false), "{value}\n{}", self.text);
        }
        if !range.is_empty() && !no_kind {
            for value in [range.start, range.end - 1] {
                assert_ne!(self.same_fault_at(value), Some(true), "{value}\n{}", self.text);
            }
        }
        assert!(!range.contains(&self.fault.holds.unwrap_or(0)), "{}", self.text);
    }

    /// Masks of facts 0 and 1 that the clause may have, and some that it may not, where there are two facts.
    fn clauses(&self, lawful: &[(u64, u64)], broken: &[(u64, u64)]) {
        let pair = |masks: &(u64, u64)| [masks.0.to_be_bytes(), masks.1.to_be_bytes()].concat();
        assert!(lawful.iter().all(|masks| !self.same_fault_with(&pair(masks))), "{}", self.text);
        // With one fact, fact 1 is refused before the clause's form is looked at.
        let two_facts = self.bytes[5] >= 2;
        assert!(!two_facts || broken.iter().all(|masks| self.same_fault_with(&pair(masks))), "{}", self.text);
    }

    fn lengths(&self, fixed: u64, each: u64, most: u64) {
        let holds = self.fault.holds.unwrap_or(0);
        for items in [0, 1, most].into_iter().filter(|items| *items <= most) {
            let length = 1 + fixed + each * items;
            assert_ne!(length, holds);
            assert_ne!(self.same_fault_at(length), Some(true), "{length}\n{}", self.text);
        }
        // A length one more is unfit, unless the entry then runs past the end, which is seen first.
        let over = 2 + fixed + each * most;
        let fits = self.fault.bytes.start as u64 + 2 + over <= self.bytes.len() as u64;
        assert!(!fits || self.same_fault_at(over) == Some(true), "{over}\n{}", self.text);
    }
}

/// The text form in an explanation: from the first blank line but one to the next one.
fn text_before(text: &str) -> &str {
    let rest = text.split_once("Before the fault stands, in text form:\n\n").map_or("", |(_, rest)| rest);
    rest.split_once("\n\n").map_or("", |(before, _)| before)
}

/// How many of the items of the head (facts, init, and with the unknown facts or without them the goal) and which lists stand before the
/// item: lists are actions, action sets, state sets and steps. The goal's facts off are in the goal's line.
fn section(item: Item) -> usize {
    use reference::fault::Group::*;
    match item {
        Item::Whole | Item::Field("version" | "fact count") => 0,
        Item::Field("init") => 1,
        Item::Field("unknown mask" | "goal" | "goal off mask") => 2,
        Item::Field("action count") | Item::Mask(..) => 3,
        Item::Field("action set count") => 4,
        Item::Entry(ActionSet, _) | Item::EntryLength(ActionSet, _) | Item::EntryKind(ActionSet, _) => 4,
        Item::Part(ActionSet, ..) => 4,
        Item::Field("state set count") => 5,
        Item::Entry(StateSet, _) | Item::EntryLength(StateSet, _) | Item::EntryKind(StateSet, _) => 5,
        Item::Part(StateSet, ..) => 5,
        Item::Field(_) | Item::Step(_) | Item::Rest => 6,
    }
}

/// Where in the draft's bytes the count of each list stands: actions, action sets, state sets, steps.
fn count_places(draft: &Draft) -> [usize; 4] {
    let mut d = Draft { steps: Vec::new(), ..draft.clone() };
    let steps = d.encode().len() - 2;
    d.state_sets.clear();
    let state_sets = d.encode().len() - 4;
    let (actions, action) = match draft.version {
        1 => (22, 24),
        2 => (30, 24),
        _ => (38, 32),
    };
    [actions, actions + 2 + action * draft.actions.len(), state_sets, steps]
}

/// The text before the fault assembles to the bytes before the item with the fault, but for the count of
/// the list in which it lies.
fn text_is_the_beginning(told: &Told) {
    let before = text_before(told.text);
    let draft = parse(before).unwrap_or_else(|why| panic!("{why}\n{before}"));
    let (made, bytes) = (draft.encode(), told.bytes);
    let place = told.fault.bytes.start;
    let items = before.lines().filter(|line| !line.starts_with('#')).count();
    // Versions 2 and 3 stand in the text, and the unknown facts before the goal.
    let later = (draft.version > 1) as usize;
    let (lines, masks) = match told.fault.item {
        Item::Field("goal") => (later, later),
        Item::Field("goal off mask") => (2, 2),
        _ => (0, 0),
    };
    match section(told.fault.item) {
        0 => assert_eq!(before, ["", "version 2", "version 3"][draft.version as usize - 1]),
        head @ 1..=2 => {
            assert_eq!((items, place), (head + later + lines, 6 + 8 * (head - 1 + masks)));
            assert_eq!(made[4..place], bytes[4..place]);
        }
        list => {
            let counts = count_places(&draft);
            let at = counts[list - 3];
            // The counts that follow the list are those of empty lists.
            let end = made.len() - 2 * (6 - list);
            assert_eq!(made[4..at], bytes[4..at], "{before}");
            assert!(place == at || (made[at + 2..end] == bytes[at + 2..end] && place >= end), "{before}");
            assert!(place != at || end == at + 2);
        }
    }
}

fn examine(bytes: &[u8], explained: &Explained, seen: &mut (Tally<(u8, String)>, Tally<&'static str>)) {
    let Why::Layout(fault) = &explained.why else { return };
    let Reply::Refused { number, place } = explained.reply else { panic!("{}", explained.text) };
    assert_eq!((fault.number, fault.bytes.start), (number, place as usize));
    let told = Told { bytes, fault, text: &explained.text };
    let head = format!("\nAt byte {place}, {} byte", fault.bytes.len());
    assert!(explained.text.contains(&head), "{}", explained.text);
    if bytes.len() <= 65_536 {
        told.holds_what_is_told();
        told.may_hold_what_is_told();
    }
    text_is_the_beginning(&told);
    let allowed = format!("{:?}", fault.allowed);
    let allowed = allowed.split([' ', '(']).next().unwrap_or("");
    seen.0.add((number, allowed.to_string()));
    seen.1.add(field_name(fault.item));
}

/// Files with one field changed, with the bytes cut, overwritten or run on, and random bytes.
#[test]
fn fields_of_damaged_files() {
    let mut seen = (Tally::new(), Tally::new());
    let generated = cases(33, 6000).filter(|case| case.is_check()).map(|case| case.bytes);
    let noise = damaged(&sample().encode(), 3, 300).map(|case| case.bytes).collect::<Vec<_>>();
    let mut random = Random::new(35);
    let lists = (0..4000).map(move |_| {
        let mut d = rich();
        match random.below(10) {
            0..=2 => mutate::draft(&mut random, &mut d),
            3..=5 => return mutate::bytes(&mut random, &d),
            6 => return with_large_count(&mut random, &d),
            _ => spoil(&mut random, &mut d),
        }
        d.encode()
    });
    let masks = unknown(34, 3000).chain(off(34, 3000)).map(|case| case.bytes);
    let files = generated.chain(noise).chain(lists).chain(masks);
    for bytes in files.filter(|bytes| bytes.len() < 5000) {
        examine(&bytes, &explained(&bytes), &mut seen);
    }
    let lengths =
        [(1, "Numbers"), (2, "Numbers"), (3, "Whole"), (3, "Nothing"), (4, "Numbers"), (4, "Length")];
    let contents =
        [(5, "FactsBelow"), (16, "Without"), (6, "Numbers"), (7, "Above"), (7, "Horn"), (7, "TwoLiteral")];
    let faults = lengths.into_iter().chain(contents);
    seen.0.each_at_least(40, faults.map(|(number, allowed)| (number, allowed.to_string())));
    seen.0.each_at_least(10, [(1, "Whole".to_string())]);
    let fields = ["version", "fact count", "init", "unknown mask", "goal", "goal off mask"].into_iter();
    let fields = fields.chain(COUNTS).chain(["pre", "add", "del", "off", "entry", "length", "kind"]);
    seen.1.each_at_least(20, fields);
    seen.1.each_at_least(30, ["action", "reference", "state", "clause", "step", "rest"]);
}

const COUNTS: [&str; 4] = ["action count", "action set count", "state set count", "step count"];

/// What kind of field an item is.
fn field_name(item: Item) -> &'static str {
    match item {
        Item::Whole => "whole",
        Item::Field(name) | Item::Mask(_, name) | Item::Part(_, _, name, _) => name,
        Item::Entry(..) => "entry",
        Item::EntryLength(..) => "length",
        Item::EntryKind(..) => "kind",
        Item::Step(_) => "step",
        Item::Rest => "rest",
    }
}

/// The sample with an entry of every kind.
fn rich() -> Draft {
    let text =
        "facts 3\ninit 0\ngoal {0 1}\naction 0 pre {} add {0} del {1}\naction 1 pre {} add {1} del {0 2}\n\
        actions 0 all\nactions 1 list 0 1\nactions 2 = 0 + 1\nset 0 empty\nset 1 init\nset 2 goal\n\
        set 3 explicit 0 1 2 6\nset 4 horn (+0 -1 -2) (-1) (+2)\nset 5 twocnf (+0 +1) (-2)\nset 6 = ~ 3\n\
        set 7 = 3 & 2\nset 8 = 3 + 0\nset 9 = 3 [ 1 ]\nset 10 = [ 2 ] 3\nstep 0 ED dead 0\n";
    parse(text).expect("a text")
}

/// The bytes with one of the counts made larger.
fn with_large_count(random: &mut Random, d: &Draft) -> Vec<u8> {
    let mut bytes = d.encode();
    bytes[random.pick(&count_places(d))] = random.between(1, 255) as u8;
    bytes
}

/// Sets one item of a list, set of clauses or action to a few facts, or a number to a small one.
fn spoil(random: &mut Random, d: &mut Draft) {
    use reference::draft::{DraftActions::List, DraftSet::*};
    let mask = random.below(10) as u64;
    let small = random.below(4) as u16;
    let entry = random.below(12) as u16;
    match random.below(9) {
        0 => d.actions[1].del = mask,
        1 => d.action_sets[1] = List(vec![1, small]),
        2 => d.action_sets[2] = reference::draft::DraftActions::Union(small, 1),
        3..=6 => match (&mut d.state_sets[random.between(3, 5)], random.below(2)) {
            (Explicit(states), k) => states[1 + k] = mask,
            (Horn(clauses) | TwoCnf(clauses), 0) => clauses[1].positive = mask,
            (Horn(clauses) | TwoCnf(clauses), _) => clauses[1].negative = mask,
            _ => (),
        },
        7 => d.state_sets[8] = Union(entry, 8),
        _ => d.state_sets[10] = Regression(3, small + 2),
    }
}

/// Reply 1 for a file of too many bytes.
#[test]
fn a_file_of_too_many_bytes() {
    let explained = explained(&full_file(1));
    let Why::Layout(fault) = &explained.why else { panic!("{:?}", explained.why) };
    assert_eq!((fault.holds, &fault.allowed), (Some(65_537), &Allowed::Numbers(4..65_537)));
    assert!(
        explained.text.ends_with(": the file.\nThe file has 65537 bytes.\nIt may hold 4 to 65536.\n"),
        "{}",
        explained.text
    );
}
