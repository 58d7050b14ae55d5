//! Replies 1 to 7, 16 and 19: the field with the fault, what it holds and what it may hold.

use std::ops::Range;

use crate::draft::Draft;
use crate::fault::{Fault, Group, Item};
use crate::file::File;
use crate::layout::{
    Limits, MAX_ACTIONS, MAX_ACTION_SETS, MAX_BYTES, MAX_CLAUSES, MAX_STATES, MAX_STATE_SETS, MAX_STEPS,
};
use crate::version::VERSIONS;

/// What a field may hold.
#[derive(Clone, Debug, PartialEq, Eq)]
pub enum Allowed {
    /// A number in this range; the range is empty where no number will do.
    Numbers(Range<u64>),
    /// An action number greater than the one before it in the list.
    Above(u64),
    /// A mask or state of facts below this number.
    FactsBelow(u8),
    /// A mask of none of these facts, which are on in init.
    Without(u64),
    /// A clause with at most one positive fact.
    Horn,
    /// A clause with at most two literals.
    TwoLiteral,
    /// The length of an entry of this kind: 1 for the kind, `fixed`, and `each` for every item, of which
    /// there are at most `most`.
    Length { kind: u8, fixed: u64, each: u64, most: u64 },
    /// All its bytes, of which the file has only so many.
    Whole { there: usize },
    /// Nothing may stand there.
    Nothing,
}

/// The field with the first fault of a file's layout.
#[derive(Clone, Debug, PartialEq, Eq)]
pub struct LayoutFault {
    pub number: u8,
    pub item: Item,
    /// Its bytes; for reply 3 they go on beyond the file's end.
    pub bytes: Range<usize>,
    /// The number that stands there; of a clause its positive mask; none where bytes are missing or left over.
    pub holds: Option<u64>,
    pub allowed: Allowed,
}

/// The file, what was read of it before the fault, and the fault.
struct Context<'a> {
    bytes: &'a [u8],
    file: &'a File,
    limits: Limits,
    number: u8,
    place: usize,
    item: Item,
}

/// The field that a layout fault is about; `file` is what was read before it by the limits.
pub fn field(bytes: &[u8], file: &File, limits: Limits, fault: &Fault, item: Item) -> LayoutFault {
    let place = fault.place as usize;
    let context = Context { bytes, file, limits, number: fault.number, place, item };
    let bytes = place..place + context.width();
    LayoutFault { number: fault.number, item, bytes, holds: context.holds(), allowed: context.allowed() }
}

impl Context<'_> {
    /// The number in so many bytes from a place on, where the file has them.
    fn number_at(&self, place: usize, width: usize) -> Option<u64> {
        let bytes = self.bytes.get(place..place + width)?;
        Some(bytes.iter().fold(0, |number, byte| number << 8 | *byte as u64))
    }

    /// Whether the file has too many bytes; else the fault is in its length field, where it is of the whole file.
    fn is_too_long(&self) -> bool {
        self.number == 19 || self.bytes.len() > MAX_BYTES
    }

    /// How many bytes the field has.
    fn width(&self) -> usize {
        match self.item {
            Item::Whole if self.is_too_long() => self.bytes.len(),
            Item::Whole => 4,
            Item::Field("version" | "fact count") => 1,
            Item::Field("init" | "unknown mask" | "goal" | "goal off mask") | Item::Mask(..) => 8,
            Item::Field(_) => 2,
            Item::Entry(..) => 2 + self.number_at(self.place, 2).unwrap_or(0) as usize,
            Item::EntryLength(..) => 2,
            Item::EntryKind(..) => 1,
            Item::Part(_, _, "state", _) => 8,
            Item::Part(_, _, "clause", _) if self.number == 7 => 16,
            Item::Part(_, _, "clause", _) => 8,
            Item::Part(..) => 2,
            Item::Step(_) => 12,
            Item::Rest => self.bytes.len() - self.place,
        }
    }

    fn holds(&self) -> Option<u64> {
        match (self.number, self.item) {
            (_, Item::Whole) if self.is_too_long() => Some(self.bytes.len() as u64),
            (3, _) => None,
            _ => self.number_at(self.place, self.width().min(8)),
        }
    }

    fn allowed(&self) -> Allowed {
        let there = self.bytes.len() - self.place;
        match (self.number, self.item) {
            (1, _) if there < 4 => Allowed::Whole { there },
            (1, _) if there > MAX_BYTES => Allowed::Numbers(4..MAX_BYTES as u64 + 1),
            (1, _) => Allowed::Numbers(there as u64 - 4..there as u64 - 3),
            (2, _) => Allowed::Numbers(*VERSIONS.start() as u64..*VERSIONS.end() as u64 + 1),
            (3, Item::Rest) => Allowed::Nothing,
            (3, _) => Allowed::Whole { there },
            (4, item) => self.range(item),
            (5, _) => Allowed::FactsBelow(self.file.task.facts),
            (16, _) => Allowed::Without(self.file.task.init),
            (6, item) => Allowed::Numbers(0..self.named_below(item) as u64),
            (19, item) => self.within_limits(item),
            (_, Item::Part(_, _, "clause", _)) => match self.kind(Group::StateSet) {
                4 => Allowed::Horn,
                _ => Allowed::TwoLiteral,
            },
            _ => Allowed::Above(self.number_at(self.place - self.width(), self.width()).unwrap_or(0)),
        }
    }

    /// Counts, kinds and lengths, reply 4.
    fn range(&self, item: Item) -> Allowed {
        let up_to = |least: usize, most: usize| Allowed::Numbers(least as u64..most as u64 + 1);
        match item {
            Item::Field("fact count") => up_to(1, 64),
            Item::Field("action count") => up_to(0, MAX_ACTIONS),
            Item::Field("action set count") => up_to(0, MAX_ACTION_SETS),
            Item::Field("state set count") => up_to(0, MAX_STATE_SETS),
            Item::Field(_) => up_to(1, MAX_STEPS),
            Item::EntryKind(Group::ActionSet, _) => up_to(0, 2),
            Item::EntryKind(Group::StateSet, _) => up_to(0, 10),
            Item::EntryLength(group, _) => match self.number_at(self.place, 2) {
                Some(0) | None => up_to(1, u16::MAX as usize),
                Some(_) => length(group, self.bytes[self.place + 2]),
            },
            Item::Whole | Item::Mask(..) | Item::Entry(..) => Allowed::Nothing,
            Item::Part(..) | Item::Step(_) | Item::Rest => Allowed::Nothing,
        }
    }

    /// The file's bytes, an explicit set's length and the step count, reply 19.
    fn within_limits(&self, item: Item) -> Allowed {
        let Limits { bytes, states, steps } = self.limits;
        match item {
            Item::Whole => Allowed::Numbers(4..bytes as u64 + 1),
            Item::EntryLength(..) => Allowed::Length { kind: 3, fixed: 0, each: 8, most: states as u64 },
            _ => Allowed::Numbers(1..steps as u64 + 1),
        }
    }

    /// How many actions or entries a number may name, reply 6.
    fn named_below(&self, item: Item) -> usize {
        match item {
            Item::Part(_, _, "action", _) => self.file.task.actions.len(),
            Item::Part(Group::StateSet, _, _, 1) if self.kind(Group::StateSet) >= 9 => {
                self.file.action_sets.len()
            }
            Item::Part(_, entry, _, _) => entry as usize,
            _ => 0,
        }
    }

    /// The kind of the entry in which the fault lies.
    fn kind(&self, group: Group) -> u8 {
        let place = entry_place(self.file, group) + 2;
        self.bytes.get(place).copied().unwrap_or(0)
    }
}

/// Where the entry begins in which the fault lies: after all that was read before it, which the counts
/// not yet reached follow in a file of its own.
pub fn entry_place(file: &File, group: Group) -> usize {
    let counts_after = match group {
        Group::ActionSet => 4,
        Group::StateSet => 2,
    };
    Draft::of(file).encode().len() - counts_after
}

/// The lengths that fit a kind.
fn length(group: Group, kind: u8) -> Allowed {
    let (fixed, each, most) = match (group, kind) {
        (Group::ActionSet, 0) => (0, 0, 0),
        (Group::ActionSet, 1) => (0, 2, MAX_ACTIONS as u64),
        (Group::ActionSet, _) => (4, 0, 0),
        (Group::StateSet, 0..=2) => (0, 0, 0),
        (Group::StateSet, 3) => (0, 8, MAX_STATES as u64),
        (Group::StateSet, 4 | 5) => (0, 16, MAX_CLAUSES as u64),
        (Group::StateSet, 6) => (2, 0, 0),
        (Group::StateSet, _) => (4, 0, 0),
    };
    Allowed::Length { kind, fixed, each, most }
}
