//! Reads the bytes of a file front to back and finds the faults of its layout,
//! replies 1 to 7 and 16, and 19 where it is held to small limits. At each item: past the end (3), then range (2, 4), then 19,
//! then 5, 16, 6, 7.

use crate::fault::{Fault, Group, Item};
use crate::file::{mark, ActionSet, ActionSetKind, Clause, File, Listed, Span, StateSet, Step};
use crate::task::{Action, Task};
use crate::version::{Places, VERSIONS};

pub const MAX_BYTES: usize = 65_536;
pub const MAX_ACTIONS: usize = 256;
pub const MAX_ACTION_SETS: usize = 256;
pub const MAX_STATE_SETS: usize = 512;
pub const MAX_STEPS: usize = 2_048;
pub const MAX_STATES: usize = 4_096;
pub const MAX_CLAUSES: usize = 256;

type Read<T> = Result<T, Fault>;

/// The most bytes of a file, states of an explicit set and steps that are taken; more is refused with 19.
#[derive(Clone, Copy, Debug, PartialEq, Eq)]
pub struct Limits {
    pub bytes: usize,
    pub states: usize,
    pub steps: usize,
}

impl Limits {
    /// Document 01's own, past which 1 and 4 come first: no 19.
    pub const FULL: Limits = Limits { bytes: MAX_BYTES, states: MAX_STATES, steps: MAX_STEPS };
    /// Those of document 02, l.
    pub const SMALL: Limits = Limits { bytes: 16_384, states: 512, steps: 256 };
}

/// The body of an entry: its bytes and where they begin in the file.
#[derive(Clone, Copy)]
struct Body<'a> {
    bytes: &'a [u8],
    place: usize,
    entry: u16,
}

struct Reader<'a> {
    bytes: &'a [u8],
    limits: Limits,
    at: usize,
    file: File,
    /// The mask of the facts that no mask or state may name.
    barred: u64,
}

/// Decodes a file, or gives the first fault of its layout.
pub fn read(bytes: &[u8]) -> Read<File> {
    read_within(bytes, Limits::FULL)
}

/// The same by these limits.
pub fn read_within(bytes: &[u8], limits: Limits) -> Read<File> {
    let mut reader = Reader::new(bytes, limits);
    reader.whole()?;
    Ok(reader.file)
}

/// The items of a file that stand before the first fault of its layout, and that fault. Of an
/// entry with a fault, the states and clauses before it stand at the end of the common lists.
pub fn beginning(bytes: &[u8], limits: Limits) -> (File, Option<Fault>) {
    let mut reader = Reader::new(bytes, limits);
    let fault = reader.whole().err();
    (reader.file, fault)
}

/// Decodes the task of a file, or one that stands alone behind a length field; what follows its actions is not looked at.
pub fn read_task(bytes: &[u8]) -> Read<Task> {
    let mut reader = Reader::new(bytes, Limits::FULL);
    reader.length()?;
    reader.task()?;
    Ok(reader.file.task)
}

impl<'a> Reader<'a> {
    fn new(bytes: &'a [u8], limits: Limits) -> Reader<'a> {
        Reader { bytes, limits, at: 4, file: File::default(), barred: 0 }
    }

    /// All parts of the file in turn.
    fn whole(&mut self) -> Read<()> {
        self.length()?;
        self.task()?;
        self.action_sets()?;
        self.state_sets()?;
        self.steps()?;
        if self.at < self.bytes.len() {
            return Err(Fault::layout(3, self.at, Item::Rest));
        }
        Ok(())
    }

    /// The length field, and how many bytes there are.
    fn length(&self) -> Read<()> {
        let wrong_length = || Fault::layout(1, 0, Item::Whole);
        let Some((stated, rest)) = self.bytes.split_first_chunk() else { return Err(wrong_length()) };
        if self.bytes.len() > MAX_BYTES || u32::from_be_bytes(*stated) as usize != rest.len() {
            return Err(wrong_length());
        }
        within(self.bytes.len(), self.limits.bytes, 0, Item::Whole)
    }

    /// The next `length` bytes, or 3 at their first.
    fn take(&mut self, length: usize, item: Item) -> Read<&'a [u8]> {
        match self.bytes.get(self.at..self.at + length) {
            Some(part) => {
                self.at += length;
                Ok(part)
            }
            None => Err(Fault::layout(3, self.at, item)),
        }
    }

    fn byte(&mut self, item: Item) -> Read<u8> {
        Ok(self.take(1, item)?[0])
    }

    /// A count of two bytes between `least` and `most`.
    fn count(&mut self, name: &'static str, least: usize, most: usize) -> Read<usize> {
        let place = self.at;
        let count = number(self.take(2, Item::Field(name))?) as usize;
        if count < least || count > most {
            return Err(Fault::layout(4, place, Item::Field(name)));
        }
        Ok(count)
    }

    /// A mask or state of eight bytes that names no fact of n or above.
    fn mask(&mut self, item: Item) -> Read<u64> {
        let place = self.at;
        let mask = word(self.take(8, item)?);
        if mask & self.barred != 0 {
            return Err(Fault::layout(5, place, item));
        }
        Ok(mask)
    }

    fn task(&mut self) -> Read<()> {
        let version = self.byte(Item::Field("version"))?;
        if !VERSIONS.contains(&version) {
            return Err(Fault::layout(2, 4, Item::Field("version")));
        }
        self.file.task.version = version;
        let facts = self.byte(Item::Field("fact count"))?;
        if facts == 0 || facts > 64 {
            return Err(Fault::layout(4, 5, Item::Field("fact count")));
        }
        self.file.task.facts = facts;
        self.barred = !self.file.task.all_facts();
        self.file.task.init = self.mask(Item::Field("init"))?;
        if Places::of(version).unknown.is_some() {
            self.file.task.unknown = self.unknown()?;
        }
        self.file.task.goal = self.mask(Item::Field("goal"))?;
        if Places::of(version).has_off() {
            self.file.task.goal_off = self.mask(Item::Field("goal off mask"))?;
        }
        self.actions(version)
    }

    fn actions(&mut self, version: u8) -> Read<()> {
        let has_off = Places::of(version).has_off();
        let count = self.count("action count", 0, MAX_ACTIONS)?;
        for a in 0..count as u16 {
            let pre = self.mask(Item::Mask(a, "pre"))?;
            let add = self.mask(Item::Mask(a, "add"))?;
            let del = self.mask(Item::Mask(a, "del"))?;
            let off = if has_off { self.mask(Item::Mask(a, "off"))? } else { 0 };
            self.file.task.actions.push(Action { pre, add, del, off });
        }
        Ok(())
    }

    /// The mask of unknown facts: none of them is on in init (16).
    fn unknown(&mut self) -> Read<u64> {
        let (place, item) = (self.at, Item::Field("unknown mask"));
        let unknown = self.mask(item)?;
        if unknown & self.file.task.init != 0 {
            return Err(Fault::layout(16, place, item));
        }
        Ok(unknown)
    }

    /// An entry's kind and body; the kind is below `kinds` and the length fits it.
    fn entry(
        &mut self,
        group: Group,
        entry: u16,
        kinds: u8,
        fits: fn(u8, usize) -> bool,
    ) -> Read<(u8, Body<'a>)> {
        let place = self.at;
        let past_end = Fault::layout(3, place, Item::Entry(group, entry));
        let length = number(self.take(2, Item::Entry(group, entry))?) as usize;
        let rest = self.take(length, Item::Entry(group, entry)).map_err(|_| past_end)?;
        let unfit = Fault::layout(4, place, Item::EntryLength(group, entry));
        let (&kind, bytes) = rest.split_first().ok_or(unfit)?;
        if kind >= kinds {
            return Err(Fault::layout(4, place + 2, Item::EntryKind(group, entry)));
        }
        if !fits(kind, bytes.len()) {
            return Err(unfit);
        }
        Ok((kind, Body { bytes, place: place + 3, entry }))
    }

    fn action_sets(&mut self) -> Read<()> {
        let count = self.count("action set count", 0, MAX_ACTION_SETS)?;
        for e in 0..count as u16 {
            let (kind, body) = self.entry(Group::ActionSet, e, 3, action_set_fits)?;
            let set = match kind {
                0 => ActionSet { kind: ActionSetKind::All, marks: self.file.all_marks() },
                1 => self.action_list(body)?,
                _ => self.action_union(body)?,
            };
            self.file.action_sets.push(set);
        }
        Ok(())
    }

    fn action_list(&self, body: Body) -> Read<ActionSet> {
        let mut marks = [0; 4];
        let mut above = 0;
        for (k, bytes) in body.bytes.chunks_exact(2).enumerate() {
            let action = number(bytes) as usize;
            let part = Item::Part(Group::ActionSet, body.entry, "action", k as u16);
            if action >= self.file.task.actions.len() {
                return Err(Fault::layout(6, body.place + 2 * k, part));
            }
            if action < above {
                return Err(Fault::layout(7, body.place + 2 * k, part));
            }
            above = action + 1;
            mark(&mut marks, action);
        }
        Ok(ActionSet { kind: ActionSetKind::List, marks })
    }

    fn action_union(&self, body: Body) -> Read<ActionSet> {
        let a = reference(body, Group::ActionSet, 0, body.entry as usize)?;
        let b = reference(body, Group::ActionSet, 1, body.entry as usize)?;
        Ok(ActionSet { kind: ActionSetKind::Union(a, b), marks: self.file.union_marks(a, b) })
    }

    fn state_sets(&mut self) -> Read<()> {
        let count = self.count("state set count", 0, MAX_STATE_SETS)?;
        for e in 0..count as u16 {
            let (kind, body) = self.entry(Group::StateSet, e, 11, state_set_fits)?;
            let set = match kind {
                0 => StateSet::Empty,
                1 => StateSet::Init,
                2 => StateSet::Goal,
                3 => StateSet::Explicit(self.explicit(body)?),
                4 => StateSet::Horn(self.clauses(body, Clause::is_horn)?),
                5 => StateSet::TwoCnf(self.clauses(body, Clause::is_two_literal)?),
                _ => self.compound(kind, body)?,
            };
            self.file.state_sets.push(set);
        }
        Ok(())
    }

    /// States in any order, with repeats.
    fn explicit(&mut self, body: Body) -> Read<Listed> {
        let (states, length_field) = (body.bytes.len() / 8, Item::EntryLength(Group::StateSet, body.entry));
        within(states, self.limits.states, body.place - 3, length_field)?;
        let from = self.file.states.len();
        self.file.states.reserve(states);
        for (k, bytes) in body.bytes.chunks_exact(8).enumerate() {
            let state = word(bytes);
            if state & self.barred != 0 {
                let part = Item::Part(Group::StateSet, body.entry, "state", k as u16);
                return Err(Fault::layout(5, body.place + 8 * k, part));
            }
            self.file.states.push(state);
        }
        Ok(self.file.listed(from))
    }

    fn clauses(&mut self, body: Body, lawful: fn(&Clause) -> bool) -> Read<Span> {
        let from = self.file.clauses.len();
        for (k, bytes) in body.bytes.chunks_exact(16).enumerate() {
            let clause = Clause { positive: word(&bytes[..8]), negative: word(&bytes[8..]) };
            let (broken, offset) = if clause.positive & self.barred != 0 {
                (5, 0)
            } else if clause.negative & self.barred != 0 {
                (5, 8)
            } else if !lawful(&clause) {
                (7, 0)
            } else {
                self.file.clauses.push(clause);
                continue;
            };
            let part = Item::Part(Group::StateSet, body.entry, "clause", k as u16);
            return Err(Fault::layout(broken, body.place + 16 * k + offset, part));
        }
        Ok(Span::new(from, self.file.clauses.len()))
    }

    fn compound(&self, kind: u8, body: Body) -> Read<StateSet> {
        let a = reference(body, Group::StateSet, 0, body.entry as usize)?;
        if kind == 6 {
            return Ok(StateSet::Complement(a));
        }
        let above = if kind < 9 { body.entry as usize } else { self.file.action_sets.len() };
        let b = reference(body, Group::StateSet, 1, above)?;
        Ok(match kind {
            7 => StateSet::Intersection(a, b),
            8 => StateSet::Union(a, b),
            9 => StateSet::Progression(a, b),
            _ => StateSet::Regression(a, b),
        })
    }

    fn steps(&mut self) -> Read<()> {
        let place = self.at;
        let count = self.count("step count", 1, MAX_STEPS)?;
        within(count, self.limits.steps, place, Item::Field("step count"))?;
        self.file.steps.reserve(count.min((self.bytes.len() - self.at) / 12));
        for s in 0..count as u16 {
            let b = self.take(12, Item::Step(s))?;
            self.file.steps.push(Step {
                rule: b[0],
                kind: b[1],
                entries: [number(&b[2..4]), number(&b[4..6])],
                premises: [number(&b[6..8]), number(&b[8..10]), number(&b[10..12])],
            });
        }
        Ok(())
    }
}

/// 19 where there are more than the limit.
fn within(count: usize, limit: usize, place: usize, item: Item) -> Read<()> {
    if count > limit {
        return Err(Fault::layout(19, place, item));
    }
    Ok(())
}

/// The k-th reference of a body, which must be below `above`.
fn reference(body: Body, group: Group, k: usize, above: usize) -> Read<u16> {
    let to = number(&body.bytes[2 * k..2 * k + 2]);
    if to as usize >= above {
        let part = Item::Part(group, body.entry, "reference", k as u16);
        return Err(Fault::layout(6, body.place + 2 * k, part));
    }
    Ok(to)
}

/// Whether a body of this many bytes fits an action set kind.
fn action_set_fits(kind: u8, length: usize) -> bool {
    match kind {
        0 => length == 0,
        1 => length % 2 == 0 && length / 2 <= MAX_ACTIONS,
        _ => length == 4,
    }
}

/// Whether a body of this many bytes fits a state set kind.
fn state_set_fits(kind: u8, length: usize) -> bool {
    match kind {
        0..=2 => length == 0,
        3 => length % 8 == 0 && length / 8 <= MAX_STATES,
        4 | 5 => length % 16 == 0 && length / 16 <= MAX_CLAUSES,
        6 => length == 2,
        _ => length == 4,
    }
}

#[inline]
fn number(bytes: &[u8]) -> u16 {
    u16::from_be_bytes([bytes[0], bytes[1]])
}

#[inline]
fn word(bytes: &[u8]) -> u64 {
    let mut eight = [0; 8];
    eight.copy_from_slice(&bytes[..8]);
    u64::from_be_bytes(eight)
}
