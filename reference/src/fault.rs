//! Why a file is refused: the reply's number and place, and the part of the file or
//! step that is meant, from which `words` makes a sentence.

#[derive(Clone, Copy, Debug, PartialEq, Eq)]
pub struct Fault {
    pub number: u8,
    pub place: u32,
    pub cause: Cause,
}

#[derive(Clone, Copy, Debug, PartialEq, Eq)]
pub enum Cause {
    Layout(Item),
    Step(StepCause),
}

#[derive(Clone, Copy, Debug, PartialEq, Eq)]
pub enum Group {
    ActionSet,
    StateSet,
}

/// The part of the file that a layout fault (1 to 7, 16, 19) is about.
#[derive(Clone, Copy, Debug, PartialEq, Eq)]
pub enum Item {
    /// The file as a whole, for replies 1 and 19.
    Whole,
    Field(&'static str),
    Mask(u16, &'static str),
    Entry(Group, u16),
    EntryLength(Group, u16),
    EntryKind(Group, u16),
    /// The n-th state, clause, reference or action number of an entry.
    Part(Group, u16, &'static str, u16),
    Step(u16),
    Rest,
}

/// What is wrong with a step (8 to 12).
#[derive(Clone, Copy, Debug, PartialEq, Eq)]
pub enum StepCause {
    UnknownRule,
    /// The number that stands in the file, where the caller's list lacks it.
    NotListed(u8),
    JudgementKind,
    EntryOutside(u8),
    PremiseNotEarlier(u8),
    UnusedNotZero,
    Premise(u8),
    Conclusion,
    Shape(&'static str),
    Untrue,
    NotUnsolvable,
}

impl Fault {
    #[cold]
    pub fn layout(number: u8, place: usize, item: Item) -> Fault {
        Fault { number, place: place as u32, cause: Cause::Layout(item) }
    }

    #[cold]
    pub fn step(number: u8, step: usize, cause: StepCause) -> Fault {
        Fault { number, place: step as u32, cause: Cause::Step(cause) }
    }
}
