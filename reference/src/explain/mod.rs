//! Why a file is refused, or what an accepted one shows, for a person. The reply is the reference
//! checker's, which is not proved. `why` gives the reason as a value, `explain` in words.

pub mod accepted;
pub mod counterexample;
pub mod fields;
pub mod layout;
pub mod pattern;
pub mod shape;
mod words;

use crate::fault::{Cause, Fault, StepCause};
use crate::file::File;
use crate::layout::Limits;
use crate::names::Names;
use crate::numbering::{check_steps, Lacked, ListFault, Numbering};
use crate::words::list_words;
use crate::Reply;
use accepted::Argument;
use counterexample::Counterexample;
use fields::FieldFault;
use layout::LayoutFault;
use pattern::Mismatch;
use shape::ShapeFault;

/// The reason for a reply.
#[derive(Clone, Debug, PartialEq, Eq)]
pub enum Why {
    Accepted(Argument),
    /// Replies 1 to 7, 16 and 19.
    Layout(LayoutFault),
    /// Reply 8.
    Fields(Vec<FieldFault>),
    /// Reply 9.
    Pattern(Mismatch),
    /// Reply 10.
    Shape(ShapeFault),
    /// Reply 11.
    Untrue(Counterexample),
    /// Reply 12.
    NotUnsolvable,
    /// Reply 18.
    Numbers(ListFault),
    /// The check refuses a step, and the search for the reason finds none: one of them is wrong.
    Unknown,
}

/// What every explanation says of itself.
const NOTE: &str =
    "This explanation comes from the reference checker, which is not proved; ./verify gives the proved reply.";

/// What an explanation says of a file with a caller's rule numbers.
const REWRITTEN: &str =
    "The file's rule bytes are numbers of the list; here steps have the rules that are meant.";

/// What an explanation says of a file that is held to the small limits.
const SMALL: &str =
    "The file is held to the small limits, as by ./verify --small: 16384 bytes, 512 states in an explicit set, 256 steps.";

/// What an explanation says of a list with a fault.
const UNREAD: &str = "The list of rule numbers is not lawful, and the file is not read:";

/// The reply to a file and the reason for it.
pub fn why(bytes: &[u8]) -> (Reply, Why) {
    Examined::of(bytes, Limits::FULL, None).judged(bytes)
}

/// The same by the small limits.
pub fn why_small(bytes: &[u8]) -> (Reply, Why) {
    Examined::of(bytes, Limits::SMALL, None).judged(bytes)
}

/// The same for a file with a caller's rule numbers.
pub fn why_numbered(bytes: &[u8], numbers: &[u8]) -> (Reply, Why) {
    match Numbering::of(numbers) {
        Ok(numbering) => Examined::of(bytes, Limits::FULL, Some(&numbering)).judged(bytes),
        Err(fault) => (fault.reply(), Why::Numbers(fault)),
    }
}

/// The reply to a file, and the reason in words.
pub fn explain(bytes: &[u8], names: &Names) -> String {
    told(bytes, &Examined::of(bytes, Limits::FULL, None), &[NOTE], names)
}

/// The same by the small limits.
pub fn explain_small(bytes: &[u8], names: &Names) -> String {
    told(bytes, &Examined::of(bytes, Limits::SMALL, None), &[NOTE, SMALL], names)
}

/// The same for a file with a caller's rule numbers.
pub fn explain_numbered(bytes: &[u8], numbers: &[u8], names: &Names) -> String {
    match Numbering::of(numbers) {
        Ok(numbering) => {
            let examined = Examined::of(bytes, Limits::FULL, Some(&numbering));
            told(bytes, &examined, &[NOTE, REWRITTEN], names)
        }
        Err(fault) => page(fault.reply(), &[NOTE], vec![UNREAD.into(), format!("  {}.", list_words(&fault))]),
    }
}

fn told(bytes: &[u8], examined: &Examined, notes: &[&str], names: &Names) -> String {
    let (reply, why) = examined.judged(bytes);
    page(reply, notes, words::lines(bytes, examined, reply, &why, names))
}

fn page(reply: Reply, notes: &[&str], lines: Vec<String>) -> String {
    format!("{reply}\n{}\n\n{}\n", notes.join("\n"), lines.join("\n"))
}

/// What was read of a file, with the rules meant where there is a list, and the fault for which it is refused.
struct Examined {
    limits: Limits,
    file: File,
    lacked: Lacked,
    fault: Option<Fault>,
}

impl Examined {
    fn of(bytes: &[u8], limits: Limits, numbering: Option<&Numbering>) -> Examined {
        let (mut file, fault) = crate::layout::beginning(bytes, limits);
        let lacked = numbering.map_or(Lacked::new(), |numbering| numbering.rewrite(&mut file));
        let fault = fault.or_else(|| check_steps(&file, &lacked).err());
        Examined { limits, file, lacked, fault }
    }

    fn judged(&self, bytes: &[u8]) -> (Reply, Why) {
        let why = match &self.fault {
            None => Why::Accepted(accepted::argument(&self.file)),
            Some(fault) => reason(bytes, &self.file, self.limits, fault),
        };
        (self.fault.map_or(Ok(()), Err).into(), why)
    }
}

fn reason(bytes: &[u8], file: &File, limits: Limits, fault: &Fault) -> Why {
    match fault.cause {
        Cause::Layout(item) => return Why::Layout(layout::field(bytes, file, limits, fault, item)),
        Cause::Step(StepCause::NotListed(number)) => {
            return Why::Fields(vec![FieldFault::NotListed { number }])
        }
        Cause::Step(_) => (),
    }
    let number = fault.place as usize;
    let step = &file.steps[number];
    let found = match fault.number {
        8 => Some(Why::Fields(fields::faults(file, number))),
        9 => pattern::mismatch(file, step).map(Why::Pattern),
        10 => shape::sides(file, step).err().map(Why::Shape),
        11 => counterexample::find(file, step).map(Why::Untrue),
        _ => Some(Why::NotUnsolvable),
    };
    found.unwrap_or(Why::Unknown)
}
