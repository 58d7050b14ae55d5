//! A caller's own rule numbers (document 02, i): a list of 28 bytes, the k-th being the number that its files use
//! for rule k. The file is read first; then each step gets the rule that its number stands for, and the steps are
//! checked as any others.

use std::collections::BTreeMap;

use crate::draft::Draft;
use crate::fault::{Cause, Fault, StepCause};
use crate::file::File;
use crate::rules::RULES;
use crate::words::{describe, list_words};
use crate::{layout, steps, Reply};

/// What is wrong with a list, reply 18: it has so many bytes, and not one for each rule; or the byte at a place, counted
/// from 0, is zero or equal to an earlier one.
#[derive(Clone, Copy, Debug, PartialEq, Eq)]
pub enum ListFault {
    Length(usize),
    Zero { at: usize },
    Repeated { at: usize, earlier: usize, number: u8 },
}

impl ListFault {
    pub fn reply(self) -> Reply {
        let place = match self {
            ListFault::Length(length) => length,
            ListFault::Zero { at } | ListFault::Repeated { at, .. } => at,
        };
        Reply::Refused { number: 18, place: place as u64 }
    }
}

/// The numbers that a list lacks, by the steps that have them.
pub type Lacked = BTreeMap<usize, u8>;

/// The rule that each byte stands for by a lawful list; 0, which is no rule, where the list lacks it.
pub struct Numbering {
    rules: [u8; 256],
}

impl Numbering {
    pub fn of(numbers: &[u8]) -> Result<Numbering, ListFault> {
        if numbers.len() != RULES.len() {
            return Err(ListFault::Length(numbers.len()));
        }
        let mut rules = [0; 256];
        for (at, &number) in numbers.iter().enumerate() {
            if number == 0 {
                return Err(ListFault::Zero { at });
            }
            let rule = &mut rules[number as usize];
            if *rule != 0 {
                return Err(ListFault::Repeated { at, earlier: *rule as usize - 1, number });
            }
            *rule = at as u8 + 1;
        }
        Ok(Numbering { rules })
    }

    /// Gives each step the rule that its number stands for.
    pub fn rewrite(&self, file: &mut File) -> Lacked {
        let mut lacked = Lacked::new();
        for (number, step) in file.steps.iter_mut().enumerate() {
            let rule = self.rules[step.rule as usize];
            if rule == 0 {
                lacked.insert(number, step.rule);
            }
            step.rule = rule;
        }
        lacked
    }
}

/// Checks a file whose rule bytes are numbers of the list. The list's own faults come before the file is read.
pub fn check_numbered(bytes: &[u8], numbers: &[u8]) -> Reply {
    let numbering = match Numbering::of(numbers) {
        Ok(numbering) => numbering,
        Err(fault) => return fault.reply(),
    };
    let checked = layout::read(bytes).and_then(|mut file| {
        let lacked = numbering.rewrite(&mut file);
        check_steps(&file, &lacked)
    });
    checked.into()
}

/// The first fault among the steps of a rewritten file; a number that the list lacks as the file has it.
pub fn check_steps(file: &File, lacked: &Lacked) -> Result<(), Fault> {
    steps::check(file).map_err(|fault| match lacked.get(&(fault.place as usize)) {
        Some(number) => Fault { cause: Cause::Step(StepCause::NotListed(*number)), ..fault },
        None => fault,
    })
}

/// A file with the numbers 1 to 28 rewritten by a list, or why that cannot be done.
pub fn renumber(bytes: &[u8], numbers: &[u8]) -> Result<Vec<u8>, String> {
    Numbering::of(numbers).map_err(|fault| list_words(&fault))?;
    let mut file = layout::read(bytes).map_err(|fault| describe(&fault, None))?;
    for (k, step) in file.steps.iter_mut().enumerate() {
        let number = (step.rule as usize).checked_sub(1).and_then(|rule| numbers.get(rule));
        let none = || format!("step {k} has the rule byte {}; rules are 1 to {}", step.rule, RULES.len());
        step.rule = *number.ok_or_else(none)?;
    }
    Ok(Draft::of(&file).encode())
}

/// A list as a person writes it: numbers from 0 to 255, decimal, with commas or spaces between them.
pub fn parse(text: &str) -> Option<Vec<u8>> {
    let mut numbers = Vec::new();
    for part in text.split(',') {
        let before = numbers.len();
        for word in part.split(' ').filter(|word| !word.is_empty()) {
            let digits = word.bytes().all(|byte| byte.is_ascii_digit());
            numbers.push(word.parse().ok().filter(|_| digits)?);
        }
        // Nothing stands between two commas, or beside one at an end.
        if numbers.len() == before && text.contains(',') {
            return None;
        }
    }
    Some(numbers)
}
