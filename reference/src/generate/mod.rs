//! Seeded test files and questions: valid, nearly valid and damaged, over every rule,
//! kind and reply. The same seed gives the same cases on every machine.

pub mod applications;
pub mod builder;
pub mod certificates;
pub mod found;
pub mod growth;
pub mod limits;
pub mod listed;
pub mod mutate;
pub mod numbered;
pub mod off;
pub mod older;
pub mod random;
pub mod relisted;
pub mod rounds;
pub mod small;
pub mod tasks;
pub mod twins;
pub mod unknown;
pub mod worst;

use crate::draft::Draft;
use crate::generate::builder::Builder;
use crate::generate::random::Random;
use crate::layout::MAX_STEPS;
use crate::rules::RULES;
use crate::{ask, check, check_numbered, check_round, check_small};

/// What is done with a file.
#[derive(Clone, Debug, PartialEq, Eq)]
pub enum Call {
    Check,
    /// Its rule bytes are numbers of this list.
    Numbered(Vec<u8>),
    /// Whether an entry holds a state.
    Ask(u64, u64),
    /// From this step on, so many steps.
    Round(u64, u64),
    /// A check by the small limits.
    Small,
}

/// A file, and what is done with it.
#[derive(Clone, Debug, PartialEq, Eq)]
pub struct Case {
    pub call: Call,
    pub bytes: Vec<u8>,
}

impl Case {
    pub fn is_check(&self) -> bool {
        self.call == Call::Check
    }

    /// The line form: `check HEX`, `numbered LISTHEX HEX` with `-` for an empty list, `ask ENTRY STATE HEX`,
    /// `round FROM COUNT HEX` or `small HEX`.
    pub fn line(&self) -> String {
        let hex = to_hex(&self.bytes);
        match &self.call {
            Call::Check => format!("check {hex}"),
            Call::Numbered(list) if list.is_empty() => format!("numbered - {hex}"),
            Call::Numbered(list) => format!("numbered {} {hex}", to_hex(list)),
            Call::Ask(entry, state) => format!("ask {entry} {state} {hex}"),
            Call::Round(from, count) => format!("round {from} {count} {hex}"),
            Call::Small => format!("small {hex}"),
        }
    }

    /// Reads the line form; none where it is not of that form.
    pub fn parse(line: &str) -> Option<Case> {
        let mut words = line.split_whitespace();
        let call = match words.next()? {
            "check" => Call::Check,
            "numbered" => match words.next()? {
                "-" => Call::Numbered(Vec::new()),
                list => Call::Numbered(from_hex(list)?),
            },
            "ask" => Call::Ask(number(&mut words)?, number(&mut words)?),
            "round" => Call::Round(number(&mut words)?, number(&mut words)?),
            "small" => Call::Small,
            _ => return None,
        };
        let bytes = from_hex(words.next().unwrap_or(""))?;
        words.next().is_none().then_some(Case { call, bytes })
    }

    /// The record form, for programs that read no text: 0, 1 for a question, 2 for a list, 3 for a round or 4 for the small limits (1
    /// byte); entry, the list's length or the step begun at (8); state, 0 or the count of steps (8); the file's length (4), all
    /// big-endian; the list, and the file, of which no more than 65,537 bytes are kept. A list is kept whole; `crates/vectors` takes at
    /// most 1,024 bytes of one.
    pub fn record(&self) -> Vec<u8> {
        let bytes = &self.bytes[..self.bytes.len().min(65_537)];
        let (kind, first, second, list) = match &self.call {
            Call::Check => (0, 0, 0, &[][..]),
            Call::Ask(entry, state) => (1, *entry, *state, &[][..]),
            Call::Numbered(list) => (2, list.len() as u64, 0, &list[..]),
            Call::Round(from, count) => (3, *from, *count, &[][..]),
            Call::Small => (4, 0, 0, &[][..]),
        };
        let mut record = vec![kind];
        record.extend(first.to_be_bytes());
        record.extend(second.to_be_bytes());
        record.extend((bytes.len() as u32).to_be_bytes());
        record.extend(list);
        record.extend(bytes);
        record
    }

    /// The reply as the command line prints it.
    pub fn reply(&self) -> String {
        match &self.call {
            Call::Check => check(&self.bytes).to_string(),
            Call::Numbered(list) => check_numbered(&self.bytes, list).to_string(),
            Call::Ask(entry, state) => ask(&self.bytes, *entry, *state).to_string(),
            Call::Round(from, count) => check_round(&self.bytes, *from, *count).to_string(),
            Call::Small => check_small(&self.bytes).to_string(),
        }
    }
}

/// The next word as a number.
fn number<'a>(words: &mut impl Iterator<Item = &'a str>) -> Option<u64> {
    words.next()?.parse().ok()
}

fn to_hex(bytes: &[u8]) -> String {
    bytes.iter().map(|byte| format!("{byte:02x}")).collect()
}

fn from_hex(text: &str) -> Option<Vec<u8>> {
    let digit = |byte: u8| (byte as char).to_digit(16);
    let pairs = text.as_bytes().chunks(2);
    pairs.map(|pair| Some((digit(pair[0])? * 16 + digit(*pair.get(1)?)?) as u8)).collect()
}

/// The first `count` cases of a seed.
pub fn cases(seed: u64, count: u64) -> impl Iterator<Item = Case> {
    (0..count).map(move |index| case(&mut Random::for_case(seed, index)))
}

/// Every shorter beginning of a file, and as many strings of random bytes, half of them with a fitting length field.
pub fn damaged(bytes: &[u8], seed: u64, count: u64) -> impl Iterator<Item = Case> + '_ {
    let cut = (0..bytes.len()).map(|length| bytes[..length].to_vec());
    let noise = (0..count).map(move |index| {
        let mut random = Random::for_case(seed, index);
        let mut bytes: Vec<u8> = (0..random.below(600)).map(|_| random.next() as u8).collect();
        if random.chance(50) && bytes.len() >= 4 {
            let rest = bytes.len() as u32 - 4;
            bytes[..4].copy_from_slice(&rest.to_be_bytes());
        }
        bytes
    });
    cut.chain(noise).map(|bytes| Case { call: Call::Check, bytes })
}

fn case(random: &mut Random) -> Case {
    let bytes = match random.below(200) {
        0..=45 => certificate(random).encode(),
        46..=79 => near_application(random),
        80..=127 => {
            let mut draft = certificate(random);
            mutate::draft(random, &mut draft);
            draft.encode()
        }
        128..=147 => {
            let draft = certificate(random);
            mutate::bytes(random, &draft)
        }
        148..=169 => statement(random),
        170..=195 => return question(random),
        196 => (0..random.below(300)).map(|_| random.next() as u8).collect(),
        197 | 198 => limits::random(random),
        _ => return question_at_limit(random),
    };
    Case { call: Call::Check, bytes }
}

/// A case of any call.
fn any_case(random: &mut Random) -> Case {
    match random.below(10) {
        0..=4 => case(random),
        5 => listed::listed_case(random),
        6 => numbered::numbered_case(random),
        7 => rounds::round_case(random),
        _ => small::small_case(random),
    }
}

/// Mostly a check or this question; else a round, the small limits, or a list of rule numbers as they are.
fn some_call(random: &mut Random, d: &Draft, question: impl FnOnce(&mut Random) -> (u64, u64)) -> Call {
    match random.below(20) {
        0..=5 => {
            let (entry, state) = question(random);
            Call::Ask(entry, state)
        }
        6 => Call::Round(random.below(d.steps.len()) as u64, random.between(1, MAX_STEPS) as u64),
        7 => Call::Small,
        8 => Call::Numbered((1..=RULES.len() as u8).collect()),
        _ => Call::Check,
    }
}

/// The bytes of a draft, in half of the cases with something changed: what `nearly` changes, what `faulty` makes unlawful, or anything.
fn perhaps_spoiled(
    random: &mut Random,
    d: &mut Draft,
    nearly: fn(&mut Random, &mut Draft),
    faulty: fn(&mut Random, &mut Draft) -> Vec<u8>,
) -> Vec<u8> {
    match random.below(20) {
        0..=3 => nearly(random, d),
        4 | 5 => mutate::draft(random, d),
        6 | 7 => return faulty(random, d),
        8 => return mutate::bytes(random, d),
        _ => (),
    }
    d.encode()
}

/// The file of a case that is a check.
fn plain_file(random: &mut Random) -> Vec<u8> {
    loop {
        let case = case(random);
        if case.is_check() {
            return case.bytes;
        }
    }
}

/// A certificate with some further rule applications and true statements.
fn certificate(random: &mut Random) -> Draft {
    let (mut b, ending) = certificates::random(random);
    for _ in 0..b.random.below(3) {
        applications::add_pool(&mut b);
    }
    for _ in 0..b.random.below(10) {
        let rule = b.random.pick(&RULES_TO_APPLY);
        applications::apply(&mut b, rule);
    }
    let statements = b.random.below(4);
    applications::add_true_statements(&mut b, statements);
    certificates::finish(&mut b, ending);
    Draft::of(&b.file)
}

/// All derivation rules but CI and CG, which end a file.
const RULES_TO_APPLY: [u8; 21] =
    [6, 7, 8, 9, 10, 11, 12, 15, 16, 17, 18, 19, 20, 21, 22, 23, 24, 25, 26, 27, 28];

/// A certificate with one application in which a letter may have slipped.
fn near_application(random: &mut Random) -> Vec<u8> {
    let (mut b, mut ending) = certificates::random(random);
    applications::add_pool(&mut b);
    let helper = b.random.pick(&RULES_TO_APPLY);
    applications::apply(&mut b, helper);
    // Rules with more places to slip come more often.
    let places = RULES_TO_APPLY.iter().flat_map(|rule| vec![*rule; 3 + applications::places(*rule)]);
    let rule = b.random.pick(&places.collect::<Vec<u8>>());
    applications::apply_nearly(&mut b, rule);
    match b.random.below(20) {
        0 => ending.0 = 27 - ending.0,
        1 => ending.1 = b.random.below(b.file.steps.len()) as u16,
        2..=4 => spoil_last(&mut b),
        _ => (),
    }
    certificates::finish(&mut b, ending);
    Draft::of(&b.file).encode()
}

/// Makes a field of the last step unlawful (reply 8).
fn spoil_last(b: &mut Builder) {
    let sets = b.file.state_sets.len() as u16;
    let number = b.file.steps.len() as u16 - 1;
    let Some(step) = b.file.steps.last_mut() else { return };
    match b.random.below(4) {
        0 => step.kind = (step.kind + 1) % 4,
        1 => step.premises[2] = number.max(1),
        2 => step.entries[0] = sets,
        _ => step.entries[1] = sets,
    }
}

/// A file whose last step but one is any basic statement.
fn statement(random: &mut Random) -> Vec<u8> {
    let (mut b, ending) = certificates::random(random);
    applications::add_pool(&mut b);
    applications::add_pool(&mut b);
    let (rule, judgement) = applications::basic(&mut b);
    b.step(rule, judgement, &[]);
    certificates::finish(&mut b, ending);
    Draft::of(&b.file).encode()
}

fn question(random: &mut Random) -> Case {
    let (mut b, ending) = certificates::random(random);
    applications::add_pool(&mut b);
    let compounds = b.random.below(8);
    applications::add_compounds(&mut b, compounds);
    certificates::finish(&mut b, ending);
    let asked = ask_something(&mut b);
    let mut draft = Draft::of(&b.file);
    if random.chance(10) {
        mutate::draft(random, &mut draft);
    }
    Case { call: Call::Ask(asked.0, asked.1), bytes: draft.encode() }
}

/// An entry and a state, now and then outside of what there is.
fn ask_something(b: &mut Builder) -> (u64, u64) {
    let sets = b.file.state_sets.len();
    let entry = match b.random.below(30) {
        0 => sets,
        1 => 65_536 + b.random.below(sets),
        _ => b.random.between(sets.saturating_sub(8), sets - 1),
    };
    let facts = b.file.task.all_facts();
    let state = match b.random.below(20) {
        0 => facts.wrapping_add(1),
        1 => b.random.next(),
        _ => b.random.mask(facts, 1),
    };
    (entry as u64, state)
}

fn question_at_limit(random: &mut Random) -> Case {
    let bytes = match random.below(3) {
        0 => limits::many_state_sets(0),
        1 => limits::many_action_sets(0),
        _ => limits::full_file(0),
    };
    Case { call: Call::Ask(random.below(20) as u64, random.below(4) as u64), bytes }
}
