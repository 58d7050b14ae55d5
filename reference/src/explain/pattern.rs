//! Reply 9: where a rule's pattern and a step part, found by going through the rule's text from left
//! to right: a premise of another judgement kind, an entry of another kind than the pattern has
//! there, or a letter that would stand for two entries.

use crate::file::{ActionSetKind, File, Judgement, StateSet, Step};
use crate::pattern::{parse, ActionTerm, Claim, Term};
use crate::rules;

/// An entry by its group and number.
#[derive(Clone, Copy, Debug, PartialEq, Eq)]
pub enum Entry {
    States(u16),
    Actions(u16),
}

/// A premise, counted from 1, or the conclusion.
#[derive(Clone, Copy, Debug, PartialEq, Eq)]
pub enum Part {
    Premise(u8),
    Conclusion,
}

/// Where in a judgement or in another entry an entry is named.
#[derive(Clone, Copy, Debug, PartialEq, Eq)]
pub enum Role {
    /// The set of "E dead".
    Dead,
    /// The two sets of "E within F".
    Left,
    Right,
    /// The two parts of an intersection or union.
    First(Entry),
    Second(Entry),
    /// What a complement complements.
    Complemented(u16),
    /// The two parts of a progression or regression.
    StatesOf(u16),
    ActionsOf(u16),
}

/// An entry that the pattern met, and where.
#[derive(Clone, Copy, Debug, PartialEq, Eq)]
pub struct Met {
    pub entry: Entry,
    pub part: Part,
    pub role: Role,
}

/// What does not match.
#[derive(Clone, Debug, PartialEq, Eq)]
pub enum MatchFault {
    /// The premise is of another judgement kind.
    Judgement { wanted: u8, found: u8 },
    /// The entry is not of the kind that this part of the pattern has.
    Kind { wanted: Wanted, found: Met },
    /// The letter stands for another entry already.
    Letter { letter: char, first: Met, second: Met },
}

/// A part of a pattern other than a letter, as the rule writes it, and the kind that matches it.
#[derive(Clone, Debug, PartialEq, Eq)]
pub struct Wanted {
    pub term: String,
    pub kind: u8,
}

/// The first difference between a step and its rule.
#[derive(Clone, Debug, PartialEq, Eq)]
pub struct Mismatch {
    pub part: Part,
    /// The part of the rule in its own notation.
    pub claim: String,
    pub fault: MatchFault,
    /// What each letter met before the difference stands for.
    pub letters: Vec<(char, Met)>,
}

/// Where the step, whose own fields are lawful, parts from its rule's text; none where it follows.
pub fn mismatch(file: &File, step: &Step) -> Option<Mismatch> {
    let pattern = parse(rules::by_number(step.rule)?.text)?;
    let mut matcher = Matcher { file, part: Part::Conclusion, letters: Vec::new() };
    let premises = pattern.premises.iter().zip(step.premises).zip(1..);
    let premises = premises.map(|((claim, p), k)| (Part::Premise(k), claim, file.steps[p as usize]));
    for (part, claim, step) in premises.chain([(Part::Conclusion, &pattern.conclusion, *step)]) {
        matcher.part = part;
        if let Err(fault) = matcher.claim(claim, &step) {
            return Some(Mismatch { part, claim: claim_text(claim), fault, letters: matcher.letters });
        }
    }
    None
}

type Matched = Result<(), MatchFault>;

struct Matcher<'a> {
    file: &'a File,
    part: Part,
    letters: Vec<(char, Met)>,
}

impl Matcher<'_> {
    fn claim(&mut self, claim: &Claim, step: &Step) -> Matched {
        match (claim, step.judgement()) {
            (Claim::Dead(s), Some(Judgement::Dead(a))) => self.term(s, a, Role::Dead),
            (Claim::Within(s, u), Some(Judgement::Within(a, b))) => {
                self.term(s, a, Role::Left)?;
                self.term(u, b, Role::Right)
            }
            (Claim::ActionsWithin(s, u), Some(Judgement::ActionsWithin(a, b))) => {
                self.actions(s, a, Role::Left)?;
                self.actions(u, b, Role::Right)
            }
            (Claim::Unsolvable, Some(Judgement::Unsolvable)) => Ok(()),
            _ => Err(MatchFault::Judgement { wanted: claim_kind(claim), found: step.kind }),
        }
    }

    fn term(&mut self, term: &Term, entry: u16, role: Role) -> Matched {
        let here = Entry::States(entry);
        match (term, self.file.state_sets[entry as usize]) {
            (Term::Letter(letter), _) => self.letter(*letter, here, role),
            (Term::Empty, StateSet::Empty) => Ok(()),
            (Term::Init, StateSet::Init) => Ok(()),
            (Term::Goal, StateSet::Goal) => Ok(()),
            (Term::Complement(s), StateSet::Complement(a)) => self.term(s, a, Role::Complemented(entry)),
            (Term::Intersection(s, u), StateSet::Intersection(a, b))
            | (Term::Union(s, u), StateSet::Union(a, b)) => {
                self.term(s, a, Role::First(here))?;
                self.term(u, b, Role::Second(here))
            }
            (Term::Progression(s, t), StateSet::Progression(a, b))
            | (Term::Regression(s, t), StateSet::Regression(a, b)) => {
                self.term(s, a, Role::StatesOf(entry))?;
                self.actions(t, b, Role::ActionsOf(entry))
            }
            _ => {
                let wanted = Wanted { term: term_text(term), kind: term_kind(term) };
                Err(MatchFault::Kind { wanted, found: Met { entry: here, part: self.part, role } })
            }
        }
    }

    fn actions(&mut self, term: &ActionTerm, entry: u16, role: Role) -> Matched {
        let here = Entry::Actions(entry);
        match (term, self.file.action_sets[entry as usize].kind) {
            (ActionTerm::Letter(letter), _) => self.letter(*letter, here, role),
            (ActionTerm::All, ActionSetKind::All) => Ok(()),
            (ActionTerm::Union(s, u), ActionSetKind::Union(a, b)) => {
                self.actions(s, a, Role::First(here))?;
                self.actions(u, b, Role::Second(here))
            }
            _ => {
                let wanted = Wanted { term: actions_text(term), kind: actions_term_kind(term) };
                Err(MatchFault::Kind { wanted, found: Met { entry: here, part: self.part, role } })
            }
        }
    }

    /// A letter is one entry number throughout.
    fn letter(&mut self, letter: u8, entry: Entry, role: Role) -> Matched {
        let letter = letter as char;
        let second = Met { entry, part: self.part, role };
        match self.letters.iter().find(|(other, _)| *other == letter) {
            None => self.letters.push((letter, second)),
            Some((_, first)) if first.entry == entry => (),
            Some((_, first)) => return Err(MatchFault::Letter { letter, first: *first, second }),
        }
        Ok(())
    }
}

fn claim_kind(claim: &Claim) -> u8 {
    match claim {
        Claim::Dead(_) => 0,
        Claim::Within(..) => 1,
        Claim::ActionsWithin(..) => 2,
        Claim::Unsolvable => 3,
    }
}

/// The kind of state set that matches a part of a pattern; a letter, which any kind matches, is asked
/// for none.
fn term_kind(term: &Term) -> u8 {
    match term {
        Term::Letter(_) | Term::Empty => 0,
        Term::Init => 1,
        Term::Goal => 2,
        Term::Complement(_) => 6,
        Term::Intersection(..) => 7,
        Term::Union(..) => 8,
        Term::Progression(..) => 9,
        Term::Regression(..) => 10,
    }
}

fn actions_term_kind(term: &ActionTerm) -> u8 {
    match term {
        ActionTerm::Letter(_) | ActionTerm::All => 0,
        ActionTerm::Union(..) => 2,
    }
}

/// A premise or conclusion as the rule writes it.
fn claim_text(claim: &Claim) -> String {
    match claim {
        Claim::Dead(s) => format!("{} dead", term_text(s)),
        Claim::Within(s, u) => format!("{}<{}", term_text(s), term_text(u)),
        Claim::ActionsWithin(s, u) => format!("{} within {}", actions_text(s), actions_text(u)),
        Claim::Unsolvable => "unsolvable".into(),
    }
}

fn term_text(term: &Term) -> String {
    match term {
        Term::Letter(letter) => (*letter as char).to_string(),
        Term::Empty => "0".into(),
        Term::Init => "I".into(),
        Term::Goal => "G".into(),
        Term::Complement(s) => format!("~{}", part_text(s)),
        Term::Intersection(s, u) => format!("{}&{}", part_text(s), part_text(u)),
        Term::Union(s, u) => format!("{}+{}", part_text(s), part_text(u)),
        Term::Progression(s, a) => match **s {
            Term::Complement(_) => format!("({})[{}]", term_text(s), actions_text(a)),
            _ => format!("{}[{}]", part_text(s), actions_text(a)),
        },
        Term::Regression(s, a) => format!("[{}]{}", actions_text(a), part_text(s)),
    }
}

/// A part of a term, unions and intersections in parentheses.
fn part_text(term: &Term) -> String {
    match term {
        Term::Intersection(..) | Term::Union(..) => format!("({})", term_text(term)),
        _ => term_text(term),
    }
}

fn actions_text(term: &ActionTerm) -> String {
    match term {
        ActionTerm::Letter(letter) => (*letter as char).to_string(),
        ActionTerm::All => "T".into(),
        ActionTerm::Union(a, b) => format!("{}+{}", actions_text(a), actions_text(b)),
    }
}
