//! The rule texts of document 01 read as patterns, and a plain matcher over them. The
//! generator builds correct applications from patterns; the tests hold the hand-written
//! matcher of `derivation` to this one.

use crate::file::{ActionSetKind, File, Judgement, StateSet};

#[derive(Clone, Debug, PartialEq, Eq)]
pub enum ActionTerm {
    Letter(u8),
    All,
    Union(Box<ActionTerm>, Box<ActionTerm>),
}

#[derive(Clone, Debug, PartialEq, Eq)]
pub enum Term {
    Letter(u8),
    Empty,
    Init,
    Goal,
    Complement(Box<Term>),
    Intersection(Box<Term>, Box<Term>),
    Union(Box<Term>, Box<Term>),
    Progression(Box<Term>, ActionTerm),
    Regression(Box<Term>, ActionTerm),
}

#[derive(Clone, Debug, PartialEq, Eq)]
pub enum Claim {
    Dead(Term),
    Within(Term, Term),
    ActionsWithin(ActionTerm, ActionTerm),
    Unsolvable,
}

#[derive(Clone, Debug, PartialEq, Eq)]
pub struct Pattern {
    pub premises: Vec<Claim>,
    pub conclusion: Claim,
}

/// The entry numbers that letters stand for, by letter.
pub type Letters = [Option<u16>; 128];

pub const NO_LETTERS: Letters = [None; 128];

/// Reads a rule text such as "S<U, U dead; S dead"; none where it is not of that form.
pub fn parse(text: &str) -> Option<Pattern> {
    let (premises, conclusion) = match text.split_once("; ") {
        Some((premises, conclusion)) => (premises.split(", ").collect(), conclusion),
        None => (Vec::new(), text),
    };
    let premises = premises.into_iter().map(claim).collect::<Option<Vec<Claim>>>()?;
    Some(Pattern { premises, conclusion: claim(conclusion)? })
}

fn claim(text: &str) -> Option<Claim> {
    if text == "unsolvable" {
        return Some(Claim::Unsolvable);
    }
    if let Some(set) = text.strip_suffix(" dead") {
        return Some(Claim::Dead(term(set)?));
    }
    if let Some((a, b)) = text.split_once(" within ") {
        return Some(Claim::ActionsWithin(action_term(a)?, action_term(b)?));
    }
    let (left, right) = text.split_once('<')?;
    Some(Claim::Within(term(left)?, term(right)?))
}

fn action_term(text: &str) -> Option<ActionTerm> {
    if let Some((a, b)) = text.split_once('+') {
        return Some(ActionTerm::Union(Box::new(action_term(a)?), Box::new(action_term(b)?)));
    }
    match text.as_bytes() {
        [b'T'] => Some(ActionTerm::All),
        [letter] => Some(ActionTerm::Letter(*letter)),
        _ => None,
    }
}

fn term(text: &str) -> Option<Term> {
    let mut parser = Parser { text: text.as_bytes(), at: 0 };
    let term = parser.whole()?;
    (parser.at == text.len()).then_some(term)
}

struct Parser<'a> {
    text: &'a [u8],
    at: usize,
}

impl Parser<'_> {
    fn eat(&mut self, byte: u8) -> bool {
        let found = self.text.get(self.at) == Some(&byte);
        self.at += found as usize;
        found
    }

    /// One part, or two joined by + or &.
    fn whole(&mut self) -> Option<Term> {
        let left = Box::new(self.part()?);
        if self.eat(b'+') {
            return Some(Term::Union(left, Box::new(self.part()?)));
        }
        if self.eat(b'&') {
            return Some(Term::Intersection(left, Box::new(self.part()?)));
        }
        Some(*left)
    }

    /// ~S, [A]S, S[A], (S), a letter.
    fn part(&mut self) -> Option<Term> {
        if self.eat(b'~') {
            return Some(Term::Complement(Box::new(self.part()?)));
        }
        if let Some(actions) = self.bracket()? {
            return Some(Term::Regression(Box::new(self.part()?), actions));
        }
        let inner = if self.eat(b'(') {
            let inner = self.whole()?;
            self.eat(b')').then_some(inner)?
        } else {
            self.letter()?
        };
        Some(match self.bracket()? {
            Some(actions) => Term::Progression(Box::new(inner), actions),
            None => inner,
        })
    }

    /// An action term in square brackets, if one begins here.
    fn bracket(&mut self) -> Option<Option<ActionTerm>> {
        if !self.eat(b'[') {
            return Some(None);
        }
        let from = self.at;
        let length = self.text[from..].iter().position(|b| *b == b']')?;
        self.at = from + length + 1;
        let inside = std::str::from_utf8(&self.text[from..from + length]).ok()?;
        action_term(inside).map(Some)
    }

    fn letter(&mut self) -> Option<Term> {
        let byte = *self.text.get(self.at)?;
        self.at += 1;
        match byte {
            b'0' => Some(Term::Empty),
            b'I' => Some(Term::Init),
            b'G' => Some(Term::Goal),
            b'A'..=b'Z' => Some(Term::Letter(byte)),
            _ => None,
        }
    }
}

fn bind(letters: &mut Letters, letter: u8, entry: u16) -> bool {
    *letters[letter as usize].get_or_insert(entry) == entry
}

/// A number that the file does not have is of no kind, and a letter may stand for it.
fn match_actions(file: &File, term: &ActionTerm, entry: u16, letters: &mut Letters) -> bool {
    if let ActionTerm::Letter(letter) = term {
        return bind(letters, *letter, entry);
    }
    let Some(set) = file.action_sets.get(entry as usize) else { return false };
    match (term, set.kind) {
        (ActionTerm::All, kind) => kind == ActionSetKind::All,
        (ActionTerm::Union(s, t), ActionSetKind::Union(a, b)) => {
            match_actions(file, s, a, letters) && match_actions(file, t, b, letters)
        }
        _ => false,
    }
}

/// As above.
fn match_term(file: &File, term: &Term, entry: u16, letters: &mut Letters) -> bool {
    if let Term::Letter(letter) = term {
        return bind(letters, *letter, entry);
    }
    let Some(set) = file.state_sets.get(entry as usize) else { return false };
    match (term, *set) {
        (Term::Empty, StateSet::Empty) => true,
        (Term::Init, StateSet::Init) => true,
        (Term::Goal, StateSet::Goal) => true,
        (Term::Complement(s), StateSet::Complement(a)) => match_term(file, s, a, letters),
        (Term::Intersection(s, u), StateSet::Intersection(a, b))
        | (Term::Union(s, u), StateSet::Union(a, b)) => {
            match_term(file, s, a, letters) && match_term(file, u, b, letters)
        }
        (Term::Progression(s, t), StateSet::Progression(a, b))
        | (Term::Regression(s, t), StateSet::Regression(a, b)) => {
            match_term(file, s, a, letters) && match_actions(file, t, b, letters)
        }
        _ => false,
    }
}

/// Whether a judgement matches the claim, binding its letters.
pub fn match_claim(file: &File, claim: &Claim, found: Judgement, letters: &mut Letters) -> bool {
    match (claim, found) {
        (Claim::Dead(s), Judgement::Dead(a)) => match_term(file, s, a, letters),
        (Claim::Within(s, u), Judgement::Within(a, b)) => {
            match_term(file, s, a, letters) && match_term(file, u, b, letters)
        }
        (Claim::ActionsWithin(s, u), Judgement::ActionsWithin(a, b)) => {
            match_actions(file, s, a, letters) && match_actions(file, u, b, letters)
        }
        (Claim::Unsolvable, Judgement::Unsolvable) => true,
        _ => false,
    }
}
