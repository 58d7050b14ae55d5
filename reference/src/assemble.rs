//! Reads the text form to a draft and the names it gives. Entries, actions and steps must be
//! numbered in turn; apart from that any value that fits its field is taken, lawful or not.
//! A name can be used from its line on.

use std::ops::RangeInclusive;

use crate::draft::{Draft, DraftActions, DraftSet};
use crate::file::{Clause, Step};
use crate::names::{fact_number, has_form, Names};
use crate::rules;
use crate::task::Action;
use crate::version::Places;

/// The bytes of a text, or what is wrong with it and in which line.
pub fn assemble(text: &str) -> Result<Vec<u8>, String> {
    Ok(parse(text)?.encode())
}

/// The draft of a text.
pub fn parse(text: &str) -> Result<Draft, String> {
    Ok(parse_named(text)?.0)
}

/// The draft of a text, and the names of its facts and actions.
pub fn parse_named(text: &str) -> Result<(Draft, Names), String> {
    let (mut draft, mut names) = (Draft::default(), Names::default());
    let [mut unknown, mut off] = [None; 2];
    for (line, number) in text.lines().zip(1..) {
        let line = line.split('#').next().unwrap_or("");
        let words = tokens(line);
        if !words.is_empty() {
            let mut line = Line { words: &words, at: 0, names: &mut names };
            line.read(&mut draft).map_err(|why| format!("line {number}: {why}"))?;
        }
        // Neither word can be a name.
        let has = |word: &str| words.iter().any(|other| other == word);
        unknown = unknown.or(has("unknown").then_some(number));
        off = off.or(has("off").then_some(number));
    }
    check_version(draft.version, unknown, off)?;
    Ok((draft, names))
}

/// Masks are for versions that have them: the first lines with unknown facts and with facts needed off, where there are any.
fn check_version(version: u8, unknown: Option<usize>, off: Option<usize>) -> Result<(), String> {
    let places = Places::of(version);
    let lacks = |line, what: &str| Err(format!("line {line}: version {version} has no {what}"));
    match (unknown, off) {
        (Some(line), _) if places.unknown.is_none() => lacks(line, "unknown facts; 'version 2' has"),
        (_, Some(line)) if !places.has_off() => lacks(line, "facts that are needed off; 'version 3' has"),
        _ => Ok(()),
    }
}

/// Words; brackets, braces and signs stand alone, but within parentheses a sign belongs
/// to the fact after it.
fn tokens(line: &str) -> Vec<String> {
    let mut words: Vec<String> = Vec::new();
    let mut clause = false;
    let mut open = false;
    for c in line.chars() {
        clause = (clause || c == '(') && c != ')';
        let alone = "{}()[]=&~<".contains(c) || (c == '+' && !clause);
        if c.is_whitespace() {
            open = false;
        } else if alone || !open {
            words.push(c.to_string());
            open = !alone;
        } else if let Some(word) = words.last_mut() {
            word.push(c);
        }
    }
    words
}

/// A number, decimal or hexadecimal.
fn value(word: &str) -> Option<u64> {
    match word.strip_prefix("0x") {
        Some(digits) => u64::from_str_radix(digits, 16).ok(),
        None => word.parse().ok(),
    }
}

/// The numbers from the first to the last, of which an entry's length allows 8,191.
fn range(first: &str, last: &str) -> Option<RangeInclusive<u64>> {
    let (first, last) = (value(first)?, value(last)?);
    last.checked_sub(first).is_some_and(|more| more < 8191).then_some(first..=last)
}

type Parsed<T> = Result<T, String>;

struct Line<'a> {
    words: &'a [String],
    at: usize,
    /// The names of this line and those before it.
    names: &'a mut Names,
}

impl<'a> Line<'a> {
    fn read(&mut self, draft: &mut Draft) -> Parsed<()> {
        match self.word()? {
            "version" => draft.version = self.number("version")?,
            "facts" => draft.facts = self.number("fact count")?,
            "fact" => self.fact_name()?,
            "init" => draft.init = self.mask()?,
            "unknown" => draft.unknown = self.mask()?,
            "goal" => (draft.goal, draft.goal_off) = (self.mask()?, self.off()?),
            "action" => {
                let number = self.in_turn(draft.actions.len())?;
                draft.actions.push(self.action(number)?);
            }
            "actions" => {
                self.in_turn(draft.action_sets.len())?;
                draft.action_sets.push(self.action_set()?);
            }
            "set" => {
                self.in_turn(draft.state_sets.len())?;
                draft.state_sets.push(self.state_set()?);
            }
            "step" => {
                self.in_turn(draft.steps.len())?;
                draft.steps.push(self.step()?);
            }
            other => return Err(format!("unknown line '{other}'")),
        }
        match self.peek() {
            None => Ok(()),
            Some(word) => Err(format!("'{word}' is too much")),
        }
    }

    fn peek(&self) -> Option<&'a str> {
        self.words.get(self.at).map(|word| word.as_str())
    }

    fn word(&mut self) -> Parsed<&'a str> {
        let word = self.peek().ok_or("the line ends too early")?;
        self.at += 1;
        Ok(word)
    }

    fn expect(&mut self, wanted: &str) -> Parsed<()> {
        let word = self.word()?;
        if word == wanted {
            Ok(())
        } else {
            Err(format!("'{wanted}' expected, not '{word}'"))
        }
    }

    /// A number that fits its field.
    fn number<T: TryFrom<u64>>(&mut self, what: &str) -> Parsed<T> {
        let word = self.word()?;
        let fitting = value(word).and_then(|value| T::try_from(value).ok());
        fitting.ok_or(format!("'{word}' is no {what}"))
    }

    fn in_turn(&mut self, next: usize) -> Parsed<usize> {
        let number: usize = self.number("number")?;
        if number == next {
            Ok(number)
        } else {
            Err(format!("number {next} is next, not {number}"))
        }
    }

    fn fact_name(&mut self) -> Parsed<()> {
        let (fact, name) = (fact_number(self.word()?)?, self.word()?);
        self.names.name_fact(fact, name)
    }

    /// The bit of a fact, given by its number or name.
    fn fact(&self, word: &str) -> Parsed<u64> {
        let fact = match has_form(word) {
            true => self.names.fact_named(word).ok_or(format!("no line above names a fact '{word}'"))?,
            false => fact_number(word)?,
        };
        Ok(1 << fact)
    }

    /// A list of facts in braces, or a number.
    fn mask(&mut self) -> Parsed<u64> {
        if self.peek() != Some("{") {
            return self.number("mask");
        }
        self.at += 1;
        let mut mask = 0;
        loop {
            match self.word()? {
                "}" => return Ok(mask),
                fact => mask |= self.fact(fact)?,
            }
        }
    }

    /// The facts that are needed off, none where the line does not say.
    fn off(&mut self) -> Parsed<u64> {
        match self.peek() {
            Some("off") => {
                self.at += 1;
                self.mask()
            }
            _ => Ok(0),
        }
    }

    /// An action, its name first where it has one.
    fn action(&mut self, number: usize) -> Parsed<Action> {
        if self.peek() != Some("pre") {
            let number = u16::try_from(number).map_err(|_| "an action above 65535 has no name")?;
            let name = self.word()?;
            self.names.name_action(number, name)?;
        }
        self.expect("pre")?;
        let pre = self.mask()?;
        self.expect("add")?;
        let add = self.mask()?;
        self.expect("del")?;
        Ok(Action { pre, add, del: self.mask()?, off: self.off()? })
    }

    /// Actions up to the end of the line, given by their numbers or names.
    fn actions(&mut self) -> Parsed<Vec<u16>> {
        let mut list = Vec::new();
        while let Some(word) = self.peek() {
            if has_form(word) {
                self.at += 1;
                let action = self.names.action_named(word);
                list.push(action.ok_or(format!("no line above names an action '{word}'"))?);
            } else {
                list.push(self.number("action number")?);
            }
        }
        Ok(list)
    }

    /// States up to the end of the line: numbers, lists of facts, and ranges `A..B` to which
    /// both ends belong.
    fn states(&mut self) -> Parsed<Vec<u64>> {
        let mut list = Vec::new();
        while let Some(word) = self.peek() {
            match word.split_once("..") {
                None if word == "{" => list.push(self.mask()?),
                None => list.push(self.number("state")?),
                Some((first, last)) => {
                    self.at += 1;
                    list.extend(range(first, last).ok_or(format!("'{word}' is no range of states"))?);
                }
            }
        }
        Ok(list)
    }

    fn action_set(&mut self) -> Parsed<DraftActions> {
        match self.word()? {
            "all" => Ok(DraftActions::All),
            "list" => Ok(DraftActions::List(self.actions()?)),
            "=" => {
                let a = self.number("entry number")?;
                self.expect("+")?;
                Ok(DraftActions::Union(a, self.number("entry number")?))
            }
            other => Err(format!("unknown action set '{other}'")),
        }
    }

    fn state_set(&mut self) -> Parsed<DraftSet> {
        match self.word()? {
            "empty" => Ok(DraftSet::Empty),
            "init" => Ok(DraftSet::Init),
            "goal" => Ok(DraftSet::Goal),
            "explicit" => Ok(DraftSet::Explicit(self.states()?)),
            "horn" => Ok(DraftSet::Horn(self.clauses()?)),
            "twocnf" => Ok(DraftSet::TwoCnf(self.clauses()?)),
            "=" => self.compound(),
            other => Err(format!("unknown state set '{other}'")),
        }
    }

    fn clauses(&mut self) -> Parsed<Vec<Clause>> {
        let mut list = Vec::new();
        while self.peek().is_some() {
            self.expect("(")?;
            let mut clause = Clause::default();
            loop {
                let word = self.word()?;
                if word == ")" {
                    break;
                } else if let Some(fact) = word.strip_prefix('+') {
                    clause.positive |= self.fact(fact)?;
                } else if let Some(fact) = word.strip_prefix('-') {
                    clause.negative |= self.fact(fact)?;
                } else {
                    return Err(format!("'{word}' is no literal"));
                }
            }
            list.push(clause);
        }
        Ok(list)
    }

    fn compound(&mut self) -> Parsed<DraftSet> {
        let entry = "entry number";
        match self.peek() {
            Some("~") => {
                self.at += 1;
                return Ok(DraftSet::Complement(self.number(entry)?));
            }
            Some("[") => {
                self.at += 1;
                let actions = self.number(entry)?;
                self.expect("]")?;
                return Ok(DraftSet::Regression(self.number(entry)?, actions));
            }
            _ => (),
        }
        let first = self.number(entry)?;
        let sign = self.word()?;
        let second = self.number(entry)?;
        match sign {
            "&" => Ok(DraftSet::Intersection(first, second)),
            "+" => Ok(DraftSet::Union(first, second)),
            "[" => {
                self.expect("]")?;
                Ok(DraftSet::Progression(first, second))
            }
            other => Err(format!("unknown sign '{other}'")),
        }
    }

    fn step(&mut self) -> Parsed<Step> {
        let name = self.word()?;
        if name == "raw" {
            return self.raw_step();
        }
        let rule = rules::by_name(name).ok_or(format!("unknown rule '{name}'"))?;
        let mut step = Step { rule: rule.number, kind: rule.judgement, ..Step::default() };
        match rule.judgement {
            0 => {
                self.expect("dead")?;
                step.entries[0] = self.number("entry number")?;
            }
            1 => self.within(&mut step)?,
            2 => {
                self.expect("actions")?;
                self.within(&mut step)?;
            }
            _ => self.expect("unsolvable")?,
        }
        if rule.premises > 0 {
            self.expect("by")?;
        }
        for k in 0..rule.premises as usize {
            step.premises[k] = self.number("step number")?;
        }
        Ok(step)
    }

    fn within(&mut self, step: &mut Step) -> Parsed<()> {
        step.entries[0] = self.number("entry number")?;
        self.expect("<")?;
        step.entries[1] = self.number("entry number")?;
        Ok(())
    }

    fn raw_step(&mut self) -> Parsed<Step> {
        let (rule, kind) = (self.number("rule")?, self.number("judgement kind")?);
        let mut places = [0; 5];
        for place in &mut places {
            *place = self.number("number")?;
        }
        let [e, f, p, q, r] = places;
        Ok(Step { rule, kind, entries: [e, f], premises: [p, q, r] })
    }
}
