//! Names that a person gives to facts and actions. They are for reading alone: no byte of a file depends on them.
//! A file of names has lines `fact 0 charge_closed` and `action 0 close_charge`; `#` begins a comment.

use std::collections::BTreeMap;
use std::fmt;

use crate::task::Task;

/// The words of the text form, which cannot be names. Rule names are none of them: they never stand where a name may.
const KEYWORDS: [&str; 24] = [
    "version",
    "facts",
    "fact",
    "init",
    "unknown",
    "goal",
    "action",
    "actions",
    "set",
    "step",
    "pre",
    "add",
    "del",
    "off",
    "all",
    "list",
    "empty",
    "explicit",
    "horn",
    "twocnf",
    "raw",
    "dead",
    "unsolvable",
    "by",
];

/// The names of some facts and actions; a number without a name stands for itself.
#[derive(Clone, Debug, Default, PartialEq, Eq)]
pub struct Names {
    pub facts: BTreeMap<u32, String>,
    pub actions: BTreeMap<u16, String>,
}

impl Names {
    pub fn fact(&self, fact: u32) -> String {
        self.facts.get(&fact).cloned().unwrap_or_else(|| fact.to_string())
    }

    pub fn action(&self, action: u16) -> String {
        self.actions.get(&action).cloned().unwrap_or_else(|| action.to_string())
    }

    /// A mask or a state as the list of its facts, `{charge_closed 1}`.
    pub fn facts_of(&self, mask: u64) -> String {
        let facts = (0..64).filter(|f| mask >> f & 1 == 1);
        format!("{{{}}}", facts.map(|f| self.fact(f)).collect::<Vec<_>>().join(" "))
    }

    /// Facts on and facts off, as far as there are any, `{charge_closed} on and {1} off`.
    pub fn on_and_off(&self, on: u64, off: u64) -> String {
        let parts = [(on, "on"), (off, "off")].into_iter().filter(|(facts, _)| *facts != 0);
        let parts = parts.map(|(facts, word)| format!("{} {word}", self.facts_of(facts)));
        parts.collect::<Vec<_>>().join(" and ")
    }

    /// What a goal state has on and off; where it wants no fact, `{} on`.
    pub fn goal(&self, on: u64, off: u64) -> String {
        match on | off {
            0 => "{} on".into(),
            _ if on & off != 0 => format!("{}, which no state has", self.on_and_off(on, off)),
            _ => self.on_and_off(on, off),
        }
    }

    /// The fact of a name.
    pub fn fact_named(&self, name: &str) -> Option<u32> {
        self.facts.iter().find(|(_, given)| *given == name).map(|(fact, _)| *fact)
    }

    /// The action of a name.
    pub fn action_named(&self, name: &str) -> Option<u16> {
        self.actions.iter().find(|(_, given)| *given == name).map(|(action, _)| *action)
    }

    /// Names a fact that has no name yet.
    pub fn name_fact(&mut self, fact: u32, name: &str) -> Result<(), String> {
        self.check(name)?;
        match self.facts.insert(fact, name.to_string()) {
            None => Ok(()),
            Some(old) => Err(format!("fact {fact} is already named '{old}'")),
        }
    }

    /// Names an action that has no name yet.
    pub fn name_action(&mut self, action: u16, name: &str) -> Result<(), String> {
        self.check(name)?;
        match self.actions.insert(action, name.to_string()) {
            None => Ok(()),
            Some(old) => Err(format!("action {action} is already named '{old}'")),
        }
    }

    /// Whether the word has a name's form and stands for no other fact or action.
    fn check(&self, name: &str) -> Result<(), String> {
        if !has_form(name) {
            return Err(format!(
                "'{name}' is no name: it takes letters, digits and _, and no digit at first"
            ));
        }
        if KEYWORDS.contains(&name) {
            return Err(format!("'{name}' is a word of the text form and no name"));
        }
        match (self.fact_named(name), self.action_named(name)) {
            (Some(fact), _) => Err(format!("'{name}' is already the name of fact {fact}")),
            (_, Some(action)) => Err(format!("'{name}' is already the name of action {action}")),
            _ => Ok(()),
        }
    }

    /// Reads a file of names; an error says its line.
    pub fn parse(text: &str) -> Result<Names, String> {
        let mut names = Names::default();
        for (number, line) in text.lines().enumerate() {
            let words: Vec<&str> = line.split('#').next().unwrap_or("").split_whitespace().collect();
            names.read_line(&words).map_err(|why| format!("line {}: {why}", number + 1))?;
        }
        Ok(names)
    }

    fn read_line(&mut self, words: &[&str]) -> Result<(), String> {
        match words {
            [] => Ok(()),
            ["fact", fact, name] => self.name_fact(fact_number(fact)?, name),
            ["action", action, name] => {
                let number = action.parse().map_err(|_| format!("'{action}' is no action number"));
                self.name_action(number?, name)
            }
            _ => Err("'fact NUMBER NAME' or 'action NUMBER NAME' expected".into()),
        }
    }

    /// Names that a task has no fact or action for are of another task: the error says which.
    pub fn fit(&self, task: &Task) -> Result<(), String> {
        let (facts, actions) = (task.facts as u32, task.actions.len());
        if let Some((fact, name)) = self.facts.iter().find(|(fact, _)| **fact >= facts) {
            return Err(format!("'{name}' names fact {fact}, but the task has {facts} facts"));
        }
        match self.actions.iter().find(|(action, _)| **action as usize >= actions) {
            None => Ok(()),
            Some((action, name)) => {
                Err(format!("'{name}' names action {action}, but the task has {actions} actions"))
            }
        }
    }
}

/// The names as a file of names.
impl fmt::Display for Names {
    fn fmt(&self, f: &mut fmt::Formatter) -> fmt::Result {
        self.facts.iter().try_for_each(|(fact, name)| writeln!(f, "fact {fact} {name}"))?;
        self.actions.iter().try_for_each(|(action, name)| writeln!(f, "action {action} {name}"))
    }
}

/// Whether a word can be told from numbers and signs: a letter or _, then letters, digits and _.
pub fn has_form(word: &str) -> bool {
    word.chars().all(|c| c.is_ascii_alphanumeric() || c == '_')
        && word.chars().next().is_some_and(|c| !c.is_ascii_digit())
}

/// The number of a fact, below 64.
pub fn fact_number(word: &str) -> Result<u32, String> {
    let number = word.parse().ok().filter(|fact| *fact < 64);
    number.ok_or(format!("'{word}' is no fact below 64"))
}
