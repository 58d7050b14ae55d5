//! Entries in words for the labels of a derivation: `set 3 [all]`, `set 3 & goal`. What a step names is unfolded to a
//! small depth; a set that is left as its number is explained in the caption.

use std::collections::BTreeSet;

use crate::draft::{Draft, DraftActions, DraftSet};
use crate::file::{ActionSetKind, File, StateSet};
use crate::names::Names;
use crate::show;

/// How deep an entry is unfolded: at most eight sets are named then.
const DEPTH: usize = 3;

/// The most characters of a list in the caption.
const WIDTH: usize = 72;

/// The words for a file's entries, and the entries that they leave as numbers.
pub struct Entries<'a> {
    file: &'a File,
    draft: Draft,
    names: &'a Names,
    sets: BTreeSet<u16>,
    action_sets: BTreeSet<u16>,
}

impl<'a> Entries<'a> {
    pub fn of(file: &'a File, names: &'a Names) -> Entries<'a> {
        let (sets, action_sets) = (BTreeSet::new(), BTreeSet::new());
        Entries { file, draft: Draft::of(file), names, sets, action_sets }
    }

    /// A state set in words.
    pub fn set(&mut self, entry: u16) -> String {
        self.unfolded(entry, DEPTH)
    }

    /// An action set in words.
    pub fn actions(&mut self, entry: u16) -> String {
        match self.file.action_sets.get(entry as usize).map(|set| set.kind) {
            Some(ActionSetKind::All) => "all".into(),
            _ => {
                self.action_sets.insert(entry);
                format!("actions {entry}")
            }
        }
    }

    fn unfolded(&mut self, entry: u16, depth: usize) -> String {
        use StateSet::*;
        match self.file.state_sets.get(entry as usize) {
            Some(Empty) => "empty".into(),
            Some(Init) => "init".into(),
            Some(Goal) => "goal".into(),
            Some(set) if depth > 0 && !matches!(set, Explicit(_) | Horn(_) | TwoCnf(_)) => {
                self.compound(*set, depth - 1)
            }
            _ => {
                self.sets.insert(entry);
                format!("set {entry}")
            }
        }
    }

    fn compound(&mut self, set: StateSet, depth: usize) -> String {
        match set {
            StateSet::Complement(s) => format!("~ {}", self.part(s, depth)),
            StateSet::Intersection(s, u) => format!("{} & {}", self.part(s, depth), self.part(u, depth)),
            StateSet::Union(s, u) => format!("{} + {}", self.part(s, depth), self.part(u, depth)),
            StateSet::Progression(s, a) => format!("{} [{}]", self.part(s, depth), self.actions(a)),
            StateSet::Regression(s, a) => format!("[{}] {}", self.actions(a), self.part(s, depth)),
            _ => String::new(),
        }
    }

    /// A part of a compound set, in parentheses where it is a compound itself.
    fn part(&mut self, entry: u16, depth: usize) -> String {
        let words = self.unfolded(entry, depth);
        let single = ["empty", "init", "goal"].contains(&words.as_str()) || words == format!("set {entry}");
        if single {
            words
        } else {
            format!("({words})")
        }
    }

    /// A line for each entry that was left as its number, those named in these lines among them.
    pub fn explained(mut self) -> Vec<String> {
        let sets = self.explained_sets();
        [sets, self.explained_actions()].concat()
    }

    /// References name earlier entries, so going down meets each entry after all that name it.
    fn explained_sets(&mut self) -> Vec<String> {
        let mut lines = Vec::new();
        while let Some(entry) = self.sets.pop_last() {
            let Some(set) = self.draft.state_sets.get(entry as usize) else { continue };
            let words = show::state_set(set, self.names, show::ALL);
            let words = match set {
                DraftSet::Explicit(states) => shortened(words, states.len(), "states"),
                DraftSet::Horn(list) | DraftSet::TwoCnf(list) => shortened(words, list.len(), "clauses"),
                _ => self.compound(self.file.state_sets[entry as usize], 0),
            };
            lines.push(format!("set {entry}: {words}"));
        }
        lines.reverse();
        lines
    }

    fn explained_actions(&mut self) -> Vec<String> {
        let mut lines = Vec::new();
        while let Some(entry) = self.action_sets.pop_last() {
            let Some(set) = self.draft.action_sets.get(entry as usize) else { continue };
            let words = show::action_set(set, self.names, show::ALL);
            let words = match *set {
                DraftActions::Union(a, b) => format!("{} + {}", self.actions(a), self.actions(b)),
                DraftActions::List(ref list) => shortened(words, list.len(), "actions"),
                DraftActions::All => words,
            };
            lines.push(format!("actions {entry}: {words}"));
        }
        lines.reverse();
        lines
    }
}

/// The list, cut between two words where it is too long, and then with the number of all its items.
fn shortened(list: String, count: usize, items: &str) -> String {
    if list.len() <= WIDTH {
        return list;
    }
    let end = list[..WIDTH].rfind(' ').unwrap_or(WIDTH);
    format!("{} .. ({count} {items})", &list[..end])
}
