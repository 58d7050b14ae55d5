//! Where a step and its rule part, in words: what was expected and what stands there.

use super::text::{Text, ACTION_SET_KINDS, JUDGEMENTS, STATE_SET_KINDS};
use crate::explain::pattern::{Entry, MatchFault, Met, Mismatch, Part, Role, Wanted};
use crate::file::{Judgement, Step};

/// The difference in lines.
pub fn words(text: &Text, step: &Step, found: &Mismatch) -> Vec<String> {
    let mut lines = stands_there(text, step, found);
    lines.extend(match &found.fault {
        MatchFault::Judgement { wanted, found } => judgement_words(*wanted, *found),
        MatchFault::Kind { wanted, found } => kind_words(text, wanted, *found),
        MatchFault::Letter { letter, first, second } => letter_words(text, *letter, *first, *second),
    });
    if !found.letters.is_empty() {
        let letters = found.letters.iter().map(|(letter, met)| format!("{letter} = {}", number(met.entry)));
        lines.push(format!("Letters before that: {}.", letters.collect::<Vec<_>>().join(", ")));
    }
    lines
}

/// What the rule has as premise or conclusion, and the judgement that stands there, with its sets.
fn stands_there(text: &Text, step: &Step, found: &Mismatch) -> Vec<String> {
    let (head, step) = match found.part {
        Part::Conclusion => ("The conclusion, this step itself,".to_string(), step),
        Part::Premise(k) => {
            let premise = step.premises[k as usize - 1] as usize;
            (format!("Premise {k}, {},", text.step(premise)), &text.draft.steps[premise])
        }
    };
    let [e, f] = step.entries;
    let sets = match step.judgement() {
        Some(Judgement::Dead(_)) => vec![text.set(e)],
        Some(Judgement::Within(..)) => vec![text.set(e), text.set(f)],
        Some(Judgement::ActionsWithin(..)) => vec![text.actions(e), text.actions(f)],
        Some(Judgement::Unsolvable) | None => Vec::new(),
    };
    let sets = sets.iter().map(|set| format!("  {set}"));
    [format!("{head} does not match {}:", found.claim)].into_iter().chain(sets).collect()
}

fn judgement_words(wanted: u8, found: u8) -> Vec<String> {
    let told = |kind: u8| format!("\"{}\" (judgement kind {kind})", JUDGEMENTS[kind as usize]);
    vec![format!("Expected: {}.", told(wanted)), format!("There stands: {}.", told(found))]
}

fn kind_words(text: &Text, wanted: &Wanted, found: Met) -> Vec<String> {
    let (wanted_kind, kind) = match found.entry {
        Entry::States(e) => (STATE_SET_KINDS[wanted.kind as usize], text.set_kind(e)),
        Entry::Actions(e) => (ACTION_SET_KINDS[wanted.kind as usize], text.actions_kind(e)),
    };
    let expected = format!("{}, {wanted_kind} (kind {})", wanted.term, wanted.kind);
    let mut lines = vec![
        format!("Expected as {}: {expected}.", role_name(found.role)),
        format!("There stands: {}, {kind}.", entry_text(text, found.entry)),
    ];
    if wanted.term == "T" {
        lines.push("T matches by kind: a list or a union does not do, even of all actions.".into());
    }
    lines
}

fn letter_words(text: &Text, letter: char, first: Met, second: Met) -> Vec<String> {
    let from = match first.part {
        Part::Premise(k) => format!("{}, in premise {k}", role_name(first.role)),
        Part::Conclusion => format!("{}, in the conclusion", role_name(first.role)),
    };
    let already = entry_text(text, first.entry);
    vec![
        format!("Expected as {}: {letter}, which is {already} ({from}).", role_name(second.role)),
        format!("There stands: {}.", entry_text(text, second.entry)),
        one_number(text, first.entry, second.entry),
    ]
}

/// Why two entries are not one, though their content may be the same.
fn one_number(text: &Text, first: Entry, second: Entry) -> String {
    let alike = match (first, second) {
        (Entry::States(a), Entry::States(b)) => {
            text.draft.state_sets[a as usize] == text.draft.state_sets[b as usize]
        }
        (Entry::Actions(a), Entry::Actions(b)) => {
            text.draft.action_sets[a as usize] == text.draft.action_sets[b as usize]
        }
        (Entry::States(_), Entry::Actions(_)) | (Entry::Actions(_), Entry::States(_)) => false,
    };
    let but = if alike { "; that both have the same content does not help" } else { "" };
    format!("A letter is one entry number throughout{but}.")
}

fn number(entry: Entry) -> String {
    match entry {
        Entry::States(e) => format!("set {e}"),
        Entry::Actions(e) => format!("actions {e}"),
    }
}

fn entry_text(text: &Text, entry: Entry) -> String {
    match entry {
        Entry::States(e) => text.set(e),
        Entry::Actions(e) => text.actions(e),
    }
}

/// Where an entry stands, in words.
fn role_name(role: Role) -> String {
    match role {
        Role::Dead => "the dead set".into(),
        Role::Left => "the left side".into(),
        Role::Right => "the right side".into(),
        Role::First(of) => format!("the first part of {}", number(of)),
        Role::Second(of) => format!("the second part of {}", number(of)),
        Role::Complemented(of) => format!("what set {of} complements"),
        Role::StatesOf(of) => format!("the states of set {of}"),
        Role::ActionsOf(of) => format!("the actions of set {of}"),
    }
}
