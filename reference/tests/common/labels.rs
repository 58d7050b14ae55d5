//! What the labels and the caption of a derivation's graph say, against the bytes of the steps and the entries of the file.

use std::collections::BTreeSet;

use reference::draft::{Draft, DraftActions, DraftSet};
use reference::names::Names;
use reference::show::{action_set, state_set, ALL};
use reference::Reply;

use super::dot::Graph;
use super::signature;

/// A step's twelve bytes.
pub struct StepBytes {
    pub rule: u8,
    pub kind: u8,
    pub entries: [usize; 2],
    pub premises: Vec<usize>,
}

/// The steps from the end of the file's bytes, where they stand.
pub fn steps_of(bytes: &[u8], count: usize) -> Vec<StepBytes> {
    let number = |pair: &[u8]| pair[0] as usize * 256 + pair[1] as usize;
    let steps = bytes[bytes.len() - 12 * count..].chunks(12).map(|step| {
        let used = signature(step[0]).filter(|_| step[0] > 0).map_or(0, |(premises, _)| premises);
        StepBytes {
            rule: step[0],
            kind: step[1],
            entries: [number(&step[2..4]), number(&step[4..6])],
            premises: (0..used).map(|k| number(&step[6 + 2 * k..])).filter(|p| *p < count).collect(),
        }
    });
    steps.collect()
}

/// Number and rule, the judgement with its entries, and the refusal.
pub fn check_label(draft: &Draft, step: &StepBytes, k: usize, lines: &[String], refusal: Option<Reply>) {
    let rule =
        reference::rules::by_number(step.rule).map_or(format!("rule {}", step.rule), |r| r.name.into());
    assert_eq!(lines[0], format!("{k} {rule}"));
    let mut said = lines[1..].join(" ");
    if let Some(Reply::Refused { number, .. }) = refusal {
        said = said.strip_suffix(&format!(" refused {number}")).expect("the refusal").to_string();
    }
    let [e, f] = step.entries;
    match step.kind {
        0 => assert!(is_set(draft, said.strip_suffix(" is dead").expect("a judgement"), e), "{said}"),
        1 | 2 => {
            let (left, right) = said.split_once(" is within ").expect("a judgement");
            let same = if step.kind == 1 { is_set } else { is_actions };
            assert!(same(draft, left, e) && same(draft, right, f), "{said}");
        }
        3 => assert_eq!(said, "unsolvable"),
        kind => assert_eq!(said, format!("judgement kind {kind}")),
    }
}

fn is_actions(draft: &Draft, words: &str, entry: usize) -> bool {
    match draft.action_sets.get(entry) {
        Some(DraftActions::All) => words == "all",
        _ => words == format!("actions {entry}"),
    }
}

/// Whether the words unfold the entry: by its number, or by its kind and parts.
fn is_set(draft: &Draft, words: &str, entry: usize) -> bool {
    let number = words == format!("set {entry}");
    let Some(set) = draft.state_sets.get(entry) else { return number };
    match set {
        DraftSet::Empty => words == "empty",
        DraftSet::Init => words == "init",
        DraftSet::Goal => words == "goal",
        DraftSet::Explicit(_) | DraftSet::Horn(_) | DraftSet::TwoCnf(_) => number,
        compound => number || is_compound(draft, words, compound),
    }
}

/// Whether the words unfold a compound set, its compound parts in parentheses.
fn is_compound(draft: &Draft, words: &str, set: &DraftSet) -> bool {
    let part = |words: &str, entry: u16| match words.strip_prefix('(').and_then(|w| w.strip_suffix(')')) {
        Some(inner) => is_compound(draft, inner, &draft.state_sets[entry as usize]),
        None => !words.contains(['~', '&', '+', '[']) && is_set(draft, words, entry as usize),
    };
    let actions = |words: &str, entry: u16| is_actions(draft, words, entry as usize);
    let two = |sign: &str, s: u16, u: u16| {
        let places = words.match_indices(sign).map(|(at, _)| (&words[..at], &words[at + 3..]));
        places.into_iter().any(|(left, right)| part(left, s) && part(right, u))
    };
    match set {
        DraftSet::Complement(s) => words.strip_prefix("~ ").is_some_and(|rest| part(rest, *s)),
        DraftSet::Intersection(s, u) => two(" & ", *s, *u),
        DraftSet::Union(s, u) => two(" + ", *s, *u),
        DraftSet::Progression(s, a) => {
            let split = words.strip_suffix(']').and_then(|words| words.rsplit_once(" ["));
            split.is_some_and(|(set, list)| part(set, *s) && actions(list, *a))
        }
        DraftSet::Regression(s, a) => {
            let split = words.strip_prefix('[').and_then(|words| words.split_once("] "));
            split.is_some_and(|(list, set)| part(set, *s) && actions(list, *a))
        }
        _ => false,
    }
}

/// The numbers after a word that stands in a text, `set 3` or `actions 3`.
fn mentioned(text: &str, word: &str) -> BTreeSet<usize> {
    let words: Vec<&str> = text.split([' ', '(', ')', '[', ']']).collect();
    let pairs = words.windows(2).filter(|pair| pair[0] == word);
    pairs.filter_map(|pair| pair[1].trim_end_matches(':').parse().ok()).collect()
}

/// The caption has the reply, and says what each set is that is named by its number, itself too.
pub fn check_caption(draft: &Draft, names: &Names, graph: &Graph, reply: Reply) {
    let reply = reply.to_string().split(' ').take(2).collect::<Vec<&str>>().join(" ");
    assert!(graph.caption[0].starts_with(&reply), "{:?}", graph.caption);
    let lines = &graph.caption[2..];
    let mut text: Vec<String> = graph.nodes.values().map(|(lines, _)| lines[1..].join(" ")).collect();
    text.extend(lines.iter().cloned());
    let text = text.join(" ; ");
    let (sets, action_sets) = (mentioned(&text, "set"), mentioned(&text, "actions"));
    let in_file = |numbers: BTreeSet<usize>, most: usize| numbers.into_iter().filter(move |n| *n < most);
    let sets = in_file(sets, draft.state_sets.len()).map(|n| format!("set {n}: "));
    let lists = in_file(action_sets, draft.action_sets.len()).map(|n| format!("actions {n}: "));
    let heads: Vec<String> = sets.chain(lists).collect();
    assert_eq!(heads.len(), lines.len(), "{:?}", graph.caption);
    for (head, line) in heads.iter().zip(lines) {
        let words = line.strip_prefix(head.as_str()).unwrap_or_else(|| panic!("{head}: {line}"));
        let whole = match (mentioned(head, "set").first(), mentioned(head, "actions").first()) {
            (Some(set), _) => explained_set(draft, names, *set, words),
            (_, Some(actions)) => explained_actions(draft, names, *actions, words),
            _ => None,
        };
        let Some((whole, size)) = whole else { continue };
        match words.split_once(" .. (") {
            None => assert_eq!(words, whole),
            Some((cut, rest)) => {
                assert!(whole.len() > 72 && cut.len() > 30 && whole.starts_with(cut), "{line}\n{whole}");
                assert_eq!(rest, format!("{size})"));
            }
        }
    }
}

/// None where the words unfold the set, else the text they have to be or begin, and how much it lists.
fn explained_set(draft: &Draft, names: &Names, entry: usize, words: &str) -> Option<(String, String)> {
    let set = &draft.state_sets[entry];
    let size = match set {
        DraftSet::Explicit(states) => format!("{} states", states.len()),
        DraftSet::Horn(clauses) | DraftSet::TwoCnf(clauses) => format!("{} clauses", clauses.len()),
        _ => String::new(),
    };
    (!is_compound(draft, words, set)).then(|| (state_set(set, names, ALL), size))
}

fn explained_actions(draft: &Draft, names: &Names, entry: usize, words: &str) -> Option<(String, String)> {
    let set = &draft.action_sets[entry];
    let text = action_set(set, names, ALL);
    match (set, words.split_once(" + ")) {
        (DraftActions::Union(a, b), Some((left, right))) => {
            assert!(is_actions(draft, left, *a as usize) && is_actions(draft, right, *b as usize));
            None
        }
        (DraftActions::List(list), _) => Some((text, format!("{} actions", list.len()))),
        _ => Some((text, String::new())),
    }
}
