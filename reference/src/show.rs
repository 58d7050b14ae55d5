//! The readable text form of a file. `assemble` reads it back to the same bytes and names.

use std::fmt::Write;

use crate::draft::{Draft, DraftActions, DraftSet};
use crate::file::{Clause, Step};
use crate::names::Names;
use crate::numbering::{check_steps, Lacked, Numbering};
use crate::task::Action;
use crate::version::Places;
use crate::words::{describe, list_words};
use crate::{layout, rules};

/// The most states of an explicit set that are written as lists of facts, where facts have names.
const MOST_LISTED: usize = 8;

/// As many items of a list as there are: the text is whole.
pub const ALL: usize = usize::MAX;

/// The text of any bytes: the reply as a comment, then the file where its layout is
/// lawful.
pub fn show(bytes: &[u8]) -> String {
    show_named(bytes, &Names::default())
}

/// The same with names for facts and actions.
pub fn show_named(bytes: &[u8], names: &Names) -> String {
    shown(bytes, None, names)
}

/// The same of a file with a caller's rule numbers: its steps have the rules meant.
pub fn show_numbered(bytes: &[u8], numbers: &[u8], names: &Names) -> String {
    match Numbering::of(numbers) {
        Ok(numbering) => shown(bytes, Some(&numbering), names),
        Err(fault) => format!("# {}: {}\n", fault.reply(), list_words(&fault)),
    }
}

fn shown(bytes: &[u8], numbering: Option<&Numbering>, names: &Names) -> String {
    let mut file = match layout::read(bytes) {
        Ok(file) => file,
        Err(fault) => return format!("# {}\n", describe(&fault, None)),
    };
    let lacked = numbering.map_or(Lacked::new(), |numbering| numbering.rewrite(&mut file));
    let reply = match check_steps(&file, &lacked) {
        Ok(()) => "accepted".to_string(),
        Err(fault) => describe(&fault, file.steps.get(fault.place as usize)),
    };
    format!("# {reply}\n{}", whole_text(&Draft::of(&file), &lacked, names))
}

/// The text of a draft.
pub fn text(draft: &Draft) -> String {
    text_named(draft, &Names::default())
}

/// The same with names for facts and actions.
pub fn text_named(draft: &Draft, names: &Names) -> String {
    whole_text(draft, &Lacked::new(), names)
}

fn whole_text(draft: &Draft, lacked: &Lacked, names: &Names) -> String {
    let mut out = String::new();
    // Writing to a string cannot fail.
    let _ = write_task(&mut out, draft, names);
    let _ = write_certificate(&mut out, draft, lacked, names);
    out
}

fn write_task(out: &mut String, draft: &Draft, names: &Names) -> std::fmt::Result {
    let head = head_parts(draft, names).into_iter().map(|(_, part)| part);
    writeln!(out, "{}", head.collect::<String>())?;
    (0..draft.actions.len()).try_for_each(|a| writeln!(out, "{}", action_line(draft, a, names)))
}

fn write_certificate(out: &mut String, draft: &Draft, lacked: &Lacked, names: &Names) -> std::fmt::Result {
    for (e, set) in draft.action_sets.iter().enumerate() {
        writeln!(out, "actions {e} {}", action_set(set, names, ALL))?;
    }
    for (e, set) in draft.state_sets.iter().enumerate() {
        writeln!(out, "set {e} {}", state_set(set, names, ALL))?;
    }
    for (s, step) in draft.steps.iter().enumerate() {
        writeln!(out, "{}", step_line(s, step, lacked))?;
    }
    Ok(())
}

fn joined(items: impl Iterator<Item = String>) -> String {
    items.collect::<Vec<String>>().join(" ")
}

/// The version, where it is not 1, the facts with their names, init, the unknown facts, the goal and its facts that are off, as far as
/// the version has them: each with the name of its field. They are one text; its last line, the goal's, is not ended.
pub fn head_parts(draft: &Draft, names: &Names) -> Vec<(&'static str, String)> {
    let named = names.facts.iter().map(|(fact, name)| format!("fact {fact} {name}\n"));
    let init = if names.facts.is_empty() { state(draft.init) } else { names.facts_of(draft.init) };
    let mut parts = vec![
        ("version", format!("version {}\n", draft.version)),
        ("fact count", format!("facts {}\n{}", draft.facts, named.collect::<String>())),
        ("init", format!("init {init}\n")),
        ("unknown mask", format!("unknown {}\n", names.facts_of(draft.unknown))),
        ("goal", format!("goal {}", names.facts_of(draft.goal))),
        ("goal off mask", format!(" off {}", names.facts_of(draft.goal_off))),
    ];
    let places = Places::of(draft.version);
    parts.retain(|(field, _)| match *field {
        "version" => draft.version != 1,
        "unknown mask" => places.unknown.is_some(),
        "goal off mask" => places.has_off(),
        _ => true,
    });
    parts
}

/// An action by its number and its name, where it has one, `action 1 close_load`.
pub fn action_title(a: usize, names: &Names) -> String {
    let name = u16::try_from(a).ok().and_then(|a| names.actions.get(&a));
    format!("action {a}{}", name.map_or(String::new(), |name| format!(" {name}")))
}

/// An action with the masks that the version has, `action 1 pre {} add {1} del {0} off {2}`.
pub fn action_line(draft: &Draft, a: usize, names: &Names) -> String {
    let Action { pre, add, del, off } = draft.actions[a];
    let masks = Places::of(draft.version).masks.iter().zip([pre, add, del, off]);
    let masks = masks.map(|(name, mask)| format!(" {name} {}", names.facts_of(mask)));
    format!("{}{}", action_title(a, names), masks.collect::<String>())
}

/// A word and the first `most` items of a list; where there are more, how many `things` the list holds.
fn listed(
    word: &str,
    items: impl Iterator<Item = String>,
    most: usize,
    count: usize,
    things: &str,
) -> String {
    let mut items: Vec<String> = items.collect();
    if items.len() > most {
        items.truncate(most);
        items.push(format!("... ({count} {things})"));
    }
    items.insert(0, word.to_string());
    items.join(" ")
}

/// An action set without its number, `list close_charge 1`, with at most so many items of a list.
pub fn action_set(set: &DraftActions, names: &Names, most: usize) -> String {
    match set {
        DraftActions::All => "all".into(),
        DraftActions::List(list) => {
            listed("list", list.iter().map(|a| names.action(*a)), most, list.len(), "actions")
        }
        DraftActions::Union(a, b) => format!("= {a} + {b}"),
    }
}

/// A state set without its number, `horn (+charge_closed -1)`, with at most so many items of a list.
pub fn state_set(set: &DraftSet, names: &Names, most: usize) -> String {
    match set {
        DraftSet::Empty => "empty".into(),
        DraftSet::Init => "init".into(),
        DraftSet::Goal => "goal".into(),
        DraftSet::Explicit(states) if !names.facts.is_empty() && states.len() <= MOST_LISTED => {
            let lists = states.iter().map(|s| names.facts_of(*s));
            listed("explicit", lists, most, states.len(), "states")
        }
        DraftSet::Explicit(states) => listed("explicit", runs(states), most, states.len(), "states"),
        DraftSet::Horn(clauses) => clauses_text("horn", clauses, names, most),
        DraftSet::TwoCnf(clauses) => clauses_text("twocnf", clauses, names, most),
        DraftSet::Complement(s) => format!("= ~ {s}"),
        DraftSet::Intersection(s, u) => format!("= {s} & {u}"),
        DraftSet::Union(s, u) => format!("= {s} + {u}"),
        DraftSet::Progression(s, a) => format!("= {s} [ {a} ]"),
        DraftSet::Regression(s, a) => format!("= [ {a} ] {s}"),
    }
}

fn clauses_text(word: &str, clauses: &[Clause], names: &Names, most: usize) -> String {
    listed(word, clauses.iter().map(|c| clause(c, names)), most, clauses.len(), "clauses")
}

/// A state as a number, the larger ones in hexadecimal.
pub fn state(state: u64) -> String {
    if state < 1024 {
        state.to_string()
    } else {
        format!("{state:#x}")
    }
}

/// The states in turn, four or more that follow each other as a range.
pub fn runs(states: &[u64]) -> impl Iterator<Item = String> + '_ {
    let follows = |a: &u64, b: &u64| a.checked_add(1) == Some(*b);
    states.chunk_by(follows).flat_map(|run| match run {
        [first, _, .., _, last] => vec![format!("{}..{}", state(*first), state(*last))],
        _ => run.iter().map(|s| state(*s)).collect(),
    })
}

/// A clause as its literals, `(+2 -0 -1)`.
pub fn clause(clause: &Clause, names: &Names) -> String {
    let facts = |mask: u64| (0..64).filter(move |f| mask >> f & 1 == 1);
    let positive = facts(clause.positive).map(|f| format!("+{}", names.fact(f)));
    let negative = facts(clause.negative).map(|f| format!("-{}", names.fact(f)));
    format!("({})", joined(positive.chain(negative)))
}

/// A step with its number. One whose number the list lacks has rule 0, so that its text is no rule's either, and a
/// comment says what the file has.
pub fn step_line(number: usize, step: &Step, lacked: &Lacked) -> String {
    let there = lacked.get(&number).map(|there| format!("  # the file has {there}, which the list lacks"));
    format!("step {number} {}{}", step_text(step), there.unwrap_or_default())
}

/// Rule name, judgement and premises, and the rule's number and text as a comment; a
/// step whose fields do not fit its rule is written raw.
pub fn step_text(step: &Step) -> String {
    let [e, f] = step.entries;
    let [p, q, r] = step.premises;
    let raw = format!("raw {} {} {e} {f} {p} {q} {r}", step.rule, step.kind);
    let Some(rule) = rules::by_number(step.rule) else { return raw };
    let used = (rules::entries_used(rule.judgement), rule.premises as usize);
    let unused = step.entries[used.0..].iter().chain(&step.premises[used.1..]);
    if step.kind != rule.judgement || unused.into_iter().any(|place| *place != 0) {
        return raw;
    }
    let judgement = match step.kind {
        0 => format!("dead {e}"),
        1 => format!("{e} < {f}"),
        2 => format!("actions {e} < {f}"),
        _ => "unsolvable".into(),
    };
    let premises = joined(step.premises[..used.1].iter().map(|p| p.to_string()));
    let by = if used.1 == 0 { String::new() } else { format!(" by {premises}") };
    let text = if rule.text.is_empty() { String::new() } else { format!(": {}", rule.text) };
    format!("{} {judgement}{by}  # rule {}{text}", rule.name, rule.number)
}
