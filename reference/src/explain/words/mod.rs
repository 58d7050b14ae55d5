//! The reason for a reply in words, a list of lines.

mod accepted;
mod beginning;
mod counterexample;
mod fields;
mod layout;
mod pattern;
mod shape;
mod text;

use crate::draft::Draft;
use crate::explain::layout::LayoutFault;
use crate::explain::{Examined, Why};
use crate::file::{File, Judgement, StateSet, Step};
use crate::names::Names;
use crate::{rules, Reply};
use text::Text;

/// The reason for the reply, by what was read of the bytes.
pub fn lines(bytes: &[u8], read: &Examined, reply: Reply, why: &Why, names: &Names) -> Vec<String> {
    let file = &read.file;
    let text = Text { draft: &Draft::of(file), names };
    match (why, reply) {
        (Why::Accepted(argument), _) => accepted::words(&text, file, argument),
        (Why::Layout(fault), _) => layout_words(bytes, read, fault, names),
        (_, Reply::Refused { place, .. }) => step_words(&text, file, place as usize, why),
        (_, Reply::Accepted) => Vec::new(),
    }
}

/// The text form of what stands before the fault, where there is any, and the field with the fault.
fn layout_words(bytes: &[u8], read: &Examined, fault: &LayoutFault, names: &Names) -> Vec<String> {
    let before = beginning::lines(bytes, read, fault, names);
    let words = layout::words(bytes, &read.file, fault, names);
    if before.is_empty() {
        return words;
    }
    let head = vec!["Before the fault stands, in text form:".to_string(), String::new()];
    [head, before, vec![String::new()], words].concat()
}

/// The step, and what is wrong with it.
fn step_words(text: &Text, file: &File, number: usize, why: &Why) -> Vec<String> {
    let step = &file.steps[number];
    let head = [vec![text.step(number)], step_head(text, step, why)].concat();
    let lines = match why {
        Why::Fields(faults) => {
            let broken = faults.iter().map(|fault| format!("  {}", fields::words(step, number, fault)));
            ["Its own fields are not lawful:".into()].into_iter().chain(broken).collect()
        }
        Why::Pattern(mismatch) => pattern::words(text, step, mismatch),
        Why::Shape(fault) => shape::words(text, step.rule, fault),
        Why::Untrue(found) => counterexample::words(text, file, step, found),
        Why::NotUnsolvable => last_step(text, file),
        Why::Unknown => vec![UNKNOWN.to_string()],
        Why::Accepted(_) | Why::Layout(_) | Why::Numbers(_) => Vec::new(),
    };
    [head, lines].concat()
}

const UNKNOWN: &str =
    "The check refuses this step, and the search for the reason finds none: that is a fault of the reference checker.";

/// For a rule its text, for a basic statement the two sets that it is about.
fn step_head(text: &Text, step: &Step, why: &Why) -> Vec<String> {
    let entry = |e: &u16| if step.kind == 2 { text.actions(*e) } else { text.set(*e) };
    match (why, rules::by_number(step.rule)) {
        (Why::Shape(_) | Why::Untrue(_), _) => {
            step.entries.iter().map(|e| format!("  {}", entry(e))).collect()
        }
        (Why::Pattern(_), Some(rule)) => vec![format!("  rule {}: {}", rule.name, rule.text)],
        _ => Vec::new(),
    }
}

/// Reply 12: what the last step has to say, and whether an earlier one says so or comes close.
fn last_step(text: &Text, file: &File) -> Vec<String> {
    let mut lines = vec!["The last step has to say \"unsolvable\", by CI or CG.".to_string()];
    let find = |wanted: &dyn Fn(Judgement) -> bool| {
        file.steps.iter().position(|step| step.judgement().is_some_and(wanted))
    };
    if let Some(step) = find(&|judgement| judgement == Judgement::Unsolvable) {
        lines.push(format!("Step {step} says so, but it is not the last."));
        return lines;
    }
    for (wanted, rule) in [(StateSet::Init, "CI"), (StateSet::Goal, "CG")] {
        let dead =
            |judgement| matches!(judgement, Judgement::Dead(e) if file.state_sets[e as usize] == wanted);
        if let Some(step) = find(&dead) {
            let set = text.set(file.steps[step].entries[0]);
            lines.push(format!(
                "Step {step} says that {set} is dead: \"{rule} unsolvable by {step}\" would do."
            ));
        }
    }
    lines
}
