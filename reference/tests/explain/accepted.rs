//! Accepted files: the steps that the last one rests on, found again from the file's premises; the closed
//! sets closed by the table of all states; and all of them told in the text.

use std::collections::BTreeSet;

use crate::common::{lead, signature, Meaning};
use crate::{explained, Tally};
use reference::explain::accepted::{Argument, Closure};
use reference::explain::Why;
use reference::file::File;
use reference::generate::cases;
use reference::layout;
use reference::rules::RULES;

/// The steps that a step names as premises.
fn premises(file: &File, number: usize) -> Vec<usize> {
    let step = &file.steps[number];
    let count = signature(step.rule).expect("a known rule").0;
    step.premises[..count].iter().map(|p| *p as usize).collect()
}

/// The steps that the last one rests on, itself left out.
fn support(file: &File) -> BTreeSet<usize> {
    let mut found = BTreeSet::new();
    let mut open = premises(file, file.steps.len() - 1);
    while let Some(number) = open.pop() {
        if found.insert(number) {
            open.extend(premises(file, number));
        }
    }
    found
}

/// What is told of the steps, counted again.
fn counts_are_so(file: &File, argument: &Argument) {
    let support = support(file);
    assert!(argument.support.iter().copied().eq(support.iter().copied()));
    let dead = support.iter().filter(|number| (6..=12).contains(&file.steps[**number].rule));
    let dead: Vec<(usize, u16)> = dead.map(|number| (*number, file.steps[*number].entries[0])).collect();
    assert_eq!(argument.dead, dead);
    let closing = support.iter().filter(|number| (9..=12).contains(&file.steps[**number].rule));
    assert!(argument.closures.iter().map(|c| &c.step).eq(closing));
    let mut rules = [0; 29];
    file.steps.iter().for_each(|step| rules[step.rule as usize] += 1);
    let told = argument.rules.iter().map(|(rule, count)| (rule.number as usize, *count));
    let counted = rules.into_iter().enumerate().filter(|(_, count)| *count > 0);
    assert!(told.eq(counted));
    let last = file.steps.len() - 1;
    let named: BTreeSet<usize> = (0..=last).flat_map(|number| premises(file, number)).collect();
    assert_eq!(argument.unnamed, last - named.len());
}

/// Whether actions lead out of S (for PG and PI) or into S (for RG and RI) only by way of U, over all states.
fn is_closed(meaning: &Meaning, rule: u8, closure: &Closure) -> bool {
    let [s, u] = [closure.set, closure.rest].map(|entry| &meaning.states[entry as usize]);
    (0..s.len()).all(|state| {
        meaning.draft.actions.iter().filter_map(|action| lead(action, state as u64)).all(|led| {
            let led = led as usize;
            match rule {
                9 | 10 => !s[state] || s[led] || u[led],
                _ => !s[led] || s[state] || u[state],
            }
        })
    })
}

/// Each dead set is told with its step and rule, each closed set as part of the invariant.
fn is_told(file: &File, argument: &Argument, text: &str) {
    for (number, set) in &argument.dead {
        let rule = RULES[file.steps[*number].rule as usize - 1].name;
        let line = text.lines().find(|line| line.ends_with(&format!(", by step {number} {rule}")));
        assert!(line.is_some_and(|line| line.starts_with(&format!("  set {set} "))), "step {number}\n{text}");
    }
    for Closure { step, set, rest } in &argument.closures {
        let rule = RULES[file.steps[*step].rule as usize - 1].name;
        let mut lines = text.lines().skip_while(|line| *line != "The invariant:");
        let line = lines
            .find(|line| line.starts_with("    No action ") && line.contains(&format!("step {step} {rule}")));
        assert!(line.is_some_and(|line| line.contains(&format!("set {rest}"))), "step {step}\n{text}");
        assert!(text.contains(&format!("\n  set {set} ")), "set {set}\n{text}");
    }
    let rests = argument.support.len();
    assert!(
        text.contains(&format!("\nThe last step rests on {rests} of the "))
            || text.contains(&format!("rests on all {rests} others"))
    );
}

#[test]
fn arguments_of_generated_files() {
    let (mut rules, mut spare, mut tables): (Tally<u8>, usize, usize) = (Tally::new(), 0, 0);
    for case in cases(35, 4000).filter(|case| case.is_check()) {
        let explained = explained(&case.bytes);
        let Why::Accepted(argument) = &explained.why else { continue };
        let file = layout::read(&case.bytes).expect("an accepted file");
        counts_are_so(&file, argument);
        is_told(&file, argument, &explained.text);
        spare += (argument.unnamed > 0) as usize;
        argument.support.iter().for_each(|number| rules.add(file.steps[*number].rule));
        if file.task.facts <= 6 && file.state_sets.len() < 100 {
            let meaning = Meaning::of(&file);
            let closed = |c: &Closure| is_closed(&meaning, file.steps[c.step].rule, c);
            assert!(argument.closures.iter().all(closed), "{}", explained.text);
            tables += argument.closures.len();
        }
    }
    rules.each_at_least(40, [1, 2, 3, 6, 8, 9, 10, 11, 12]);
    assert!(spare > 200 && tables > 400, "{spare} with spare steps, {tables} closed sets");
}
