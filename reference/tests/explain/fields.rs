//! Reply 8: the conditions that are told are those that the step's twelve bytes break; and reply 12.

use crate::common::{kind, signature};
use crate::{explained, Tally};
use reference::draft::{sample, Draft};
use reference::explain::fields::{FieldFault, Place};
use reference::explain::Why;
use reference::file::Step;
use reference::generate::cases;
use reference::generate::random::Random;
use reference::layout;
use reference::Reply;

/// What a step's bytes break: the condition, counted as document 01 lists them, the place (entries 0
/// and 1, premises 2 to 4), and the number that stands there.
type Broken = (u8, usize, u16);

/// The conditions that the twelve bytes of step `number` break, in a file with so many entries.
fn broken(bytes: &[u8], number: usize, action_sets: usize, state_sets: usize) -> Vec<Broken> {
    let place = |k: usize| u16::from_be_bytes([bytes[2 + 2 * k], bytes[3 + 2 * k]]);
    let Some((premises, judgement)) = signature(bytes[0]) else { return vec![(1, 0, bytes[0] as u16)] };
    if bytes[1] != judgement {
        return vec![(2, 0, bytes[1] as u16)];
    }
    let used = [1, 2, 2, 0][judgement as usize];
    let entries = if judgement == 2 { action_sets } else { state_sets };
    let mut list = Vec::new();
    for k in 0..5 {
        let (is_used, above) = if k < 2 { (k < used, entries) } else { (k - 2 < premises, number) };
        let condition = if k < 2 { 3 } else { 4 };
        match is_used {
            true if place(k) as usize >= above => list.push((condition, k, place(k))),
            false if place(k) != 0 => list.push((5, k, place(k))),
            _ => (),
        }
    }
    list
}

fn told(fault: &FieldFault) -> Broken {
    let index = |place: &Place| match place {
        Place::Entry(k) => *k as usize - 1,
        Place::Premise(k) => *k as usize + 1,
    };
    match fault {
        FieldFault::UnknownRule { rule } => (1, 0, *rule as u16),
        FieldFault::NotListed { number } => panic!("number {number}, and there is no list"),
        FieldFault::JudgementKind { kind, .. } => (2, 0, *kind as u16),
        FieldFault::EntryOutside { place, entry, .. } => (3, index(place), *entry),
        FieldFault::PremiseNotEarlier { place, premise } => (4, index(place), *premise),
        FieldFault::UnusedNotZero { place, value } => (5, index(place), *value),
    }
}

/// How the text begins to tell a condition, and the number that it names.
fn words((condition, place, value): Broken) -> String {
    let place =
        ["the first entry number", "the second entry number", "premise 1", "premise 2", "premise 3"][place];
    match condition {
        1 => format!("\n  unknown rule: the rule is {value};"),
        2 => format!("\n  wrong judgement kind: the kind is {value},"),
        3 => format!("\n  entry outside the file: {place} is {value};"),
        4 => format!("\n  premise not an earlier step: {place} is {value};"),
        _ => format!("\n  unused place not zero: {place} is {value};"),
    }
}

/// The sample with one step changed in one to three places, or made up.
fn damaged(random: &mut Random) -> Draft {
    let mut d = sample();
    let at = random.below(d.steps.len());
    let step = &mut d.steps[at];
    if random.chance(50) {
        let mut number = || random.below(9) as u16;
        *step = Step {
            rule: 0,
            kind: 0,
            entries: [number(), number()],
            premises: [number(), number(), number()],
        };
        step.rule = random.between(0, 30) as u8;
        let lawful = signature(step.rule).filter(|_| random.chance(90));
        step.kind = lawful.map_or(random.below(5) as u8, |(_, kind)| kind);
    } else {
        for _ in 0..random.between(1, 3) {
            match random.below(5) {
                0 | 1 => step.entries[random.below(2)] = random.below(10) as u16,
                2 | 3 => step.premises[random.below(3)] = random.below(10) as u16,
                _ => step.kind = random.below(4) as u8,
            }
        }
    }
    d
}

#[test]
fn the_conditions_told_are_those_broken() {
    let (mut seen, mut several): (Tally<u8>, usize) = (Tally::new(), 0);
    let mut random = Random::new(8);
    for _ in 0..4000 {
        let d = damaged(&mut random);
        let bytes = d.encode();
        let explained = explained(&bytes);
        let Why::Fields(faults) = &explained.why else {
            assert!(!matches!(explained.reply, Reply::Refused { number: 8, .. }));
            continue;
        };
        let Reply::Refused { place, .. } = explained.reply else { panic!("{}", explained.text) };
        let number = place as usize;
        let at = bytes.len() - 12 * (d.steps.len() - number);
        let broken = broken(&bytes[at..at + 12], number, d.action_sets.len(), d.state_sets.len());
        assert_eq!(faults.iter().map(told).collect::<Vec<_>>(), broken, "{}", explained.text);
        broken.iter().for_each(|b| assert!(explained.text.contains(&words(*b)), "{b:?}\n{}", explained.text));
        broken.iter().for_each(|b| seen.add(b.0));
        several += (broken.len() > 1) as usize;
    }
    seen.each_at_least(80, 1..=5);
    assert!(several > 200, "{several}");
}

/// Reply 12 tells the last step, and which earlier step says "unsolvable" or could end the file.
#[test]
fn the_last_step() {
    let mut d = sample();
    d.steps.pop();
    let text = explained(&d.encode()).text;
    assert!(
        text.contains("\nstep 6 SD dead 1 by 5 4\nThe last step has to say \"unsolvable\", by CI or CG.\n")
    );
    assert!(
        text.ends_with("\nStep 6 says that set 1 init is dead: \"CI unsolvable by 6\" would do.\n"),
        "{text}"
    );
    d.steps.truncate(4);
    let text = explained(&d.encode()).text;
    assert!(text.ends_with("by CI or CG.\n"), "{text}");
    let mut d = sample();
    d.steps.push(d.steps[0]);
    let text = explained(&d.encode()).text;
    assert!(text.ends_with("\nStep 7 says so, but it is not the last.\n"), "{text}");
}

/// The same of generated files: the first step that says "unsolvable", or else the first ones that say that
/// init and that the goal is dead.
#[test]
fn last_steps_of_generated_files() {
    let mut seen = 0;
    for case in cases(36, 6000).filter(|case| case.is_check()) {
        let explained = explained(&case.bytes);
        if explained.why != Why::NotUnsolvable {
            assert!(!matches!(explained.reply, Reply::Refused { number: 12, .. }));
            continue;
        }
        let draft = Draft::of(&layout::read(&case.bytes).expect("a lawful layout"));
        let last = draft.steps.len() - 1;
        assert!(explained.text.contains(&format!("\nstep {last} ")), "{}", explained.text);
        let dead = |wanted: u8| {
            let says = |s: &Step| s.kind == 0 && kind(&draft.state_sets[s.entries[0] as usize]) == wanted;
            draft.steps.iter().position(says)
        };
        let told = |k: usize, rule: &str| format!(" is dead: \"{rule} unsolvable by {k}\" would do.\n");
        let ends = |end: &str| assert!(explained.text.ends_with(end), "{end}\n{}", explained.text);
        match (draft.steps.iter().position(|s| s.kind == 3), dead(1), dead(2)) {
            (Some(k), _, _) => ends(&format!("by CI or CG.\nStep {k} says so, but it is not the last.\n")),
            (None, _, Some(k)) => ends(&told(k, "CG")),
            (None, Some(k), None) => ends(&told(k, "CI")),
            (None, None, None) => ends("by CI or CG.\n"),
        }
        seen += 1;
    }
    assert!(seen >= 40, "{seen}");
}
