//! The fast algorithms against the meaning over all states, on seeded random statements,
//! whole files and questions.

mod common;

use std::collections::BTreeMap;

use common::{kind, shape, step_reply, Meaning};
use reference::draft::{Draft, DraftSet};
use reference::file::{File, Judgement};
use reference::generate::applications::{add_compounds, add_pool, basic};
use reference::generate::builder::Builder;
use reference::generate::off::off;
use reference::generate::random::Random;
use reference::generate::{cases, tasks};
use reference::{ask, check, layout, steps, Answer};

/// A file of few facts with sets to choose from.
fn pool(random: &mut Random, most: usize) -> Builder<'_> {
    let n = random.between(1, most) as u8;
    let (mut task, _) = tasks::reachable(random, n, 64);
    for _ in 0..random.below(3) {
        task.actions.push(tasks::action_of(random, task.version, task.all_facts()));
    }
    if random.chance(10) {
        (task.goal, task.goal_off) = (0, 0);
    }
    let mut b = Builder::new(task, random);
    add_pool(&mut b);
    add_pool(&mut b);
    b
}

/// How a statement is decided: by the kinds that appear beneath it.
fn method(draft: &Draft, entry: u16, found: &mut [bool; 11]) {
    let set = &draft.state_sets[entry as usize];
    found[kind(set) as usize] = true;
    match set {
        DraftSet::Complement(s) | DraftSet::Progression(s, _) | DraftSet::Regression(s, _) => {
            method(draft, *s, found)
        }
        DraftSet::Intersection(s, u) | DraftSet::Union(s, u) => {
            method(draft, *s, found);
            method(draft, *u, found);
        }
        _ => (),
    }
}

fn label(file: &File, judgement: Judgement) -> String {
    let Judgement::Within(e, f) = judgement else { return "actions".into() };
    let mut found = [false; 11];
    let draft = Draft::of(file);
    method(&draft, e, &mut found);
    method(&draft, f, &mut found);
    (3..6).filter(|k| found[*k]).map(|k| k.to_string()).collect()
}

#[test]
fn statements_against_all_states() {
    let mut seen: BTreeMap<(u8, String, u8), usize> = BTreeMap::new();
    for seed in 0..4000 {
        let mut random = Random::new(seed);
        let mut b = pool(&mut random, 5);
        let mut labels = Vec::new();
        for _ in 0..10 {
            let (rule, judgement) = basic(&mut b);
            b.step(rule, judgement, &[]);
            labels.push((rule, label(&b.file, judgement)));
        }
        let meaning = Meaning::of(&b.file);
        for (number, (rule, label)) in labels.into_iter().enumerate() {
            let slow = step_reply(&b.file, &meaning, number);
            let fast = steps::check_step(&b.file, number).map_or_else(|fault| fault.number, |_| 0);
            assert_eq!(fast, slow, "seed {seed}, step {number}\n{}", reference::show::text(&meaning.draft));
            *seen.entry((rule, label, slow)).or_default() += 1;
        }
    }
    for rule in [1, 2, 3] {
        for method in ["", "3", "4", "5"] {
            for reply in [0, 11] {
                let count = seen.get(&(rule, method.to_string(), reply)).copied().unwrap_or(0);
                assert!(count >= 80, "B{rule} over '{method}' with reply {reply}: {count}");
            }
        }
    }
    for method in ["34", "35", "45"] {
        for reply in [0, 10, 11] {
            let count = seen.get(&(4, method.to_string(), reply)).copied().unwrap_or(0);
            assert!(count >= 30, "B4 over '{method}' with reply {reply}: {count}");
        }
    }
    assert!(seen[&(5, "actions".to_string(), 11)] > 50 && seen[&(5, "actions".to_string(), 0)] > 50);
}

/// Every pair of literals over one set of each kind, for each of B1 to B4.
#[test]
fn every_pair_of_literals() {
    let mut permitted = 0;
    for seed in 0..150 {
        let mut random = Random::new(seed);
        let mut b = pool(&mut random, 4);
        let base = b.file.state_sets.len() as u16;
        for e in 0..base {
            b.file.state_sets.push(reference::file::StateSet::Complement(e));
        }
        let meaning = Meaning::of(&b.file);
        for rule in [1, 4] {
            for e in 0..2 * base {
                for f in 0..2 * base {
                    b.file.steps.clear();
                    b.step(rule, Judgement::Within(e, f), &[]);
                    let slow = step_reply(&b.file, &meaning, 0);
                    let fast = steps::check_step(&b.file, 0).map_or_else(|fault| fault.number, |_| 0);
                    assert_eq!(fast, slow, "seed {seed}, B{rule}, {e} < {f}");
                    permitted += shape(&meaning.draft, rule, e, f) as usize;
                }
            }
        }
    }
    assert!(permitted > 5000, "{permitted}");
}

#[test]
fn generated_files_against_the_slow_checker() {
    let (mut compared, mut accepted, mut versions) = (0, 0, [0; 3]);
    for case in cases(2, 8000).chain(off(2, 3000)) {
        let Ok(file) = layout::read(&case.bytes) else { continue };
        if !case.is_check() || file.task.facts > 6 || file.state_sets.len() > 200 {
            continue;
        }
        let slow = common::check(&file);
        assert_eq!(check(&case.bytes), slow, "{}", reference::show::show(&case.bytes));
        compared += 1;
        accepted += (slow == reference::Reply::Accepted) as usize;
        versions[file.task.version as usize - 1] += 1;
    }
    assert!(compared > 4000 && accepted > 2000, "{compared} compared, {accepted} accepted");
    assert!(versions.iter().all(|count| *count > 500), "{versions:?}");
}

#[test]
fn questions_against_all_states() {
    let mut seen = [0; 3];
    for seed in 0..1500 {
        let mut random = Random::new(seed);
        let mut b = pool(&mut random, 5);
        add_compounds(&mut b, 6);
        b.step(6, Judgement::Dead(0), &[]);
        let meaning = Meaning::of(&b.file);
        let bytes = meaning.draft.encode();
        for entry in 0..=meaning.states.len() {
            for state in [0, 1, 2, 5, 13, 22, 31, 32] {
                let asked = entry < meaning.states.len() && state < 1 << meaning.draft.facts;
                let lawful = asked && matches!(meaning.depth(entry as u16), (1..=4, false));
                let (index, answer) = match lawful {
                    false => (2, Answer::Refused { number: 13, place: 0 }),
                    true if meaning.states[entry][state as usize] => (0, Answer::In),
                    true => (1, Answer::Out),
                };
                assert_eq!(ask(&bytes, entry as u64, state), answer, "seed {seed}, {entry}, {state}");
                seen[index] += 1;
            }
        }
    }
    assert!(seen.iter().all(|count| *count > 5000), "{seen:?}");
}

/// Sets of many clauses over few facts, where propagation alone often decides nothing.
#[test]
fn dense_clause_sets() {
    use reference::file::StateSet::*;
    use reference::shape::Method;
    let mut counts: BTreeMap<(bool, u8, u8), usize> = BTreeMap::new();
    for seed in 0..6000 {
        let mut random = Random::new(seed);
        let mut b = pool(&mut random, 5);
        let two = seed % 2 == 0;
        let method = if two { Method::TwoCnf } else { Method::Horn };
        let facts = b.file.task.all_facts();
        let mut sets = Vec::new();
        for _ in 0..3 {
            let size = b.random.between(1, 9);
            let mut clauses: Vec<_> = (0..size).map(|_| tasks::clause(b.random, method, facts)).collect();
            clauses.retain(|c| c.positive.count_ones() + c.negative.count_ones() > 1);
            sets.push(b.clauses(if two { TwoCnf } else { Horn }, &clauses));
        }
        let (s, u, w) = (sets[0], sets[1], sets[2]);
        let either = b.or(u, w);
        let led = b.set(Progression(s, 0));
        let from: u16 = b.set(Regression(s, 0));
        let statements: [(u8, u16, u16); 9] = [
            (1, s, 0),
            (1, s, u),
            (1, s, either),
            (2, led, 0),
            (2, led, u),
            (2, led, either),
            (3, from, 0),
            (3, from, u),
            (3, from, either),
        ];
        for (rule, e, f) in statements {
            b.step(rule, Judgement::Within(e, f), &[]);
        }
        let meaning = Meaning::of(&b.file);
        for (number, (rule, e, f)) in statements.iter().enumerate() {
            let holds = meaning.within(*e, *f);
            let fast = steps::check_step(&b.file, number).map_or_else(|fault| fault.number, |_| 0);
            assert_eq!(fast, if holds { 0 } else { 11 }, "seed {seed}, B{rule}, {e} < {f}");
            *counts.entry((two, *rule, fast)).or_default() += 1;
        }
    }
    assert!(counts.len() == 12 && counts.values().all(|count| *count > 300), "{counts:?}");
}
