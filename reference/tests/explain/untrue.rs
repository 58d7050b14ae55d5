//! Reply 11: the counterexample is one, by the meaning of the sets alone; for few facts by the table
//! of all states too. The text shows it, and each right leaf that it is not in.

use std::time::{Duration, Instant};

use crate::common::{has_action, has_state, kind, lead, leaves, Meaning};
use crate::{explained, explained_step, facts, Explained, Tally};
use reference::draft::{Draft, DraftSet};
use reference::explain::counterexample::Counterexample;
use reference::explain::Why;
use reference::file::{Clause, Judgement, StateSet, Step};
use reference::generate::applications::{add_pool, basic};
use reference::generate::builder::Builder;
use reference::generate::off::off;
use reference::generate::random::Random;
use reference::generate::unknown::unknown;
use reference::generate::worst::{no_model, two_right_leaves, Left, Order};
use reference::generate::{cases, tasks};
use reference::layout;
use reference::shape::Method;
use reference::task::all_facts;
use reference::Reply;
use Counterexample::{Action, Progression, Regression, State};

/// How many facts a table of all states is made for.
const FEW: u8 = 6;

fn state_text(state: u64) -> String {
    let number = if state < 1024 { state.to_string() } else { format!("{state:#x}") };
    format!("state {number} {}", facts(state))
}

/// Whether the state is in the left set and not in the right one, over the table of all states.
fn by_table(draft: &Draft, step: &Step, state: u64) -> bool {
    let file = layout::read(&draft.encode()).expect("the layout is lawful");
    let meaning = Meaning::of(&file);
    let [e, f] = step.entries.map(|entry| &meaning.states[entry as usize]);
    e[state as usize] && !f[state as usize]
}

/// Holds a counterexample to the meaning of the step's sets.
fn holds_up(draft: &Draft, step: &Step, found: Counterexample) {
    let [e, f] = step.entries;
    let (state, from) = match (step.rule, found) {
        (5, Action { action }) => {
            assert!(has_action(draft, e, action) && !has_action(draft, f, action), "{found:?}");
            return;
        }
        (1 | 4, State { state }) => (state, None),
        (2, Progression { before, action, after }) => (after, Some((before, action))),
        (3, Regression { before, action, after }) => {
            assert!(bracket_holds(draft, e, action, after), "{found:?}");
            assert_eq!(lead(&draft.actions[action as usize], before), Some(after), "{found:?}");
            (before, None)
        }
        _ => panic!("{found:?} for rule {}", step.rule),
    };
    assert_eq!(state & !all_facts(draft.facts), 0, "{found:?}");
    assert!(has_state(draft, e, state, from), "{found:?} is not in set {e}");
    assert!(!has_state(draft, f, state, None), "{found:?} is in set {f}");
    assert!(draft.facts > FEW || by_table(draft, step, state), "{found:?} by the table");
}

/// Whether a left leaf is a regression by an action set with this action of a set with this state.
fn bracket_holds(draft: &Draft, left: u16, action: u16, after: u64) -> bool {
    let mut list = Vec::new();
    leaves(draft, left, 7, &mut list);
    list.iter().any(|leaf| match draft.state_sets[*leaf as usize] {
        DraftSet::Regression(s, a) => has_action(draft, a, action) && has_state(draft, s, after, None),
        _ => false,
    })
}

/// The text tells the counterexample and names each right leaf.
fn is_told(draft: &Draft, step: &Step, found: Counterexample, text: &str) {
    let states = |before, action, after| {
        let action = format!("\n  by action {action} pre ");
        [
            format!("\n  before: {}\n", state_text(before)),
            action,
            format!("\n  after: {}\n", state_text(after)),
        ]
    };
    let told = match found {
        State { state } => vec![format!("\n  {}\n", state_text(state))],
        Progression { before, action, after } | Regression { before, action, after } => {
            states(before, action, after).to_vec()
        }
        Action { action } => vec![format!("\n  action {action} pre ")],
    };
    told.iter().for_each(|line| assert!(text.contains(line), "{line}\n{text}"));
    if step.rule != 5 {
        let mut right = Vec::new();
        leaves(draft, step.entries[1], 8, &mut right);
        let named = |leaf: &u16| text.contains(&format!("\n    not in set {leaf} "));
        assert!(right.iter().all(named), "{right:?}\n{text}");
    }
}

/// Holds the explanation to the meaning where the reply is 11; says whether it is.
fn examine(draft: &Draft, step: &Step, explained: &Explained) -> bool {
    let untrue = matches!(explained.reply, Reply::Refused { number: 11, .. });
    match explained.why {
        Why::Untrue(found) => {
            holds_up(draft, step, found);
            is_told(draft, step, found, &explained.text);
        }
        _ => assert!(!untrue, "{:?}", explained.why),
    }
    untrue
}

/// Explains each step by itself; gives the file and the steps that are untrue.
fn untrue_steps(b: Builder) -> (Draft, Vec<Step>) {
    let mut draft = Draft::of(&b.file);
    let untrue = |step: &Step| {
        let explained = explained_step(&mut draft, *step);
        examine(&draft, step, &explained)
    };
    let steps = b.file.steps.into_iter().filter(untrue).collect();
    (draft, steps)
}

/// The kinds among 3 to 5 at or beneath the entries.
fn kinds(draft: &Draft, entries: &[u16], found: &mut [bool; 11]) {
    for entry in entries {
        let set = &draft.state_sets[*entry as usize];
        found[kind(set) as usize] = true;
        match set {
            DraftSet::Complement(s) | DraftSet::Progression(s, _) | DraftSet::Regression(s, _) => {
                kinds(draft, &[*s], found)
            }
            DraftSet::Intersection(s, u) | DraftSet::Union(s, u) => kinds(draft, &[*s, *u], found),
            _ => (),
        }
    }
}

fn label(draft: &Draft, step: &Step) -> String {
    let mut found = [false; 11];
    if step.rule != 5 {
        kinds(draft, &step.entries, &mut found);
    }
    (3..6).filter(|k| found[*k]).map(|k| k.to_string()).collect()
}

/// A file with sets to choose from.
fn pool(random: &mut Random, n: u8) -> Builder<'_> {
    let (mut task, _) = tasks::reachable(random, n, 64);
    for _ in 0..random.below(3) {
        task.actions.push(tasks::action_of(random, task.version, task.all_facts()));
    }
    let mut b = Builder::new(task, random);
    add_pool(&mut b);
    add_pool(&mut b);
    b
}

#[test]
fn statements_over_few_and_many_facts() {
    let mut seen: Tally<(u8, String, bool)> = Tally::new();
    for seed in 0..5000 {
        let mut random = Random::new(seed);
        let n = if seed % 2 == 0 { random.between(1, 5) } else { random.between(7, 64) } as u8;
        let mut b = pool(&mut random, n);
        for _ in 0..8 {
            let (rule, judgement) = basic(&mut b);
            b.step(rule, judgement, &[]);
        }
        let (draft, steps) = untrue_steps(b);
        steps.iter().for_each(|step| seen.add((step.rule, label(&draft, step), n > FEW)));
    }
    for many in [false, true] {
        for rule in [1, 2, 3] {
            seen.each_at_least(40, ["4", "5"].map(|kinds| (rule, kinds.to_string(), many)));
        }
        seen.each_at_least(40, ["34", "35", "45"].map(|kinds| (4, kinds.to_string(), many)));
        seen.each_at_least(
            40,
            [(1, "".to_string(), many), (1, "3".to_string(), many), (5, "".to_string(), many)],
        );
    }
    for rule in [2, 3] {
        seen.each_at_least(40, ["", "3"].map(|kinds| (rule, kinds.to_string(), false)));
    }
}

/// Lists of states over any number of facts, with actions that apply in some of them.
#[test]
fn listed_states() {
    let mut seen: Tally<(u8, bool)> = Tally::new();
    for seed in 0..600 {
        let mut random = Random::new(seed);
        let n = if seed % 2 == 0 { random.between(2, 6) } else { random.between(7, 64) } as u8;
        let facts = all_facts(n);
        let (mut task, _) = tasks::reachable(&mut random, n, 8);
        task.actions.extend((0..3).map(|_| tasks::action_of(&mut random, task.version, facts)));
        let states: Vec<u64> =
            (0..6).map(|k| random.mask(facts, 1) | task.actions[k % task.actions.len()].pre).collect();
        let led: Vec<u64> =
            states.iter().flat_map(|s| task.actions.iter().filter_map(|a| lead(a, *s))).collect();
        let mut b = Builder::new(task, &mut random);
        let sets = [&states, &led, &led, &states].map(|list| some_of(&mut b, list));
        let (forward, back) =
            (b.set(StateSet::Progression(sets[0], 0)), b.set(StateSet::Regression(sets[1], 0)));
        let (met, goals) = (b.and(back, sets[0]), b.not(2));
        let wide = b.or(sets[2], goals);
        let other = b.or(sets[3], 2);
        let statements = [(2, forward, sets[2]), (2, forward, wide), (3, met, sets[3]), (3, met, other)];
        for (rule, left, right) in statements {
            b.step(rule, Judgement::Within(left, right), &[]);
        }
        untrue_steps(b).1.iter().for_each(|step| seen.add((step.rule, n > FEW)));
    }
    seen.each_at_least(100, [2, 3].into_iter().flat_map(|rule| [(rule, false), (rule, true)]));
}

/// An explicit set of most of these states, in their order.
fn some_of(b: &mut Builder, states: &[u64]) -> u16 {
    let chosen: Vec<u64> = states.iter().copied().filter(|_| b.random.chance(70)).collect();
    b.explicit(chosen)
}

/// Sets of many clauses: a state has to be looked for, and often there is none for most actions.
#[test]
fn dense_clause_sets() {
    let mut seen: Tally<(bool, u8, bool)> = Tally::new();
    for seed in 0..1000 {
        let mut random = Random::new(seed);
        let n = if seed % 4 < 2 { random.between(2, 6) } else { random.between(20, 64) } as u8;
        let mut b = pool(&mut random, n);
        let two = seed % 2 == 0;
        let (method, kind): (_, fn(_) -> _) =
            if two { (Method::TwoCnf, StateSet::TwoCnf) } else { (Method::Horn, StateSet::Horn) };
        let most = if n > FEW { n as usize } else { 9 };
        let sets = [0; 3].map(|_| {
            let size = b.random.between(1, most);
            let mut clauses: Vec<_> =
                (0..size).map(|_| tasks::clause(b.random, method, all_facts(n))).collect();
            clauses.retain(|c| c.positive.count_ones() + c.negative.count_ones() > 1);
            b.clauses(kind, &clauses)
        });
        let either = b.or(sets[1], sets[2]);
        let (led, from) = (b.set(StateSet::Progression(sets[0], 0)), b.set(StateSet::Regression(sets[0], 0)));
        for (rule, left) in [(1, sets[0]), (2, led), (3, from)] {
            for right in [0, sets[1], either] {
                b.step(rule, Judgement::Within(left, right), &[]);
            }
        }
        untrue_steps(b).1.iter().for_each(|step| seen.add((two, step.rule, n > FEW)));
    }
    let all = |two| (1..=3).flat_map(move |rule| [false, true].map(|many| (two, rule, many)));
    seen.each_at_least(60, all(false).chain(all(true)));
}

/// All four clauses over two facts have no state in common, and none of them is a unit. Some are said of
/// the state before an action and the others of the one after it: the first actions, which leave the
/// two facts alone, have no counterexample.
#[test]
fn models_that_only_later_actions_have() {
    let mut seen: Tally<u8> = Tally::new();
    for seed in 0..600 {
        let mut random = Random::new(seed);
        let n = random.between(2, 64) as u8;
        let (mut task, _) = tasks::reachable(&mut random, n, 8);
        let x = random.bit(all_facts(n));
        let y = random.bit(all_facts(n) & !x);
        task.actions = (0..3).map(|_| tasks::action(&mut random, all_facts(n) & !(x | y))).collect();
        task.actions.extend((0..2).map(|_| tasks::action(&mut random, all_facts(n))));
        let four = [0, x, y, x | y].map(|positive| Clause { positive, negative: (x | y) & !positive });
        let mut b = Builder::new(task, &mut random);
        let dealt = b.random.between(1, 14);
        let part = |before: usize| {
            (0..4).filter(move |k| dealt >> k & 1 == before).map(|k| four[k]).collect::<Vec<_>>()
        };
        let (first, second) = (b.clauses(StateSet::TwoCnf, &part(1)), b.clauses(StateSet::TwoCnf, &part(0)));
        for (rule, bracket) in [(2, StateSet::Progression(first, 0)), (3, StateSet::Regression(first, 0))] {
            let bracket = b.set(bracket);
            let left = b.and(second, bracket);
            b.step(rule, Judgement::Within(left, 0), &[]);
        }
        untrue_steps(b).1.iter().for_each(|step| seen.add(step.rule));
    }
    seen.each_at_least(100, [2, 3]);
}

#[test]
fn whole_files() {
    let mut seen: Tally<u8> = Tally::new();
    let all = cases(31, 4000).chain(unknown(31, 3000)).chain(off(31, 3000));
    for case in all.filter(|case| case.is_check()) {
        let Ok(file) = layout::read(&case.bytes) else { continue };
        let explained = explained(&case.bytes);
        let Reply::Refused { number: 8..=12, place } = explained.reply else { continue };
        let step = file.steps[place as usize];
        if examine(&Draft::of(&file), &step, &explained) {
            seen.add(step.rule);
        }
    }
    seen.each_at_least(3, 1..=5);
    assert!(seen.0.values().sum::<usize>() > 150, "{:?}", seen.0);
}

/// The dearest statements over clauses, made untrue: without what closes their chain they have a model.
#[test]
fn large_statements_are_answered_at_once() {
    let start = Instant::now();
    let left = Left { written: 8, complements: 6 };
    for method in [Method::Horn, Method::TwoCnf] {
        for order in Order::ALL {
            let drafts = [two_right_leaves(method, left, order, [3, 256]), no_model(left, order, 256)];
            for mut draft in drafts {
                open_chain(&mut draft);
                let step = draft.steps[7];
                let explained = explained_step(&mut draft, step);
                assert!(examine(&draft, &step, &explained), "{}", explained.text);
            }
        }
    }
    assert!(start.elapsed() < Duration::from_secs(2), "{:?}", start.elapsed());
}

/// Takes the last clauses away from each set, which say that the end of the chain is no state.
fn open_chain(draft: &mut Draft) {
    for set in &mut draft.state_sets {
        if let DraftSet::Horn(clauses) | DraftSet::TwoCnf(clauses) = set {
            clauses.truncate(clauses.len().saturating_sub(3).max(1));
        }
    }
}
