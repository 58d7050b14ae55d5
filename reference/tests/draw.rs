//! The graphs of `draw`: the sample's as they are, and for generated files each node, edge and mark against the meaning
//! of the task and the bytes of the steps.

mod common;

use std::collections::{BTreeMap, BTreeSet};

use common::dot::{self, read};
use common::labels::{check_caption, check_label, steps_of, StepBytes};
use common::naming::names as random_names;
use common::program::{printed, sample, stopped};
use reference::draft::{self, Draft};
use reference::draw::{draw, Graph};
use reference::generate::cases;
use reference::generate::random::Random;
use reference::generate::tasks::{action, need_off, some_off};
use reference::names::Names;
use reference::task::Action;
use reference::{check, layout, Reply};

const TOO_MANY: &str = "at least 65 states are within reach, and 64 are the most drawn";

const TABLE: &str = r##"digraph table {
  graph [rankdir=LR fontname="Helvetica" fontsize=11 labelloc=b labeljust=l label="A box lists the facts that are on.\l3 states are within reach, no forbidden one among them.\l"];
  node [shape=box style=rounded fontname="Helvetica" fontsize=11 margin="0.12,0.06" height=0.3];
  edge [fontname="Helvetica" fontsize=10 arrowsize=0.7];
  start [shape=plaintext style=""];
  s0 [label="{}"];
  s1 [label="{charge_closed}"];
  s2 [label="{load_closed}"];
  s3 [label="{charge_closed load_closed}\nforbidden, never reached" color="#c00000" fontcolor="#c00000" style="rounded,dashed"];
  { rank=max; s3; }
  start -> s0;
  s0 -> s1 [label="close_charge"];
  s0 -> s2 [label="close_load"];
  s1 -> s1 [label="close_charge"];
  s1 -> s2 [label="close_load"];
  s2 -> s1 [label="close_charge"];
  s2 -> s2 [label="close_load"];
}
"##;

const STEPS: &str = r#"digraph steps {
  graph [rankdir=TB fontname="Helvetica" fontsize=11 labelloc=b labeljust=l label="accepted\linit: the start, goal: the forbidden states\lset 3: explicit {} {charge_closed} {load_closed}\l"];
  node [shape=box style=rounded fontname="Helvetica" fontsize=11 margin="0.12,0.06" height=0.3];
  edge [fontname="Helvetica" fontsize=10 arrowsize=0.7];
  step0 [label="0 ED\nempty is dead"];
  step1 [label="1 B2\nset 3 [all] is within set 3 + empty"];
  step2 [label="2 B1\nset 3 & goal is within empty"];
  step3 [label="3 SD\nset 3 & goal is dead"];
  step4 [label="4 PG\nset 3 is dead"];
  step5 [label="5 B1\ninit is within set 3"];
  step6 [label="6 SD\ninit is dead"];
  step7 [label="7 CI\nunsolvable"];
  step2 -> step3;
  step0 -> step3;
  step1 -> step4;
  step0 -> step4;
  step3 -> step4;
  step5 -> step6;
  step4 -> step6;
  step6 -> step7;
}
"#;

fn sample_bytes() -> Vec<u8> {
    draft::sample().encode()
}

#[test]
fn the_sample() {
    let cert = sample("sample.cert");
    assert_eq!(printed(&["draw", &cert, "table"], b""), TABLE);
    assert_eq!(printed(&["draw", &cert, "steps"], b""), STEPS);
    assert_eq!(printed(&["draw", &cert], b""), format!("{TABLE}{STEPS}"));
    assert_eq!(printed(&["draw", &sample("sample.txt")], b""), format!("{TABLE}{STEPS}"));
    assert_eq!(printed(&["draw", "-", "steps", &sample("sample.names")], &sample_bytes()), STEPS);
    assert_eq!(printed(&["draw", "-", &sample("sample.txt")], &sample_bytes()), format!("{TABLE}{STEPS}"));
}

/// Both captions of a file whose forbidden states have a fact off say so; an action that needs a fact off is drawn where that is off.
#[test]
fn facts_needed_off() {
    let drawn = printed(&["draw", &sample("cooled.cert")], b"");
    for said in [
        "Forbidden is a state with {charging} on and {fan_on} off.",
        "forbidden states, those with {charging} on and {fan_on} off",
    ] {
        assert!(drawn.contains(said), "{drawn}");
    }
    let table = read(&printed(&["draw", &sample("cooled.cert"), "table"], b""));
    let stopping = table.edges.iter().filter(|(_, _, label, _)| label.contains("stop_fan"));
    let from: Vec<&str> = stopping.map(|(from, ..)| from.as_str()).collect();
    assert_eq!(from, ["s0", "s2", "s4", "s6"]);
}

#[test]
fn facts_and_actions_without_names() {
    let graph = read(&draw(&sample_bytes(), &Names::default(), Graph::Task).expect("a graph"));
    assert_eq!(graph.nodes["s3"].0, ["{0 1}", "forbidden, never reached"]);
    assert_eq!(graph.edges[1], ("s0".into(), "s1".into(), "action 0".into(), String::new()));
}

fn on(mask: u64, fact: u32) -> bool {
    mask >> fact & 1 == 1
}

/// The state after an action fact by fact; none where it does not apply.
fn step(action: &Action, state: u64) -> Option<u64> {
    let after = |f: u32| on(action.add, f) || (on(state, f) && !on(action.del, f));
    let applies = (0..64).all(|f| if on(state, f) { !on(action.off, f) } else { !on(action.pre, f) });
    applies.then(|| (0..64).filter(|f| after(*f)).map(|f| 1 << f).sum())
}

/// The initial states, at most 65 of them: each unknown fact doubles them.
fn inits(draft: &Draft) -> Vec<u64> {
    let mut found = vec![draft.init];
    for bit in (0..64).filter(|f| on(draft.unknown, *f)).map(|f| 1u64 << f) {
        let more: Vec<u64> = found.iter().map(|state| state | bit).collect();
        found.extend(more);
        found.truncate(65);
    }
    found.sort_unstable();
    found
}

/// The states within reach by repeated passes over all that were found, until none is added or 65 are there.
fn reach(draft: &Draft) -> Vec<u64> {
    let mut found = inits(draft);
    loop {
        let before = found.len();
        for k in 0..before {
            for next in draft.actions.iter().filter_map(|action| step(action, found[k])).collect::<Vec<u64>>()
            {
                if !found.contains(&next) {
                    found.push(next);
                }
            }
        }
        if found.len() == before || found.len() > 64 {
            found.sort_unstable();
            return found;
        }
    }
}

fn listed(state: u64, names: &Names) -> String {
    let facts: Vec<String> = (0..64).filter(|f| on(state, *f)).map(|f| names.fact(f)).collect();
    format!("{{{}}}", facts.join(" "))
}

/// Each node of a table: facts, mark in words and look.
fn check_nodes(draft: &Draft, names: &Names, states: &[u64], graph: &dot::Graph) -> [usize; 3] {
    let wanted = |state, f| if on(state, f) { !on(draft.goal_off, f) } else { !on(draft.goal, f) };
    let forbidden = |state: u64| (0..64).all(|f| wanted(state, f));
    let all = if draft.facts <= 6 { 1 << draft.facts } else { 0 };
    let unreached: Vec<u64> = (0..all).filter(|s| forbidden(*s) && !states.contains(s)).collect();
    let mut counts = [0; 3];
    for state in states.iter().chain(&unreached) {
        let (lines, look) = &graph.nodes[&format!("s{state}")];
        let (index, mark) = match (forbidden(*state), states.contains(state)) {
            (false, _) => (0, ""),
            (true, true) => (1, " forbidden"),
            (true, false) => (2, " forbidden, never reached"),
        };
        assert_eq!(lines.join(" "), listed(*state, names) + mark);
        assert_eq!((look.contains("#c00000"), look.contains("dashed")), (index > 0, index == 2), "{look}");
        counts[index] += 1;
    }
    assert_eq!(graph.nodes.len(), 1 + states.len() + unreached.len());
    assert!(graph.nodes.contains_key("start"));
    counts
}

/// Each edge is a transition by the meaning, and each transition an edge, once.
fn check_edges(draft: &Draft, names: &Names, states: &[u64], graph: &dot::Graph) {
    let inits = inits(draft).into_iter();
    let mut expected: Vec<(String, String, String)> =
        inits.map(|init| ("start".to_string(), format!("s{init}"), String::new())).collect();
    let mut joined: BTreeMap<(u64, u64), Vec<String>> = BTreeMap::new();
    for state in states {
        for (a, action) in draft.actions.iter().enumerate() {
            let Some(next) = step(action, *state) else { continue };
            let number = format!("action {a}");
            let name = names.actions.get(&(a as u16)).unwrap_or(&number).clone();
            joined.entry((*state, next)).or_default().push(name);
        }
    }
    let edges = joined.into_iter().map(|((s, t), list)| (format!("s{s}"), format!("s{t}"), list.join(", ")));
    expected.extend(edges);
    let drawn: Vec<_> =
        graph.edges.iter().map(|(s, t, label, _)| (s.clone(), t.clone(), label.clone())).collect();
    assert_eq!(drawn, expected);
}

/// The sample with another task, of which many states may be within reach.
fn random_task(random: &mut Random) -> Vec<u8> {
    let mut draft = draft::sample();
    draft.facts = random.between(2, 9) as u8;
    let facts = (1 << draft.facts) - 1;
    (draft.init, draft.goal) = (random.mask(facts, 1), random.mask(facts, 2));
    if random.chance(50) {
        (draft.version, draft.unknown) = (random.pick(&[2, 3]), random.mask(facts & !draft.init, 1));
    }
    draft.goal_off = some_off(random, draft.version, facts, draft.goal);
    // Actions that change one fact each lead to many states.
    let single = random.chance(30);
    let change = |random: &mut Random| match single {
        true => Action { pre: 0, add: random.bit(facts), del: random.bit(facts), ..Action::NOTHING },
        false => action(random, facts),
    };
    draft.actions = (0..random.between(2, 12)).map(|_| change(random)).collect();
    need_off(random, draft.version, facts, &mut draft.actions);
    draft.encode()
}

/// Nodes, edges and caption; how many nodes of each kind there are, none where there are too many.
fn check_table(bytes: &[u8], names: &Names) -> Option<[usize; 3]> {
    let draft = Draft::of(&layout::read(bytes).expect("a lawful layout"));
    let states = reach(&draft);
    let drawn = draw(bytes, names, Graph::Task);
    if states.len() > 64 {
        assert_eq!(drawn, Err(TOO_MANY.to_string()));
        return None;
    }
    let graph = read(&drawn.expect("few states"));
    let counts = check_nodes(&draft, names, &states, &graph);
    check_edges(&draft, names, &states, &graph);
    let forbidden = match counts[1] {
        0 => "no forbidden one among them.".to_string(),
        count => format!("{count} of them forbidden."),
    };
    assert!(graph.caption[1].starts_with(&format!("{} state", states.len())), "{:?}", graph.caption);
    assert!(graph.caption[1].ends_with(&forbidden), "{:?}", graph.caption);
    assert_eq!(graph.caption[2..], masks_in_words(&draft, names));
    Some(counts)
}

/// What the caption says of unknown facts and of facts that are off in a forbidden state.
fn masks_in_words(draft: &Draft, names: &Names) -> Vec<String> {
    let [unknown, on, off] = [draft.unknown, draft.goal, draft.goal_off].map(|mask| listed(mask, names));
    let on = if draft.goal == 0 { String::new() } else { format!("{on} on and ") };
    let none = if draft.goal & draft.goal_off == 0 { "" } else { ", which no state has" };
    let mut lines = Vec::new();
    if draft.unknown != 0 {
        lines.push(format!("At the start {unknown} may be on or off."));
    }
    if draft.goal_off != 0 {
        lines.push(format!("Forbidden is a state with {on}{off} off{none}."));
    }
    lines
}

#[test]
fn tables_against_the_meaning() {
    let mut random = Random::new(41);
    let (mut marks, mut large) = ([0; 3], 0);
    let lawful = cases(51, 1500).map(|case| case.bytes).filter(|bytes| layout::read(bytes).is_ok());
    let tasks: Vec<Vec<u8>> = (0..1500).map(|_| random_task(&mut random)).collect();
    for bytes in lawful.chain(tasks) {
        let draft = Draft::of(&layout::read(&bytes).expect("a lawful layout"));
        let names = random_names(&mut random, &draft);
        match check_table(&bytes, &names) {
            None => large += 1,
            Some(counts) => (0..3).for_each(|k| marks[k] += counts[k]),
        }
    }
    assert!(marks.iter().all(|count| *count > 2000) && large > 10, "{marks:?}, {large}");
}

/// A chain of states, one more than actions: each action turns on the next fact.
fn chain(actions: u32) -> Vec<u8> {
    let next = |k: u32| Action { pre: (1 << k) - 1, add: 1 << k, del: 0, ..Action::NOTHING };
    let mut chain = draft::sample();
    (chain.facts, chain.init, chain.goal) = (64, 0, u64::MAX);
    chain.actions = (0..actions).map(next).collect();
    chain.encode()
}

#[test]
fn sixty_four_states_are_drawn_and_sixty_five_are_not() {
    let most = draw(&chain(63), &Names::default(), Graph::Task).expect("64 states");
    assert_eq!(read(&most).nodes.len(), 64 + 1);
    assert_eq!(draw(&chain(64), &Names::default(), Graph::Task), Err(TOO_MANY.to_string()));
    assert_eq!(stopped(&["draw", "-", "table"], &chain(64)), (Some(1), format!("reference: {TOO_MANY}\n")));
    let steps = draw(&chain(64), &Names::default(), Graph::Derivation).expect("the steps");
    assert_eq!(printed(&["draw", "-"], &chain(64)), format!("// No table: {TOO_MANY}.\n{steps}"));
}

/// Which steps the last one rests on, by passes until nothing is added.
fn rested_on(steps: &[StepBytes]) -> BTreeSet<usize> {
    let mut used = BTreeSet::from([steps.len() - 1]);
    loop {
        let more: Vec<usize> = used.iter().flat_map(|k| steps[*k].premises.clone()).collect();
        let before = used.len();
        used.extend(more);
        if used.len() == before {
            return used;
        }
    }
}

#[test]
fn steps_against_the_bytes() {
    let mut random = Random::new(42);
    let [mut plain, mut grey, mut red, mut unfolded, mut cut] = [0; 5];
    for case in cases(52, 2000) {
        let Ok(file) = layout::read(&case.bytes) else { continue };
        let draft = Draft::of(&file);
        let names = random_names(&mut random, &draft);
        let graph = read(&draw(&case.bytes, &names, Graph::Derivation).expect("a lawful layout"));
        let steps = steps_of(&case.bytes, draft.steps.len());
        let used = rested_on(&steps);
        let reply = check(&case.bytes);
        assert_eq!(graph.nodes.len(), steps.len());
        let mut edges = Vec::new();
        for (k, step) in steps.iter().enumerate() {
            let refused = matches!(reply, Reply::Refused { place, .. } if place as usize == k);
            let (lines, look) = &graph.nodes[&format!("step{k}")];
            let (is_grey, is_red) = (look.contains("#a0a0a0"), look.contains("#c00000"));
            assert_eq!((is_grey, is_red), (!refused && !used.contains(&k), refused), "step {k}");
            check_label(&draft, step, k, lines, refused.then_some(reply));
            [plain, grey, red] = [plain + !is_grey as usize, grey + is_grey as usize, red + is_red as usize];
            let colour = if used.contains(&k) { "" } else { r##"color="#a0a0a0" fontcolor="#a0a0a0""## };
            let to = format!("step{k}");
            edges.extend(
                step.premises.iter().map(|p| (format!("step{p}"), to.clone(), String::new(), colour.into())),
            );
        }
        assert_eq!(graph.edges, edges);
        check_caption(&draft, &names, &graph, reply);
        unfolded +=
            graph.nodes.values().filter(|(lines, _)| lines[1..].join(" ").contains(['(', '['])).count();
        cut += graph.caption.iter().filter(|line| line.contains(" .. (")).count();
    }
    assert!(unfolded > 2000 && cut > 100, "{unfolded} unfolded, {cut} cut");
    assert!(plain > 5000 && grey > 2000 && red > 500, "{plain} plain, {grey} grey, {red} red");
}

#[test]
fn a_refused_step_is_red() {
    let mut untrue = draft::sample();
    untrue.init = 3;
    let graph = read(&draw(&untrue.encode(), &Names::default(), Graph::Derivation).expect("a graph"));
    assert_eq!(graph.caption[0], "refused 11 at step 5: rule B1, the statement is not true");
    assert_eq!(graph.nodes["step5"].0, ["5 B1", "init is within set 3", "refused 11"]);
    assert!(graph.nodes["step5"].1.contains("#c00000") && !graph.nodes["step4"].1.contains("#c00000"));
}

#[test]
fn wrong_calls() {
    let cert = sample("sample.cert");
    let wrong: [&[&str]; 3] =
        [&["draw"], &["draw", &cert, "table", &cert, "more"], &["draw", &cert, &cert, "table"]];
    for arguments in wrong {
        let (status, message) = stopped(arguments, b"");
        assert!(status == Some(2) && message.starts_with("usage: "), "{arguments:?}: {message}");
    }
    let short = "reference: refused 1 at byte 0: the file is under 4 or over 65536 bytes, or its length field is wrong\n";
    for graph in [&["draw", "-"][..], &["draw", "-", "table"], &["draw", "-", "steps"]] {
        assert_eq!(stopped(graph, b""), (Some(1), short.to_string()));
    }
    let (status, message) = stopped(&["draw", &cert, "picture"], b"");
    assert!(status == Some(1) && message.starts_with("reference: picture: "), "{message}");
}

/// The texts between two tags of an SVG, with their entities read.
fn between(svg: &str, begin: &str, end: &str) -> Vec<String> {
    let parts = svg.split(begin).skip(1).map(|part| part.split(end).next().expect("a part"));
    let inner =
        parts.map(|part| if begin.ends_with('>') { part } else { part.split_once('>').expect("a tag").1 });
    let entities = [("&#45;", "-"), ("&#160;", " "), ("&lt;", "<"), ("&gt;", ">"), ("&amp;", "&")];
    inner
        .map(|text| entities.iter().fold(text.to_string(), |text, (from, to)| text.replace(from, to)))
        .collect()
}

fn sorted(mut list: Vec<String>) -> Vec<String> {
    list.sort();
    list
}

/// The pictures have the nodes, edges and labels of the DOT text, no more and no fewer. Where this fails,
/// `reference/README.md` says how to make them anew.
#[test]
fn the_pictures_are_of_these_graphs() {
    let images = sample("../docs/images");
    for (name, dot) in [("table", TABLE), ("steps", STEPS)] {
        let svg = std::fs::read_to_string(format!("{images}/sample-{name}.svg")).expect("a picture");
        let graph = read(dot);
        let edges = graph.edges.iter().map(|(from, to, ..)| format!("{from}->{to}"));
        let titles = edges.chain(graph.nodes.keys().cloned()).chain([name.to_string()]);
        assert_eq!(sorted(between(&svg, "<title>", "</title>")), sorted(titles.collect()), "{name}");
        for (id, (_, look)) in &graph.nodes {
            let group =
                svg.split(&format!("<title>{id}</title>")).nth(1).and_then(|rest| rest.split("</g>").next());
            let group = group.expect("the node's part of the picture");
            let drawn = (group.contains("#c00000"), group.contains("stroke-dasharray"));
            assert_eq!(drawn, (look.contains("#c00000"), look.contains("dashed")), "{id}");
        }
        let unlabelled =
            graph.nodes.iter().filter(|(_, (lines, _))| lines[0].is_empty()).map(|(id, _)| id.clone());
        let labels = graph.nodes.values().flat_map(|(lines, _)| lines.clone());
        let labels = labels.chain(graph.edges.iter().map(|edge| edge.2.clone())).chain(graph.caption.clone());
        let texts: Vec<String> = labels.filter(|line| !line.is_empty()).chain(unlabelled).collect();
        assert_eq!(sorted(between(&svg, "<text ", "</text>")), sorted(texts), "{name}");
    }
}
