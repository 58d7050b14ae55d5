//! Version 3, facts that an action or the goal needs off: document 02, j, reading by reading; what misreadings the generated files tell
//! from the right one, older files in version 3, the text form and explanations.

mod common;

use std::collections::{BTreeMap, BTreeSet};

use common::{all_replies, has_state, is_goal, reach};
use reference::assemble::{assemble, parse};
use reference::draft::{mend_length, sample, step, Draft, DraftSet};
use reference::explain::explain;
use reference::file::{Clause, File};
use reference::generate::off::{certain, off, Misreading};
use reference::generate::older::{older, renewed, unchanged};
use reference::generate::random::Random;
use reference::generate::{cases, Call, Case};
use reference::names::Names;
use reference::show::{show, text};
use reference::task::{Action, Ready};
use reference::version::Places;
use reference::{ask, check, layout, steps, Reply};

/// The sample as version 3, with these facts off in a goal state and these needed off by its two actions.
fn third(goal_off: u64, off: [u64; 2]) -> Draft {
    let mut d = Draft { version: 3, goal_off, ..sample() };
    d.actions.iter_mut().zip(off).for_each(|(action, off)| action.off = off);
    d
}

fn reply(draft: &Draft) -> String {
    check(&draft.encode()).to_string()
}

/// j1: where version 3 has its fields.
#[test]
fn places_of_version_3() {
    let places = Places::of(3);
    assert_eq!((places.unknown, places.goal, places.goal_off), (Some(14), 22, Some(30)));
    assert_eq!([places.action_count, places.actions, places.action], [38, 40, 32]);
    assert_eq!(places.masks, ["pre", "add", "del", "off"]);
    assert_eq!([1, 2].map(|version| Places::of(version).masks), [["pre", "add", "del"]; 2]);
    assert_eq!([1, 2, 3, 4].map(|version| Places::of(version).has_off()), [false, false, true, false]);
    let bytes = Draft { unknown: 2, ..third(1, [2, 3]) }.encode();
    let word = |at: usize| bytes[at..at + 8].iter().fold(0, |word, byte| word << 8 | *byte as u64);
    assert_eq!([6, 14, 22, 30].map(word), [0, 2, 3, 1]);
    assert_eq!(bytes[38..40], [0, 2]);
    assert_eq!([40, 48, 56, 64].map(word), [0, 1, 2, 2]);
    assert_eq!([72, 80, 88, 96].map(word), [0, 2, 1, 3]);
}

/// j1: cut anywhere, the file is refused at the field that is cut.
#[test]
fn every_shorter_beginning() {
    let whole = third(1, [1, 2]).encode();
    for length in 5..=104 {
        let mut bytes = whole[..length].to_vec();
        mend_length(&mut bytes);
        let place = match length {
            5 => 5,
            6..=37 => 6 + (length - 6) / 8 * 8,
            38 | 39 => 38,
            _ => 40 + (length - 40) / 8 * 8,
        };
        assert_eq!(all_replies(&bytes), [0; 5].map(|_| format!("refused 3 {place}")), "{length}");
    }
    // One version's bytes under another's number.
    let mut bytes = whole.clone();
    bytes[4] = 2;
    assert_eq!(check(&bytes).to_string(), "refused 3 50");
    let mut bytes = Draft { version: 2, ..sample() }.encode();
    bytes[4] = 3;
    assert_eq!(check(&bytes).to_string(), "refused 5 30");
}

/// j1 and j2: each mask has its own 5, in the order of the file; 16 comes right after the unknown mask's 5 here as well.
#[test]
fn the_order_of_faults() {
    type Change = fn(&mut Draft);
    let changes: [(Change, &str); 6] = [
        (|d| d.unknown = 4, "refused 5 14"),
        (|d| (d.init, d.unknown) = (1, 1), "refused 16 14"),
        (|d| d.goal |= 4, "refused 5 22"),
        (|d| d.goal_off |= 4, "refused 5 30"),
        (|d| d.actions[0].off = 4, "refused 5 64"),
        (|d| d.actions[1].off = 4, "refused 5 96"),
    ];
    for first in 0..changes.len() {
        for second in first..changes.len() {
            let mut d = third(0, [1, 2]);
            changes[second].0(&mut d);
            changes[first].0(&mut d);
            assert_eq!(all_replies(&d.encode()), [0; 5].map(|_| changes[first].1.to_string()), "{second}");
        }
    }
    let mut d = third(4, [0, 0]);
    d.actions.resize(257, Action::NOTHING);
    assert_eq!(reply(&d), "refused 5 30");
    d.goal_off = 0;
    assert_eq!(reply(&d), "refused 4 38");
    // The last mask of an action comes after its others, and before those of the next.
    let mut d = third(0, [4, 0]);
    d.actions[1].pre = 4;
    assert_eq!(reply(&d), "refused 5 64");
    d.actions[0].del = 4;
    assert_eq!(reply(&d), "refused 5 56");
}

/// An action applies where all its facts on are on and all its facts off are off, and never where one is both; made ready it is the same.
#[test]
fn where_an_action_applies() {
    let masks = || 0..8u64;
    let all = || masks().flat_map(move |pre| masks().map(move |off| (pre, off)));
    for (pre, off) in all() {
        let action = Action { pre, off, add: 1, del: 3 };
        let ready = Ready::of(&action);
        assert_eq!((ready.is_none(), action.never_applies()), (pre & off != 0, pre & off != 0));
        for state in 0..8 {
            let fits = |f: u64| if state >> f & 1 == 1 { off >> f & 1 == 0 } else { pre >> f & 1 == 0 };
            let applies = (0..3).all(fits);
            assert_eq!(action.applies(state), applies, "{pre} {off} {state}");
            assert_eq!(ready.is_some_and(|ready| ready.applies(state)), applies, "{pre} {off} {state}");
            assert!(ready.is_none_or(|ready| ready.after(state) == action.after(state)));
        }
    }
}

/// Every pair of goal masks and of masks that the actions need off, over the sample: replies and questions by the table of all states.
#[test]
fn all_masks_over_the_sample() {
    let mut seen: BTreeMap<String, usize> = BTreeMap::new();
    for code in 0..4u64.pow(4) {
        let [goal, goal_off, first, second] = [0, 2, 4, 6].map(|shift| code >> shift & 3);
        let mut d = Draft { goal, ..third(goal_off, [first, second]) };
        d.state_sets.extend([DraftSet::Regression(2, 0), DraftSet::Regression(3, 0)]);
        let bytes = d.encode();
        let file = layout::read(&bytes).expect("a lawful layout");
        assert_eq!(check(&bytes), common::check(&file), "{}", text(&d));
        for (entry, state) in [2, 7, 8].into_iter().flat_map(|entry| (0..4).map(move |state| (entry, state)))
        {
            let within = has_state(&d, entry, state, None);
            assert_eq!(ask(&bytes, entry.into(), state).to_string(), if within { "in" } else { "out" });
        }
        *seen.entry(reply(&d)).or_default() += 1;
    }
    assert_eq!(seen.keys().collect::<Vec<_>>(), ["accepted", "refused 11 2"]);
    assert!(seen.values().all(|count| *count > 50), "{seen:?}");
}

/// The reply to the statement that the left set is within the right one, by a rule, over a task of two facts: the action makes fact 0 on,
/// from where fact 0 is off. Sets: 3 and 4 lists, 5 and 6 the same as Horn clauses, 7 and 8 as two-literal ones: facts off, fact 0 alone.
fn stated(action: Action, goal: (u64, u64), set: &str, rule: u8, left: u16, right: u16) -> String {
    let mut d = Draft { version: 3, goal: goal.0, goal_off: goal.1, ..sample() };
    d.actions = vec![action];
    d.state_sets = parse(&format!(
        "set 0 empty\nset 1 init\nset 2 goal\nset 3 explicit 0\nset 4 explicit 1\nset 5 horn (-0) (-1)\n\
         set 6 horn (+0) (-1)\nset 7 twocnf (-0) (-1)\nset 8 twocnf (+0) (-1)\nset 9 {set}\n"
    ))
    .expect("entries")
    .state_sets;
    d.steps = vec![step(rule, 1, &[left, right], &[])];
    match reply(&d).as_str() {
        "refused 12 0" => "true".into(),
        "refused 10 0" => "shape".into(),
        other => other.replace("refused 11 0", "false"),
    }
}

/// j6: what is needed off is looked at before the action, whatever it sets or clears, over lists and over clauses, forwards and backwards.
#[test]
fn needs_off_is_about_the_state_before() {
    let sets_0 = Action { pre: 0, add: 1, del: 0, off: 1 };
    let clears_0 = Action { pre: 0, add: 0, del: 1, off: 1 };
    let both = Action { pre: 1, add: 0, del: 1, off: 1 };
    for (off, on) in [(3, 4), (5, 6), (7, 8)] {
        let said = |action, set: &str, rule, left, right| stated(action, (3, 0), set, rule, left, right);
        let (from_off, from_on) = (format!("= {off} [ 0 ]"), format!("= {on} [ 0 ]"));
        // From fact 0 off it leads to fact 0 on, and from there nowhere.
        assert_eq!(said(sets_0, &from_off, 2, 9, on), "true");
        assert_eq!(said(sets_0, &from_off, 2, 9, off), "false");
        assert_eq!(said(sets_0, &from_on, 2, 9, 0), "true");
        assert_eq!(said(sets_0, &from_off, 2, 9, 0), "false");
        // That it clears the fact does not let it apply where the fact is on.
        assert_eq!(said(clears_0, &from_on, 2, 9, 0), "true");
        assert_eq!(said(clears_0, &from_off, 2, 9, off), "true");
        assert_eq!([said(both, &from_on, 2, 9, 0), said(both, &from_off, 2, 9, 0)], ["true", "true"]);
    }
    // Backwards: which states lead into a set, those of lists beside a list.
    for (off, on) in [(5, 6), (7, 8)] {
        let said = |action, set: &str, left, right| stated(action, (3, 0), set, 3, left, right);
        let (to_off, to_on) = (format!("= [ 0 ] {off}"), format!("= [ 0 ] {on}"));
        assert_eq!(said(sets_0, &to_on, 9, off), "true");
        assert_eq!(said(sets_0, &to_on, 9, on), "false");
        assert_eq!(said(clears_0, &to_off, 9, off), "true");
        assert_eq!(said(Action { off: 0, ..clears_0 }, &to_off, 9, off), "false");
        assert_eq!(said(both, &to_off, 9, 0), "true");
    }
    let beside = |action, list: u16, right| {
        let mut d = Draft { version: 3, actions: vec![action], ..sample() };
        d.state_sets = vec![DraftSet::Empty, DraftSet::Explicit(vec![0, 1])];
        d.state_sets.extend([DraftSet::Explicit(vec![list.into()]), DraftSet::Regression(2, 0)]);
        d.state_sets.extend([DraftSet::Intersection(3, 1), DraftSet::Explicit(vec![0])]);
        d.steps = vec![step(3, 1, &[4, right], &[])];
        reply(&d)
    };
    assert_eq!([beside(sets_0, 1, 5), beside(sets_0, 1, 0)], ["refused 12 0", "refused 11 0"]);
    assert_eq!([beside(clears_0, 0, 5), beside(clears_0, 0, 0)], ["refused 12 0", "refused 11 0"]);
    assert_eq!(beside(both, 0, 0), "refused 12 0");
}

/// j4: which states are forbidden, by either mask, both or none of them; kind 2 on either side, over lists and clauses.
#[test]
fn both_goal_masks_count() {
    let mut table = Vec::new();
    for goal in [(0, 0), (1, 0), (0, 1), (1, 2), (2, 1), (1, 1), (3, 0), (0, 3)] {
        let within = |left, right| stated(Action::NOTHING, goal, "empty", 1, left, right) == "true";
        // State 0 and state 1 (fact 0 on) each as a list and as clauses.
        let [zero, one] = [[3, 5, 7], [4, 6, 8]].map(|sets| sets.map(|set| within(set, 2)));
        let states =
            [0, 1].map(|state| is_goal(&Draft { goal: goal.0, goal_off: goal.1, ..sample() }, state));
        assert_eq!((zero, one), ([states[0]; 3], [states[1]; 3]), "{goal:?}");
        let empty = within(2, 0);
        assert_eq!(empty, goal.0 & goal.1 != 0, "{goal:?}");
        table.push((states, empty));
    }
    let (yes, no) = (true, false);
    let expected = [[yes, yes], [no, yes], [yes, no], [no, yes], [no, no], [no, no], [no, no], [yes, no]];
    assert_eq!(table.iter().map(|row| row.0).collect::<Vec<_>>(), expected);
    assert_eq!(table.iter().filter(|row| row.1).count(), 1);
}

/// j5: a goal that forbids no state is kind 2 still: no 0 in a rule, one of two on the moved right, and no leave.
#[test]
fn a_goal_of_no_state_is_kind_2() {
    let shape = |set: &str, rule, left, right| stated(Action::NOTHING, (1, 1), set, rule, left, right);
    assert_eq!(shape("= 2 + 2", 1, 5, 9), "false");
    assert_eq!(shape("= 2 + 6", 1, 5, 9), "false");
    let three = |entries: &str, left, right| {
        let mut d = Draft { version: 3, goal: 1, goal_off: 1, ..sample() };
        d.state_sets = parse(entries).expect("entries").state_sets;
        d.steps = vec![step(1, 1, &[left, right], &[])];
        reply(&d)
    };
    let clauses = "set 0 empty\nset 1 goal\nset 2 horn (-0)\nset 3 = 1 + 1\nset 4 = 3 + 1\nset 5 = 3 + 0\n";
    assert_eq!([three(clauses, 2, 4), three(clauses, 2, 5)], ["refused 10 0", "refused 11 0"]);
    let lists = "set 0 empty\nset 1 goal\nset 2 explicit 0\nset 3 = 1 & 0\n";
    assert_eq!([three(lists, 1, 2), three(lists, 3, 2)], ["refused 10 0", "refused 12 0"]);
    // ED and the 0 of other rules want kind 0.
    let mut d = third(3, [0, 0]);
    d.steps[0].entries[0] = 2;
    assert_eq!(reply(&d), "refused 9 0");
    d.steps[0].entries[0] = 0;
    assert_eq!(reply(&d), "accepted");
}

/// The shortest certificate there is: no goal state, so the goal is dead. Without a fact in both masks the statement is untrue.
#[test]
fn no_goal_state_at_all() {
    let mut d = third(2, [0, 0]);
    d.action_sets.clear();
    d.state_sets = vec![DraftSet::Empty, DraftSet::Goal];
    d.steps = vec![
        step(6, 0, &[0], &[]),
        step(1, 1, &[1, 0], &[]),
        step(8, 0, &[1], &[1, 0]),
        step(14, 3, &[], &[2]),
    ];
    assert_eq!(reply(&d), "accepted");
    assert_eq!(reply(&Draft { goal: 1, ..d.clone() }), "refused 11 1");
    // In an older version the mask is not there.
    assert_eq!(reply(&Draft { version: 2, ..d }), "refused 11 1");
}

/// The certain certificate is accepted exactly where no forbidden state is within reach. Both are met: states with one mask alone, and a
/// reach that the masks of actions make smaller.
#[test]
fn certain_certificates() {
    let (mut safe, mut forbidden, mut one_mask, mut smaller) = (0, 0, 0, 0);
    for seed in 0..2000 {
        let d = certain(&mut Random::new(seed));
        let reached = reach(&d);
        let DraftSet::Explicit(states) = &d.state_sets[3] else { panic!("a list") };
        assert_eq!(BTreeSet::from_iter(states.iter().copied()), reached);
        let is_safe = !reached.iter().any(|state| is_goal(&d, *state));
        assert_eq!(reply(&d) == "accepted", is_safe, "{}", text(&d));
        safe += is_safe as usize;
        forbidden += !is_safe as usize;
        let [on, off] = [Draft { goal_off: 0, ..d.clone() }, Draft { goal: 0, ..d.clone() }];
        let alone = |half: &Draft| reached.iter().any(|state| is_goal(half, *state));
        one_mask += (is_safe && d.goal & d.goal_off == 0 && alone(&on) && alone(&off)) as usize;
        let mut without = d.clone();
        without.actions.iter_mut().for_each(|action| action.off = 0);
        smaller += (reach(&without) != reached) as usize;
    }
    assert!(safe > 500 && forbidden > 300 && one_mask > 30 && smaller > 300, "{safe} {forbidden} {one_mask}");
}

/// What the steps of a file come to with the task that a misreading makes of its own.
fn misread(file: &File, misreading: Misreading) -> Reply {
    let task = misreading.of(&file.task);
    steps::check(&File { task, ..file.clone() }).into()
}

/// A checker that misread the masks would reply otherwise to many of the files, to accepted ones and to refused ones.
#[test]
fn generated_files_tell_misreadings() {
    let mut told: BTreeMap<(Misreading, bool), usize> = BTreeMap::new();
    for file in off(31, 5000).filter(Case::is_check).filter_map(|case| layout::read(&case.bytes).ok()) {
        let right = Reply::from(steps::check(&file));
        for misreading in Misreading::ALL {
            let wrong = misread(&file, misreading);
            if wrong != right {
                *told.entry((misreading, right == Reply::Accepted)).or_default() += 1;
            }
        }
    }
    for misreading in Misreading::ALL {
        for accepted in [false, true] {
            let count = told.get(&(misreading, accepted)).copied().unwrap_or(0);
            assert!(count >= 15, "{misreading:?}, accepted {accepted}: {count}, {told:?}");
        }
    }
}

/// Each misreading takes true statements for false and untrue ones for true, of each rule that it can; B1 looks at no action, and where
/// more actions apply no statement becomes true.
#[test]
fn statements_that_misreadings_decide_otherwise() {
    let mut told: BTreeMap<(Misreading, u8, bool), usize> = BTreeMap::new();
    for file in off(32, 6000).filter(Case::is_check).filter_map(|case| layout::read(&case.bytes).ok()) {
        let statements = (0..file.steps.len()).filter(|k| (1..=3).contains(&file.steps[*k].rule));
        let statements: Vec<usize> = statements.collect();
        for misreading in Misreading::ALL {
            let misread = File { task: misreading.of(&file.task), ..file.clone() };
            for number in &statements {
                let [right, wrong] = [&file, &misread].map(|file| steps::check_step(file, *number).is_ok());
                if right != wrong {
                    *told.entry((misreading, file.steps[*number].rule, right)).or_default() += 1;
                }
            }
        }
    }
    for misreading in Misreading::ALL {
        let of_actions = [Misreading::Ignored, Misreading::After, Misreading::OnAlone].contains(&misreading);
        for (rule, right) in (1..=3).flat_map(|rule| [(rule, false), (rule, true)]) {
            let count = told.get(&(misreading, rule, right)).copied().unwrap_or(0);
            let none = rule == 1 && of_actions || !right && !misreading.accepts_untrue();
            assert!(if none { count == 0 } else { count >= 15 }, "{misreading:?}, B{rule}, {right}: {count}");
        }
    }
}

/// The misreadings are other readings: where one differs for an action or a goal, by the state.
#[test]
fn misreadings_by_state() {
    let action = Action { pre: 1, add: 2, del: 4, off: 6 };
    let mut d = Draft { goal: 5, goal_off: 6, ..third(0, [0, 0]) };
    d.actions = vec![action, Action { pre: 3, add: 0, del: 0, off: 2 }, Action { off: 4, ..action }];
    let task = layout::read(&Draft { facts: 3, ..d }.encode()).expect("a layout").task;
    let applying = |misreading: Misreading| {
        let misread = misreading.of(&task);
        [0, 1, 2].map(|a| (0..8).filter(|s| misread.actions[a].applies(*s)).collect::<Vec<u64>>())
    };
    assert_eq!(applying(Misreading::Ignored), [vec![1, 3, 5, 7], vec![3, 7], vec![1, 3, 5, 7]]);
    assert_eq!(applying(Misreading::After), [vec![], vec![], vec![1, 3, 5, 7]]);
    assert_eq!(applying(Misreading::OnAlone), [vec![1], vec![3, 7], vec![1, 3]]);
    let goals = |misreading: Misreading| {
        let misread = misreading.of(&task);
        (0..8).filter(|s| misread.is_goal(*s)).collect::<Vec<u64>>()
    };
    assert_eq!(goals(Misreading::GoalIgnored), [5, 7]);
    assert_eq!(goals(Misreading::GoalOffAlone), [0, 1]);
    assert_eq!(goals(Misreading::GoalOnAlone), [5]);
    assert!((0..8).all(|state| !task.is_goal(state)));
}

/// Questions about the goal and what leads into it, by the meaning of the kinds, for any number of facts.
#[test]
fn questions_about_facts_off() {
    let mut seen: BTreeMap<String, usize> = BTreeMap::new();
    for case in off(21, 4000) {
        let Call::Ask(entry, state) = case.call else { continue };
        let Ok(file) = layout::read(&case.bytes) else { continue };
        let answer = ask(&case.bytes, entry, state).to_string();
        if answer != "refused 13 0" {
            let within = has_state(&Draft::of(&file), entry as u16, state, None);
            assert_eq!(answer, if within { "in" } else { "out" });
        }
        *seen.entry(answer).or_default() += 1;
    }
    assert!(seen["in"] > 200 && seen["out"] > 200, "{seen:?}");
}

/// The cases of `off` reach every reply that they are made for, by each call, at each of the new masks.
#[test]
fn the_generator_reaches_the_replies() {
    let mut seen: BTreeMap<(String, String), usize> = BTreeMap::new();
    let (mut ends, mut never, mut forms) = (BTreeSet::new(), 0, [0; 3]);
    for case in off(22, 8000) {
        let call = case.line().split(' ').next().unwrap_or("").to_string();
        let said = case.reply();
        if said == "refused 3 30" || (said.starts_with("refused 3 ") && case.bytes.len() >= 64) {
            ends.insert(case.bytes.len());
        }
        *seen.entry((call, said)).or_default() += 1;
        let Ok(file) = layout::read(&case.bytes) else { continue };
        never += file.task.actions.iter().any(Action::never_applies) as usize;
        let (on, off) = (file.task.goal, file.task.goal_off);
        let form = [on | off == 0, on & off != 0, on == 0 && off != 0];
        forms.iter_mut().zip(form).for_each(|(count, so)| *count += so as usize);
    }
    for call in ["check", "ask", "round", "small", "numbered"] {
        // At the goal's mask, at those of the first three actions, and 16.
        for places in [&["5 30"][..], &["5 64", "5 96", "5 128"], &["16 14"]] {
            let said = places.iter().map(|place| format!("refused {place}"));
            let count: usize = said.filter_map(|said| seen.get(&(call.into(), said))).sum();
            assert!(count >= 3, "{call}, {places:?}: {count}");
        }
    }
    // Cut at every byte of both masks: the goal's, and the first action's.
    assert!((30..38).chain(64..72).all(|length| ends.contains(&length)), "{ends:?}");
    assert!(never > 300 && forms.iter().all(|count| *count > 200), "{never} {forms:?}");
    let lines = |seed| off(seed, 50).map(|case| case.line()).collect::<Vec<String>>();
    assert_eq!(lines(5), lines(5));
    assert_ne!(lines(5), lines(6));
}

/// Cases of the other sorts have version 3 as well, with facts needed off.
#[test]
fn other_cases_need_facts_off_too() {
    use reference::generate::{
        listed::listed, numbered::numbered, relisted::relisted, rounds::rounds, small::small,
        unknown::unknown,
    };
    let count = |cases: Vec<Case>| {
        let files = cases.iter().filter_map(|case| layout::read(&case.bytes).ok());
        let third: Vec<File> = files.filter(|file| file.task.version == 3).collect();
        let by = |needs: &dyn Fn(&File) -> bool| third.iter().filter(|file| needs(file)).count();
        let action = by(&|file| file.task.actions.iter().any(|action| action.off != 0));
        [third.len(), action, by(&|file| file.task.goal_off != 0)]
    };
    for (sort, counts) in [
        ("gen", count(cases(3, 800).collect())),
        ("numbered", count(numbered(3, 800).collect())),
        ("rounds", count(rounds(3, 800).collect())),
        ("small", count(small(3, 800).collect())),
        ("listed", count(listed(3, 800).collect())),
        ("relisted", count(relisted(3, 400).collect())),
        ("unknown", count(unknown(3, 800).collect())),
    ] {
        assert!(counts.iter().all(|count| *count >= 40), "{sort}: {counts:?}");
    }
}

/// A file of version 1 or 2 gets the reply of the file of version 3 that says the same.
#[test]
fn older_files_in_version_3() {
    let mut seen: BTreeMap<(u8, String), usize> = BTreeMap::new();
    let all: Vec<Case> = older(17, 2500).collect();
    for pair in all.chunks_exact(2) {
        let (first, other) = (pair[0].reply(), pair[1].reply());
        assert!(unchanged([&pair[0], &pair[1]], [&first, &other]), "{first}, {other}: {}", pair[0].line());
        assert_eq!(pair[1].bytes[4], 3);
        let number = first.split(' ').take(2).collect::<Vec<&str>>().join(" ");
        *seen.entry((pair[0].bytes[4], number)).or_default() += 1;
        // Another reply is noticed, and so is a pair that is none.
        assert!(!unchanged([&pair[0], &pair[1]], [&first, "refused 11 1000"]));
        assert!(!unchanged([&pair[1], &pair[0]], [&first, &first]));
        assert!(!unchanged([&pair[0], &pair[0]], [&first, &first]));
    }
    for version in [1, 2] {
        for number in 8..=11 {
            let count = seen.get(&(version, format!("refused {number}"))).copied().unwrap_or(0);
            assert!(count >= 10, "version {version}, {number}: {count}");
        }
        for said in ["accepted", "in", "out", "ended"] {
            assert!(seen[&(version, said.to_string())] >= 20, "version {version}, {said}");
        }
    }
    assert!(seen[&(1, "refused 12".to_string())] >= 10, "{seen:?}");
}

/// Files that have no pair: of version 3, with a faulty layout, too long in version 3, by the small limits too.
#[test]
fn files_without_a_pair() {
    let case = |call: Call, bytes: Vec<u8>| Case { call, bytes };
    let bytes_of = |case: Option<Case>| case.map(|case| case.bytes);
    let plain = renewed(&case(Call::Check, sample().encode()));
    assert_eq!(bytes_of(plain), Some(third(0, [0, 0]).encode()));
    let unknown = Draft { version: 2, unknown: 2, ..sample() };
    let third_of = Draft { version: 3, ..unknown.clone() }.encode();
    assert_eq!(bytes_of(renewed(&case(Call::Check, unknown.encode()))), Some(third_of));
    assert_eq!(renewed(&case(Call::Check, third(0, [0, 0]).encode())), None);
    assert_eq!(renewed(&case(Call::Check, vec![])), None);
    let full = reference::generate::limits::full_file(0);
    assert_eq!(renewed(&case(Call::Check, full)), None);
    let mut d = sample();
    d.facts = 10;
    d.state_sets.push(DraftSet::Explicit((0..512).collect()));
    assert!(renewed(&case(Call::Small, d.encode())).is_some());
    d.state_sets.extend([DraftSet::Explicit((0..512).collect()), DraftSet::Explicit((0..500).collect())]);
    d.state_sets.push(DraftSet::Explicit((0..490).collect()));
    assert!(d.encode().len() <= 16_384 && d.encode().len() + 32 > 16_384, "{}", d.encode().len());
    assert!(renewed(&case(Call::Small, d.encode())).is_none());
    assert!(renewed(&case(Call::Check, d.encode())).is_some());
}

/// The text form has the goal's facts off in its line and an action's behind its other masks; text and bytes are made of each other.
#[test]
fn the_text_form() {
    let d = third(0, [2, 3]);
    let head = "version 3\nfacts 2\ninit 0\nunknown {}\ngoal {0 1} off {}\n\
                action 0 pre {} add {0} del {1} off {1}\naction 1 pre {} add {1} del {0} off {0 1}\nactions 0 all\n";
    assert!(text(&d).starts_with(head), "{}", text(&d));
    for d in [d, third(3, [0, 0]), Draft { unknown: 2, ..third(1, [1, 1]) }] {
        assert_eq!(parse(&text(&d)), Ok(d.clone()));
        assert_eq!(assemble(&show(&d.encode())), Ok(d.encode()));
    }
    for case in off(23, 1500).filter(|case| layout::read(&case.bytes).is_ok()) {
        assert_eq!(assemble(&show(&case.bytes)).as_ref(), Ok(&case.bytes));
    }
    // What is missing is no fact; a mask may be a number and have names.
    let made = parse("version 3\nfacts 2\nfact 1 open\ngoal {0}\naction 0 stop pre {} add {} del {open}")
        .expect("a text");
    assert_eq!((made.goal_off, made.actions[0].off), (0, 0));
    let made = parse("goal 1 off 0x2\nfact 1 open\naction 0 stop pre {} add {} del {} off {open}\nversion 3");
    let made = made.expect("a text");
    assert_eq!((made.goal, made.goal_off, made.actions[0].off), (1, 2, 2));
    for (faulty, why) in [
        ("goal {0} off {1}", "line 1: version 1 has no facts that are needed off; 'version 3' has"),
        ("version 2\ngoal {0} off {}", "line 2: version 2 has no facts that are needed off; 'version 3' has"),
        (
            "version 2\naction 0 pre {} add {} del {} off {1}\ngoal {} off {}",
            "line 2: version 2 has no facts that are needed off; 'version 3' has",
        ),
        ("version 3\ngoal {0} {1}", "line 2: '{' is too much"),
        ("version 3\ngoal {0} off", "line 2: the line ends too early"),
        ("version 3\naction 0 pre {} off {} add {} del {}", "line 2: 'add' expected, not 'off'"),
        ("fact 0 off", "line 1: 'off' is a word of the text form and no name"),
    ] {
        assert_eq!(parse(faulty), Err(why.to_string()));
    }
}

/// An explanation has all of these texts; facts 0 and 1 and action 0 go by names.
fn explained(d: &Draft, lines: &[&str]) {
    let names = Names::parse("fact 0 on_load\nfact 1 on_charge\naction 0 close\n").expect("names");
    let text = explain(&d.encode(), &names);
    lines.iter().for_each(|line| assert!(text.contains(line), "{line}\n{text}"));
}

/// What explanations of accepted files say of the goal's facts off, and of actions that never apply.
#[test]
fn explanations_of_accepted_files() {
    let goal = |goal, goal_off| Draft { goal, facts: 3, ..third(goal_off, [0, 0]) };
    explained(&goal(3, 0), &["to a goal state, one with {on_load on_charge} on.\n"]);
    explained(&goal(3, 4), &["to a goal state, one with {on_load on_charge} on and {2} off.\n"]);
    let none = "to a goal state, one with {on_load on_charge} on and {on_load} off, which no state has.\n";
    explained(&goal(3, 1), &[none]);
    let mut d = goal(3, 4);
    d.actions[0] = Action { pre: 4, off: 4, ..d.actions[0] };
    let never = "The task has 3 facts and 2 actions.\n1 action never applies, needing a fact both on and off: action 0 close.\n";
    explained(&d, &[never]);
    d.actions[1] = Action { pre: 2, off: 2, ..d.actions[1] };
    explained(&d, &["\n2 actions never apply, needing a fact both on and off: action 0 close, action 1.\n"]);
    d.actions = vec![d.actions[0]; 9];
    explained(
        &d,
        &[
            "\n9 actions never apply, needing a fact both on and off: action 0 close, action 1, ",
            "action 7, ....\n",
        ],
    );
}

/// What explanations say of a counterexample: by which action, and which of the goal's masks a state does not meet.
#[test]
fn explanations_of_counterexamples() {
    let d = Draft { goal: 0, ..third(2, [0, 0]) };
    explained(&d, &["\n  state 0 {}\n    in set 3 explicit {} {on_load} {on_charge}\n    in set 2 goal\n"]);
    let mut d = third(0, [2, 0]);
    d.state_sets[3] = DraftSet::Explicit(vec![0, 2]);
    let by = "\n  by action 0 close pre {} add {on_load} del {on_charge} off {on_charge}\n";
    explained(&d, &[by, "\n    in actions 0 all; it applies, since {on_charge} is off before it\n"]);
    let mut d = Draft { goal: 2, ..third(1, [0, 0]) };
    d.steps[0] = step(1, 1, &[3, 2], &[]);
    for (states, wanted) in [
        (vec![0, 1, 2], "{on_charge} on"),
        (vec![1], "{on_charge} on and {on_load} off"),
        (vec![3], "{on_load} off"),
    ] {
        d.state_sets[3] = DraftSet::Explicit(states);
        explained(&d, &[&format!("not in set 2 goal, which wants {wanted} as well\n")]);
    }
}

/// What explanations say of faults of the new masks, and the text before them.
#[test]
fn explanations_of_faults() {
    let field = "At byte 30, 8 bytes: the mask of facts that are off in a goal state.\n";
    let before = "\nunknown {}\ngoal {on_load on_charge}\n\n";
    explained(&third(4, [0, 0]), &["refused 5 30\n", before, field]);
    let field = "\nAt byte 64, 8 bytes: action 0 close, its off mask of facts that it needs off.\n";
    let before = "\ngoal {on_load on_charge} off {on_load}\n";
    let begun = "\n# action 0 close pre {} add {on_load} del {on_charge} ...\n";
    explained(&third(1, [4, 0]), &["refused 5 64\n", before, begun, field, "It holds 0x4: facts {2}, "]);
}

/// Counterexamples over clauses look at both masks too: none by an action that never applies.
#[test]
fn counterexamples_over_clauses() {
    let mut d = Draft { facts: 2, ..third(0, [0, 0]) };
    d.state_sets[3] = DraftSet::Horn(vec![Clause { positive: 0, negative: 1 }]);
    d.actions = vec![Action { pre: 2, add: 1, del: 0, off: 2 }, Action { pre: 0, add: 1, del: 0, off: 2 }];
    let told = explain(&d.encode(), &Names::default());
    let by = "\n  before: state 0 {}\n    in set 3 horn (-0)\n  by action 1 pre {} add {0} del {} off {1}\n";
    assert!(told.starts_with("refused 11 1\n") && told.contains(by), "{told}");
    d.actions.pop();
    assert_eq!(reply(&d), "accepted");
}

/// Of the samples one is safe, since an action wants a fact off; of the other, which has that action without it, a forbidden state is
/// within reach. A checker that ignored a mask, or looked at one of the goal's alone, would refuse the first.
#[test]
fn the_samples() {
    let read = |text| parse(text).expect("a text");
    let cooled = read(include_str!("../../samples/cooled.txt"));
    let at_times = read(include_str!("../../samples/cooled_at_times_refused_11.txt"));
    let forbidden = |d: &Draft| reach(d).iter().filter(|state| is_goal(d, **state)).count();
    assert_eq!((reply(&cooled), forbidden(&cooled)), ("accepted".into(), 0));
    assert_eq!(reply(&at_times), "refused 11 1");
    assert!(forbidden(&at_times) > 0);
    let mut same = at_times.clone();
    same.actions[1].off = 1;
    assert_eq!(same, cooled);
    let file = layout::read(&cooled.encode()).expect("a lawful layout");
    let told = [Misreading::Ignored, Misreading::GoalIgnored, Misreading::GoalOffAlone];
    assert_eq!(
        told.map(|misreading| misread(&file, misreading).to_string()),
        ["refused 11 1", "refused 11 2", "refused 11 2"]
    );
}
