//! Whether a task is stricter than another (document 02, k): the verdict by plain alterations and by the definition read fact by fact,
//! what it means for sequences of actions, the reasons and differences that are told, the reading of a task alone, and the samples.

mod common;

use std::collections::{BTreeMap, BTreeSet, HashSet};

use common::{is_goal, reach};
use reference::assemble::parse;
use reference::draft::{mend_length, Draft};
use reference::generate::random::Random;
use reference::generate::tasks::{action_of, backward, fact_count, forward, reachable};
use reference::generate::{cases, Case};
use reference::layout::{self, read_task};
use reference::shape::Method;
use reference::stricter::{differences, why_not, Difference, Needs, Reason};
use reference::task::{Action, Task};
use reference::version::Places;
use reference::{check, Reply};

fn on(mask: u64, fact: u8) -> bool {
    mask >> fact & 1 == 1
}

/// The definition, fact by fact: the same effects, and every need of the other.
fn needs_more(action: &Action, other: &Action) -> bool {
    (0..64).all(|f| {
        let needs = (on(action.pre, f) || !on(other.pre, f)) && (on(action.off, f) || !on(other.off, f));
        needs && on(action.add, f) == on(other.add, f) && on(action.del, f) == on(other.del, f)
    })
}

/// The definition, fact by fact: the same number of facts, init and unknown facts, every fact of the other's goal in either mask, and
/// each action needs more than some action of the other.
fn is_stricter(task: &Task, other: &Task) -> bool {
    let fits = |f| {
        let begins = on(task.init, f) == on(other.init, f) && on(task.unknown, f) == on(other.unknown, f);
        let [wants, wants_off] =
            [(task.goal, other.goal), (task.goal_off, other.goal_off)].map(|(a, b)| on(a, f) || !on(b, f));
        begins && wants && wants_off
    };
    let comes = |action: &Action| other.actions.iter().any(|from| needs_more(action, from));
    task.facts == other.facts && (0..64).all(fits) && task.actions.iter().all(comes)
}

/// What each single alteration makes of a task, as long as it has at most so many actions.
fn altered_once(task: &Task, most: usize) -> Vec<Task> {
    let mut made = Vec::new();
    let mut with = |change: &dyn Fn(&mut Task)| {
        let mut altered = task.clone();
        change(&mut altered);
        made.push(altered);
    };
    let count = task.actions.len();
    for bit in (0..task.facts).map(|f| 1 << f) {
        with(&|t| t.goal |= bit);
        with(&|t| t.goal_off |= bit);
        for a in 0..count {
            with(&|t| t.actions[a].pre |= bit);
            with(&|t| t.actions[a].off |= bit);
        }
    }
    for a in 0..count {
        with(&|t| {
            t.actions.remove(a);
        });
        for place in (0..=count).filter(|_| count < most) {
            with(&|t| t.actions.insert(place, t.actions[a]));
        }
    }
    made
}

/// The goal and the actions of a task with at most 2 facts and 7 actions as one number.
fn key(task: &Task) -> u64 {
    let add = |key: u64, mask: &u64| key << 2 | mask;
    let actions = task.actions.iter().flat_map(|a| [a.pre, a.add, a.del, a.off]).collect::<Vec<u64>>();
    [task.goal, task.goal_off].iter().chain(&actions).fold(1, add)
}

/// All that alterations make of a task, one after the other, with at most so many actions in between.
fn closure(task: &Task, most: usize) -> HashSet<u64> {
    let mut reached = HashSet::from([key(task)]);
    let mut open = vec![task.clone()];
    while let Some(task) = open.pop() {
        open.extend(altered_once(&task, most).into_iter().filter(|altered| reached.insert(key(altered))));
    }
    reached
}

/// All tasks with these initial states, any goal, and at most so many of these actions in any order.
fn all_tasks(facts: u8, (init, unknown): (u64, u64), actions: &[Action], most: usize) -> Vec<Task> {
    let mut lists: Vec<Vec<Action>> = vec![vec![]];
    for length in 1..=most {
        let shorter: Vec<Vec<Action>> =
            lists.iter().filter(|list| list.len() == length - 1).cloned().collect();
        let longer = |list: &Vec<Action>| actions.iter().map(|a| [&list[..], &[*a]].concat()).collect();
        lists.extend(shorter.iter().flat_map(|list| -> Vec<Vec<Action>> { longer(list) }));
    }
    let goals = (0..1 << (2 * facts)).map(|code: u64| (code >> facts, code & ((1 << facts) - 1)));
    let with = |(goal, goal_off), list: &Vec<Action>| {
        let actions = list.clone();
        Task { version: 3, facts, init, unknown, goal, goal_off, actions }
    };
    goals.flat_map(|goal| lists.iter().map(move |list| with(goal, list))).collect()
}

/// Compares the verdict on all pairs of such tasks with what alterations make: how many are stricter, and how many are not. No
/// alteration touches the initial states, so what they make of a task is the same for all of these. One action more than both tasks
/// have is enough in between: what nothing comes from is taken away first, and to change the order of the others, one is written once
/// more in its new place and then taken away in the old.
fn compare_all(facts: u8, inits: &[(u64, u64)], actions: &[Action], most: usize) -> [usize; 2] {
    let groups: Vec<Vec<Task>> = inits.iter().map(|init| all_tasks(facts, *init, actions, most)).collect();
    let mut seen = [0; 2];
    for number in 0..groups[0].len() {
        let reached = closure(&groups[0][number], most + 1);
        let made: Vec<bool> = groups[0].iter().map(|task| reached.contains(&key(task))).collect();
        for (k, group) in groups.iter().enumerate() {
            for (m, others) in groups.iter().enumerate() {
                let other = &others[number];
                for (task, made) in group.iter().zip(&made) {
                    let stricter = why_not(task, other).is_empty();
                    assert_eq!(stricter, *made && k == m, "{task:?}\n{other:?}");
                    seen[!stricter as usize] += 1;
                }
            }
        }
    }
    seen
}

/// The verdict is what alterations make: for all pairs of tasks with one fact and at most two actions, and for many with two facts.
#[test]
fn all_small_pairs_by_alterations() {
    let all = (0..16).map(|code| {
        let [pre, add, del, off] = [0, 1, 2, 3].map(|shift| code >> shift & 1);
        Action { pre, add, del, off }
    });
    let seen = compare_all(1, &[(0, 0), (1, 0), (0, 1)], &all.collect::<Vec<_>>(), 2);
    assert_eq!(seen.iter().sum::<usize>(), (3 * 4 * (1 + 16 + 256usize)).pow(2));
    assert!(seen[0] > 100_000, "{seen:?}");
    let needs = (0..16).map(|code| Action { pre: code & 3, off: code >> 2, ..Action::NOTHING });
    let two = needs.flat_map(|needs| [(1, 2), (3, 2)].map(|(add, del)| Action { add, del, ..needs }));
    let seen = compare_all(2, &[(0, 0), (1, 2)], &two.collect::<Vec<_>>(), 1);
    assert_eq!(seen.iter().sum::<usize>(), (2 * 16 * (1 + 32usize)).pow(2));
    assert!(seen[0] > 10_000, "{seen:?}");
}

/// A task of any version, with up to 64 facts.
fn some_task(random: &mut Random, facts: u8) -> Task {
    match random.below(4) {
        0 => forward(random, facts, Method::Horn, (3, 8)).0,
        1 => backward(random, facts, Method::TwoCnf, (3, 8)).0,
        _ => reachable(random, facts, 60).0,
    }
}

/// Any version that has the masks that the task makes use of.
fn some_version(random: &mut Random, task: &Task) -> u8 {
    let off = task.goal_off != 0 || task.actions.iter().any(|action| action.off != 0);
    let least = if off { 3 } else { 1 + (task.unknown != 0) as usize };
    random.between(least, 3) as u8
}

/// One of the alterations that make a task stricter.
fn alter(random: &mut Random, task: &mut Task) {
    let (fact, count) = (random.bit(task.all_facts()), task.actions.len());
    let a = random.below(count);
    match random.below(8) {
        0 => task.goal |= fact,
        1 => task.goal_off |= fact,
        _ if count == 0 => (),
        2 => drop(task.actions.remove(a)),
        3 | 4 => task.actions[a].pre |= fact,
        5 | 6 => task.actions[a].off |= fact,
        _ => task.actions.insert(random.below(count + 1), task.actions[a]),
    }
}

/// Something that is none of these: a need or a fact of the goal is taken away, an effect or an initial state is changed, an action
/// or a fact is added.
fn spoil(random: &mut Random, task: &mut Task) {
    let (facts, a) = (task.all_facts(), random.below(task.actions.len()));
    let fact = random.bit(facts);
    match (random.below(13), task.actions.get_mut(a)) {
        (0 | 1, Some(action)) => action.pre &= !random.bit(action.pre),
        (2 | 3, Some(action)) => action.off &= !random.bit(action.off),
        (4, Some(action)) => action.add ^= fact,
        (5, Some(action)) => action.del ^= fact,
        (6, _) => task.goal &= !random.bit(task.goal),
        (7 | 8, _) => task.goal_off &= !random.bit(task.goal_off),
        (9, _) => task.init ^= random.bit(facts & !task.unknown),
        (10, _) => task.unknown ^= random.bit(facts & !task.init),
        (11, _) => task.facts = (task.facts + 1).min(64),
        _ => task.actions.push(action_of(random, task.version, facts)),
    }
}

/// A task that was made of the other by alterations, and in some of the pairs by a spoiling one as well, or by a few.
struct Pair {
    task: Task,
    other: Task,
    spoiled: bool,
}

fn some_pair(random: &mut Random, facts: u8) -> Pair {
    let other = some_task(random, facts);
    let mut task = other.clone();
    (0..random.below(6)).for_each(|_| alter(random, &mut task));
    let times = random.pick(&[0, 0, 1, 1, 1, 3]);
    (0..times).for_each(|_| spoil(random, &mut task));
    task.version = some_version(random, &task);
    Pair { task, other, spoiled: times > 0 }
}

/// Pairs of any number of facts.
fn pairs(seed: u64, count: u64) -> impl Iterator<Item = Pair> {
    (0..count).map(move |index| {
        let mut random = Random::for_case(seed, index);
        let facts = fact_count(&mut random);
        some_pair(&mut random, facts)
    })
}

/// Pairs with few facts, so that all states can be gone through.
fn small_pairs(seed: u64, count: u64) -> impl Iterator<Item = Pair> {
    (0..count).map(move |index| {
        let mut random = Random::for_case(seed, index);
        let facts = random.between(1, 4) as u8;
        some_pair(&mut random, facts)
    })
}

fn kind(reason: &Reason) -> &'static str {
    match reason {
        Reason::Facts => "facts",
        Reason::Init => "init",
        Reason::Unknown => "unknown",
        Reason::Goal { .. } => "goal",
        Reason::GoalOff { .. } => "goal off",
        Reason::Action { nearest: Some(_), .. } => "nearest action",
        Reason::Action { nearest: None, .. } => "no such action",
    }
}

const KINDS: [&str; 7] = ["facts", "init", "unknown", "goal", "goal off", "nearest action", "no such action"];

/// The verdict is the definition's, also for the tasks as they are read from bytes of their versions; alterations alone make a task
/// stricter. Both verdicts, all versions beside each other, and each kind of reason come often, alone and beside others.
#[test]
fn generated_pairs_by_the_definition() {
    let (mut verdicts, mut versions, mut reasons) = ([0; 2], BTreeMap::new(), BTreeMap::new());
    let mut all_facts = 0;
    for Pair { task, other, spoiled } in pairs(1, 60_000) {
        let why = why_not(&task, &other);
        assert_eq!(why.is_empty(), is_stricter(&task, &other), "{task:?}\n{other:?}");
        assert!(why.is_empty() || spoiled, "{task:?}\n{other:?}");
        let [read, read_other] = [&task, &other].map(|task| read_task(&draft(task).encode()));
        assert_eq!((read.as_ref(), read_other.as_ref()), (Ok(&task), Ok(&other)));
        verdicts[!why.is_empty() as usize] += 1;
        *versions.entry((task.version, other.version, why.is_empty())).or_insert(0) += 1;
        why.iter().for_each(|reason| *reasons.entry((kind(reason), why.len() == 1)).or_insert(0) += 1);
        all_facts += (task.facts == 64) as usize;
    }
    assert!(verdicts.iter().all(|count| *count > 20_000) && all_facts > 2000, "{verdicts:?} {all_facts}");
    assert!(versions.len() == 18 && versions.values().all(|count| *count >= 20), "{versions:?}");
    assert!(reasons.len() == 2 * KINDS.len() && reasons.values().all(|count| *count > 400), "{reasons:?}");
}

fn draft(task: &Task) -> Draft {
    let Task { version, facts, init, unknown, goal, goal_off, ref actions } = *task;
    Draft { version, facts, init, unknown, goal, goal_off, actions: actions.clone(), ..Draft::default() }
}

/// Whether some sequence of actions leads from an initial state to a goal state, by going through the states within reach.
fn solvable(draft: &Draft) -> bool {
    reach(draft).iter().any(|state| is_goal(draft, *state))
}

/// Where the other task is unsolvable, a stricter one is so too. A task that is not stricter, for one reason of any kind but another
/// number of facts, may be solvable.
#[test]
fn stricter_tasks_stay_unsolvable() {
    let (mut kept, mut lost) = (0, BTreeMap::new());
    for Pair { task, other, .. } in small_pairs(2, 30_000) {
        if solvable(&draft(&other)) {
            continue;
        }
        match why_not(&task, &other)[..] {
            [] => {
                assert!(!solvable(&draft(&task)), "{task:?}\n{other:?}");
                kept += (task.actions != other.actions || task.goal != other.goal) as usize;
            }
            [reason] => *lost.entry(kind(&reason)).or_insert(0) += solvable(&draft(&task)) as usize,
            _ => (),
        }
    }
    assert!(kept > 5_000, "{kept}");
    assert_eq!(lost.remove("facts"), Some(0));
    assert!(lost.len() == 6 && lost.values().all(|count| *count > 20), "{lost:?}");
}

/// Accepted files whose tables were made stricter: no goal state is within reach, whether the old certificate passes or not.
#[test]
fn accepted_files_made_stricter() {
    let mut seen: BTreeMap<String, usize> = BTreeMap::new();
    for (index, case) in cases(3, 16_000).enumerate().filter(|(_, case)| case.is_check()) {
        let file = layout::read(&case.bytes).ok().filter(|file| file.task.facts <= 6);
        let Some(file) = file.filter(|_| check(&case.bytes) == Reply::Accepted) else { continue };
        let (mut task, mut random) = (file.task.clone(), Random::for_case(3, index as u64));
        (0..random.between(1, 4)).for_each(|_| alter(&mut random, &mut task));
        task.version = some_version(&mut random, &task);
        assert_eq!(why_not(&task, &file.task), []);
        let Draft { action_sets, state_sets, steps, .. } = Draft::of(&file);
        let altered = Draft { action_sets, state_sets, steps, ..draft(&task) };
        assert!(!solvable(&altered), "{altered:?}");
        let reply = check(&altered.encode()).to_string();
        *seen.entry(reply.split(' ').take(2).collect::<Vec<&str>>().join(" ")).or_default() += 1;
    }
    assert!(seen["accepted"] > 3000 && seen["refused 11"] >= 20, "{seen:?}");
}

/// Each task is stricter than itself; and where a first is stricter than a second, and that than a third, the first is than the third.
#[test]
fn reflexive_and_transitive() {
    let (mut chains, mut broken) = (0, 0);
    for (index, Pair { task: second, other: third, .. }) in pairs(4, 15_000).enumerate() {
        let mut random = Random::for_case(5, index as u64);
        let mut first = second.clone();
        (0..random.below(5)).for_each(|_| alter(&mut random, &mut first));
        if random.chance(30) {
            spoil(&mut random, &mut first);
        }
        for task in [&first, &second, &third] {
            assert_eq!((why_not(task, task), differences(task, task)), (vec![], vec![]));
        }
        let [one, two, both] = [(&first, &second), (&second, &third), (&first, &third)]
            .map(|(task, other)| why_not(task, other).is_empty());
        assert!(both || !(one && two), "{first:?}\n{second:?}\n{third:?}");
        chains += (one && two) as usize;
        broken += !both as usize;
    }
    assert!(chains > 4_000 && broken > 4_000, "{chains} {broken}");
}

/// The facts of the second mask that the first lacks.
fn lacking(mask: u64, other: u64) -> u64 {
    (0..64).filter(|f| on(other, *f) && !on(mask, *f)).map(|f| 1 << f).sum()
}

/// How many needs of the other action this one lacks.
fn lacking_needs(action: &Action, other: &Action) -> u32 {
    lacking(action.pre, other.pre).count_ones() + lacking(action.off, other.off).count_ones()
}

/// Each reason is true, and every condition that fails is among them.
#[test]
fn reasons_are_true() {
    let mut seen = BTreeSet::new();
    for Pair { task, other, .. } in pairs(6, 15_000) {
        let mut left = why_not(&task, &other);
        seen.extend(left.iter().map(kind));
        let mut takes = |reason: Reason, fails: bool| {
            let found = left.iter().position(|other| *other == reason);
            assert_eq!(found.map(|k| left.remove(k)).is_some(), fails, "{reason:?} {task:?}\n{other:?}");
        };
        takes(Reason::Facts, task.facts != other.facts);
        takes(Reason::Init, task.init != other.init);
        takes(Reason::Unknown, task.unknown != other.unknown);
        let [goal, goal_off] = [lacking(task.goal, other.goal), lacking(task.goal_off, other.goal_off)];
        takes(Reason::Goal { missing: goal }, goal != 0);
        takes(Reason::GoalOff { missing: goal_off }, goal_off != 0);
        let comes = |action: &Action| other.actions.iter().any(|from| needs_more(action, from));
        let homeless = (0..task.actions.len()).filter(|a| !comes(&task.actions[*a]));
        let named = left.iter().map(|reason| match *reason {
            Reason::Action { action, .. } => action,
            _ => panic!("{reason:?} is untrue"),
        });
        assert_eq!(named.collect::<Vec<_>>(), homeless.collect::<Vec<_>>());
        left.iter().for_each(|reason| nearest_is_true(&task, &other, reason));
    }
    assert_eq!(seen, KINDS.into());
}

/// The nearest has the same effects, needs what is said to be missing, and no other lacks less; where none is told, none has them.
fn nearest_is_true(task: &Task, other: &Task, reason: &Reason) {
    let Reason::Action { action, nearest } = *reason else { return };
    let own = &task.actions[action];
    let alike = other.actions.iter().filter(|from| from.add == own.add && from.del == own.del);
    let Some(nearest) = nearest else { return assert_eq!(alike.count(), 0) };
    let from = &other.actions[nearest.action];
    assert_eq!((from.add, from.del), (own.add, own.del));
    let needs = |a: &Action, b: &Action| Needs { on: lacking(a.pre, b.pre), off: lacking(a.off, b.off) };
    assert_eq!((nearest.missing, nearest.added), (needs(own, from), needs(from, own)));
    assert_eq!(alike.map(|from| lacking_needs(own, from)).min(), Some(lacking_needs(own, from)));
}

/// The differences make the stricter task of the other, but for the order of actions and repeats of them; none is told in vain.
#[test]
fn differences_are_true() {
    let mut seen = [0; 5];
    for Pair { task, other, .. } in pairs(7, 20_000).filter(|pair| is_stricter(&pair.task, &pair.other)) {
        let told = differences(&task, &other);
        let (mut goal, mut goal_off) = (other.goal, other.goal_off);
        let mut actions = task.actions.clone();
        let mut away = BTreeSet::new();
        for difference in &told {
            match *difference {
                Difference::Goal { added } => goal += added,
                Difference::GoalOff { added } => goal_off += added,
                Difference::Needs { action, from } => {
                    assert!(from.missing == Needs::NONE && from.added != Needs::NONE);
                    actions[action].pre -= from.added.on;
                    actions[action].off -= from.added.off;
                    assert_eq!(actions[action], other.actions[from.action]);
                }
                Difference::TakenAway { action } => assert!(away.insert(action)),
            }
            seen[index(difference)] += 1;
        }
        assert_eq!((goal, goal_off), (task.goal, task.goal_off));
        // With the needs taken back, the actions are those of the other task that were not taken away.
        for (number, action) in other.actions.iter().enumerate() {
            assert_eq!(actions.contains(action), !away.contains(&number), "{task:?}\n{other:?}");
        }
        assert!(actions.iter().all(|action| other.actions.contains(action)));
        assert_eq!(told.is_empty(), same_but_for_order(&task, &other));
        seen[4] += told.is_empty() as usize;
    }
    assert!(seen.iter().all(|count| *count > 800), "{seen:?}");
}

fn index(difference: &Difference) -> usize {
    match difference {
        Difference::Goal { .. } => 0,
        Difference::GoalOff { .. } => 1,
        Difference::Needs { .. } => 2,
        Difference::TakenAway { .. } => 3,
    }
}

/// Whether goal and actions are the same, in any order and with repeats.
fn same_but_for_order(task: &Task, other: &Task) -> bool {
    let set =
        |task: &Task| task.actions.iter().map(|a| [a.pre, a.add, a.del, a.off]).collect::<BTreeSet<_>>();
    (task.goal, task.goal_off, set(task)) == (other.goal, other.goal_off, set(other))
}

/// Actions in another order and with repeats make no difference, either way round.
#[test]
fn order_and_repeats() {
    let mut moved = 0;
    for index in 0..4000 {
        let mut random = Random::for_case(8, index);
        let facts = fact_count(&mut random);
        let task = some_task(&mut random, facts);
        let mut other = task.clone();
        for _ in 0..random.below(4).min(4 * task.actions.len()) {
            let again = random.pick(&task.actions);
            other.actions.push(again);
        }
        for a in (1..other.actions.len()).rev() {
            other.actions.swap(a, random.below(a + 1));
        }
        other.version = some_version(&mut random, &other);
        moved += (other.actions != task.actions) as usize;
        for (one, two) in [(&task, &other), (&other, &task)] {
            assert_eq!((why_not(one, two), differences(one, two)), (vec![], vec![]), "{one:?}\n{two:?}");
        }
    }
    assert!(moved > 2500, "{moved}");
}

/// Of several actions that one comes from, or that are as near, the one of the same number is told, then the first.
#[test]
fn equally_near_actions() {
    let with = |pre| Action { pre, add: 1, ..Action::NOTHING };
    let task = |actions: &[Action]| Task { facts: 4, actions: actions.to_vec(), ..Task::default() };
    let (two, both) = (task(&[with(2), with(4)]), task(&[with(6), with(6)]));
    let from = |difference: &Difference| match *difference {
        Difference::Needs { action, from } => (action, from.action, from.added.on),
        _ => panic!("{difference:?}"),
    };
    let told: Vec<_> = differences(&both, &two).iter().map(from).collect();
    assert_eq!(told, [(0, 0, 4), (1, 1, 2)]);
    let none = task(&[Action::NOTHING, with(0)]);
    let nearest = |reason: &Reason| match *reason {
        Reason::Action { action, nearest: Some(nearest) } => (action, nearest.action, nearest.missing.on),
        _ => panic!("{reason:?}"),
    };
    assert_eq!(why_not(&none, &two)[1..].iter().map(nearest).collect::<Vec<_>>(), [(1, 1, 4)]);
    let third = task(&[with(2), with(4), with(0)]);
    assert_eq!(why_not(&third, &two).iter().map(nearest).collect::<Vec<_>>(), [(2, 0, 2)]);
    // What is still there as it was is not taken away, nor is a repeat of it.
    let thrice = task(&[with(2), with(4), with(2)]);
    assert_eq!(differences(&task(&[with(2)]), &thrice), [Difference::TakenAway { action: 1 }]);
}

/// A task is read as from the whole file, with the same refusals; what follows the actions does not count, and may be missing.
#[test]
fn the_task_alone_is_read() {
    let mut seen: BTreeMap<[bool; 2], usize> = BTreeMap::new();
    for Case { bytes, .. } in cases(9, 6000) {
        let (whole, read) = (layout::read(&bytes), read_task(&bytes));
        *seen.entry([whole.is_ok(), read.is_ok()]).or_default() += 1;
        let Ok(task) = read else {
            assert_eq!(whole.err(), read.err());
            continue;
        };
        let places = Places::of(task.version);
        let end = places.actions + task.actions.len() * places.action;
        match whole {
            Ok(file) => assert_eq!(file.task, task),
            Err(fault) => assert!(fault.place as usize >= end, "{fault:?}, {end}"),
        }
        let followed = |length: usize, rest: &[u8]| {
            let mut bytes = [&bytes[..length], rest].concat();
            mend_length(&mut bytes);
            read_task(&bytes).map_err(|fault| fault.number)
        };
        assert_eq!(followed(end, &[]).as_ref(), Ok(&task));
        assert_eq!(followed(end, &[255; 20]), Ok(task));
        assert_eq!(followed(end - 1, &[]), Err(3));
    }
    assert!(seen.len() == 3 && seen.values().all(|count| *count > 100), "{seen:?}");
}

/// The tables and verdicts of the statement `StricterCases`, which the definition computes.
#[test]
fn the_computed_cases() {
    let (adding, deleting) = (Action { add: 2, ..Action::NOTHING }, Action { del: 2, ..Action::NOTHING });
    let plain = |goal, actions: &[Action]| Task {
        version: 1,
        facts: 2,
        goal,
        actions: actions.to_vec(),
        ..Task::default()
    };
    let first = plain(1, &[adding, deleting]);
    let off = |unknown| {
        let actions =
            vec![Action { pre: 2, ..deleting }, Action { off: 1, ..adding }, Action { off: 3, ..adding }];
        Task { version: 3, unknown, actions, ..first.clone() }
    };
    let altered = [plain(3, &[adding, deleting]), plain(1, &[adding]), off(0)];
    for task in &altered {
        assert_eq!((is_stricter(task, &first), is_stricter(&first, task)), (true, false));
        assert_eq!((why_not(task, &first).len(), why_not(&first, task).is_empty()), (0, false));
    }
    assert_eq!(why_not(&off(1), &first), [Reason::Unknown]);
}

/// One sample is the other with a stricter table. Both are unsolvable, and the certificate that they share passes for one alone.
#[test]
fn the_samples() {
    let read = |text| parse(text).expect("a text");
    let bypass = read(include_str!("../../samples/bypass.txt"));
    let with_load = read(include_str!("../../samples/bypass_with_load_refused_11.txt"));
    assert_eq!(Draft { goal: 1, ..with_load.clone() }, bypass);
    let replies = [&bypass, &with_load].map(|d| check(&d.encode()).to_string());
    assert_eq!(replies, ["accepted", "refused 11 1"]);
    assert!(!solvable(&bypass) && !solvable(&with_load));
    let [bypass, with_load] = [bypass, with_load].map(|d| read_task(&d.encode()).expect("a task"));
    assert_eq!(why_not(&with_load, &bypass), []);
    assert_eq!(differences(&with_load, &bypass), [Difference::Goal { added: 2 }]);
    assert_eq!(why_not(&bypass, &with_load), [Reason::Goal { missing: 2 }]);
}
