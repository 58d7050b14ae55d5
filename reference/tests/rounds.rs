//! Checks in rounds: document 02, f, reading by reading; whole runs beside one whole check; and generated rounds against the
//! slow checker.

mod common;

use std::collections::BTreeMap;

use common::{step_reply, Meaning};
use reference::draft::{sample, step, Draft, DraftActions, DraftSet};
use reference::file::{File, Step};
use reference::generate::random::Random;
use reference::generate::rounds::rounds;
use reference::generate::{cases, Call, Case};
use reference::layout::MAX_STEPS;
use reference::rounds::run;
use reference::rules::{entries_used, RULES};
use reference::{check, check_round, layout, Reply};

/// How many steps the sample has.
const STEPS: u64 = 8;

fn line(file: &[u8], from: u64, count: u64) -> String {
    check_round(file, from, count).to_string()
}

/// The sample with a change.
fn changed(change: impl Fn(&mut Draft)) -> Vec<u8> {
    let mut draft = sample();
    change(&mut draft);
    draft.encode()
}

/// Every round of a file with so many steps that begins at one of them.
fn lawful_rounds(steps: u64) -> impl Iterator<Item = (u64, u64)> {
    (0..steps).flat_map(move |from| (1..=steps + 1).chain([2047, 2048]).map(move |count| (from, count)))
}

/// From the number of steps on, all is beyond the last step, and no round hands that number back.
#[test]
fn positions() {
    let file = sample().encode();
    let beyond = [8, 9, 2047, 2048, 65_536, 65_539, 1 << 32, (1 << 32) + 3, 1 << 63, u64::MAX - 1, u64::MAX];
    for from in beyond {
        for count in [1, 2, STEPS, 2048] {
            assert_eq!(line(&file, from, count), "refused 17 0", "{from} {count}");
        }
    }
    for (from, count) in lawful_rounds(STEPS) {
        let said = line(&file, from, count);
        assert!(said == "ended" || (1..STEPS).any(|step| said == format!("go on from {step}")), "{said}");
    }
}

/// The round that does the last step replies for good, also where its count is what was left; any other hands
/// back the number of the next step.
#[test]
fn what_is_handed_back() {
    let (whole, cut) = (sample().encode(), changed(|d| d.steps.truncate(7)));
    for (file, steps, last) in [(whole, STEPS, "ended"), (cut, STEPS - 1, "refused 12 6")] {
        for (from, count) in lawful_rounds(steps) {
            let goes_on = (from + count < steps).then(|| format!("go on from {}", from + count));
            assert_eq!(line(&file, from, count), goes_on.unwrap_or(last.into()), "{from} {count}");
        }
    }
}

/// A failing step is refused at its number in the file by each round that does it, and by no other.
#[test]
fn a_failing_step() {
    let failing: [(u64, &str, Vec<u8>); 4] = [
        (4, "refused 8 4", changed(|d| d.steps[4].premises[1] = 4)),
        (4, "refused 9 4", changed(|d| d.steps[4].premises[0] = 2)),
        (1, "refused 10 1", changed(|d| d.steps[1].rule = 1)),
        (5, "refused 11 5", changed(|d| d.state_sets[3] = DraftSet::Explicit(vec![1, 2]))),
    ];
    for (place, refusal, file) in failing {
        for (from, count) in lawful_rounds(STEPS) {
            let expected = match from + count {
                end if (from..end).contains(&place) => refusal.into(),
                end if end < STEPS => format!("go on from {end}"),
                _ => "ended".into(),
            };
            assert_eq!(line(&file, from, count), expected, "{refusal}: {from} {count}");
        }
    }
}

/// The layout first, then 17 for a count or a position, then the steps.
#[test]
fn seventeen_stands_between_layout_and_steps() {
    let broken = changed(|d| d.version = 9);
    let failing = changed(|d| d.steps.iter_mut().for_each(|step| step.rule = 0));
    let positions = [0, 7, 8, 9, 1 << 32, u64::MAX];
    for count in [0, 2049, 2050, 65_537, (1 << 32) + 1, 1 << 63, u64::MAX - 1, u64::MAX] {
        for from in positions {
            assert_eq!(line(&[], from, count), "refused 1 0", "{from} {count}");
            assert_eq!(line(&broken, from, count), "refused 2 4", "{from} {count}");
            assert_eq!(line(&failing, from, count), "refused 17 0", "{from} {count}");
            assert_eq!(line(&sample().encode(), from, count), "refused 17 0", "{from} {count}");
        }
    }
    for count in [1, 8, 9, 2048] {
        assert_eq!(line(&broken, 8, count), "refused 2 4", "{count}");
        assert_eq!(line(&failing, 8, count), "refused 17 0", "{count}");
        assert_eq!(line(&failing, 7, count), "refused 8 7", "{count}");
    }
}

/// Begun behind a failing step, a round may reach the end, and that says nothing of the file.
#[test]
fn begun_elsewhere() {
    let untrue = changed(|d| d.state_sets[3] = DraftSet::Explicit(vec![0, 1, 3]));
    assert_eq!(check(&untrue).to_string(), "refused 11 1");
    let said = [(0, 1), (0, 2), (0, 8), (2, 1), (3, 5)].map(|(from, count)| line(&untrue, from, count));
    assert_eq!(said, ["go on from 1", "refused 11 1", "refused 11 1", "refused 11 2", "ended"]);
    let cut = changed(|d| {
        d.steps[0].rule = 99;
        d.steps.truncate(7);
    });
    assert_eq!((check(&cut).to_string(), line(&cut, 1, 6)), ("refused 8 0".into(), "refused 12 6".into()));
}

/// 12 comes after the steps, and only from the round that does the last one.
#[test]
fn twelve_comes_last() {
    let file = changed(|d| d.steps[7] = step(6, 0, &[3], &[]));
    let said = [(0, 7), (0, 8), (7, 1)].map(|(from, count)| line(&file, from, count));
    assert_eq!(said, ["go on from 7", "refused 9 7", "refused 9 7"]);
    let file = changed(|d| {
        d.steps[7] = step(6, 0, &[0], &[]);
        d.steps[6].premises[0] = 0;
    });
    let said = [(0, 6), (0, 8), (6, 1), (6, 2), (7, 1)].map(|(from, count)| line(&file, from, count));
    assert_eq!(said, ["go on from 6", "refused 9 6", "refused 9 6", "refused 9 6", "refused 12 7"]);
}

/// A right application of a rule to premises that are only said.
struct Application {
    rule: u8,
    /// Kind and entries.
    premises: Vec<(u8, [u16; 2])>,
    entries: [u16; 2],
}

/// One of each rule with premises, over the entries of `room`.
fn applications() -> Vec<Application> {
    let dead = |e| (0, [e, 0]);
    let within = |e, f| (1, [e, f]);
    let table = [
        (7, vec![dead(3), dead(0)], [5, 0]),
        (8, vec![within(3, 7), dead(7)], [3, 0]),
        (9, vec![within(4, 5), dead(0), dead(6)], [3, 0]),
        (10, vec![within(4, 5), dead(0), within(1, 3)], [7, 0]),
        (11, vec![within(8, 5), dead(0), dead(9)], [7, 0]),
        (12, vec![within(8, 5), dead(0), within(1, 7)], [3, 0]),
        (13, vec![dead(1)], [0, 0]),
        (14, vec![dead(2)], [0, 0]),
        (20, vec![within(3, 1), within(0, 1)], [5, 1]),
        (21, vec![within(1, 3), within(1, 2)], [1, 6]),
        (22, vec![within(1, 7), within(7, 2)], [1, 2]),
        (23, vec![within(4, 1), (2, [1, 0])], [10, 1]),
        (24, vec![within(4, 1), within(10, 1)], [11, 1]),
        (25, vec![within(4, 1), within(0, 3)], [12, 1]),
        (26, vec![within(4, 1), within(12, 1)], [13, 1]),
        (27, vec![within(4, 3)], [14, 7]),
        (28, vec![within(8, 3)], [15, 7]),
    ];
    table.map(|(rule, premises, entries)| Application { rule, premises, entries }).into()
}

/// The sample's task and entries with those that the applications name besides.
fn room() -> Draft {
    use DraftSet::*;
    let mut draft = sample();
    draft.action_sets.extend([DraftActions::List(vec![0]), DraftActions::Union(0, 1)]);
    draft.state_sets.extend([
        Complement(3),
        Regression(3, 0),
        Intersection(7, 2),
        Progression(3, 1),
        Progression(3, 2),
        Progression(0, 0),
        Progression(5, 0),
        Regression(7, 0),
        Progression(7, 0),
    ]);
    draft
}

impl Application {
    /// The premises as steps by ED, which none of them follows by.
    fn said(&self) -> Vec<Step> {
        self.premises.iter().map(|(kind, entries)| step(6, *kind, entries, &[])).collect()
    }

    /// The reply's number of the application alone over these premises; 0 where it passes.
    fn alone(&self, premises: &[Step]) -> u64 {
        let mut draft = room();
        let places: Vec<u16> = (0..premises.len() as u16).collect();
        let kind = RULES[self.rule as usize - 1].judgement;
        draft.steps = premises.to_vec();
        draft.steps.push(step(self.rule, kind, &self.entries, &places));
        draft.steps.push(step(6, 0, &[0], &[]));
        let at = premises.len();
        match &*line(&draft.encode(), at as u64, 1) {
            said if said == format!("go on from {}", at + 1) => 0,
            said if said == format!("refused 9 {at}") => 9,
            said => panic!("rule {}: {said}", self.rule),
        }
    }
}

/// Every rule's pattern by itself, its premises being whatever stands there.
#[test]
fn premises_that_nobody_has_judged() {
    let ruled: Vec<u8> = applications().iter().map(|one| one.rule).collect();
    let with_premises = RULES.iter().filter(|rule| rule.premises > 0).map(|rule| rule.number);
    assert_eq!(ruled, with_premises.collect::<Vec<u8>>());
    for one in applications() {
        let said = one.said();
        assert_eq!(one.alone(&said), 0, "rule {}", one.rule);
        for k in 0..said.len() {
            let with = |change: &dyn Fn(&mut Step)| {
                let mut premises = said.clone();
                change(&mut premises[k]);
                one.alone(&premises)
            };
            let used = entries_used(said[k].kind);
            // Judgement kinds are compared as numbers.
            for kind in (0..=255).filter(|kind| *kind != said[k].kind) {
                assert_eq!(with(&|step| step.kind = kind), 9, "rule {}, premise {k}, {kind}", one.rule);
            }
            // What the judgement does not have is not looked at.
            let other = |step: &mut Step| {
                (step.rule, step.premises) = (0, [65_535, 9, 1]);
                step.entries[used..].fill(600);
            };
            assert_eq!(with(&other), 0, "rule {}, premise {k}", one.rule);
            // A number outside the file, in this premise alone.
            for (place, outside) in (0..used).flat_map(|place| [16, 600, 65_535].map(|entry| (place, entry)))
            {
                assert_eq!(with(&|step| step.entries[place] = outside), 9, "rule {}, {k}", one.rule);
            }
        }
    }
}

/// A letter that stands for a number outside the file, in all premises. Only SD and ST have one that the pattern takes
/// nothing from.
#[test]
fn letters_outside_the_file() {
    let mut passed = Vec::new();
    for one in applications() {
        for old in 0..16 {
            let mut premises = one.said();
            let about_states = premises.iter_mut().filter(|step| step.kind < 2);
            let named = about_states.flat_map(|step| step.entries[..entries_used(step.kind)].iter_mut());
            let renamed = named.filter(|entry| **entry == old).map(|entry| *entry = 600).count();
            if renamed > 0 && one.alone(&premises) == 0 {
                passed.push((one.rule, old));
            }
        }
    }
    assert_eq!(passed, [(8, 7), (22, 7)]);
    let mut draft = sample();
    draft.steps = vec![step(1, 1, &[1, 600], &[]), step(6, 0, &[600], &[]), step(8, 0, &[1], &[0, 1])];
    draft.steps.push(step(13, 3, &[], &[2]));
    let file = draft.encode();
    assert_eq!((line(&file, 2, 1), line(&file, 2, 2)), ("go on from 3".into(), "ended".into()));
    assert_eq!((line(&file, 0, 4), line(&file, 1, 3)), ("refused 8 0".into(), "refused 8 1".into()));
}

/// The number of steps of a file that has a lawful layout.
fn steps(bytes: &[u8]) -> Option<usize> {
    layout::read(bytes).ok().map(|file| file.steps.len())
}

/// With any counts, the final reply is that of one whole check; a round of the most steps is one.
#[test]
fn runs_end_with_the_reply_of_one_check() {
    let mut random = Random::new(21);
    let (mut many, mut accepted) = (0, 0);
    for case in cases(21, 1200).filter(|case| case.is_check()) {
        let most = steps(&case.bytes).unwrap_or(1) + 1;
        for most in [1, 3, most, MAX_STEPS] {
            let count = |random: &mut Random| random.between(1, most) as u64;
            let (reply, rounds) = run(|from| check_round(&case.bytes, from, count(&mut random)));
            assert_eq!(reply, check(&case.bytes), "{}", case.line());
            many += (rounds > 2) as usize;
            accepted += (reply == Reply::Accepted) as usize;
        }
        let whole = run(|from| check_round(&case.bytes, from, MAX_STEPS as u64));
        assert_eq!(whole, (check(&case.bytes), 1), "{}", case.line());
    }
    assert!(many > 1500 && accepted > 1500, "{many} {accepted}");
}

/// With r steps left, none failing, and the same count k each time, there are as many rounds as cover r: the smallest number
/// that is r / k or more.
#[test]
fn as_many_rounds_as_cover_the_steps() {
    let files: Vec<Vec<u8>> = cases(22, 400).map(|case| case.bytes).collect();
    let mut seen = 0;
    for file in files.iter().filter(|file| check(file) == Reply::Accepted) {
        let steps = steps(file).expect("an accepted file");
        for k in (1..=steps.min(40) + 1).chain([steps - 1, steps, steps + 1, MAX_STEPS]) {
            if k == 0 || k > MAX_STEPS {
                continue;
            }
            let first = seen % steps;
            let (reply, rounds) = run(|from| check_round(file, from.max(first as u64), k as u64));
            assert_eq!((reply, rounds), (Reply::Accepted, (steps - first).div_ceil(k)), "{first} {k}");
            seen += 1;
        }
    }
    assert!(seen > 1500, "{seen}");
}

/// What a round says, by the words of document 02 and the slow checker of single steps.
fn expected(bytes: &[u8], from: u64, count: u64) -> String {
    let file = match layout::read(bytes) {
        Ok(file) => file,
        Err(fault) => return format!("refused {} {}", fault.number, fault.place),
    };
    let (steps, from, count) = (file.steps.len() as u128, from as u128, count as u128);
    if count == 0 || count > 2048 || from >= steps {
        return "refused 17 0".into();
    }
    let meaning = Meaning::of(&file);
    for number in from..steps.min(from + count) {
        let reply = step_reply(&file, &meaning, number as usize);
        if reply != 0 {
            return format!("refused {reply} {number}");
        }
    }
    match file.steps[file.steps.len() - 1].kind {
        _ if from + count < steps => format!("go on from {}", from + count),
        3 => "ended".into(),
        _ => format!("refused 12 {}", steps - 1),
    }
}

fn round_of(case: &Case) -> (u64, u64) {
    match case.call {
        Call::Round(from, count) => (from, count),
        _ => panic!("{:?}", case.call),
    }
}

#[test]
fn generated_rounds_against_the_slow_checker() {
    let mut compared: BTreeMap<String, usize> = BTreeMap::new();
    for case in rounds(31, 6000) {
        let few = |file: &File| file.task.facts <= 5 && file.state_sets.len() <= 100;
        if layout::read(&case.bytes).is_ok_and(|file| !few(&file)) {
            continue;
        }
        let (from, count) = round_of(&case);
        assert_eq!(case.reply(), expected(&case.bytes, from, count), "{}", case.line());
        *compared.entry(outcome(&case.reply())).or_default() += 1;
    }
    for outcome in outcomes() {
        assert!(compared.get(&outcome).is_some_and(|count| *count >= 8), "{outcome}: {compared:?}");
    }
}

/// A round's line without its place.
fn outcome(line: &str) -> String {
    line.split(' ').take(2).collect::<Vec<&str>>().join(" ")
}

fn outcomes() -> impl Iterator<Item = String> {
    let refusals = (1..=12).chain([17]).map(|number| format!("refused {number}"));
    refusals.chain(["ended".into(), "go on".into()])
}

/// How a round's numbers stand to the number of steps, by name.
const POSITIONS: [&str; 17] = [
    "from 0",
    "from the last step",
    "from the number of steps",
    "from one more",
    "from the greatest number",
    "from a step between",
    "no steps",
    "1 step",
    "2 steps",
    "what is left",
    "one less than is left",
    "one more than is left",
    "2,048 steps",
    "2,049 steps",
    "the greatest count",
    "beyond, with a lawful count",
    "a step, with another count",
];

/// Those of the names that fit a round.
fn positions_of(steps: usize, from: u64, count: u64) -> impl Iterator<Item = &'static str> {
    let greatest = u64::MAX as u128;
    let (steps, from, count) = (steps as u128, from as u128, count as u128);
    let left = steps.saturating_sub(from);
    let lawful = (1..=2048).contains(&count);
    let fits = [
        from == 0,
        from + 1 == steps,
        from == steps,
        from == steps + 1,
        from == greatest,
        0 < from && from + 1 < steps,
        count == 0,
        count == 1,
        count == 2,
        count == left && left > 0,
        count + 1 == left && count > 0,
        count == left + 1,
        count == 2048,
        count == 2049,
        count == greatest,
        from >= steps && lawful,
        from < steps && !lawful,
    ];
    POSITIONS.into_iter().zip(fits).filter(|(_, fits)| *fits).map(|(name, _)| name)
}

/// The premises of a round's first step, where its rule has some.
fn premises(file: &File, from: usize) -> Vec<Step> {
    let first = &file.steps[from];
    let count = RULES.get((first.rule as usize).wrapping_sub(1)).map_or(0, |rule| rule.premises as usize);
    let places = first.premises[..count].iter();
    places.filter_map(|p| file.steps[..from].get(*p as usize)).copied().collect()
}

/// Whether a step names an entry that the file does not have, or is of no kind.
fn is_outside(file: &File, step: &Step) -> bool {
    let entries = if step.kind == 2 { file.action_sets.len() } else { file.state_sets.len() };
    let used = &step.entries[..entries_used(step.kind)];
    step.kind > 3 || used.iter().any(|entry| *entry as usize >= entries)
}

/// What a run of generated rounds reached: outcomes, positions, and first steps of rounds begun behind a failing one, by rule,
/// whether a premise is outside, and whether they pass.
#[derive(Default)]
struct Summary {
    seen: BTreeMap<String, usize>,
    behind: BTreeMap<(u8, bool, bool), usize>,
}

impl Summary {
    fn add(&mut self, what: String) {
        *self.seen.entry(what).or_default() += 1;
    }

    fn at_least(&self, least: usize, what: &str) {
        let count = self.seen.get(what).copied().unwrap_or(0);
        assert!(count >= least, "{what}: {count}");
    }

    fn add_first_step(&mut self, file: &File, from: usize, said: &str) {
        let outside = premises(file, from).iter().any(|step| is_outside(file, step));
        let passes = !(8..=11).any(|number| said == format!("refused {number} {from}"));
        *self.behind.entry((file.steps[from].rule, outside, passes)).or_default() += 1;
    }
}

fn summary(seed: u64, count: u64) -> Summary {
    let mut summary = Summary::default();
    for case in rounds(seed, count) {
        let ((from, count), said) = (round_of(&case), case.reply());
        summary.add(outcome(&said));
        let Ok(file) = layout::read(&case.bytes) else { continue };
        positions_of(file.steps.len(), from, count).for_each(|name| summary.add(name.into()));
        let behind = matches!(check(&case.bytes), Reply::Refused { number: 8..=11, place } if place < from);
        if behind && outcome(&said) != "refused 17" {
            summary.add(format!("behind a failing step: {}", outcome(&said)));
            summary.add_first_step(&file, from as usize, &said);
        }
    }
    summary
}

#[test]
fn the_generator_reaches_every_outcome() {
    let summary = summary(33, 6000);
    outcomes().for_each(|outcome| summary.at_least(10, &outcome));
    for outcome in ["ended", "go on", "refused 9", "refused 17"] {
        summary.at_least(500, outcome);
    }
    for number in ["8", "9", "10", "11", "12"] {
        summary.at_least(70, &format!("refused {number}"));
        summary.at_least(8, &format!("behind a failing step: refused {number}"));
    }
    summary.at_least(300, "behind a failing step: ended");
    summary.at_least(150, "behind a failing step: go on");
    POSITIONS.iter().for_each(|position| summary.at_least(20, position));
}

/// Each rule with premises is applied to such as name entries outside the file or are of no kind, and is refused with 9; SD and
/// ST pass now and then. To premises in the file that fail themselves each is applied rightly and wrongly.
#[test]
fn the_generator_applies_rules_to_premises_that_nobody_has_judged() {
    let behind = summary(33, 6000).behind;
    let count = |rule, outside, passes| behind.get(&(rule, outside, passes)).copied().unwrap_or(0);
    for rule in RULES.iter().filter(|rule| rule.premises > 0).map(|rule| rule.number) {
        assert!(count(rule, true, false) >= 20, "rule {rule}: {behind:?}");
        assert!(count(rule, false, true) >= 10, "rule {rule}: {behind:?}");
        assert!(count(rule, false, false) >= 2, "rule {rule}: {behind:?}");
        let passing = [8, 22].contains(&rule);
        assert_eq!(count(rule, true, true) >= 15, passing, "rule {rule}: {behind:?}");
        assert_eq!(count(rule, true, true) == 0, !passing, "rule {rule}: {behind:?}");
    }
}

#[test]
fn the_same_seed_gives_the_same_rounds() {
    let lines = |seed, count| rounds(seed, count).map(|case| case.line()).collect::<Vec<String>>();
    assert_eq!(lines(5, 100)[..40], lines(5, 40));
    assert_ne!(lines(5, 40), lines(6, 40));
}
