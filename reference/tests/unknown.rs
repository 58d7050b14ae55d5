//! Versions 2 and 3, initial facts that may be on or off: document 02, d, reading by reading; the text form, explanations, certain
//! certificates, and twins of versions 1 and 2.

mod common;

use std::collections::{BTreeMap, BTreeSet};

use common::{all_replies, has_state, is_goal, is_init, reach};
use reference::assemble::{assemble, parse};
use reference::draft::{mend_length, sample, step, Draft, DraftSet};
use reference::explain::explain;
use reference::file::Clause;
use reference::generate::random::Random;
use reference::generate::twins::{twin, twinned, twins};
use reference::generate::unknown::{certain, unknown};
use reference::generate::{cases, Call, Case};
use reference::names::Names;
use reference::show::{show, text};
use reference::task::{all_facts, Action, Task};
use reference::version::Places;
use reference::{ask, check, layout};

/// The sample as version 2, with these facts unknown.
fn second(unknown: u64) -> Draft {
    Draft { version: 2, unknown, ..sample() }
}

fn reply(draft: &Draft) -> String {
    check(&draft.encode()).to_string()
}

/// The places of versions 1 and 2, as the documents name them.
#[test]
fn places_by_version() {
    let [one, two] = [1, 2].map(Places::of);
    assert_eq!([one.goal, one.action_count, one.actions, one.action], [14, 22, 24, 24]);
    assert_eq!([two.goal, two.action_count, two.actions, two.action], [22, 30, 32, 24]);
    assert_eq!((one.unknown, two.unknown), (None, Some(14)));
    for version in [1, 2] {
        let d = Draft { version, unknown: 2, goal: 3, ..sample() };
        let (bytes, places) = (d.encode(), Places::of(version));
        let word = |at: usize| bytes[at..at + 8].iter().fold(0, |word, byte| word << 8 | *byte as u64);
        assert_eq!(places.unknown.map(word), (version == 2).then_some(2));
        assert_eq!((word(places.goal), bytes[places.action_count + 1]), (3, 2));
        assert_eq!((word(places.actions + 8), word(places.actions + places.action + 8)), (1, 2));
        assert_eq!(Places::in_bytes(&bytes), places);
    }
}

/// d11 and j2: versions 1 to 3 are read, and no other.
#[test]
fn three_versions_are_read() {
    for version in 0..=255 {
        let bytes = Draft { version, ..sample() }.encode();
        let (length, expected) = match version {
            1 => (234, "accepted"),
            2 => (242, "accepted"),
            3 => (266, "accepted"),
            _ => (234, "refused 2 4"),
        };
        assert_eq!((bytes.len(), check(&bytes).to_string()), (length, expected.into()), "{version}");
    }
    // One version's bytes under the other's number.
    let mut bytes = sample().encode();
    bytes[4] = 2;
    assert_eq!(check(&bytes).to_string(), "refused 5 22");
    let mut bytes = second(0).encode();
    bytes[4] = 1;
    assert_eq!(check(&bytes).to_string(), "refused 3 66");
}

/// d1: cut anywhere, the file is refused at the field that is cut.
#[test]
fn every_shorter_beginning() {
    let whole = second(1).encode();
    for length in 5..whole.len() {
        let mut bytes = whole[..length].to_vec();
        mend_length(&mut bytes);
        let place = match length {
            5 => 5,
            6..=13 => 6,
            14..=21 => 14,
            22..=29 => 22,
            30 | 31 => 30,
            32..=79 => 32 + (length - 32) / 8 * 8,
            _ => continue,
        };
        assert_eq!(all_replies(&bytes), [0; 5].map(|_| format!("refused 3 {place}")), "{length}");
    }
}

/// d2 and d3: at the mask 3, then 5, then 16; a bad start comes before it, and whatever stands behind it is not reached.
#[test]
fn the_order_of_faults_at_the_mask() {
    let high = 4;
    for (init, unknown, goal, expected) in [
        (1, 1, 3, "refused 16 14"),
        (3, 2, 3, "refused 16 14"),
        (1, 3, 3, "refused 16 14"),
        (0, high, 3, "refused 5 14"),
        (1, 1 | high, 3, "refused 5 14"),
        (1, 2 | high, 3, "refused 5 14"),
        (1 | high, 1, 3, "refused 5 6"),
        (high, high, 3, "refused 5 6"),
        (1, 1, high, "refused 16 14"),
        (0, 1, high, "refused 5 22"),
        (1, 2, 3 | high, "refused 5 22"),
    ] {
        let mut d = Draft { init, goal, ..second(unknown) };
        assert_eq!(all_replies(&d.encode()), [0; 5].map(|_| expected.to_string()), "{init} {unknown} {goal}");
        // More actions than there may be are behind all of these.
        d.actions.resize(257, Action::NOTHING);
        assert_eq!(reply(&d), expected);
    }
    // 16 comes before the fields that the file does not have, and before 4 at the count.
    let whole = Draft { init: 1, ..second(1) }.encode();
    for length in 22..whole.len() {
        let mut bytes = whole[..length].to_vec();
        mend_length(&mut bytes);
        assert_eq!(check(&bytes).to_string(), "refused 16 14", "{length}");
    }
    let mut d = second(0);
    d.actions.resize(257, Action::NOTHING);
    assert_eq!(reply(&d), "refused 4 30");
    // With 64 facts no mask is 5.
    let d = Draft { facts: 64, init: 1 << 63, ..second(u64::MAX) };
    assert_eq!(reply(&d), "refused 16 14");
}

/// Every start and every mask over the sample's facts: accepted where all initial states are among the listed ones.
#[test]
fn all_masks_over_the_sample() {
    for (init, unknown) in (0..4).flat_map(|init| (0..4).map(move |unknown| (init, unknown))) {
        let d = Draft { init, ..second(unknown) };
        let expected = match (init & unknown, init | unknown) {
            (0, 3) => "refused 11 5",
            (0, _) => "accepted",
            _ => "refused 16 14",
        };
        assert_eq!(reply(&d), expected, "{init} {unknown}");
        for state in 0..4 {
            let answer = ask(&d.encode(), 1, state).to_string();
            let expected = match init & unknown {
                0 if state & !unknown == init => "in",
                0 => "out",
                _ => "refused 16 14",
            };
            assert_eq!(answer, expected, "{init} {unknown} {state}");
        }
    }
}

/// d5: the initial states one by one are those that agree with init on the known facts, ascending, each once.
#[test]
fn initial_states_one_by_one() {
    let mut random = Random::new(7);
    for count in (0..=13).chain([3, 5, 8]) {
        let unknown = reference::generate::tasks::some_facts(&mut random, u64::MAX, count);
        let init = random.mask(!unknown, 1);
        let task = Task { version: 2, facts: 64, init, unknown, ..Task::default() };
        let states: Vec<u64> = task.inits().collect();
        assert_eq!(states.len(), 1 << count);
        assert!(states.is_sorted_by(|a, b| a < b));
        let d = Draft { facts: 64, init, ..second(unknown) };
        assert!(states.iter().all(|state| task.is_init(*state) && is_init(&d, *state)));
        let other = init ^ random.bit(!unknown);
        assert!(!task.is_init(other) && !is_init(&d, other));
    }
    let all = Task { version: 2, facts: 64, unknown: u64::MAX, ..Task::default() };
    assert_eq!(all.inits().take(3).collect::<Vec<u64>>(), [0, 1, 2]);
    assert!(all.is_init(u64::MAX) && all.is_init(0));
}

/// A task of 64 facts with so many unknown ones from fact 1 on, and a file that is accepted whatever they are: fact 0 is never on. Sets:
/// 3 two initial states, 4 the first of them, 5 one that is no initial state, 6 Horn (-0), 7 two-literal (-0), 8 no state.
fn wide(unknown: u32) -> Draft {
    let mask = all_facts(unknown as u8) << 1;
    let init = if unknown < 62 { 1 << 63 } else { 0 };
    let never = vec![Clause { positive: 0, negative: 1 }];
    let mut d = Draft { facts: 64, init, goal: 1, ..second(mask) };
    d.actions = vec![Action { pre: 0, add: 0, del: 2, ..Action::NOTHING }];
    d.state_sets = vec![
        DraftSet::Empty,
        DraftSet::Init,
        DraftSet::Goal,
        DraftSet::Explicit(vec![init, init | (mask & 2)]),
        DraftSet::Explicit(vec![init]),
        DraftSet::Explicit(vec![init | 1]),
        DraftSet::Horn(never.clone()),
        DraftSet::TwoCnf(never),
        DraftSet::Explicit(vec![]),
        DraftSet::Progression(6, 0),
        DraftSet::Union(6, 0),
        DraftSet::Intersection(6, 2),
    ];
    d.steps = vec![
        step(6, 0, &[0], &[]),
        step(2, 1, &[9, 10], &[]),
        step(1, 1, &[11, 0], &[]),
        step(8, 0, &[11], &[2, 0]),
        step(9, 0, &[6], &[1, 0, 3]),
        step(1, 1, &[1, 6], &[]),
        step(8, 0, &[1], &[5, 4]),
        step(13, 3, &[], &[6]),
    ];
    d
}

/// The reply to a statement beside that, in the text form: entries from 12 on, then the rule and the two sides.
fn stated(unknown: u32, entries: &str, rule: u8, left: u16, right: u16) -> String {
    let mut d = wide(unknown);
    let numbered = entries.split(';').enumerate().filter(|(_, entry)| !entry.is_empty());
    let lines: String = numbered.map(|(k, entry)| format!("set {k} {}\n", entry.trim())).collect();
    d.state_sets.extend(parse(&lines).expect("entries").state_sets);
    d.steps.insert(7, step(rule, 1, &[left, right], &[]));
    match reply(&d).as_str() {
        "accepted" => "accepted".into(),
        refused => refused.strip_suffix(" 7").expect("step 7").into(),
    }
}

/// d6, d7 and d10: who gives leave, with 12 unknown facts and with more. Each statement with its reply up to 12 and from 13 on.
#[test]
fn leave_up_to_twelve_unknown_facts() {
    let (yes, shape, untrue) = ("accepted", "refused 10", "refused 11");
    let table: [(&str, u8, u16, u16, &str, &str); 21] = [
        // B1 on the moved left: kind 1 alone; beside it kind 3, kind 0; ~0 on the right; ~1 on the right is kind 1 on the left.
        ("= 3 + 1", 1, 1, 12, yes, shape),
        ("", 1, 1, 3, untrue, shape),
        ("= 1 & 3", 1, 12, 3, yes, yes),
        ("= 1 & 3", 1, 12, 5, untrue, untrue),
        ("= 1 & 0", 1, 12, 3, yes, yes),
        ("= ~ 0; = 3 + 12", 1, 1, 13, yes, yes),
        ("= ~ 1; = 2 + 12; = 3 + 13", 1, 2, 14, yes, shape),
        ("= 3 + 1", 1, 4, 12, yes, yes),
        ("", 1, 3, 1, yes, yes),
        ("", 1, 5, 1, untrue, untrue),
        // B2 inside the bracket: kind 1 alone; beside kind 3; outside the bracket; ~0 on the right gives no leave.
        ("= 1 [ 0 ]; = 3 + 1", 2, 12, 13, yes, shape),
        ("= 1 [ 0 ]", 2, 12, 3, untrue, shape),
        ("= 1 & 3; = 12 [ 0 ]", 2, 13, 4, yes, yes),
        ("= 1 & 0; = 12 [ 0 ]", 2, 13, 5, yes, yes),
        ("= 3 [ 0 ]; = 12 & 1", 2, 13, 1, yes, yes),
        ("= 3 [ 0 ]; = 12 & 1", 2, 13, 5, untrue, untrue),
        ("= 1 [ 0 ]; = ~ 0; = 3 + 13", 2, 12, 14, yes, shape),
        // B3 on the moved left outside the bracket: kind 1 alone; in the bracket it gives none; beside kind 3; ~0 on the right.
        ("= [ 0 ] 3; = 12 & 1; = 4 + 1", 3, 13, 14, yes, shape),
        ("= [ 0 ] 1; = 3 + 1", 3, 12, 13, shape, shape),
        ("= [ 0 ] 1; = 12 & 5", 3, 13, 4, yes, yes),
        ("= [ 0 ] 1; = ~ 0; = 3 + 13", 3, 12, 14, yes, yes),
    ];
    for (entries, rule, left, right, few, many) in table {
        for unknown in [11, 12, 13, 14, 40, 62, 63] {
            let expected = if unknown <= 12 { few } else { many };
            let said = stated(unknown, entries, rule, left, right);
            assert_eq!(said, expected, "{unknown} unknown facts, B{rule} {left} < {right}, {entries}");
        }
    }
}

/// d8: over clauses kind 1 goes with any number of unknown facts, and is one of at most two leaves on the moved right.
#[test]
fn clauses_with_any_number_of_unknown_facts() {
    for unknown in [0, 1, 12, 13, 40, 63] {
        for clauses in [6, 7] {
            let both = format!("= 1 & {clauses}; = 12 [ 0 ]; = 1 + {clauses}; = 1 + 2; = 14 + 2");
            for (rule, left, right, expected) in [
                (1, 1, clauses, "accepted"),
                (1, 12, 1, "accepted"),
                (1, clauses, 1, if unknown == 63 { "accepted" } else { "refused 11" }),
                (2, 13, 14, "accepted"),
                (2, 13, 1, "accepted"),
                (1, clauses, 14, "accepted"),
                (1, clauses, 16, "refused 10"),
            ] {
                let said = stated(unknown, &both, rule, left, right);
                assert_eq!(said, expected, "{unknown} unknown facts, B{rule} {left} < {right}");
            }
        }
    }
}

/// d9: B4 does not take kind 1, whatever is unknown.
#[test]
fn b4_does_not_take_kind_1() {
    for unknown in [0, 1, 12, 13, 63] {
        for (left, right) in [(1, 6), (1, 7), (1, 3), (3, 1), (6, 1), (12, 6), (3, 12), (1, 1)] {
            assert_eq!(stated(unknown, "= ~ 1", 4, left, right), "refused 10", "{left} < {right}");
        }
    }
}

/// The certain certificate is accepted exactly where no initial state leads to a forbidden one. With an initial state left out of the
/// list it is not; nor with any other state left out.
#[test]
fn certain_certificates() {
    let (mut safe, mut unsafe_from_one, mut unsafe_from_more) = (0, 0, 0);
    for seed in 0..1500 {
        let d = certain(&mut Random::new(seed));
        let reached = reach(&d);
        let forbidden = |state: &u64| is_goal(&d, *state);
        let DraftSet::Explicit(states) = &d.state_sets[3] else { panic!("a list") };
        assert_eq!(BTreeSet::from_iter(states.iter().copied()), reached);
        if !reached.iter().any(forbidden) {
            assert_eq!(reply(&d), "accepted");
            safe += 1;
            for left_out in &reached {
                let mut less = d.clone();
                less.state_sets[3] =
                    DraftSet::Explicit(states.iter().copied().filter(|state| state != left_out).collect());
                let only_init = is_init(&d, *left_out) && reply(&less) == "refused 11 5";
                assert!(only_init || reply(&less) == "refused 11 1", "{}", text(&less));
            }
            continue;
        }
        assert_eq!(reply(&d), "refused 11 2");
        let inits = (0..1 << d.facts).filter(|state| is_init(&d, *state));
        let losing = inits.filter(|init| {
            let from = Draft { init: *init, unknown: 0, ..d.clone() };
            reach(&from).iter().any(forbidden)
        });
        match losing.count() {
            1 => unsafe_from_one += 1,
            _ => unsafe_from_more += 1,
        }
    }
    assert!(safe > 200 && unsafe_from_one > 100 && unsafe_from_more > 100, "{safe} {unsafe_from_one}");
}

/// Questions about kind 1 and what is made of it, by the meaning of the kinds, for any number of facts.
#[test]
fn questions_about_initial_states() {
    let mut seen: BTreeMap<String, usize> = BTreeMap::new();
    for case in unknown(21, 4000) {
        let Call::Ask(entry, state) = case.call else { continue };
        let Ok(file) = layout::read(&case.bytes) else { continue };
        let answer = ask(&case.bytes, entry, state).to_string();
        if answer != "refused 13 0" {
            let within = has_state(&Draft::of(&file), entry as u16, state, None);
            assert_eq!(answer, if within { "in" } else { "out" });
        }
        *seen.entry(answer).or_default() += 1;
    }
    assert!(seen["in"] > 200 && seen["out"] > 100, "{seen:?}");
}

/// The cases of `unknown` reach every reply that they are made for, by each call.
#[test]
fn the_generator_reaches_the_replies() {
    let mut seen: BTreeMap<(String, String), usize> = BTreeMap::new();
    let mut limits: BTreeMap<(u32, String), usize> = BTreeMap::new();
    for case in unknown(22, 6000) {
        let call = case.line().split(' ').next().unwrap_or("").to_string();
        let reply = case.reply().split(' ').take(2).collect::<Vec<&str>>().join(" ");
        if let Ok(file) = layout::read(&case.bytes) {
            *limits.entry((file.task.unknown.count_ones(), reply.clone())).or_default() += 1;
        }
        *seen.entry((call, reply)).or_default() += 1;
    }
    for call in ["check", "ask", "round", "small", "numbered"] {
        for reply in ["refused 5", "refused 16"] {
            let count = seen.get(&(call.into(), reply.into())).copied().unwrap_or(0);
            assert!(count >= 5, "{call}, {reply}: {count}");
        }
    }
    for unknown in [12, 13] {
        for reply in ["accepted", "refused 10", "refused 11"] {
            let count = limits.get(&(unknown, reply.into())).copied().unwrap_or(0);
            assert!(count >= 10, "{unknown} unknown facts, {reply}: {count}");
        }
    }
    assert!(limits[&(1, "accepted".into())] > 50 && limits[&(0, "accepted".into())] >= 10);
    let lines = |seed| unknown(seed, 50).map(|case| case.line()).collect::<Vec<String>>();
    assert_eq!(lines(5), lines(5));
    assert_ne!(lines(5), lines(6));
}

/// Cases of the other sorts have later versions as well, with unknown facts and with none.
#[test]
fn other_cases_have_unknown_facts_too() {
    use reference::generate::{
        listed::listed, numbered::numbered, relisted::relisted, rounds::rounds, small::small,
    };
    let count = |cases: Vec<Case>| {
        let files: Vec<_> = cases.iter().filter_map(|case| layout::read(&case.bytes).ok()).collect();
        let later: Vec<_> = files.iter().filter(|file| file.task.version > 1).collect();
        let unknown = later.iter().filter(|file| file.task.unknown != 0).count();
        [files.len() - later.len(), unknown, later.len() - unknown]
    };
    for (sort, counts) in [
        ("gen", count(cases(3, 800).collect())),
        ("numbered", count(numbered(3, 800).collect())),
        ("rounds", count(rounds(3, 800).collect())),
        ("small", count(small(3, 800).collect())),
        ("listed", count(listed(3, 800).collect())),
        ("relisted", count(relisted(3, 400).collect())),
    ] {
        assert!(counts.iter().all(|count| *count >= 10), "{sort}: {counts:?}");
    }
}

/// d12: a file of version 2 with no unknown fact gets its twin's reply, byte places from 14 on moved by 8.
#[test]
fn twins_get_replies_that_fit() {
    let mut seen: BTreeMap<String, usize> = BTreeMap::new();
    let all: Vec<Case> = twins(17, 2500).collect();
    for pair in all.chunks_exact(2) {
        let (first, other) = (pair[0].reply(), pair[1].reply());
        assert!(twinned([&pair[0], &pair[1]], [&first, &other]), "{first}, {other}: {}", pair[0].line());
        *seen.entry(first.split(' ').take(2).collect::<Vec<&str>>().join(" ")).or_default() += 1;
        // Another reply is noticed, and so is a pair that is none.
        for wrong in ["accepted", "refused 5 14", "refused 5 22", "in", "refused 11 5"] {
            assert!(wrong == other || !twinned([&pair[0], &pair[1]], [&first, wrong]));
        }
        assert!(!twinned([&pair[1], &pair[0]], [&first, &first]));
        assert!(!twinned([&pair[0], &pair[0]], [&first, &first]));
    }
    for reply in [1].into_iter().chain(3..=13).chain([17, 18, 19]).map(|number| format!("refused {number}")) {
        assert!(seen.get(&reply).is_some_and(|count| *count >= 5), "{reply}: {seen:?}");
    }
    assert!(["accepted", "ended", "go on", "in", "out"].iter().all(|reply| seen[*reply] >= 20), "{seen:?}");
}

/// Where the mask makes a file too long: 1, or 19 by the small limits; a list with a fault still comes first.
#[test]
fn twins_that_are_too_long() {
    let of = |call: Call, bytes: Vec<u8>| {
        let second = twin(&bytes).expect("a twin");
        let pair = [Case { call: call.clone(), bytes }, Case { call, bytes: second }];
        let replies = [pair[0].reply(), pair[1].reply()];
        assert!(twinned([&pair[0], &pair[1]], [&replies[0], &replies[1]]), "{replies:?}");
        replies
    };
    let full = reference::generate::limits::full_file(0);
    assert_eq!(of(Call::Check, full.clone()), ["accepted", "refused 1 0"]);
    assert_eq!(of(Call::Numbered(vec![]), full.clone()), ["refused 18 0", "refused 18 0"]);
    assert_eq!(of(Call::Small, full), ["refused 19 0", "refused 1 0"]);
    let mut d = sample();
    let horn = |clauses: usize| DraftSet::Horn(vec![Clause { positive: 1, negative: 0 }; clauses]);
    d.state_sets.extend([256, 256, 256].map(horn));
    let rest = 16_384 - d.encode().len();
    d.state_sets.push(horn((rest - 30) / 16));
    let rest = 16_384 - d.encode().len();
    reference::generate::limits::fill(&mut d, rest);
    assert_eq!(d.encode().len(), 16_384);
    assert_eq!(of(Call::Small, d.encode()), ["accepted", "refused 19 0"]);
    assert_eq!(of(Call::Check, d.encode()), ["accepted", "accepted"]);
    assert_eq!(of(Call::Check, sample().encode()[..14].to_vec()), ["refused 1 0", "refused 1 0"]);
    // Shorter files and those of other versions have no twin.
    assert_eq!(twin(&sample().encode()[..13]), None);
    assert_eq!(twin(&second(0).encode()), None);
    assert_eq!(twin(&sample().encode()), Some(second(0).encode()));
}

/// The text form has the version and the unknown facts; text and bytes are made of each other, version 2 with no such fact included.
#[test]
fn the_text_form() {
    for (d, head) in [
        (sample(), "facts 2\ninit 0\ngoal {0 1}\n"),
        (second(0), "version 2\nfacts 2\ninit 0\nunknown {}\ngoal {0 1}\n"),
        (second(2), "version 2\nfacts 2\ninit 0\nunknown {1}\ngoal {0 1}\n"),
    ] {
        assert!(text(&d).starts_with(head), "{}", text(&d));
        assert_eq!(parse(&text(&d)), Ok(d.clone()));
        assert_eq!(assemble(&show(&d.encode())), Ok(d.encode()));
    }
    for case in unknown(23, 1500).filter(|case| layout::read(&case.bytes).is_ok()) {
        assert_eq!(assemble(&show(&case.bytes)).as_ref(), Ok(&case.bytes));
    }
    // The line may be left out, or have a number; a version without the mask does not take it.
    let bytes = |text: &str| parse(text).map(|d| d.encode());
    assert_eq!(
        bytes("version 2\nfacts 2\ninit 1\ngoal 3"),
        bytes("version 2\nfacts 2\ninit 1\nunknown {}\ngoal 3")
    );
    assert_eq!(bytes("unknown 0x2\nversion 2\nfacts 2"), bytes("version 2\nfacts 2\nunknown {1}"));
    assert_eq!(parse("version 2\nunknown {1} 2"), Err("line 2: '2' is too much".into()));
    for (version, number) in [("", 1), ("version 1\n", 1), ("version 4\n", 4)] {
        let expected = format!(
            "line {}: version {number} has no unknown facts; 'version 2' has",
            2 - version.is_empty() as usize
        );
        assert_eq!(parse(&format!("{version}unknown {{}}")), Err(expected));
    }
    // A name is no word of the text form.
    assert_eq!(
        Names::parse("fact 0 unknown"),
        Err("line 1: 'unknown' is a word of the text form and no name".into())
    );
    let named = "version 2\nfacts 2\nfact 1 key\ninit {}\nunknown {key}\n";
    assert_eq!(parse(named).map(|d| d.unknown), Ok(2));
}

/// What explanations say of unknown facts.
#[test]
fn explanations() {
    let said = |d: &Draft| explain(&d.encode(), &Names::default());
    let has = |d: &Draft, lines: &[&str]| {
        let text = said(d);
        lines.iter().for_each(|line| assert!(text.contains(line), "{line}\n{text}"));
    };
    has(
        &second(1),
        &[
            "leads from init, any of 2 initial states (state 0 {} with {0} on or off), to a goal state",
            "from an initial state to a goal",
        ],
    );
    has(&second(3), &["\n  state 3 {0 1}\n    in set 1 init, as one of 4 initial states\n    not in set 3 "]);
    has(&Draft { init: 1, ..second(1) }, &[
        "refused 16 14\n",
        "\nAt byte 14, 8 bytes: the mask of unknown facts.\nIt holds 0x1: facts {0}, of which init has {0} on.\n",
        "It may hold facts that are off in init only, none of {0}.\n",
    ]);
    has(&Draft { version: 4, ..sample() }, &["It holds 4.\nIt may hold 1 to 3.\n"]);
    let mut d = second(1);
    d.state_sets.push(DraftSet::Explicit(vec![0, 1, 2, 3]));
    d.steps[0] = step(1, 1, &[7, 1], &[]);
    has(&d, &["\n  state 2 {1}\n", "not in set 1 init, which wants {1} off\n"]);
    d.init = 2;
    has(&d, &["\n  state 0 {}\n", "not in set 1 init, which wants {1} on\n"]);
    let mut d = wide(40);
    d.state_sets.push(DraftSet::Union(3, 1));
    d.steps.insert(7, step(1, 1, &[1, 12], &[]));
    has(&d, &["Init does only with at most 12 unknown facts: here 40 are, for 2^40 initial states.\n"]);
    // The start alone, where no fact is unknown.
    has(&second(0), &["leads from init, state 0 {}, to a goal state", "from init to a goal state passes"]);
}

/// Rules with I take kind 1 as it is: PI and RI say that nothing outside is reached from any initial state.
#[test]
fn rules_with_init() {
    let by_pi = |unknown: u64| {
        let mut d = second(unknown);
        d.state_sets.push(DraftSet::Complement(3));
        d.steps = vec![
            step(6, 0, &[0], &[]),
            step(2, 1, &[4, 5], &[]),
            step(1, 1, &[1, 3], &[]),
            step(10, 0, &[7], &[1, 0, 2]),
            step(1, 1, &[2, 7], &[]),
            step(8, 0, &[2], &[4, 3]),
            step(14, 3, &[], &[5]),
        ];
        d
    };
    assert_eq!(
        [0, 1, 2, 3].map(|unknown| reply(&by_pi(unknown))),
        ["accepted", "accepted", "accepted", "refused 11 2"]
    );
    // The list of the same states is no I.
    let mut d = by_pi(1);
    d.state_sets.push(DraftSet::Explicit(vec![0, 1]));
    d.steps[2].entries[0] = 8;
    assert_eq!(reply(&d), "refused 9 3");
    // CI wants kind 1 by kind as well.
    let mut d = second(1);
    d.state_sets.push(DraftSet::Explicit(vec![0, 1]));
    d.steps[5].entries[0] = 7;
    d.steps[6].entries[0] = 7;
    assert_eq!(reply(&d), "refused 9 7");
}

/// Of the samples one is safe from both initial states, and of the other one is not, which a look at init alone does not find.
#[test]
fn the_samples() {
    let read = |text| parse(text).expect("a text");
    let delivered = read(include_str!("../../samples/delivered.txt"));
    let on = read(include_str!("../../samples/delivered_on_refused_11.txt"));
    let forbidden = |d: &Draft| reach(d).iter().filter(|state| is_goal(d, **state)).count();
    assert_eq!((reply(&delivered), forbidden(&delivered)), ("accepted".into(), 0));
    assert!(reply(&on) == "refused 11 5" && forbidden(&on) > 0);
    let off = Draft { unknown: 0, ..on };
    assert_eq!((reply(&off), forbidden(&off)), ("accepted".into(), 0));
}
