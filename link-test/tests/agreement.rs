//! The linked checker replies as the reference checker does.

use link_test::{answer_code, ask, check, check_numbered, check_small, reply_code, round, round_code};
use reference::draft::{mend_length, step, Draft, DraftSet};
use reference::generate::limits::shuffle;
use reference::generate::listed::listed;
use reference::generate::numbered::numbered;
use reference::generate::off::off;
use reference::generate::older::{older, renewed, unchanged};
use reference::generate::random::Random;
use reference::generate::relisted::{alike, relisted};
use reference::generate::rounds::rounds;
use reference::generate::small::small;
use reference::generate::twins::{twin, twinned, twins};
use reference::generate::unknown::unknown;
use reference::generate::{cases, Call, Case};
use reference::task::Action;
use reference::Reply;

/// Both checkers on one file.
fn same_reply(file: &[u8], what: &str) -> u64 {
    let code = check(file);
    assert_eq!(code, reply_code(reference::check(file)), "{what}: {file:02x?}");
    code
}

/// Both checkers on one file by the small limits: where that is not 19, the code is the full check's.
fn same_small(file: &[u8], what: &str) -> u64 {
    let code = check_small(file);
    assert_eq!(code, reply_code(reference::check_small(file)), "{what}: {file:02x?}");
    assert!(is_breach(code) || code == check(file), "{what}: {file:02x?}");
    code
}

/// Whether a code is a refusal with 19.
fn is_breach(code: u64) -> bool {
    code >> 32 == 19
}

/// Both checkers on one file with a list.
fn same_numbered(file: &[u8], numbers: &[u8], what: &str) -> u64 {
    let code = check_numbered(file, numbers);
    let expected = reply_code(reference::check_numbered(file, numbers));
    assert_eq!(code, expected, "{what}: {numbers:?}: {file:02x?}");
    code
}

/// Both checkers on one round.
fn same_round(file: &[u8], from: u64, count: u64, what: &str) -> u64 {
    let code = round(file, from, count);
    let expected = round_code(reference::check_round(file, from, count));
    assert_eq!(code, expected, "{what}: from {from}, {count} steps: {file:02x?}");
    code
}

/// Both checkers on one question.
fn same_answer(file: &[u8], entry: u64, state: u64, what: &str) -> u64 {
    let code = ask(file, entry, state);
    let expected = answer_code(reference::ask(file, entry, state));
    assert_eq!(code, expected, "{what}: entry {entry}, state {state}: {file:02x?}");
    code
}

fn sample(name: &str) -> Vec<u8> {
    let path = format!("{}/../samples/{name}.cert", env!("CARGO_MANIFEST_DIR"));
    std::fs::read(path).expect("a sample file")
}

/// Each generated file is checked, and asked about whether or not its case is a question.
#[test]
fn generated_cases() {
    let mut refused = [0; 17];
    let (mut accepted, mut inside, mut outside) = (0, 0, 0);
    let mut random = Random::new(3);
    for (index, case) in cases(2, 4000).enumerate() {
        let what = format!("case {index}");
        match same_reply(&case.bytes, &what) {
            0 => accepted += 1,
            code => refused[(code >> 32) as usize] += 1,
        }
        let other = (random.below(12) as u64, random.below(16) as u64);
        let (entry, state) = match case.call {
            Call::Ask(entry, state) => (entry, state),
            _ => other,
        };
        match same_answer(&case.bytes, entry, state, &what) {
            0 => outside += 1,
            1 => inside += 1,
            code => refused[(code >> 32) as usize] += 1,
        }
    }
    assert!(accepted >= 500 && inside >= 200 && outside >= 200, "{accepted} {inside} {outside}");
    assert!((1..=13).chain([16]).all(|number| refused[number] >= 5), "{refused:?}");
}

/// Every function on one file: a check, one by the small limits, rounds from each step of a few, and questions.
fn same_all(file: &[u8], questions: &[(u64, u64)], what: &str) -> u64 {
    let code = same_reply(file, what);
    same_small(file, what);
    assert_eq!(same_round(file, 0, 2048, what), code, "{what}");
    for from in 0..4 {
        same_round(file, from, 2, what);
    }
    for (entry, state) in questions {
        same_answer(file, *entry, *state, what);
    }
    code
}

/// Files whose explicit states are in any order, with repeats: accepted ones, and near misses.
#[test]
fn listed_cases() {
    let (mut accepted, mut refused) = (0, [0; 20]);
    for (index, case) in listed(13, 6000).enumerate() {
        let (what, about) = (format!("case {index}"), (index % 16) as u64);
        let asked = match case.call {
            Call::Ask(entry, state) => (entry, state),
            _ => (3, about),
        };
        match same_all(&case.bytes, &[asked, (3, 0), (4, about)], &what) {
            0 => accepted += 1,
            code => refused[(code >> 32) as usize] += 1,
        }
    }
    assert!(accepted >= 1500, "{accepted} {refused:?}");
    assert!(refused[4] >= 10 && [5, 7, 9, 11].iter().all(|number| refused[*number] >= 100), "{refused:?}");
}

/// The sample with every order of its states and of one or two repeats.
#[test]
fn orders_of_the_sample() {
    let (file, questions) = (sample("sample"), [0, 1, 2, 3, 4].map(|state| (3, state)));
    let with_states = |states: &[u64]| {
        let listed: Vec<u8> = states.iter().flat_map(|state| state.to_be_bytes()).collect();
        let length = (1 + listed.len() as u16).to_be_bytes();
        let mut file = [&file[..88], &length, &[3], &listed, &file[115..]].concat();
        mend_length(&mut file);
        file
    };
    for count in 0..=5 {
        // Every list of so many states below 4; what is 4 or above names fact 2.
        for list in 0..1u64 << (2 * count) {
            let mut states: Vec<u64> = (0..count).map(|k| list >> (2 * k) & 3).collect();
            let code = same_all(&with_states(&states), &questions, "the sample's states");
            let is_set = (0..3).all(|state| states.contains(&state)) && !states.contains(&3);
            assert_eq!(code == 0, is_set, "{states:?}");
            for k in 0..count as usize {
                let state = std::mem::replace(&mut states[k], 4 + k as u64);
                let place = 91 + 8 * k as u64;
                assert_eq!(same_all(&with_states(&states), &questions[..1], "a bad state"), 5 << 32 | place);
                states[k] = state;
            }
        }
    }
}

/// As many states as a set may have, and one more, repeats counted: of few different ones and of many.
#[test]
fn lists_at_the_limits() {
    let mut random = Random::new(14);
    let mut d = reference::draft::sample();
    (d.facts, d.goal) = (14, 1 << 13);
    d.actions = vec![Action { pre: 0, add: 0, del: 3, ..Action::NOTHING }];
    for (limit, past) in [(512, 19 << 32), (4096, 4 << 32)] {
        for different in [1, 2, 300, limit - 1, limit] {
            for count in [limit - 1, limit, limit + 1] {
                let mut states: Vec<u64> = (0..different as u64).cycle().take(count).collect();
                shuffle(&mut random, &mut states);
                let questions = [0, different as u64 - 1, different as u64].map(|state| (3, state));
                d.state_sets[3] = DraftSet::Explicit(states);
                let file = d.encode();
                let code = same_all(&file, &questions, "a list at a limit");
                let judged = if limit == 512 { check_small(&file) } else { code };
                // With one action fewer than the sample has, the list stands 24 bytes before the sample's.
                assert_eq!(judged, if count > limit { past | 64 } else { 0 }, "{different} of {count}");
            }
        }
    }
}

/// Files with unknown facts: certificates of all initial states, near misses, masks with faults, 12 unknown facts and 13.
#[test]
fn unknown_cases() {
    let (mut accepted, mut refused) = (0, [0; 20]);
    for (index, case) in unknown(16, 6000).enumerate() {
        let what = format!("case {index}");
        let asked = match case.call {
            Call::Ask(entry, state) => (entry, state),
            _ => (1, index as u64 % 16),
        };
        match same_all(&case.bytes, &[asked, (1, 0)], &what) {
            0 => accepted += 1,
            code => refused[(code >> 32) as usize] += 1,
        }
        let list: Vec<u8> = (1..=28).collect();
        assert_eq!(same_numbered(&case.bytes, &list, &what), check(&case.bytes), "{what}");
    }
    assert!(accepted >= 2000, "{accepted} {refused:?}");
    assert!([3, 4, 5, 10, 11, 16].iter().all(|number| refused[*number] >= 100), "{refused:?}");
}

/// The sample as version 2 with this start and these unknown facts.
fn second(init: u64, unknown: u64) -> Draft {
    Draft { version: 2, init, unknown, ..reference::draft::sample() }
}

/// The sample as version 2: every start and every mask of two facts and of a third, which is not there; and every byte of the mask changed.
#[test]
fn masks_of_the_sample() {
    let questions = [0, 1, 2, 3, 4].map(|state| (1, state));
    assert_eq!(second(0, 0).encode(), twin(&sample("sample")).expect("a twin"));
    for (init, mask) in (0..8).flat_map(|init| (0..8).map(move |mask| (init, mask))) {
        let code = same_all(&second(init, mask).encode(), &questions, "the sample with unknown facts");
        let expected = match (init, mask) {
            (4.., _) => 5 << 32 | 6,
            (_, 4..) => 5 << 32 | 14,
            _ if init & mask != 0 => 16 << 32 | 14,
            _ if init | mask == 3 => 11 << 32 | 5,
            _ => 0,
        };
        assert_eq!(code, expected, "{init} {mask}");
        for state in 0..4 {
            let answer = ask(&second(init, mask).encode(), 1, state);
            let refused = expected >> 32 == 5 || expected >> 32 == 16;
            assert_eq!(
                answer,
                if refused { expected } else { (state & !mask == init) as u64 },
                "{init} {mask}"
            );
        }
    }
    let mut file = second(1, 0).encode();
    for at in 14..22 {
        for byte in 0..=255 {
            file[at] = byte;
            same_all(&file, &questions, "a mask with another byte");
        }
        file[at] = 0;
    }
}

/// 16 comes after 5 at the mask and before everything behind it: a bad goal, too many actions, the file's end.
#[test]
fn order_of_16() {
    let overlap = 16 << 32 | 14;
    let code = |draft: &Draft| same_all(&draft.encode(), &[(1, 0)], "the order of 16");
    assert_eq!(code(&Draft { goal: 4, ..second(1, 1) }), overlap);
    assert_eq!(code(&Draft { goal: 4, ..second(1, 2) }), 5 << 32 | 22);
    assert_eq!(code(&second(1, 5)), 5 << 32 | 14);
    assert_eq!(code(&Draft { actions: vec![Action::NOTHING; 257], ..second(1, 1) }), overlap);
    assert_eq!(code(&Draft { actions: vec![Action::NOTHING; 257], ..second(1, 2) }), 4 << 32 | 30);
    for (draft, known) in [(second(0, 1), true), (second(1, 1), false)] {
        let whole = draft.encode();
        for length in 0..whole.len() {
            let mut part = whole[..length].to_vec();
            same_all(&part, &[(1, 0)], "cut");
            mend_length(&mut part);
            let code = same_all(&part, &[(1, 0)], "cut with a length");
            match length {
                14..=21 => assert_eq!(code, 3 << 32 | 14, "{length}"),
                22.. if !known => assert_eq!(code, overlap, "{length}"),
                22..=29 => assert_eq!(code, 3 << 32 | 22, "{length}"),
                30 | 31 => assert_eq!(code, 3 << 32 | 30, "{length}"),
                _ => assert_ne!(code, 0, "{length}"),
            }
        }
    }
}

/// A file over 64 facts, of which so many from fact 1 on are unknown, that is accepted whatever they are; step 7 says that the left set
/// is within the right one. Sets: 3 Horn (-0), which is what the proof needs, 7 the first two initial states, 8 one that is none, 9 = 7+1,
/// 10 = 1&7, 11 = 1[0], 12 = ~0, 13 = 7+12, 14 = [0]7, 15 = 14&1, 16 = 10[0].
fn wide(unknown: u32, rule: u8, left: u16, right: u16) -> Vec<u8> {
    let mask = reference::task::all_facts(unknown as u8) << 1;
    let mut d = Draft { facts: 64, goal: 1, ..second(0, mask) };
    d.actions = vec![Action { pre: 0, add: 0, del: 2, ..Action::NOTHING }];
    d.state_sets[3] = DraftSet::Horn(vec![reference::file::Clause { positive: 0, negative: 1 }]);
    d.state_sets.extend([
        DraftSet::Explicit(vec![0, mask & 2]),
        DraftSet::Explicit(vec![1]),
        DraftSet::Union(7, 1),
        DraftSet::Intersection(1, 7),
        DraftSet::Progression(1, 0),
        DraftSet::Complement(0),
        DraftSet::Union(7, 12),
        DraftSet::Regression(7, 0),
        DraftSet::Intersection(14, 1),
        DraftSet::Progression(10, 0),
    ]);
    d.steps.insert(7, step(rule, 1, &[left, right], &[]));
    d.encode()
}

/// Kind 1 gives leave with 12 unknown facts and not with 13; another leaf gives it with any number, and so do clauses.
#[test]
fn leave_up_to_12_unknown_facts() {
    let (shape, untrue) = (10 << 32 | 7, 11 << 32 | 7);
    for (rule, left, right, few, many) in [
        (1, 1, 9, 0, shape),
        (1, 1, 7, untrue, shape),
        (1, 1, 13, 0, 0),
        (1, 10, 7, 0, 0),
        (1, 10, 8, untrue, untrue),
        (1, 7, 1, 0, 0),
        (1, 8, 1, untrue, untrue),
        (2, 11, 9, 0, shape),
        (2, 11, 7, untrue, shape),
        (2, 11, 13, 0, shape),
        (2, 16, 7, 0, 0),
        (2, 16, 8, untrue, untrue),
        (3, 15, 9, 0, shape),
        (3, 14, 9, shape, shape),
        (1, 1, 3, 0, 0),
        (2, 11, 3, 0, 0),
        (2, 11, 1, 0, 0),
        (4, 1, 3, shape, shape),
        (4, 7, 1, shape, shape),
    ] {
        for unknown in [3, 11, 12, 13, 14, 32, 63] {
            let file = wide(unknown, rule, left, right);
            let code = same_all(&file, &[(1, 0), (1, 2), (1, 3), (9, 2), (15, 2)], "leave");
            let expected = if unknown <= 12 { few } else { many };
            assert_eq!(code, expected, "{unknown} unknown facts: B{rule} {left} < {right}");
        }
    }
}

/// As many initial states as a list may hold, all of them listed; and with any one of them, or a fact of the mask, left out or changed.
#[test]
fn most_initial_states() {
    let mut random = Random::new(17);
    for number in [6, 7] {
        let draft = reference::generate::limits::workload(&mut Random::new(1), number);
        assert_eq!(same_reply(&draft.encode(), "the most initial states"), 0);
        for _ in 0..20 {
            let mut less = draft.clone();
            let DraftSet::Explicit(states) = &mut less.state_sets[3] else { panic!("no list") };
            states.remove(random.below(states.len()));
            assert_eq!(same_reply(&less.encode(), "an initial state left out") >> 32, 11);
            let fewer = Draft { unknown: draft.unknown & !random.bit(draft.unknown), ..draft.clone() };
            same_reply(&fewer.encode(), "fewer initial states");
            let more = Draft { unknown: draft.unknown | random.bit(!draft.init), ..draft.clone() };
            same_reply(&more.encode(), "more initial states");
        }
    }
}

/// Files with facts needed off: certificates, statements that misreadings decide otherwise, near misses, masks with faults.
#[test]
fn off_cases() {
    let (mut accepted, mut refused) = (0, [0; 20]);
    for (index, case) in off(20, 6000).enumerate() {
        let what = format!("case {index}");
        let asked = match case.call {
            Call::Ask(entry, state) => (entry, state),
            _ => (2, index as u64 % 16),
        };
        match same_all(&case.bytes, &[asked, (2, 0), (7, index as u64 % 8)], &what) {
            0 => accepted += 1,
            code => refused[(code >> 32) as usize] += 1,
        }
        let list: Vec<u8> = (1..=28).collect();
        assert_eq!(same_numbered(&case.bytes, &list, &what), check(&case.bytes), "{what}");
    }
    assert!(accepted >= 2000, "{accepted} {refused:?}");
    assert!([3, 5, 11, 16].iter().all(|number| refused[*number] >= 100), "{refused:?}");
}

/// The sample as version 3, with these facts off in a forbidden state and needed off by its two actions, and what leads into the
/// forbidden states and into its list as sets 7 and 8.
fn third(goal_off: u64, off: [u64; 2]) -> Draft {
    let mut d = Draft { version: 3, goal_off, ..reference::draft::sample() };
    d.actions.iter_mut().zip(off).for_each(|(action, off)| action.off = off);
    d.state_sets.extend([DraftSet::Regression(2, 0), DraftSet::Regression(3, 0)]);
    d
}

/// The questions about these sets and each state of two facts.
fn questions_about(entries: &[u64]) -> Vec<(u64, u64)> {
    entries.iter().flat_map(|entry| (0..4).map(|state| (*entry, state))).collect()
}

/// The sample as version 3, its set a list, Horn or two-literal: every mask of two facts, for both masks of the goal and those that the
/// actions need off; and each with a third fact, which is not there.
#[test]
fn masks_off_of_the_sample() {
    let questions = questions_about(&[2, 7, 8]);
    let clause = vec![reference::file::Clause { positive: 0, negative: 3 }];
    let sets = [DraftSet::Explicit(vec![0, 1, 2]), DraftSet::Horn(clause.clone()), DraftSet::TwoCnf(clause)];
    let mut counts = [0; 2];
    for (masks, set) in (0..256u64).flat_map(|masks| sets.iter().map(move |set| (masks, set))) {
        let [goal, goal_off, first, second] = [0, 2, 4, 6].map(|shift| masks >> shift & 3);
        let mut draft = Draft { goal, ..third(goal_off, [first, second]) };
        draft.state_sets[3] = set.clone();
        let code = same_all(&draft.encode(), &questions, "the sample with facts off");
        counts[(code == 0) as usize] += 1;
        for (change, place) in [(4u64, 30), (4 << 8, 64), (4 << 16, 96)] {
            let mut draft = draft.clone();
            draft.goal_off |= change & 7;
            draft
                .actions
                .iter_mut()
                .zip([8, 16])
                .for_each(|(action, shift)| action.off |= change >> shift & 7);
            let code = same_all(&draft.encode(), &questions[..1], "a fact that is not there");
            assert_eq!(code, 5 << 32 | place);
        }
    }
    assert!(counts.iter().all(|count| *count >= 150), "{counts:?}");
}

/// Every byte of the masks of facts off changed.
#[test]
fn bytes_of_the_masks_off() {
    let (mut file, questions) = (third(1, [2, 1]).encode(), questions_about(&[2, 7, 8]));
    for at in (30..38).chain(64..72).chain(96..104) {
        let byte = file[at];
        for change in 0..=255 {
            file[at] = change;
            same_all(&file, &questions, "a mask with another byte");
        }
        file[at] = byte;
    }
}

/// Each mask of version 3 has its own 3 and 5; 16 comes right after the unknown mask's 5.
#[test]
fn order_of_faults_in_version_3() {
    let code = |draft: &Draft| same_all(&draft.encode(), &[(1, 0)], "the order of faults");
    assert_eq!(code(&Draft { init: 1, unknown: 1, ..third(4, [4, 4]) }), 16 << 32 | 14);
    assert_eq!(code(&Draft { init: 1, unknown: 5, ..third(4, [4, 4]) }), 5 << 32 | 14);
    assert_eq!(code(&Draft { goal: 4, ..third(4, [4, 4]) }), 5 << 32 | 22);
    assert_eq!(code(&third(4, [4, 4])), 5 << 32 | 30);
    assert_eq!(code(&Draft { actions: vec![Action::NOTHING; 257], ..third(4, [0, 0]) }), 5 << 32 | 30);
    assert_eq!(code(&Draft { actions: vec![Action::NOTHING; 257], ..third(0, [0, 0]) }), 4 << 32 | 38);
    assert_eq!(code(&third(0, [4, 4])), 5 << 32 | 64);
    assert_eq!(code(&third(0, [0, 4])), 5 << 32 | 96);
    let whole = third(1, [1, 2]).encode();
    assert_eq!(same_all(&whole, &[(2, 2), (7, 1)], "the sample with facts off"), 0);
    for length in 0..whole.len() {
        let mut part = whole[..length].to_vec();
        same_all(&part, &[(1, 0)], "cut");
        mend_length(&mut part);
        let place = match length {
            6..=37 => Some(6 + (length - 6) / 8 * 8),
            38 | 39 => Some(38),
            40..=103 => Some(40 + (length - 40) / 8 * 8),
            _ => None,
        };
        let code = same_all(&part, &[(1, 0)], "cut with a length");
        assert!(code != 0 && place.is_none_or(|place| code == 3 << 32 | place as u64), "{length}: {code:x}");
    }
}

/// W1 to W3 in version 3: as they are, and with a fact of an action's masks changed, of the goal's, or a state left out.
#[test]
fn workloads_in_version_3() {
    let mut random = Random::new(21);
    for number in 8..=10 {
        let draft = reference::generate::limits::workload(&mut Random::new(1), number);
        assert_eq!(same_reply(&draft.encode(), "a workload in version 3"), 0);
        for _ in 0..30 {
            let mut other = draft.clone();
            let (some, bit) = (random.below(256), 1 << random.below(64));
            match random.below(4) {
                0 => other.actions[some].off ^= bit,
                1 => other.actions[some].pre ^= bit,
                2 => other.goal_off ^= bit,
                _ => (other.goal, other.goal_off) = (other.goal_off, other.goal),
            }
            same_reply(&other.encode(), "a workload with another mask");
        }
    }
}

/// Older files and the same in version 3: the replies are the same.
#[test]
fn older_files_in_version_3() {
    let cases: Vec<Case> = older(22, 3000).collect();
    let mut accepted = 0;
    for (index, pair) in cases.chunks(2).enumerate() {
        let codes = [&pair[0], &pair[1]].map(|case| same_call(case, &format!("pair {index}")));
        let words = codes.map(said);
        assert!(
            unchanged([&pair[0], &pair[1]], words.each_ref().map(|one| &**one)),
            "pair {index}: {words:?}"
        );
        accepted += (codes[0] == 0) as usize;
    }
    assert!(accepted >= 500, "{accepted}");
    let case = Case { call: Call::Check, bytes: sample("sample") };
    let new = renewed(&case).expect("the sample in version 3");
    assert_eq!(same_all(&new.bytes, &[(3, 2), (2, 3)], "the sample in version 3"), 0);
}

/// What the proved checker says in words, for a check, a round or a question alike.
fn said(code: u64) -> String {
    match code >> 32 {
        0 => code.to_string(),
        number => format!("refused {number} {}", code as u32),
    }
}

/// Both checkers on one case.
fn same_call(case: &Case, what: &str) -> u64 {
    match &case.call {
        Call::Check => same_reply(&case.bytes, what),
        Call::Small => same_small(&case.bytes, what),
        Call::Numbered(list) => same_numbered(&case.bytes, list, what),
        Call::Ask(entry, state) => same_answer(&case.bytes, *entry, *state, what),
        Call::Round(from, count) => same_round(&case.bytes, *from, *count, what),
    }
}

/// Files that differ in the order of listed states alone: the replies to each pair are alike.
#[test]
fn relisted_cases() {
    let (mut elsewhere, cases) = (0, relisted(15, 4000).collect::<Vec<Case>>());
    for (index, pair) in cases.chunks(2).enumerate() {
        let codes = [&pair[0], &pair[1]].map(|case| same_call(case, &format!("pair {index}")));
        let words = codes.map(said);
        assert!(alike([&pair[0], &pair[1]], words.each_ref().map(|one| &**one)), "pair {index}: {words:?}");
        elsewhere += (codes[0] != codes[1]) as usize;
    }
    assert!(elsewhere >= 50, "{elsewhere}");
}

/// Twins of versions 1 and 2: the second reply follows from the first.
#[test]
fn twins_of_both_versions() {
    let (mut moved, cases) = (0, twins(18, 3000).collect::<Vec<Case>>());
    for (index, pair) in cases.chunks(2).enumerate() {
        let codes = [&pair[0], &pair[1]].map(|case| same_call(case, &format!("pair {index}")));
        let words = codes.map(said);
        assert!(twinned([&pair[0], &pair[1]], words.each_ref().map(|one| &**one)), "pair {index}: {words:?}");
        moved += (codes[0] != codes[1]) as usize;
    }
    assert!(moved >= 200, "{moved}");
}

/// Files with a caller's own rule numbers, and lists with faults.
#[test]
fn numbered_cases() {
    let (mut accepted, mut refused) = (0, [0; 19]);
    for (index, case) in numbered(4, 5000).enumerate() {
        let Call::Numbered(list) = &case.call else { panic!("case {index} has no list") };
        match same_numbered(&case.bytes, list, &format!("case {index}")) {
            0 => accepted += 1,
            code => refused[(code >> 32) as usize] += 1,
        }
    }
    assert!(accepted >= 500 && refused[18] >= 500, "{accepted} {refused:?}");
    assert!(refused[1..=12].iter().all(|count| *count >= 5), "{refused:?}");
}

/// With the numbers 1 to 28 every code is the plain one.
#[test]
fn the_rules_own_numbers() {
    let list: Vec<u8> = (1..=28).collect();
    for (index, case) in cases(6, 3000).enumerate() {
        let code = same_numbered(&case.bytes, &list, &format!("case {index}"));
        assert_eq!(code, check(&case.bytes), "case {index}");
    }
}

/// The list of the numbered sample: rule k has 129 - k.
fn sample_list() -> Vec<u8> {
    (101..=128).rev().collect()
}

/// The numbered sample, as it is and with each byte changed to every other.
#[test]
fn numbered_sample() {
    let mut file = sample("numbered");
    assert_eq!(same_numbered(&file, &sample_list(), "the numbered sample"), 0);
    for at in 0..file.len() {
        let byte = file[at];
        for change in 1..=255 {
            file[at] = byte ^ change;
            same_numbered(&file, &sample_list(), "the numbered sample changed");
        }
        file[at] = byte;
    }
}

/// Random bytes as lists, of every length up to 600 and of some longer ones; and a lawful list with each byte changed.
#[test]
fn lists() {
    let mut random = Random::new(7);
    let (file, mut list) = (sample("numbered"), sample_list());
    for length in (0..600).chain([65_535, 65_536, 65_537, 1_000_000]) {
        let any: Vec<u8> = (0..length).map(|_| random.next() as u8).collect();
        let code = same_numbered(&file, &any, "random");
        assert_eq!(length == 28, code != 18 << 32 | length as u64);
    }
    for at in 0..28 {
        let number = list[at];
        for change in 0..=255 {
            list[at] = change;
            same_numbered(&file, &list, "a changed list");
            same_numbered(&[], &list, "a changed list and no file");
        }
        list[at] = number;
    }
    assert_eq!(reply_code(Reply::Refused { number: 18, place: 1 << 32 }), 18 << 32 | 0xFFFF_FFFF);
}

/// Files at the small limits and past them, with faults before and behind; then files of any sort.
#[test]
fn small_cases() {
    let (mut accepted, mut refused, mut behind) = (0, [0; 20], [0; 17]);
    for (index, case) in small(11, 6000).enumerate() {
        match same_small(&case.bytes, &format!("case {index}")) {
            0 => accepted += 1,
            code => refused[(code >> 32) as usize] += 1,
        }
        if is_breach(check_small(&case.bytes)) {
            behind[(same_reply(&case.bytes, "behind a breach") >> 32) as usize] += 1;
        }
    }
    assert!(accepted >= 1200 && refused[19] >= 1200, "{accepted} {refused:?}");
    assert!(refused[1..=12].iter().all(|count| *count >= 50), "{refused:?}");
    assert!([0, 3, 4, 5, 6, 7, 8, 9, 11, 12].iter().all(|number| behind[*number] >= 4), "{behind:?}");
    for (index, case) in cases(12, 4000).enumerate() {
        same_small(&case.bytes, &format!("another case {index}"));
    }
}

/// The sample with zeros after it in every size near the limit and near the greatest, with each number in the place of the length of its
/// explicit set and of its step count.
#[test]
fn small_limits() {
    let lengthened = |length: usize| {
        let mut file = sample("sample");
        file.resize(length, 0);
        mend_length(&mut file);
        file
    };
    for length in (234..300).chain(16_300..16_400).chain(65_500..65_540) {
        let mut file = lengthened(length);
        let code = same_small(&file, "lengthened");
        assert_eq!(is_breach(code), (16_385..=65_536).contains(&length), "{length}");
        file[3] ^= 1;
        assert_eq!(same_small(&file, "a wrong length field"), 1 << 32);
    }
    for (length, place) in [(234, 136), (16_384, 136), (16_384, 88)] {
        let mut file = lengthened(length);
        for number in 0..=u16::MAX {
            file[place..place + 2].copy_from_slice(&number.to_be_bytes());
            same_small(&file, "another number");
        }
    }
}

/// Whether a round's code is the step to go on from.
fn goes_on(code: u64) -> bool {
    code != 0 && code >> 32 == 0
}

/// Rounds of files of every sort, begun anywhere, of any counts.
#[test]
fn round_cases() {
    let (mut ended, mut going, mut refused) = (0, 0, [0; 18]);
    for (index, case) in rounds(8, 6000).enumerate() {
        let Call::Round(from, count) = case.call else { panic!("case {index} is no round") };
        match same_round(&case.bytes, from, count, &format!("case {index}")) {
            0 => ended += 1,
            code if goes_on(code) => going += 1,
            code => refused[(code >> 32) as usize] += 1,
        }
    }
    assert!(ended >= 500 && going >= 500 && refused[17] >= 500, "{ended} {going} {refused:?}");
    assert!(refused[1..=12].iter().all(|count| *count >= 8), "{refused:?}");
}

/// Runs of rounds of up to so many steps, with a question after each: the last round's code is that of one whole check.
#[test]
fn whole_runs() {
    let mut random = Random::new(9);
    let (mut rounds, mut accepted) = (0, 0);
    for (index, case) in cases(10, 1500).enumerate() {
        let (file, what) = (&case.bytes, format!("case {index}"));
        for most in [1, 4, 64, 2048] {
            let mut code = 0;
            loop {
                code = same_round(file, code, random.between(1, most) as u64, &what);
                rounds += 1;
                if !goes_on(code) {
                    break;
                }
                same_answer(file, random.below(12) as u64, random.below(16) as u64, &what);
            }
            assert_eq!(code, check(file), "{what}");
            accepted += (code == 0) as usize;
        }
        assert_eq!(round(file, 0, 2048), check(file), "{what}");
    }
    assert!(rounds >= 20_000 && accepted >= 2000, "{rounds} {accepted}");
}

/// Every round of the samples near the limits, with each step's fields changed here and there.
#[test]
fn rounds_of_samples() {
    for name in ["sample", "two_lists", "regression", "listed_actions_refused_9"] {
        let mut file = sample(name);
        let steps = reference::layout::read(&file).map_or(0, |file| file.steps.len());
        let first = file.len() - 12 * steps;
        for at in first..file.len() {
            let byte = file[at];
            for change in [0, 1, 2, 4, 128, 255] {
                file[at] = byte ^ change;
                for from in (0..steps as u64 + 2).chain([1 << 32, u64::MAX]) {
                    for count in [0, 1, 2, steps as u64, 2048, 2049, u64::MAX] {
                        same_round(&file, from, count, name);
                    }
                }
            }
            file[at] = byte;
        }
    }
}

/// Random bytes, plain and with a true length field and version.
#[test]
fn random_bytes() {
    let mut random = Random::new(5);
    for length in (0..600).chain([65_535, 65_536, 65_537, 100_000]) {
        let mut file: Vec<u8> = (0..length).map(|_| random.next() as u8).collect();
        same_reply(&file, "random");
        if length >= 5 {
            file[..4].copy_from_slice(&(length as u32 - 4).to_be_bytes());
            same_reply(&file, "random with a length");
            for version in [1, 2, 3] {
                file[4] = version;
                same_reply(&file, "random with a length and version");
            }
            same_answer(&file, random.below(8) as u64, random.next(), "random");
        }
    }
}

/// Every truncation of the sample, as it is and with its length field made true.
#[test]
fn truncations() {
    let file = sample("sample");
    assert_eq!(check(&file), 0);
    for length in 0..file.len() {
        let mut part = file[..length].to_vec();
        assert_ne!(same_reply(&part, "cut"), 0);
        same_small(&part, "cut");
        same_answer(&part, 0, 0, "cut");
        if length >= 4 {
            part[..4].copy_from_slice(&(length as u32 - 4).to_be_bytes());
            assert_ne!(same_reply(&part, "cut with a length"), 0);
            same_small(&part, "cut with a length");
            same_answer(&part, 0, 0, "cut with a length");
        }
    }
}

/// Every sample with each byte changed, and every question about entries and states near those that it has.
#[test]
fn samples() {
    let names = [
        "sample",
        "horn",
        "two_literal",
        "two_lists",
        "found",
        "delivered",
        "delivered_on_refused_11",
        "cooled",
        "cooled_at_times_refused_11",
        "bypass",
        "bypass_with_load_refused_11",
        "regression",
        "listed_actions_refused_9",
        "false_actions_refused_11",
    ];
    for name in names {
        let mut file = sample(name);
        same_reply(&file, name);
        for entry in 0..20 {
            for state in (0..64).chain([u64::MAX]) {
                same_answer(&file, entry, state, name);
            }
        }
        for at in 0..file.len() {
            let byte = file[at];
            for change in [1, 2, 4, 8, 16, 32, 64, 128, 255] {
                file[at] = byte ^ change;
                same_reply(&file, name);
                same_small(&file, name);
                same_answer(&file, 3, 1, name);
            }
            file[at] = byte;
        }
    }
}

/// The sample with more states than one set may hold: as it is, with one byte changed here and there, and asked about states near
/// the ends of its sets.
#[test]
fn two_sets() {
    let mut file = sample("two_sets");
    assert_eq!(same_reply(&file, "two_sets"), 0);
    assert_eq!(same_small(&file, "two_sets"), 19 << 32);
    for entry in 3..6 {
        for state in [0, 1, 2046, 2047, 2048, 2049, 4095, 4096, 4097, 16_383, 16_384] {
            same_answer(&file, entry, state, "two_sets");
        }
    }
    for at in (0..file.len()).step_by(23) {
        let byte = file[at];
        file[at] = byte ^ 1;
        same_reply(&file, "two_sets");
        file[at] = byte;
    }
}
