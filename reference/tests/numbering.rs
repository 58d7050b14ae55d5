//! A caller's own rule numbers, held to a rewriting of the bytes that is written anew here: replies, explanations
//! and texts.

use std::collections::BTreeMap;

use reference::assemble::assemble;
use reference::draft::{mend_length, sample, DraftSet};
use reference::explain::{explain, explain_numbered, why_numbered, Why};
use reference::generate::numbered::numbered;
use reference::generate::random::Random;
use reference::generate::{cases, Call, Case};
use reference::names::Names;
use reference::numbering::{parse, renumber, ListFault};
use reference::show::{show, show_numbered};
use reference::{check, check_numbered, layout};

/// The first byte that is zero or was used before, of a list of 28.
fn faulty_byte(list: &[u8]) -> Option<usize> {
    (0..28).find(|k| list[*k] == 0 || list[..*k].contains(&list[*k]))
}

/// The reply by the words of document 02.
fn expected(bytes: &[u8], list: &[u8]) -> String {
    if list.len() != 28 {
        return format!("refused 18 {}", list.len());
    }
    match faulty_byte(list) {
        Some(k) => format!("refused 18 {k}"),
        None => check(&rewritten(bytes, list)).to_string(),
    }
}

/// Where the rule bytes of a file stand: the steps are its end. None where its layout is not lawful.
fn rule_bytes(bytes: &[u8]) -> std::iter::StepBy<std::ops::Range<usize>> {
    let steps = layout::read(bytes).map_or(0, |file| file.steps.len());
    (bytes.len() - 12 * steps..bytes.len()).step_by(12)
}

/// The bytes with each rule byte replaced by the number of the rule meant; 0 for a number that the list lacks.
fn rewritten(bytes: &[u8], list: &[u8]) -> Vec<u8> {
    let mut plain = bytes.to_vec();
    for at in rule_bytes(bytes) {
        plain[at] = (1..=28).find(|rule| list[*rule as usize - 1] == bytes[at]).unwrap_or(0);
    }
    plain
}

/// The steps with numbers that the list lacks.
fn lacked(bytes: &[u8], list: &[u8]) -> Vec<(usize, u8)> {
    let numbers = rule_bytes(bytes).map(|at| bytes[at]).enumerate();
    numbers.filter(|(_, number)| !list.contains(number)).collect()
}

fn list_of(case: &Case) -> &[u8] {
    match &case.call {
        Call::Numbered(list) => list,
        other => panic!("{other:?}"),
    }
}

fn own_numbers() -> Vec<u8> {
    (1..=28).collect()
}

/// Rule k has the number 129 - k.
fn backwards() -> Vec<u8> {
    (101..=128).rev().collect()
}

/// A lawful list of any numbers.
fn any_list(random: &mut Random) -> Vec<u8> {
    let mut left: Vec<u8> = (1..=255).collect();
    (0..28).map(|_| left.swap_remove(random.below(left.len()))).collect()
}

#[test]
fn generated_cases_get_the_reply_of_the_rewritten_file() {
    let mut replies: BTreeMap<String, usize> = BTreeMap::new();
    let mut lengths: BTreeMap<usize, usize> = BTreeMap::new();
    let (mut zeros, mut repeats) = ([0; 28], [0; 28]);
    for case in numbered(11, 6000) {
        let list = list_of(&case);
        let reply = case.reply();
        assert_eq!(reply, expected(&case.bytes, list), "{}", case.line());
        *replies.entry(reply.split(' ').take(2).collect::<Vec<_>>().join(" ")).or_default() += 1;
        *lengths.entry(list.len()).or_default() += 1;
        match Some(list).filter(|list| list.len() == 28).and_then(|list| faulty_byte(list)) {
            Some(at) if list[at] == 0 => zeros[at] += 1,
            Some(at) => repeats[at] += 1,
            None => (),
        }
    }
    let all = (1..=12).chain([18]).map(|number| format!("refused {number}")).chain(["accepted".to_string()]);
    for reply in all {
        assert!(replies.get(&reply).is_some_and(|count| *count >= 8), "{reply}: {replies:?}");
    }
    assert!(replies["accepted"] >= 1000 && replies["refused 8"] >= 600, "{replies:?}");
    assert!([0, 1, 27, 29, 255, 256, 300].iter().all(|length| lengths[length] >= 15), "{lengths:?}");
    assert!(
        [0, 13, 14, 27].iter().all(|at| zeros[*at] >= 1) && zeros.iter().sum::<usize>() >= 200,
        "{zeros:?}"
    );
    assert!(
        [1, 26, 27].iter().all(|at| repeats[*at] >= 1) && repeats.iter().sum::<usize>() >= 200,
        "{repeats:?}"
    );
}

#[test]
fn the_same_seed_gives_the_same_numbered_cases() {
    let lines = |seed, count| numbered(seed, count).map(|case| case.line()).collect::<Vec<String>>();
    assert_eq!(lines(5, 100)[..40], lines(5, 40));
    assert_ne!(lines(5, 40), lines(6, 40));
}

#[test]
fn with_the_rules_own_numbers_every_reply_is_the_plain_one() {
    let files = cases(12, 3000).map(|case| case.bytes);
    files.for_each(|bytes| assert_eq!(check_numbered(&bytes, &own_numbers()), check(&bytes)));
}

/// A file and the same one renumbered by a list get one reply, and `renumber` is undone by the list.
#[test]
fn renumbered_files_keep_their_reply() {
    let mut random = Random::new(13);
    let (mut done, mut refused) = (0, 0);
    for case in cases(13, 3000).filter(|case| case.is_check()) {
        let list = any_list(&mut random);
        let has_rules = rule_bytes(&case.bytes).all(|at| (1..=28).contains(&case.bytes[at]));
        match renumber(&case.bytes, &list) {
            Ok(bytes) => {
                assert!(has_rules && layout::read(&case.bytes).is_ok());
                assert_eq!(rewritten(&bytes, &list), case.bytes);
                assert_eq!(check_numbered(&bytes, &list), check(&case.bytes));
                done += 1;
            }
            Err(_) => {
                assert!(!has_rules || layout::read(&case.bytes).is_err());
                refused += 1;
            }
        }
    }
    assert!(done > 1500 && refused > 200, "{done} {refused}");
    let message = renumber(&sample().encode(), &[7; 28]).expect_err("two are equal");
    assert_eq!(message, "byte 1 of the list, for rule 2 (B2), is 7, which byte 0 uses for rule 1 (B1)");
    assert!(renumber(&[], &backwards()).is_err_and(|why| why.starts_with("refused 1 at byte 0: ")));
}

/// A list with one change, the reply's place, and what is told.
#[test]
fn faults_of_a_list() {
    let changed = |changes: &[(usize, u8)]| {
        let mut list = backwards();
        changes.iter().for_each(|(at, number)| list[*at] = *number);
        list
    };
    let zero = |at| (at as u64, ListFault::Zero { at });
    let twice = |at, earlier, number| (at as u64, ListFault::Repeated { at, earlier, number });
    let of_length = |length: usize| (length as u64, ListFault::Length(length));
    let table = [
        (Vec::new(), of_length(0)),
        (vec![0; 27], of_length(27)),
        (vec![0; 29], of_length(29)),
        ([backwards(), vec![1]].concat(), of_length(29)),
        (vec![9; 70_000], of_length(70_000)),
        (vec![0; 28], zero(0)),
        (vec![255; 28], twice(1, 0, 255)),
        (changed(&[(27, 0)]), zero(27)),
        (changed(&[(27, 128)]), twice(27, 0, 128)),
        (changed(&[(0, 101)]), twice(27, 0, 101)),
        (changed(&[(4, 0), (9, 128)]), zero(4)),
        (changed(&[(4, 128), (9, 0)]), twice(4, 0, 128)),
        (changed(&[(4, 128), (5, 128)]), twice(4, 0, 128)),
    ];
    for (list, (place, fault)) in table {
        for bytes in [sample().encode(), Vec::new(), vec![1, 2, 3, 4, 5]] {
            let (reply, why) = why_numbered(&bytes, &list);
            assert_eq!(reply.to_string(), format!("refused 18 {place}"), "{list:?}");
            assert_eq!((check_numbered(&bytes, &list), why), (reply, Why::Numbers(fault)), "{list:?}");
        }
    }
}

#[test]
fn faults_of_a_list_in_words() {
    let told = |list: &[u8]| {
        let text = explain_numbered(&[], list, &Names::default());
        let shown = show_numbered(&[], list, &Names::default());
        let last = text.lines().last().unwrap_or("").trim_matches([' ', '.']).to_string();
        assert_eq!(shown, format!("# {}: {last}\n", check_numbered(&[], list)));
        assert_eq!(text.lines().next(), Some(&*check_numbered(&[], list).to_string()));
        last
    };
    let mut list = backwards();
    assert_eq!(told(&list[1..]), "the list's length is 27, not 28");
    list[9] = 126;
    assert_eq!(
        told(&list),
        "byte 9 of the list, for rule 10 (PI), is 126, which byte 2 uses for rule 3 (B3)"
    );
    list[5] = 0;
    assert_eq!(told(&list), "byte 5 of the list, for rule 6 (ED), is 0; numbers are 1 to 255");
}

/// A number that the list lacks is refused at its step, after the layout and the steps before it.
#[test]
fn numbers_that_a_list_lacks() {
    let list = backwards();
    let file = renumber(&sample().encode(), &list).expect("a lawful file");
    let first = file.len() - 12 * 8;
    for step in 0..8 {
        for number in (0..=28).chain([29, 100, 129, 255]) {
            let mut changed = file.clone();
            changed[first + 12 * step] = number;
            let text = explain_numbered(&changed, &list, &Names::default());
            assert_eq!(check_numbered(&changed, &list).to_string(), format!("refused 8 {step}"));
            let words = format!("unknown rule: the file has the number {number}, which the list lacks;");
            assert!(text.starts_with(&format!("refused 8 {step}\n")) && text.contains(&words), "{text}");
        }
    }
    let reply = |change: fn(&mut reference::draft::Draft)| {
        let mut draft = sample();
        change(&mut draft);
        draft.steps[4].rule = 0;
        check_numbered(&draft.encode(), &own_numbers()).to_string()
    };
    assert_eq!(reply(|_| ()), "refused 8 4");
    assert_eq!(reply(|d| d.steps[1].rule = 3), "refused 10 1");
    assert_eq!(reply(|d| d.steps[5].rule = 3), "refused 8 4");
    assert_eq!(reply(|d| d.state_sets[5] = DraftSet::Union(3, 5)), "refused 6 127");
}

/// What an explanation says beside the steps before a layout fault, which `rewritten` does not rewrite.
fn same_part(bytes: &[u8], text: &str) -> Vec<String> {
    let told = |line: &&str| layout::read(bytes).is_ok() || !line.starts_with("step ");
    text.lines().filter(told).map(String::from).collect()
}

/// Where the list has all numbers, a file is explained as the rewritten one is. Where it lacks some, the number that is
/// told is the file's.
#[test]
fn explanations_are_those_of_the_rewritten_file() {
    let note = "The file's rule bytes are numbers of the list; here steps have the rules that are meant.\n";
    let (mut alike, mut unknown, mut lists) = (0, 0, 0);
    for case in numbered(14, 2500) {
        let list = list_of(&case);
        let text = explain_numbered(&case.bytes, list, &Names::default());
        let (reply, why) = why_numbered(&case.bytes, list);
        assert_eq!((text.lines().next(), &*reply.to_string()), (Some(&*case.reply()), &*case.reply()));
        assert_ne!(why, Why::Unknown, "{text}");
        if let Why::Numbers(_) = why {
            lists += 1;
            continue;
        }
        let lacked = lacked(&case.bytes, list);
        if lacked.is_empty() {
            let plain = explain(&rewritten(&case.bytes, list), &Names::default());
            assert_eq!(same_part(&case.bytes, &text.replacen(note, "", 1)), same_part(&case.bytes, &plain));
            alike += 1;
        }
        for (step, number) in
            lacked.iter().filter(|(step, _)| reply.to_string() == format!("refused 8 {step}"))
        {
            let words = format!("the file has the number {number}, which the list lacks");
            assert!(text.contains(&words), "step {step}: {text}");
            unknown += 1;
        }
    }
    assert!(alike > 1000 && unknown > 200 && lists > 300, "{alike} {unknown} {lists}");
}

/// The steps before a layout fault are told with the rules meant too.
#[test]
fn steps_before_a_layout_fault() {
    let mut file = renumber(&sample().encode(), &backwards()).expect("a lawful file");
    let first = file.len() - 12 * 8;
    file[first + 12] = 2;
    file.push(0);
    mend_length(&mut file);
    let text = explain_numbered(&file, &backwards(), &Names::default());
    let told = [
        "refused 3 234\n",
        "\nstep 0 ED dead 0  # rule 6: 0 dead\n",
        "\nstep 1 raw 0 1 4 5 0 0 0  # the file has 2, which the list lacks\nstep 2 B1 6 < 0  # rule 1\n",
    ];
    told.iter().for_each(|part| assert!(text.contains(part), "{part}\n{text}"));
}

/// The text of a file with a list is the rewritten file's, and says of each step whose number the list lacks what the
/// file has there.
#[test]
fn texts_are_those_of_the_rewritten_file() {
    let (mut lawful, mut commented) = (0, 0);
    for case in numbered(15, 2500) {
        let list = list_of(&case);
        let shown = show_numbered(&case.bytes, list, &Names::default());
        let reply = case.reply();
        let head = shown.lines().next().unwrap_or("").replace(" at byte ", " ").replace(" at step ", " ");
        assert!(head == format!("# {reply}") || head.starts_with(&format!("# {reply}: ")), "{shown}");
        if reply.starts_with("refused 18 ") || layout::read(&case.bytes).is_err() {
            assert_eq!(shown.lines().count(), 1, "{shown}");
            continue;
        }
        assert_eq!(assemble(&shown), Ok(rewritten(&case.bytes, list)), "{shown}");
        let lacked = lacked(&case.bytes, list);
        let comment = |(step, number): &(usize, u8)| {
            let line = shown.lines().find(|line| line.starts_with(&format!("step {step} raw 0 ")));
            line.is_some_and(|line| {
                line.ends_with(&format!("  # the file has {number}, which the list lacks"))
            })
        };
        assert!(lacked.iter().all(comment), "{lacked:?}\n{shown}");
        assert_eq!(shown.matches("which the list lacks").count(), lacked.len(), "{shown}");
        if lacked.is_empty() {
            assert_eq!(shown, show(&rewritten(&case.bytes, list)));
            assert_eq!(renumber(&rewritten(&case.bytes, list), list).as_ref(), Ok(&case.bytes));
        }
        lawful += 1;
        commented += !lacked.is_empty() as usize;
    }
    assert!(lawful > 1500 && commented > 250, "{lawful} {commented}");
}

#[test]
fn lists_as_they_are_written() {
    assert_eq!(parse(""), Some(vec![]));
    assert_eq!(parse("  "), Some(vec![]));
    assert_eq!(parse("0"), Some(vec![0]));
    assert_eq!(parse(" 1 2,3 , 255  007"), Some(vec![1, 2, 3, 255, 7]));
    for text in [",", "1,", ",1", "1,,2", "1, ,2", "256", "1000", "+1", "1;2", "0x1", "a"] {
        assert_eq!(parse(text), None, "{text}");
    }
}

#[test]
fn the_numbered_sample() {
    let read = |name: &str| {
        std::fs::read(format!("{}/../samples/{name}", env!("CARGO_MANIFEST_DIR"))).expect("a sample")
    };
    let (bytes, list) = (read("numbered.cert"), read("numbered.list"));
    assert_eq!(list, backwards());
    assert_eq!(renumber(&sample().encode(), &list), Ok(bytes.clone()));
    assert_eq!(check_numbered(&bytes, &list).to_string(), "accepted");
    assert_eq!(check(&bytes).to_string(), "refused 8 0");
}
