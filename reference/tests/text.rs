//! The text form both ways, refusals in words, and the samples.

use std::path::{Path, PathBuf};

use reference::assemble::assemble;
use reference::draft::{mend_length, sample, Draft, DraftActions, DraftSet};
use reference::generate::cases;
use reference::generate::random::Random;
use reference::pattern::{parse, Claim};
use reference::rules::{by_name, by_number, RULES};
use reference::show::{show, text};
use reference::{check, layout};

#[test]
fn lawful_files_come_back_from_their_text() {
    let mut lawful = 0;
    for case in cases(3, 4000) {
        let shown = show(&case.bytes);
        let Ok(file) = layout::read(&case.bytes) else {
            assert!(shown.starts_with("# refused ") && shown.lines().count() == 1, "{shown}");
            continue;
        };
        let back = assemble(&shown).unwrap_or_else(|why| panic!("{why}\n{shown}"));
        assert_eq!(back, case.bytes, "{shown}");
        assert_eq!(Draft::of(&file).encode(), case.bytes);
        lawful += 1;
    }
    assert!(lawful > 2500, "{lawful}");
}

#[test]
fn show_says_something_of_any_bytes() {
    let mut random = Random::new(11);
    let sample = sample().encode();
    for round in 0..20_000 {
        let mut bytes = sample.clone();
        for _ in 0..random.between(1, 6) {
            let at = random.below(bytes.len());
            bytes[at] = random.next() as u8;
        }
        if round % 3 == 0 {
            bytes.truncate(random.below(bytes.len()));
        }
        mend_length(&mut bytes);
        let shown = show(&bytes);
        let reply = check(&bytes).to_string();
        let words: Vec<&str> = reply.split(' ').collect();
        let expected = match words[..] {
            ["refused", number, place] => {
                let unit = if number.parse::<u8>().is_ok_and(|n| n > 7) { "step" } else { "byte" };
                format!("# refused {number} at {unit} {place}: ")
            }
            _ => "# accepted\n".to_string(),
        };
        assert!(shown.starts_with(&expected), "{expected}\n{shown}");
    }
}

fn first_line(change: impl FnOnce(&mut Draft)) -> String {
    let mut draft = sample();
    change(&mut draft);
    show(&draft.encode()).lines().next().unwrap_or("").to_string()
}

#[test]
fn refusals_in_words() {
    assert_eq!(first_line(|_| ()), "# accepted");
    assert_eq!(
        first_line(|d| d.action_sets[0] = DraftActions::List(vec![1, 0])),
        "# refused 7 at byte 79: action set 0, action 1 is not above the one before it"
    );
    assert_eq!(
        first_line(|d| d.state_sets[5] = DraftSet::Union(0, 3)),
        "# refused 9 at step 4: rule PG, premise 1 does not match S[T]<S+U"
    );
    assert_eq!(
        first_line(|d| d.steps[4].entries[0] = 1),
        "# refused 9 at step 4: rule PG, the conclusion does not match S dead"
    );
    assert_eq!(
        first_line(|d| d.steps[1].rule = 3),
        "# refused 10 at step 1: rule B3, the shape is not permitted: a leaf is no literal"
    );
    assert_eq!(first_line(|d| d.init = 3), "# refused 11 at step 5: rule B1, the statement is not true");
    assert_eq!(
        first_line(|d| d.actions[1].add = 4),
        "# refused 5 at byte 56: action 1, mask add names a fact that the task does not have"
    );
    assert_eq!(first_line(|d| d.steps[0].rule = 99), "# refused 8 at step 0: there is no such rule");
    assert_eq!(
        first_line(|d| d.state_sets[4] = DraftSet::Progression(3, 9)),
        "# refused 6 at byte 120: state set 4, reference 1 does not name an entry allowed there"
    );
}

#[test]
fn faulty_texts_are_refused_with_their_line() {
    let faults = [
        ("facts 2\nfakt 3", "line 2: unknown line 'fakt'"),
        ("facts 256", "line 1: '256' is no fact count"),
        ("set 1 empty", "line 1: number 0 is next, not 1"),
        ("set 0 = 1 + 2 3", "line 1: '3' is too much"),
        ("set 0 = 1 [ 2", "line 1: the line ends too early"),
        ("set 0 explicit 1..", "line 1: '1..' is no range of states"),
        ("set 0 explicit 0 7..5", "line 1: '7..5' is no range of states"),
        ("set 0 explicit 0..8191", "line 1: '0..8191' is no range of states"),
        ("set 0 horn (+64)", "line 1: '64' is no fact below 64"),
        ("set 0 horn (2)", "line 1: '2' is no literal"),
        ("goal {0 1", "line 1: the line ends too early"),
        ("step 0 XY dead 0", "line 1: unknown rule 'XY'"),
        ("step 0 SD dead 0 by 1", "line 1: the line ends too early"),
        ("step 0 raw 1 2 3 4 5 6", "line 1: the line ends too early"),
    ];
    for (text, fault) in faults {
        assert_eq!(assemble(text), Err(fault.to_string()), "{text}");
    }
    assert!(assemble("").is_ok_and(|bytes| check(&bytes).to_string() == "refused 4 28"));
}

/// Unlawful values can be written too, so that refused files have a text.
#[test]
fn drafts_come_back_from_their_text() {
    let mut draft = sample();
    draft.version = 3;
    draft.facts = 70;
    draft.state_sets[3] = DraftSet::Explicit(vec![5, 1, u64::MAX]);
    draft.state_sets[5] = DraftSet::Union(900, 5);
    draft.steps[0].premises = [7, 8, 9];
    assert_eq!(assemble(&text(&draft)), Ok(draft.encode()));
}

/// Four states or more that follow each other are written as a range.
#[test]
fn ranges_of_states() {
    let mut draft = sample();
    draft.state_sets[3] = DraftSet::Explicit(vec![0, 1, 2, 4, 5, 6, 7, 1022, 1023, 1024, 1025, u64::MAX]);
    let written = text(&draft);
    assert!(written.contains("\nset 3 explicit 0 1 2 4..7 1022..0x401 0xffffffffffffffff\n"), "{written}");
    assert_eq!(assemble(&written), Ok(draft.encode()));
    assert_eq!(assemble("set 0 explicit 0x10..17 9..9"), assemble("set 0 explicit 16 17 9"));
}

#[test]
fn the_rule_table_agrees_with_the_rule_texts() {
    for (k, rule) in RULES.iter().enumerate() {
        assert_eq!(rule.number as usize, k + 1);
        assert_eq!(by_number(rule.number), Some(rule));
        assert_eq!(by_name(rule.name), Some(rule));
        if rule.number <= 5 {
            assert_eq!((rule.text, rule.premises), ("", 0));
            continue;
        }
        let pattern = parse(rule.text).expect("a rule text has the usual form");
        assert_eq!(pattern.premises.len(), rule.premises as usize, "{}", rule.name);
        let judgement = match pattern.conclusion {
            Claim::Dead(_) => 0,
            Claim::Within(..) => 1,
            Claim::ActionsWithin(..) => 2,
            Claim::Unsolvable => 3,
        };
        assert_eq!(judgement, rule.judgement, "{}", rule.name);
    }
    assert_eq!((by_number(0), by_number(29), by_number(255)), (None, None, None));
}

fn samples() -> Vec<PathBuf> {
    let folder = Path::new(env!("CARGO_MANIFEST_DIR")).join("../samples");
    let entries = std::fs::read_dir(folder).expect("the samples stand beside this crate");
    let mut paths: Vec<PathBuf> = entries.map(|entry| entry.expect("a sample").path()).collect();
    paths.retain(|path| path.extension().is_some_and(|e| e == "txt"));
    paths.sort();
    paths
}

/// The first line of a text is a comment with the reply; the bytes stand beside it.
#[test]
fn samples_agree_in_both_forms() {
    let texts = samples();
    assert!(texts.len() >= 5, "{texts:?}");
    for path in &texts {
        let text = std::fs::read_to_string(path).expect("a text");
        let bytes = std::fs::read(path.with_extension("cert")).expect("its bytes");
        assert_eq!(assemble(&text).as_ref(), Ok(&bytes), "{path:?}");
        let stated = text.lines().next().unwrap_or("");
        assert_eq!(format!("# {}", check(&bytes)), stated, "{path:?}");
        assert_eq!(assemble(&show(&bytes)), Ok(bytes), "{path:?}");
    }
}

#[test]
fn the_sample_of_document_01_is_among_them() {
    let path = Path::new(env!("CARGO_MANIFEST_DIR")).join("../samples/sample.cert");
    assert_eq!(std::fs::read(path).expect("the sample"), sample().encode());
}

#[test]
fn damaged_texts_are_read_or_refused() {
    let whole = text(&sample());
    let mut random = Random::new(12);
    let (mut read, mut refused) = (0, 0);
    for _ in 0..20_000 {
        let mut damaged: Vec<char> = whole.chars().collect();
        for _ in 0..random.between(1, 3) {
            let at = random.below(damaged.len());
            damaged[at] =
                random.pick(&['0', '9', ' ', '\n', '+', '-', '(', '}', '[', '~', '<', 'x', '#', 'é']);
        }
        match assemble(&damaged.iter().collect::<String>()) {
            Ok(bytes) => {
                read += 1;
                assert!(bytes.len() >= 28 && bytes[..4] == (bytes.len() as u32 - 4).to_be_bytes());
            }
            Err(why) => {
                refused += 1;
                assert!(why.starts_with("line "), "{why}");
            }
        }
    }
    assert!(read > 1000 && refused > 1000, "{read} read, {refused} refused");
}
