//! The twelve cases of document 01, each a change of the sample; `samples/cases` has them as files.

use reference::draft::{sample, Draft, DraftSet};
use reference::file::Clause;
use reference::{ask, check, Answer, Reply};

/// The sample with one change, lengths mended.
fn changed(change: impl FnOnce(&mut Draft)) -> Vec<u8> {
    let mut draft = sample();
    change(&mut draft);
    draft.encode()
}

fn horn() -> DraftSet {
    DraftSet::Horn(vec![Clause { positive: 0, negative: 3 }])
}

fn appended() -> Vec<u8> {
    let mut bytes = sample().encode();
    bytes.push(0);
    bytes
}

#[test]
fn the_twelve_cases() {
    let table: [(Vec<u8>, &str); 12] = [
        (changed(|_| ()), "accepted"),
        (changed(|d| d.state_sets[3] = DraftSet::Explicit(vec![0, 1])), "refused 11 1"),
        (changed(|d| d.init = 3), "refused 11 5"),
        (changed(|d| d.state_sets[5] = DraftSet::Union(0, 3)), "refused 9 4"),
        (changed(|d| d.state_sets[3] = horn()), "accepted"),
        (changed(|d| d.steps.truncate(7)), "refused 12 6"),
        (changed(|d| d.facts = 0), "refused 4 5"),
        (changed(|d| d.facts = 65), "refused 4 5"),
        (changed(|d| d.facts = 1), "refused 5 14"),
        (changed(|d| d.version = 0), "refused 2 4"),
        (appended(), "refused 1 0"),
        (Vec::new(), "refused 1 0"),
    ];
    let replies = include_str!("../../samples/cases/replies");
    assert_eq!(replies.lines().count(), table.len());
    for (number, (bytes, reply)) in table.iter().enumerate() {
        assert_eq!(&check(bytes).to_string(), reply, "case {}", number + 1);
        let file = format!("{}/../samples/cases/{:02}.cert", env!("CARGO_MANIFEST_DIR"), number + 1);
        assert_eq!(&std::fs::read(&file).unwrap(), bytes, "{file}");
        assert_eq!(replies.lines().nth(number), Some(*reply), "line {}", number + 1);
    }
    assert_eq!(table[4].0.len(), 226);
}

#[test]
fn the_sample_is_234_bytes() {
    let bytes = sample().encode();
    assert_eq!(bytes.len(), 234);
    assert_eq!(bytes[..4], [0, 0, 0, 230]);
    // Header, masks and actions written out by hand.
    let mut head = vec![0, 0, 0, 230, 1, 2];
    head.extend([0u8; 8]);
    head.extend([0, 0, 0, 0, 0, 0, 0, 3, 0, 2]);
    for mask in [0u64, 1, 2, 0, 2, 1] {
        head.extend(mask.to_be_bytes());
    }
    head.extend([0, 1, 0, 1, 0, 0, 7, 0, 1, 0, 0, 1, 1, 0, 1, 2, 0, 25, 3]);
    assert_eq!(bytes[..head.len()], head[..]);
    let tail = [13, 3, 0, 0, 0, 0, 0, 6, 0, 0, 0, 0];
    assert_eq!(bytes[bytes.len() - 12..], tail);
}

#[test]
fn questions_about_the_sample() {
    let bytes = sample().encode();
    let refused = Answer::Refused { number: 13, place: 0 };
    let answers = [
        (0, 0, Answer::Out),
        (1, 0, Answer::In),
        (1, 1, Answer::Out),
        (2, 3, Answer::In),
        (3, 2, Answer::In),
        (3, 3, Answer::Out),
        (4, 0, refused),
        (5, 2, Answer::In),
        (6, 3, Answer::Out),
        (7, 0, refused),
        (3, 4, refused),
        (65_536, 0, refused),
    ];
    for (entry, state, answer) in answers {
        assert_eq!(ask(&bytes, entry, state), answer, "entry {entry}, state {state}");
    }
    assert_eq!(ask(&[], 0, 0), Answer::Refused { number: 1, place: 0 });
    assert_eq!(check(&bytes), Reply::Accepted);
}
