//! Explanations held to the meaning: what is told of thousands of generated files is looked at again
//! by code that shares nothing with the search that found it, but for the readers of files and of
//! rule texts.

mod accepted;
#[path = "../common/mod.rs"]
mod common;
mod fields;
mod golden;
mod layout;
mod pattern;
mod shape;
mod untrue;

use std::collections::BTreeMap;
use std::fmt::Debug;

use reference::draft::{mend_length, Draft};
use reference::explain::{explain, why, Why};
use reference::file::Step;
use reference::generate::cases;
use reference::generate::random::Random;
use reference::names::Names;
use reference::{check, Reply};

/// How often each thing was met.
struct Tally<T>(BTreeMap<T, usize>);

impl<T: Ord + Debug> Tally<T> {
    fn new() -> Tally<T> {
        Tally(BTreeMap::new())
    }

    fn add(&mut self, thing: T) {
        *self.0.entry(thing).or_default() += 1;
    }

    /// Each of these was met so often, so that the test is about something.
    fn each_at_least(&self, least: usize, things: impl IntoIterator<Item = T>) {
        for thing in things {
            let count = self.0.get(&thing).copied().unwrap_or(0);
            assert!(count >= least, "{thing:?} was met {count} times: {:?}", self.0);
        }
    }
}

/// An explanation: the reply, the reason as a value, and the text. The reply is the check's.
struct Explained {
    reply: Reply,
    why: Why,
    text: String,
}

fn explained(bytes: &[u8]) -> Explained {
    let (reply, why) = why(bytes);
    let text = explain(bytes, &Names::default());
    assert_eq!(reply, check(bytes));
    assert_ne!(why, Why::Unknown, "{text}");
    assert!(text.starts_with(&format!(
        "{reply}\nThis explanation comes from the reference checker, which is not proved;"
    )));
    Explained { reply, why, text }
}

/// The explanation of a file with this one step.
fn explained_step(draft: &mut Draft, step: Step) -> Explained {
    draft.steps = vec![step];
    explained(&draft.encode())
}

/// A list of facts as explanations write it.
fn facts(mask: u64) -> String {
    let names: Vec<String> = (0..64).filter(|f| mask >> f & 1 == 1).map(|f| f.to_string()).collect();
    format!("{{{}}}", names.join(" "))
}

/// Whatever the bytes are, they are explained.
#[test]
fn any_bytes() {
    let mut seen: Tally<String> = Tally::new();
    let mut random = Random::new(37);
    let files: Vec<Vec<u8>> =
        cases(49, 100).map(|case| case.bytes).filter(|b| (1..2000).contains(&b.len())).collect();
    for round in 0..20_000 {
        let mut bytes = files[random.below(files.len())].clone();
        for _ in 0..random.between(1, 4) {
            let at = random.below(bytes.len());
            bytes[at] = if random.chance(50) { random.next() as u8 } else { random.below(12) as u8 };
        }
        if round % 5 == 0 {
            bytes.truncate(random.below(bytes.len()));
        }
        if round % 20 != 0 {
            mend_length(&mut bytes);
        }
        let reply = explained(&bytes).reply.to_string();
        seen.add(reply.split(' ').take(2).collect::<Vec<_>>().join(" "));
    }
    seen.each_at_least(
        5,
        (1..=12).chain([16]).map(|number| format!("refused {number}")).chain(["accepted".to_string()]),
    );
}
