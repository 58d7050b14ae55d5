//! The explanations of some samples, word for word, and names in place of numbers.

use std::path::{Path, PathBuf};

use reference::draft::sample;
use reference::explain::explain;
use reference::names::Names;

fn path(name: &str) -> PathBuf {
    Path::new(env!("CARGO_MANIFEST_DIR")).join(name)
}

/// Each file of the folder `golden` holds the explanation of the sample of its name; `case_02` is
/// the second of the twelve cases.
#[test]
fn samples_word_for_word() {
    let mut names: Vec<String> = Vec::new();
    for entry in std::fs::read_dir(path("tests/explain/golden")).expect("the golden files") {
        let golden = entry.expect("a golden file").path();
        let name = golden.file_stem().expect("a name").to_string_lossy().replace("case_", "cases/");
        let bytes = std::fs::read(path(&format!("../samples/{name}.cert"))).expect("a sample");
        let expected = std::fs::read_to_string(&golden).expect("a text");
        assert_eq!(explain(&bytes, &Names::default()), expected, "{name}");
        names.push(name);
    }
    assert_eq!(names.len(), 19, "{names:?}");
}

fn names() -> Names {
    let facts = [(0, "left_open"), (1, "right_open")].map(|(fact, name)| (fact, name.to_string()));
    let actions = [(1, "open_right")].map(|(action, name)| (action, name.to_string()));
    Names { facts: facts.into(), actions: actions.into() }
}

#[test]
fn facts_and_actions_by_name() {
    let mut d = sample();
    d.state_sets[3] = reference::draft::DraftSet::Explicit(vec![0, 1]);
    let text = explain(&d.encode(), &names());
    let told = [
        "\n  before: state 0 {}\n",
        "\n  by action 1 open_right pre {} add {right_open} del {left_open}\n",
        "\n  after: state 2 {right_open}\n",
    ];
    told.iter().for_each(|line| assert!(text.contains(line), "{line}\n{text}"));
    d.state_sets[3] =
        reference::draft::DraftSet::Horn(vec![reference::file::Clause { positive: 2, negative: 1 }]);
    d.action_sets.push(reference::draft::DraftActions::List(vec![0, 1]));
    let text = explain(&d.encode(), &names());
    assert!(text.contains("set 3 horn (+right_open -left_open)"), "{text}");
    d.actions[1].add = 6;
    let text = explain(&d.encode(), &names());
    assert!(
        text.contains("\nfacts 2\nfact 0 left_open\nfact 1 right_open\ninit {}\ngoal {left_open right_open}\naction 0 pre {} add {left_open} del {right_open}\n"),
        "{text}"
    );
    assert!(text.contains(" action 1 open_right, its add mask.\n"), "{text}");
    assert!(
        text.contains("It holds 0x6: facts {right_open 2}, of which the task does not have {2}.\n"),
        "{text}"
    );
}
