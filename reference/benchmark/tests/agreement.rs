//! Every timed file and every question gets the expected reply from both checkers, and has
//! the size that its name says.

use std::collections::BTreeSet;

use benchmark::earlier::{Build, Builds};
use benchmark::files::{
    at_small_limits, deepest, in_any_order, questions, series, without_and_with_list, workloads, worst_cases,
    Limited, Timed, ACTIONS, RIGHT_CLAUSES, ROUNDS,
};
use benchmark::timing::{compare, Pace};
use benchmark::{agreement, proved, stack};
use reference::draft::Draft;
use reference::file::{File, StateSet};
use reference::layout::MAX_BYTES;
use reference::Reply;

fn all() -> Vec<Timed> {
    let mut files = workloads();
    files.extend(in_any_order());
    files.extend(without_and_with_list());
    files.extend(worst_cases());
    files.extend(at_small_limits().into_iter().map(|limited| limited.file));
    files.extend(series().into_iter().flat_map(|one| one.files));
    files.push(deepest());
    files
}

fn read(file: &Timed) -> File {
    reference::layout::read(&file.bytes).unwrap_or_else(|fault| panic!("{}: {fault:?}", file.name))
}

#[test]
fn both_give_the_expected_reply() {
    let mut refused = Vec::new();
    for file in all() {
        assert!(file.bytes.len() <= MAX_BYTES, "{}", file.name);
        match agreement::reply(&file).unwrap_or_else(|message| panic!("{message}")) {
            Reply::Accepted => (),
            Reply::Refused { number, place } => refused.push((number, place)),
        }
    }
    // All are accepted but the two towers of intersections, which have more than 8 leaves.
    assert_eq!(refused, [(10, 7), (10, 0)]);
}

#[test]
fn both_give_the_expected_answer() {
    for question in questions() {
        assert_eq!(agreement::answer(&question), Ok(question.expected));
    }
}

/// As many rounds as cover the steps; a refused file ends in the round that meets the fault.
#[test]
fn both_take_the_same_rounds() {
    for file in workloads() {
        for steps in ROUNDS {
            let rounds = read(&file).steps.len().div_ceil(steps as usize);
            assert_eq!(agreement::in_rounds(&file, steps), Ok(rounds), "{}", file.name);
        }
    }
    assert_eq!(agreement::in_rounds(&deepest(), 1), Ok(1));
}

#[test]
fn both_give_the_expected_reply_by_the_small_limits() {
    let numbers = at_small_limits().into_iter().map(|limited| match agreement::small(&limited) {
        Ok(Reply::Accepted) => 0,
        Ok(Reply::Refused { number, .. }) => number,
        Err(message) => panic!("{message}"),
    });
    assert_eq!(numbers.collect::<Vec<u8>>(), [0, 19, 0, 19, 19]);
    // Every other file gets the reply of the full check, or 19.
    for file in all() {
        let small = proved::reply(file.proved_small());
        assert_eq!(small, file.reference_small(), "{}", file.name);
        assert!(small == file.expected || matches!(small, Reply::Refused { number: 19, .. }));
    }
}

/// How many states are within reach.
fn reached(file: &File) -> usize {
    let mut reached: BTreeSet<u64> = file.task.inits().collect();
    let mut open: Vec<u64> = file.task.inits().collect();
    while let Some(s) = open.pop() {
        let after = file.task.actions.iter().filter(|a| a.applies(s)).map(|a| a.after(s));
        open.extend(after.filter(|t| reached.insert(*t)));
    }
    reached.len()
}

#[test]
fn files_at_the_small_limits_are_as_large_as_they_say() {
    let files: Vec<File> = at_small_limits().iter().map(|limited| read(&limited.file)).collect();
    for (file, states) in [(&files[0], 512), (&files[1], 513)] {
        assert_eq!((file.states.len(), reached(file), file.task.actions.len()), (states, states, 256));
    }
    for (file, steps) in [(&files[2], 256), (&files[3], 257)] {
        assert_eq!((file.steps.len(), file.state_sets.len()), (steps, 256));
    }
}

#[test]
fn another_reply_than_expected_is_an_error() {
    let limited = Limited { file: deepest(), small: Reply::Accepted };
    let message = agreement::small(&limited).expect_err("the file is refused");
    assert!(message.contains("refused 10 0; expected is accepted"), "{message}");
    let mut file = deepest();
    file.expected = Reply::Accepted;
    let message = agreement::in_rounds(&file, 16).expect_err("the file is refused");
    assert!(message.contains("refused 10 0 after 1 rounds of 16"), "{message}");
    let message = agreement::reply(&file).expect_err("the file is refused");
    assert!(message.contains("refused 10 0") && message.contains("expected is accepted"), "{message}");
    let mut question = questions().swap_remove(0);
    question.state ^= 1;
    assert!(agreement::answer(&question).is_err());
}

/// A shared object that the C compiler makes of what these words name.
fn object(name: &str, words: &[&str]) -> String {
    let path = std::env::temp_dir().join(format!("{name}-{}.so", std::process::id()));
    let path = path.to_str().expect("a plain name").to_string();
    let status = std::process::Command::new("cc").args(["-shared", "-o", &path]).args(words).status();
    assert!(status.expect("cc").success());
    path
}

/// An object with `certificate_check` alone, which replies with this code whatever the file is.
fn stand_in(name: &str, code: &str) -> String {
    let source = std::env::temp_dir().join(format!("{name}-{}.c", std::process::id()));
    std::fs::write(&source, format!("long certificate_check() {{ return {code}; }}\n")).expect("a source");
    let object = object(name, &[source.to_str().expect("a plain name")]);
    std::fs::remove_file(source).expect("the source goes");
    object
}

/// This build as a shared object, as `reference/bench --before` makes one of an earlier build; and objects in the place of a build that
/// takes no lists of rule numbers, and of ones that say 2 and 7.
#[test]
fn an_earlier_build_is_loaded_beside_this_one() {
    let library = concat!(env!("CARGO_MANIFEST_DIR"), "/../../crates/link/out/liblink.a");
    let today = object("today", &["-Wl,--whole-archive", library, "-Wl,--no-whole-archive"]);
    let [early, first, refusing] = [("early", "0"), ("first", "2l << 32 | 4"), ("refusing", "7l << 32 | 99")]
        .map(|(n, c)| stand_in(n, c));
    let builds = Builds::load(&[&today], &[&today]).unwrap_or_else(|message| panic!("{message}"));
    let [plain, listed] = without_and_with_list();
    for file in [&deepest(), &plain, &listed] {
        assert_eq!(builds.today[0].check(file), Some(file.proved()));
        assert_eq!(agreement::same(file, &builds.before[0]), Ok(()));
    }
    let mixed = Builds::load(&[&early], &[&today, &today]).unwrap_or_else(|message| panic!("{message}"));
    assert_eq!((mixed.before[0].check(&plain), mixed.before[0].check(&listed)), (Some(0), None));
    assert_eq!([&plain, &listed].map(|file| agreement::same(file, &mixed.before[0])), [Ok(()), Ok(())]);
    let timed = [&plain, &listed].map(|file| compare(Pace::QUICK, file, Some(&mixed)).earlier.is_some());
    assert_eq!(timed, [true, false]);
    assert!(agreement::same(&deepest(), &mixed.before[0]).is_err());
    // One that says 2 or 7 is not timed.
    for object in [&first, &refusing] {
        let build = Build::load(object).unwrap_or_else(|message| panic!("{message}"));
        assert_eq!((build.check(&plain), agreement::same(&plain, &build)), (None, Ok(())));
    }
    let refused: [(&[&str], &[&str]); 4] = [
        (&[&early], &[&early]),
        (&[&today], &["/no/such/object.so"]),
        (&[&today], &[&today, &early]),
        (&[], &[]),
    ];
    assert!(refused.iter().all(|(before, today)| Builds::load(before, today).is_err()));
    assert!(Build::load("/no/such/object.so").is_err());
    for path in [today, early, first, refusing] {
        std::fs::remove_file(path).expect("a file of this test");
    }
}

/// The same steps, their rule bytes rewritten: refused without the list.
#[test]
fn a_list_goes_with_the_same_steps() {
    let [without, with] = without_and_with_list();
    let rules = |file: &Timed| read(file).steps.iter().map(|step| step.rule).collect::<Vec<u8>>();
    let meant: Vec<u8> = rules(&with).iter().map(|number| 129 - number).collect();
    assert_eq!((meant, with.bytes.len()), (rules(&without), without.bytes.len()));
    assert_eq!((with.proved(), without.proved()), (0, 0));
    assert_eq!(reference::check(&with.bytes), Reply::Refused { number: 8, place: 0 });
}

#[test]
fn workloads_are_as_large_as_they_say() {
    let files: Vec<File> = workloads().iter().map(read).collect();
    assert_eq!((files[0].states.len(), files[0].task.actions.len()), (4096, 256));
    assert_eq!((files[1].clauses.len(), files[1].task.actions.len()), (256, 256));
    assert_eq!((files[2].clauses.len(), files[2].task.actions.len()), (256, 256));
    assert_eq!((files[3].steps.len(), files[3].state_sets.len()), (2048, 512));
    assert_eq!((lists(&files[4]), files[4].task.actions.len()), (vec![(4083, 3712)], 256));
    assert_eq!(reached(&files[4]), 3712);
    // W6 has W1's table but for the start: its states are the initial ones, and each statement is of kind 1 where it says so.
    let entry = |file: &File, step: usize| file.steps[step].entries.map(|e| file.state_sets[e as usize]);
    for file in &files[5..7] {
        assert_eq!((file.states.len(), reached(file), file.task.inits().count()), (4096, 4096, 4096));
        assert_eq!((&file.task.actions, file.task.goal), (&files[0].task.actions, files[0].task.goal));
    }
    assert_eq!((files[5].steps[2].rule, entry(&files[5], 2)[0]), (1, StateSet::Init));
    assert_eq!((files[6].steps[1].rule, entry(&files[6], 1)[0]), (2, StateSet::Progression(1, 0)));
    // In version 3 W1 to W3 have the same entries and statements, and facts needed off.
    for (first, third) in files[..3].iter().zip(&files[7..]) {
        assert_eq!((first.task.version, third.task.version), (1, 3));
        assert_eq!((&first.state_sets, &first.steps), (&third.state_sets, &third.steps));
        assert_eq!((&first.states, &first.clauses), (&third.states, &third.clauses));
        assert!(third.task.goal_off != 0 && third.task.actions.iter().all(|action| action.off != 0));
        assert_eq!(third.task.actions.len(), 256);
    }
    assert_eq!(files.len(), 10);
}

/// How many states each explicit set lists, and how many different ones.
fn lists(file: &File) -> Vec<(usize, usize)> {
    let listed = file.state_sets.iter().filter_map(|set| match set {
        StateSet::Explicit(listed) => Some(*listed),
        _ => None,
    });
    listed.map(|set| (set.written.of(&file.states).len(), file.ascending(set).len())).collect()
}

/// Each file in another order has the states of the one in ascending order, and is as large as its name says.
#[test]
fn files_in_any_order_are_as_large_as_they_say() {
    let (all, w5) = (in_any_order(), workloads().swap_remove(4));
    let files: Vec<File> = all.iter().map(read).collect();
    assert_eq!(lists(&files[0]), [(3712, 3712)]);
    assert_eq!(Draft::of(&files[0]).actions, Draft::of(&read(&w5)).actions);
    assert!(all[1].name.starts_with("506 sets of 15 listed states, shuffled, 252 statements"));
    for (file, bytes) in [(&files[1], &all[1].bytes), (&files[2], &all[2].bytes)] {
        assert_eq!((lists(file), file.steps.len() - 8), (vec![(15, 15); 506], 252));
        assert_eq!((file.state_sets.len(), bytes.len()), (512, 65_469));
    }
    for (file, different) in files[3..].iter().zip([8162, 8162, 8162, 2]) {
        let long: Vec<(usize, usize)> = lists(file).split_off(1);
        assert_eq!(long.iter().map(|one| one.0).collect::<Vec<_>>(), [4096, 4066]);
        assert_eq!(long.iter().map(|one| one.1).sum::<usize>(), different);
    }
    assert!(all[3..].iter().all(|file| file.bytes.len() == MAX_BYTES));
    // Only those that are called ascending need no copy of their states.
    let ascends = |file: &File| lists(file).iter().map(|one| one.0).sum::<usize>() == file.states.len();
    assert_eq!(
        all.iter().map(|one| one.name.contains("ascending")).collect::<Vec<_>>(),
        files.iter().map(ascends).collect::<Vec<_>>()
    );
}

#[test]
fn worst_cases_are_as_large_as_they_say() {
    let files: Vec<File> = worst_cases().iter().map(read).collect();
    let right = RIGHT_CLAUSES + 256;
    // Three orders of the chain for 8 leaves, then three for 14.
    for (three, left) in files.chunks(3).zip([2048, 2048, 2048, 3584, 3584, 3584]) {
        let clauses: Vec<usize> = three.iter().map(|file| file.clauses.len()).collect();
        assert_eq!(clauses, [left + right, left + right, left]);
        assert_eq!(three[2].task.actions.len(), ACTIONS);
        // Each link of the chain stands once, and so does what closes it.
        let chain = |file: &File| file.clauses[..left].iter().filter(|c| c.negative != 3 << 62).count();
        assert_eq!(three.iter().map(chain).collect::<Vec<usize>>(), [59 + 2, 59 + 2, 62 + 3]);
    }
    for file in &files[18..20] {
        assert_eq!((file.steps.len(), file.task.actions.len(), file.clauses.len()), (9, 2, 512 + right));
    }
    assert_eq!((files[20].action_sets.len(), files[21].state_sets.len()), (256, 512));
}

#[test]
fn each_series_doubles_one_size() {
    let measures: [fn(&File) -> usize; 5] = [
        |file| file.states.len(),
        |file| file.task.actions.len(),
        |file| file.clauses.len(),
        |file| file.clauses.len(),
        |file| file.steps.len(),
    ];
    for (one, measure) in series().iter().zip(measures) {
        let found: Vec<usize> = one.files.iter().map(|file| measure(&read(file))).collect();
        assert_eq!(found, one.sizes, "{}", one.name);
    }
}

#[test]
fn stack_is_measured_by_the_same_call() {
    let tower = deepest();
    let (bytes, code) = stack::of_check(&tower.bytes);
    assert_eq!(code, proved::check(&tower.bytes));
    assert_eq!(bytes % 8, 0);
    // A file that is refused at once uses its return address and little more.
    let (least, code) = stack::of_check(&[]);
    assert_eq!(proved::reply(code), Reply::Refused { number: 1, place: 0 });
    assert!(8 <= least && least < bytes, "{least} {bytes}");
    let [_, listed] = without_and_with_list();
    assert_eq!(stack::of_file(&listed).1, listed.proved());
    assert_eq!(stack::of_file(&tower), stack::of_check(&tower.bytes));
    for limited in at_small_limits() {
        let (bytes, code) = stack::of_small(&limited.file.bytes);
        assert_eq!(code, limited.file.proved_small());
        assert!(bytes >= 8);
    }
    for (from, count) in [(0, 3), (3, 2048), (8, 1)] {
        let (bytes, code) = stack::of_round(&workloads()[1].bytes, from, count);
        assert_eq!(code, proved::check_round(&workloads()[1].bytes, from, count));
        assert!(bytes >= 8);
    }
    for question in questions() {
        let (bytes, code) = stack::of_ask(&question.bytes, question.entry, question.state);
        assert_eq!(proved::answer(code), question.expected);
        assert!(bytes >= 8);
    }
}
