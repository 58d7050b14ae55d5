//! The report: times on the workloads, on states in any order and on the worst cases, what a list of rule numbers costs and what rounds
//! and small limits do, how times grow, and the proved checker's stack, as Markdown. It ends at the first reply that is not as it should be. Where
//! an earlier build of the proved checker is given, its times stand beside.

use crate::agreement;
use crate::earlier::Builds;
use crate::files::{
    at_small_limits, deepest, in_any_order, questions, series, without_and_with_list, workloads, worst_cases,
    Limited, Question, Series, Timed, ROUNDS,
};
use crate::format::{count, head, ratio, row, time};
use crate::timing::{compare, list_cost, small_and_full, steps_at_a_time, Pace, Pair, Times};
use crate::{proved, stack};
use reference::layout::MAX_STEPS;

/// Measures and prints, row by row.
pub fn print(pace: Pace, builds: Option<&Builds>) -> Result<(), String> {
    println!("{}", circumstances(pace));
    let (workloads, lists, worst, series) = (workloads(), without_and_with_list(), worst_cases(), series());
    let orders = in_any_order();
    println!("\n## Workloads\n\n{}", head(&with_before(&TIMES, builds.map(|_| BEFORE))));
    for file in workloads.iter().chain(&orders).chain(&lists[1..]).chain(&worst) {
        println!("{}", times_row(file, pace, builds)?);
    }
    println!("\n## With a list of rule numbers, and without\n\n{}", head(&LIST_COST));
    for (who, times) in ["proved", "reference"].iter().zip(list_cost(pace, &lists)) {
        println!("{}", list_row(who, &lists[0], &times));
    }
    println!("\n## In rounds\n\n{}", head(&IN_ROUNDS));
    for steps in ROUNDS {
        println!("{}", rounds_row(&workloads[3], steps, pace)?);
    }
    let small = at_small_limits();
    println!("\n## With the small limits\n\n{}", head(&SMALL_LIMITS));
    for limited in &small {
        println!("{}", small_row(limited, pace)?);
    }
    println!("\n## Growth\n\n{}", head(&with_before(&GROWTH, builds.map(|_| BEFORE))));
    for one in &series {
        print_growth(one, pace, builds)?;
    }
    println!("\n## Deepest stack of the proved checker\n\n{}", head(&["call", ">bytes", "file or entry"]));
    let whole = |file: &Timed| stack::of_round(&file.bytes, 0, MAX_STEPS as u64);
    println!("{}", check_stack("check, workloads", &workloads, stack::of_file)?);
    println!("{}", check_stack("check, states in any order", &orders, stack::of_file)?);
    println!("{}", check_stack("check, a list of rule numbers", &lists[1..], stack::of_file)?);
    println!("{}", check_stack("a round of all steps, workloads", &workloads, whole)?);
    let fitting = small.iter().filter(|one| one.small == one.file.expected).map(|one| &one.file);
    println!("{}", check_stack("check, small limits", fitting, |file| stack::of_small(&file.bytes))?);
    println!("{}", check_stack("check, growth", series.iter().flat_map(|one| &one.files), stack::of_file)?);
    println!("{}", check_stack("check, worst cases", &worst, stack::of_file)?);
    println!("{}", check_stack("check, most entries", [&deepest()], stack::of_file)?);
    for question in questions() {
        println!("{}", ask_stack(&question)?);
    }
    Ok(())
}

/// How it is measured, and how busy the machine is.
fn circumstances(pace: Pace) -> String {
    let load = std::fs::read_to_string("/proc/loadavg").unwrap_or_default();
    let load = load.split(' ').next().unwrap_or_default();
    let processors = std::thread::available_parallelism().map_or(1, |number| number.get());
    format!(
        "{} rounds; in each, every checker checks the same bytes in one process, taking turns in who goes first, \
         for at least {} ms each,\nand the best time counts. Times and ratios (proved / reference) are the medians of \
         the rounds. Load before: {load} on {processors} processors.",
        pace.rounds,
        pace.least.as_millis()
    )
}

const TIMES: [&str; 8] =
    ["file", ">bytes", "reply", ">proved", ">reference", ">ratio", ">least..greatest", "scaled down"];

/// The columns of an earlier build, after the others.
const BEFORE: [&str; 2] = [">before", ">proved / before"];

fn with_before<T: Clone>(cells: &[T], before: Option<[T; 2]>) -> Vec<T> {
    cells.iter().cloned().chain(before.into_iter().flatten()).collect()
}

/// Empty where the earlier build was not timed.
fn before_cells(times: &Times) -> [String; 2] {
    let cells = times.earlier.as_ref().map(|pair| [time(pair.second), ratio(pair.ratio())]);
    cells.unwrap_or_default()
}

/// The least and the greatest ratio.
fn spread(pair: &Pair) -> String {
    let (least, greatest) = pair.spread();
    format!("{}..{}", ratio(least), ratio(greatest))
}

fn times_row(file: &Timed, pace: Pace, builds: Option<&Builds>) -> Result<String, String> {
    let reply = agreement::reply(file)?;
    for build in builds.iter().flat_map(|builds| builds.before.iter().chain(&builds.today)) {
        agreement::same(file, build)?;
    }
    let times = compare(pace, file, builds);
    let both = &times.reference;
    let cells = [
        file.name.clone(),
        count(file.bytes.len()),
        reply.to_string(),
        time(both.first),
        time(both.second),
        ratio(both.ratio()),
        spread(both),
        file.scaled.clone(),
    ];
    Ok(row(&with_before(&cells, builds.map(|_| before_cells(&times)))))
}

const LIST_COST: [&str; 6] = ["checker", "file", ">with", ">without", ">with / without", ">least..greatest"];

/// A checker's times with a list and without.
fn list_row(who: &str, file: &Timed, times: &Pair) -> String {
    let [with, without] = [times.first, times.second].map(time);
    row(&[who, &file.name, &with, &without, &ratio(times.ratio()), &spread(times)])
}

const IN_ROUNDS: [&str; 8] = [
    "file",
    ">rounds",
    ">proved",
    ">reference",
    ">ratio",
    ">least..greatest",
    ">proved, one check",
    ">rounds / one check",
];

/// The times of whole runs in rounds of so many steps, each of which reads the layout again.
fn rounds_row(file: &Timed, steps: u64, pace: Pace) -> Result<String, String> {
    let rounds = agreement::in_rounds(file, steps)?;
    let [both, whole] = steps_at_a_time(pace, file, steps);
    Ok(row(&[
        format!("{}, in rounds of {}", file.name, count(steps as usize)),
        count(rounds),
        time(both.first),
        time(both.second),
        ratio(both.ratio()),
        spread(&both),
        time(whole.second),
        ratio(whole.ratio()),
    ]))
}

const SMALL_LIMITS: [&str; 9] = [
    "file",
    ">bytes",
    "reply",
    ">proved",
    ">reference",
    ">ratio",
    ">least..greatest",
    ">proved, full limits",
    ">small / full",
];

/// The times by the small limits, beside those of the full check.
fn small_row(limited: &Limited, pace: Pace) -> Result<String, String> {
    let reply = agreement::small(limited)?;
    agreement::reply(&limited.file)?;
    let [both, full] = small_and_full(pace, &limited.file);
    Ok(row(&[
        limited.file.name.clone(),
        count(limited.file.bytes.len()),
        reply.to_string(),
        time(both.first),
        time(both.second),
        ratio(both.ratio()),
        spread(&both),
        time(full.second),
        ratio(full.ratio()),
    ]))
}

const GROWTH: [&str; 8] =
    ["what grows", ">size", ">bytes", ">proved", ">grew by", ">reference", ">grew by", ">ratio"];

/// A row for each size.
fn print_growth(series: &Series, pace: Pace, builds: Option<&Builds>) -> Result<(), String> {
    let mut before = None;
    for (size, file) in series.sizes.iter().zip(&series.files) {
        agreement::reply(file)?;
        let times = compare(pace, file, builds);
        let earlier = builds.map(|_| before_cells(&times));
        println!("{}", growth_row(series.name, *size, file, &times.reference, before.as_ref(), earlier));
        before = Some(times.reference);
    }
    Ok(())
}

/// The times at one size, and how much longer they are than at half of it.
fn growth_row(
    name: &str,
    size: usize,
    file: &Timed,
    times: &Pair,
    before: Option<&Pair>,
    earlier: Option<[String; 2]>,
) -> String {
    let grew = |pick: fn(&Pair) -> f64| before.map_or(String::new(), |old| ratio(pick(times) / pick(old)));
    let cells = [
        name.to_string(),
        count(size),
        count(file.bytes.len()),
        time(times.first),
        grew(|times| times.first),
        time(times.second),
        grew(|times| times.second),
        ratio(times.ratio()),
    ];
    row(&with_before(&cells, earlier))
}

/// The most stack that a call with one of the files uses, and which file that is.
fn check_stack<'a>(
    call: &str,
    files: impl IntoIterator<Item = &'a Timed>,
    measure: impl Fn(&Timed) -> (usize, u64),
) -> Result<String, String> {
    let (mut most, mut at) = (0, "");
    for file in files {
        let (bytes, code) = measure(file);
        if proved::reply(code) != file.expected {
            return Err(format!("{}: another reply on another stack", file.name));
        }
        if bytes > most {
            (most, at) = (bytes, &file.name);
        }
    }
    Ok(row(&[call, &count(most), at]))
}

/// The stack that a question uses.
fn ask_stack(question: &Question) -> Result<String, String> {
    let answer = agreement::answer(question)?;
    let (bytes, code) = stack::of_ask(&question.bytes, question.entry, question.state);
    if proved::answer(code) != answer {
        return Err(format!("{}: another answer on another stack", question.name));
    }
    Ok(row(&["ask", &count(bytes), &question.name]))
}
