//! The command line of the comparison; `reference/bench` calls it.

use std::process::ExitCode;

use benchmark::earlier::Builds;
use benchmark::report;
use benchmark::timing::Pace;

fn main() -> ExitCode {
    let words: Vec<String> = std::env::args().skip(1).collect();
    let (pace, objects) = match words.iter().map(|word| word.as_str()).collect::<Vec<&str>>()[..] {
        [] => (Pace::FULL, None),
        ["--quick"] => (Pace::QUICK, None),
        ["--before", ref objects @ ..] if objects.len() % 2 == 0 => (Pace::FULL, Some(objects.to_vec())),
        _ => {
            eprintln!("usage: reference/bench [--quick | --before LIBRARY]");
            return ExitCode::from(2);
        }
    };
    let builds = objects.map(|objects| {
        let (before, today) = objects.split_at(objects.len() / 2);
        Builds::load(before, today)
    });
    let builds = builds.transpose();
    match builds.and_then(|builds| report::print(pace, builds.as_ref())) {
        Ok(()) => ExitCode::SUCCESS,
        Err(message) => {
            eprintln!("bench: {message}");
            ExitCode::FAILURE
        }
    }
}
