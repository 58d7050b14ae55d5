//! The middle of values, ratios and spreads, and how figures are printed.

use std::cell::Cell;
use std::time::Duration;

use benchmark::format::{count, head, ratio, row, time};
use benchmark::proved::{answer, reply, round};
use benchmark::timing::{best, median, Round, Times};
use reference::{Answer, Reply};

#[test]
fn median_of_odd_and_even() {
    assert_eq!(median(&[3.0]), 3.0);
    assert_eq!(median(&[1.0, 2.0]), 1.5);
    assert_eq!(median(&[1.0, 2.0, 9.0]), 2.0);
    assert_eq!(median(&[1.0, 2.0, 4.0, 9.0]), 3.0);
}

#[test]
fn ratios_are_taken_round_by_round() {
    let round = |proved, reference, earlier| Round { proved, reference, earlier };
    let times = Times::of(&[round(4.0, 2.0, None), round(9.0, 3.0, None), round(5.0, 5.0, None)]);
    assert_eq!((times.reference.first, times.reference.second), (5.0, 3.0));
    assert_eq!(times.reference.ratio(), 2.0);
    assert_eq!(times.reference.spread(), (1.0, 3.0));
    assert!(times.earlier.is_none());
    let times =
        Times::of(&[round(4.0, 2.0, Some(8.0)), round(9.0, 3.0, Some(9.0)), round(5.0, 5.0, Some(2.0))]);
    let earlier = times.earlier.map(|pair| (pair.second, pair.ratio()));
    assert_eq!((times.reference.ratio(), earlier), (2.0, Some((8.0, 1.0))));
}

#[test]
fn best_runs_once_at_least_and_as_long_as_asked() {
    let runs = Cell::new(0);
    let run = || runs.set(runs.get() + 1);
    assert!(best(Duration::ZERO, run) >= 0.0);
    assert_eq!(runs.get(), 1);
    let slow = || std::thread::sleep(Duration::from_millis(2));
    let begin = std::time::Instant::now();
    assert!(best(Duration::from_millis(10), slow) >= 0.002);
    assert!(begin.elapsed() >= Duration::from_millis(10));
}

#[test]
fn times_have_three_figures_and_a_unit() {
    let texts = [2.0, 0.9996, 0.12345, 0.0172, 0.00999, 0.0009994, 0.0000412, 0.00000123].map(time);
    assert_eq!(texts, ["2.00 s", "1.00 s", "123 ms", "17.2 ms", "9.99 ms", "999 µs", "41.2 µs", "1.23 µs"]);
    assert_eq!([9.996e-3, 99.96e-3].map(time), ["10.0 ms", "100 ms"]);
}

#[test]
fn ratios_and_counts() {
    assert_eq!([1.0, 1.004, 12.346].map(ratio), ["1.00", "1.00", "12.35"]);
    assert_eq!([0, 999, 1000, 65536, 1234567].map(count), ["0", "999", "1,000", "65,536", "1,234,567"]);
}

#[test]
fn rows_of_markdown() {
    assert_eq!(row(&["a", "b c", ""]), "| a | b c |  |");
    assert_eq!(head(&["file", ">bytes"]), "| file | bytes |\n|---|---:|");
}

#[test]
fn codes_of_the_library() {
    assert_eq!(reply(0), Reply::Accepted);
    assert_eq!(reply(10 << 32 | 7), Reply::Refused { number: 10, place: 7 });
    let said = [0, 1, 2047, 17 << 32, 9 << 32 | 2047].map(|code| round(code).to_string());
    assert_eq!(said, ["ended", "go on from 1", "go on from 2047", "refused 17 0", "refused 9 2047"]);
    assert_eq!([0, 1].map(answer), [Answer::Out, Answer::In]);
    assert_eq!(answer(13 << 32), Answer::Refused { number: 13, place: 0 });
}
