//! Checkers timed on one file: the proved one, the reference, and an earlier build of the proved
//! one where there is one. A round times each, one after the other, as the best of repeated checks;
//! the rounds take turns in who goes first.

use std::hint::black_box;
use std::time::{Duration, Instant};

use crate::earlier::{Build, Builds};
use crate::files::Timed;

/// How long to measure.
#[derive(Clone, Copy)]
pub struct Pace {
    pub rounds: usize,
    /// How long the repetitions of one checker in one round last at least, all together.
    pub least: Duration,
}

impl Pace {
    pub const FULL: Pace = Pace { rounds: 7, least: Duration::from_millis(50) };
    /// For tests: too short for figures.
    pub const QUICK: Pace = Pace { rounds: 3, least: Duration::from_millis(5) };
}

/// One round's times in seconds.
#[derive(Clone, Copy)]
pub struct Round {
    pub proved: f64,
    pub reference: f64,
    pub earlier: Option<f64>,
}

/// Two times in seconds, the medians of the rounds, and the first over the second in each round, ascending.
pub struct Pair {
    pub first: f64,
    pub second: f64,
    ratios: Vec<f64>,
}

impl Pair {
    /// Of the rounds, of which there is one at least.
    pub fn of(rounds: &[(f64, f64)]) -> Pair {
        let side = |pick: fn(&(f64, f64)) -> f64| sorted(rounds.iter().map(pick));
        Pair {
            first: median(&side(|round| round.0)),
            second: median(&side(|round| round.1)),
            ratios: side(|round| round.0 / round.1),
        }
    }

    /// The first time over the second: the median of the rounds.
    pub fn ratio(&self) -> f64 {
        median(&self.ratios)
    }

    /// The least and the greatest ratio of a round.
    pub fn spread(&self) -> (f64, f64) {
        (self.ratios[0], self.ratios[self.ratios.len() - 1])
    }
}

/// The proved checker beside the reference, and beside an earlier build where that was timed.
pub struct Times {
    pub reference: Pair,
    pub earlier: Option<Pair>,
}

impl Times {
    pub fn of(rounds: &[Round]) -> Times {
        let reference: Vec<(f64, f64)> = rounds.iter().map(|round| (round.proved, round.reference)).collect();
        let earlier: Vec<(f64, f64)> =
            rounds.iter().filter_map(|round| Some((round.proved, round.earlier?))).collect();
        Times { reference: Pair::of(&reference), earlier: (!earlier.is_empty()).then(|| Pair::of(&earlier)) }
    }
}

/// Times the checkers on a file; where there are two builds of the proved one, today's as it is loaded beside the other,
/// and the other where it can be called, each by the mean of its places.
pub fn compare(pace: Pace, file: &Timed, builds: Option<&Builds>) -> Times {
    let time = |who: usize| match (who, builds) {
        (0, None) => best(pace.least, || black_box(file).proved()),
        (0, Some(builds)) => mean(pace.least, &builds.today, file),
        (1, _) => best(pace.least, || black_box(file).reference()),
        (_, Some(builds)) => mean(pace.least, &builds.before, file),
        (_, None) => f64::NAN,
    };
    let earlier = builds.and_then(|builds| builds.before[0].check(file));
    let rounds = in_turns(pace, 2 + earlier.iter().count(), time);
    let round =
        |times: &Vec<f64>| Round { proved: times[0], reference: times[1], earlier: times.get(2).copied() };
    Times::of(&rounds.iter().map(round).collect::<Vec<Round>>())
}

/// The mean of what a build takes for a file at its places, of which there is one at least; they share the time.
fn mean(least: Duration, places: &[Build], file: &Timed) -> f64 {
    let least = least / places.len() as u32;
    let times = places.iter().map(|build| best(least, || build.check(black_box(file))));
    times.sum::<f64>() / places.len() as f64
}

/// What the same steps take with a list and without one: of the proved checker and of the reference.
pub fn list_cost(pace: Pace, [without, with]: &[Timed; 2]) -> [Pair; 2] {
    let time = |who: usize| match who {
        0 => best(pace.least, || black_box(with).proved()),
        1 => best(pace.least, || black_box(without).proved()),
        2 => best(pace.least, || black_box(with).reference()),
        _ => best(pace.least, || black_box(without).reference()),
    };
    let rounds = in_turns(pace, 4, time);
    [0, 2].map(|who| pair(&rounds, who, who + 1))
}

/// What the proved checker takes for a file by rounds of so many steps: beside the reference doing the same, and beside one
/// whole check of its own.
pub fn steps_at_a_time(pace: Pace, file: &Timed, steps: u64) -> [Pair; 2] {
    let time = |who: usize| match who {
        0 => best(pace.least, || black_box(file).proved_in_rounds(steps)),
        1 => best(pace.least, || black_box(file).reference_in_rounds(steps)),
        _ => best(pace.least, || black_box(file).proved()),
    };
    let rounds = in_turns(pace, 3, time);
    [1, 2].map(|who| pair(&rounds, 0, who))
}

/// What the proved checker takes for a file by the small limits: beside the reference doing the same, and beside its own check
/// by the full ones.
pub fn small_and_full(pace: Pace, file: &Timed) -> [Pair; 2] {
    let time = |who: usize| match who {
        0 => best(pace.least, || black_box(file).proved_small()),
        1 => best(pace.least, || black_box(file).reference_small()),
        _ => best(pace.least, || black_box(file).proved()),
    };
    let rounds = in_turns(pace, 3, time);
    [1, 2].map(|who| pair(&rounds, 0, who))
}

/// Two of those that were timed in each round.
fn pair(rounds: &[Vec<f64>], first: usize, second: usize) -> Pair {
    Pair::of(&rounds.iter().map(|times| (times[first], times[second])).collect::<Vec<_>>())
}

/// The times of so many in each round; the rounds take turns in who goes first.
fn in_turns(pace: Pace, many: usize, time: impl Fn(usize) -> f64) -> Vec<Vec<f64>> {
    let round = |number: usize| {
        let mut times = vec![f64::NAN; many];
        for turn in 0..many {
            let who = (number + turn) % many;
            times[who] = time(who);
        }
        times
    };
    (0..pace.rounds).map(round).collect()
}

/// The least time of one run, in seconds, among runs that last so long all together; there
/// is one run at least.
pub fn best<T>(least: Duration, run: impl Fn() -> T) -> f64 {
    let begin = Instant::now();
    let mut best = Duration::MAX;
    while best == Duration::MAX || begin.elapsed() < least {
        let start = Instant::now();
        black_box(run());
        best = best.min(start.elapsed());
    }
    best.as_secs_f64()
}

fn sorted(values: impl Iterator<Item = f64>) -> Vec<f64> {
    let mut values: Vec<f64> = values.collect();
    values.sort_by(f64::total_cmp);
    values
}

/// The middle of ascending values, or of the two in the middle; there is one at least.
pub fn median(ascending: &[f64]) -> f64 {
    let half = ascending.len() / 2;
    match ascending.len() % 2 {
        1 => ascending[half],
        _ => (ascending[half - 1] + ascending[half]) / 2.0,
    }
}
