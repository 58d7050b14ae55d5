//! The hand-written matcher of rules 6 to 28 against the texts of document 01, on
//! applications that are right or wrong in a single place.

mod common;

use std::collections::BTreeMap;

use reference::derivation;
use reference::file::Judgement;
use reference::generate::applications::{add_pool, apply_unproved, places};
use reference::generate::builder::Builder;
use reference::generate::random::Random;
use reference::generate::tasks;

#[test]
fn applications_with_one_wrong_place() {
    let mut seen: BTreeMap<(u8, bool), usize> = BTreeMap::new();
    for seed in 0..1500 {
        let mut random = Random::new(seed);
        let (task, _) = tasks::reachable(&mut random, 3, 8);
        for rule in 6..=28 {
            let mut b = Builder::new(task.clone(), &mut random);
            add_pool(&mut b);
            let slip = b.random.chance(80).then(|| b.random.below(places(rule)));
            let last = apply_unproved(&mut b, rule, slip);
            let text = common::follows(&b.file, &last);
            let fast = derivation::check(&b.file, &last).is_ok();
            assert_eq!(fast, text, "seed {seed}, rule {rule}\n{}", shown(&b));
            *seen.entry((rule, text)).or_default() += 1;
        }
    }
    for rule in 6..=28 {
        for matches in [true, false] {
            let count = seen.get(&(rule, matches)).copied().unwrap_or(0);
            assert!(count >= 50, "rule {rule}, matching {matches}: {count}");
        }
    }
}

fn shown(b: &Builder) -> String {
    reference::show::text(&reference::draft::Draft::of(&b.file))
}

/// Premises of other judgement kinds, and steps over any entries at all.
#[test]
fn any_judgements_as_premises() {
    let mut refused = 0;
    for seed in 0..3000 {
        let mut random = Random::new(seed);
        let (task, _) = tasks::reachable(&mut random, 2, 4);
        let mut b = Builder::new(task, &mut random);
        add_pool(&mut b);
        for rule in 6..=28 {
            apply_unproved(&mut b, rule, None);
        }
        let steps = b.file.steps.len();
        let applications = b.file.steps.iter().copied().filter(|step| step.rule > 5);
        for mut step in applications.collect::<Vec<_>>() {
            let count = reference::rules::RULES[step.rule as usize - 1].premises as usize;
            if count > 0 {
                step.premises[b.random.below(count)] = b.random.below(steps) as u16;
            }
            let text = common::follows(&b.file, &step);
            assert_eq!(derivation::check(&b.file, &step).is_ok(), text, "seed {seed}, {step:?}");
            let other = |p: &u16| b.file.steps[*p as usize].judgement() == Some(Judgement::Unsolvable);
            refused += (!text && step.premises[..count].iter().any(other)) as usize;
        }
    }
    assert!(refused > 1000, "{refused}");
}
