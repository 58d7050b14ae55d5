//! Random names for the facts and actions of a file.

use reference::draft::Draft;
use reference::generate::random::Random;
use reference::names::Names;

/// Names for all facts and actions or for some of them.
pub fn names(random: &mut Random, draft: &Draft) -> Names {
    let share = random.pick(&[100, 100, 50, 10]);
    let mut names = Names::default();
    for fact in (0..draft.facts as u32).filter(|fact| *fact < 64) {
        if random.chance(share) {
            names.facts.insert(fact, name(random, fact as usize));
        }
    }
    for action in 0..draft.actions.len() {
        if random.chance(share) {
            names.actions.insert(action as u16, name(random, 64 + action));
        }
    }
    names
}

/// A word that differs for each number: it ends in the number, and no word before it ends in a digit.
fn name(random: &mut Random, number: usize) -> String {
    let begin = random.pick(&["a", "Z", "_", "pre_", "ED", "b2_x", "charge_closed_", "x__Y"]);
    format!("{begin}{number}")
}
