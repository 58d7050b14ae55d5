//! Large files whose explicit sets list their states in other orders than ascending, for timing. All are accepted.

use crate::draft::{sample, step, Draft, DraftSet};
use crate::generate::limits::{shuffle, Cube};
use crate::generate::listed::repeat;
use crate::generate::random::Random;
use crate::layout::{MAX_ACTIONS, MAX_BYTES, MAX_STATES, MAX_STATE_SETS};

/// Of the states over 12 of 64 facts those in which not three certain facts are on together with at least one of two others, 3,712; a
/// tenth of them is listed again, and all are in any order. No action leads out of them.
pub fn cube(random: &mut Random) -> Draft {
    let cube = Cube::new(random, 12);
    let mut facts: Vec<u64> = (0..64).map(|f| 1 << f).filter(|bit| cube.free & bit != 0).collect();
    shuffle(random, &mut facts);
    let (three, two) = (facts[0] | facts[1] | facts[2], facts[3] | facts[4]);
    let within = |state: u64| state & three != three || state & two == 0;
    let mut states = cube.states();
    states.retain(|state| within(*state));
    let init = random.pick(&states);
    let mut actions = Vec::new();
    while actions.len() < MAX_ACTIONS {
        let action = cube.action(random);
        if states.iter().all(|s| !action.applies(*s) || within(action.after(*s))) {
            actions.push(action);
        }
    }
    let tenth = states.len() / 10;
    repeat(random, &mut states, tenth);
    shuffle(random, &mut states);
    cube.certificate(random, init, actions, states)
}

/// How many states each of many lists has.
pub const SHORT: usize = 15;

/// As many lists as there may be entries beside the sample's others, each of the same 15 states, and the statements that one is within
/// the next.
pub fn many_lists(random: &mut Random) -> Draft {
    let mut d = sample();
    (d.facts, d.goal) = (4, 15);
    d.state_sets[3] = short_list(random);
    let first = d.state_sets.len();
    d.state_sets.resize_with(MAX_STATE_SETS, || short_list(random));
    let pairs = (first..MAX_STATE_SETS - 1).step_by(2);
    d.steps.splice(7..7, pairs.map(|e| step(1, 1, &[e as u16, e as u16 + 1], &[])));
    d
}

/// The states below 15, in any order.
fn short_list(random: &mut Random) -> DraftSet {
    let mut states: Vec<u64> = (0..SHORT as u64).collect();
    shuffle(random, &mut states);
    DraftSet::Explicit(states)
}

/// In which order a long list has its states.
#[derive(Clone, Copy, Debug, PartialEq, Eq)]
pub enum Order {
    Ascending,
    Shuffled,
    Reversed,
    /// One state again and again.
    Equal,
}

impl Order {
    pub const ALL: [Order; 4] = [Order::Ascending, Order::Shuffled, Order::Reversed, Order::Equal];
}

/// The sample, and as many listed states beside it as a file can hold, in two sets that no step names.
pub fn most_states(random: &mut Random, order: Order) -> Draft {
    let mut d = sample();
    d.facts = 64;
    let room = (MAX_BYTES - d.encode().len() - 2 * 3) / 8;
    for count in [MAX_STATES, room - MAX_STATES] {
        let mut states: Vec<u64> = (0..count).map(|_| random.next()).collect();
        match order {
            Order::Ascending => states.sort_unstable(),
            Order::Shuffled => (),
            Order::Reversed => states.sort_unstable_by(|a, b| b.cmp(a)),
            Order::Equal => states = vec![states[0]; count],
        }
        d.state_sets.push(DraftSet::Explicit(states));
    }
    d
}
