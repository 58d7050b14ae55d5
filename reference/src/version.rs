//! The versions of a file, and every place in it that depends on them. In all of them stand first the length (4 bytes), the
//! version (1), the fact count (1) and init (8).

use std::ops::RangeInclusive;

/// The versions that are read.
pub const VERSIONS: RangeInclusive<u8> = 1..=3;

/// Where init ends.
const AFTER_INIT: usize = 14;
/// How many bytes a mask has.
const MASK: usize = 8;

/// The masks of an action in their order, by name.
const ACTION_MASKS: [&str; 4] = ["pre", "add", "del", "off"];

/// Where the parts of a task stand behind init.
#[derive(Clone, Copy, Debug, PartialEq, Eq)]
pub struct Places {
    /// The mask of unknown facts, where the version has one.
    pub unknown: Option<usize>,
    pub goal: usize,
    /// The mask of facts that are off in a goal state, where the version has one.
    pub goal_off: Option<usize>,
    pub action_count: usize,
    pub actions: usize,
    /// How many bytes an action has.
    pub action: usize,
    /// The names of an action's masks in their order.
    pub masks: &'static [&'static str],
}

impl Places {
    /// The places of a version; a version that is not read is written as 1 is.
    pub const fn of(version: u8) -> Places {
        let (unknown, goal) = match version {
            2 | 3 => (Some(AFTER_INIT), AFTER_INIT + MASK),
            _ => (None, AFTER_INIT),
        };
        let after_goal = goal + MASK;
        let (goal_off, action_count, masks) = match version {
            3 => (Some(after_goal), after_goal + MASK, &ACTION_MASKS as &[&str]),
            _ => (None, after_goal, ACTION_MASKS.split_at(3).0),
        };
        let (actions, action) = (action_count + 2, masks.len() * MASK);
        Places { unknown, goal, goal_off, action_count, actions, action, masks }
    }

    /// The places of the version that the bytes name.
    pub fn in_bytes(bytes: &[u8]) -> Places {
        Places::of(bytes.get(4).copied().unwrap_or(1))
    }

    /// Whether actions and the goal have masks of facts that they need off.
    pub const fn has_off(&self) -> bool {
        self.goal_off.is_some()
    }
}
