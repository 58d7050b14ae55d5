//! A slow second opinion: the meaning of each set as the table of all its states, shapes
//! by plain recursion, rules by the texts of document 01. For few facts only.
#![allow(dead_code)]

pub mod dot;
pub mod labels;
pub mod naming;
pub mod program;

use std::collections::BTreeSet;

use reference::draft::{Draft, DraftActions, DraftSet};
use reference::file::{Clause, File, Step};
use reference::pattern::{match_claim, parse, NO_LETTERS};
use reference::rules::RULES;
use reference::task::Action;
use reference::{ask, check_numbered, check_round, check_small, Reply};

/// The states of each state set and the actions of each action set, as tables.
pub struct Meaning {
    pub draft: Draft,
    pub states: Vec<Vec<bool>>,
    pub actions: Vec<Vec<bool>>,
}

impl Meaning {
    pub fn of(file: &File) -> Meaning {
        let mut meaning = Meaning { draft: Draft::of(file), states: vec![], actions: vec![] };
        for set in meaning.draft.action_sets.clone() {
            let table = meaning.action_table(&set);
            meaning.actions.push(table);
        }
        for set in meaning.draft.state_sets.clone() {
            let table = (0..1u64 << meaning.draft.facts).map(|s| meaning.holds(&set, s)).collect();
            meaning.states.push(table);
        }
        meaning
    }

    fn action_table(&self, set: &DraftActions) -> Vec<bool> {
        let within = |a: usize| match set {
            DraftActions::All => true,
            DraftActions::List(list) => list.contains(&(a as u16)),
            DraftActions::Union(x, y) => self.actions[*x as usize][a] || self.actions[*y as usize][a],
        };
        (0..self.draft.actions.len()).map(within).collect()
    }

    /// Whether the state is in the set, over the tables of earlier entries.
    fn holds(&self, set: &DraftSet, state: u64) -> bool {
        let earlier = |e: &u16, s: u64| self.states[*e as usize][s as usize];
        match set {
            DraftSet::Empty => false,
            DraftSet::Init => is_init(&self.draft, state),
            DraftSet::Goal => is_goal(&self.draft, state),
            DraftSet::Explicit(states) => states.contains(&state),
            DraftSet::Horn(clauses) | DraftSet::TwoCnf(clauses) => {
                clauses.iter().all(|clause| meets(clause, state))
            }
            DraftSet::Complement(s) => !earlier(s, state),
            DraftSet::Intersection(s, u) => earlier(s, state) && earlier(u, state),
            DraftSet::Union(s, u) => earlier(s, state) || earlier(u, state),
            DraftSet::Progression(s, a) => (0..1u64 << self.draft.facts)
                .any(|from| earlier(s, from) && self.leads(*a, from).contains(&state)),
            DraftSet::Regression(s, a) => self.leads(*a, state).iter().any(|to| earlier(s, *to)),
        }
    }

    /// The states that actions of the set lead to from a state, fact by fact.
    fn leads(&self, actions: u16, from: u64) -> Vec<u64> {
        let numbered = self.draft.actions.iter().enumerate();
        let chosen = numbered.filter(|(a, _)| self.actions[actions as usize][*a]);
        chosen.filter_map(|(_, action)| lead(action, from)).collect()
    }

    pub fn within(&self, e: u16, f: u16) -> bool {
        let (e, f) = (&self.states[e as usize], &self.states[f as usize]);
        e.iter().zip(f).all(|(e, f)| !e || *f)
    }

    pub fn actions_within(&self, a: u16, b: u16) -> bool {
        let (a, b) = (&self.actions[a as usize], &self.actions[b as usize]);
        a.iter().zip(b).all(|(a, b)| !a || *b)
    }

    /// Depth, and whether a progression stands at or beneath the entry.
    pub fn depth(&self, entry: u16) -> (usize, bool) {
        let beneath: Vec<u16> = match &self.draft.state_sets[entry as usize] {
            DraftSet::Complement(s) | DraftSet::Regression(s, _) => vec![*s],
            DraftSet::Progression(s, _) => return (self.depth(*s).0 + 1, true),
            DraftSet::Intersection(s, u) | DraftSet::Union(s, u) => vec![*s, *u],
            _ => return (1, false),
        };
        let depths: Vec<(usize, bool)> = beneath.iter().map(|e| self.depth(*e)).collect();
        (depths.iter().map(|d| d.0).max().unwrap_or(0) + 1, depths.iter().any(|d| d.1))
    }
}

/// Whether the state is an initial one: each known fact is as init has it.
pub fn is_init(draft: &Draft, state: u64) -> bool {
    let on = |mask: u64, f: u8| mask >> f & 1 == 1;
    (0..64).all(|f| on(draft.unknown, f) || on(state, f) == on(draft.init, f))
}

/// Whether the state is a goal state: each fact of the goal is on, each of its facts off is off.
pub fn is_goal(draft: &Draft, state: u64) -> bool {
    let on = |mask: u64, f: u8| mask >> f & 1 == 1;
    (0..64).all(|f| if on(state, f) { !on(draft.goal_off, f) } else { !on(draft.goal, f) })
}

/// The state that the action leads to, fact by fact; none where it does not apply.
pub fn lead(action: &Action, from: u64) -> Option<u64> {
    let on = |mask: u64, f: u8| mask >> f & 1 == 1;
    let applies = (0..64).all(|f| if on(from, f) { !on(action.off, f) } else { !on(action.pre, f) });
    let after = |f: u8| on(action.add, f) || (on(from, f) && !on(action.del, f));
    applies.then(|| (0..64).filter(|f| after(*f)).map(|f| 1u64 << f).sum())
}

/// The states within reach of every initial state, by repeated passes.
pub fn reach(draft: &Draft) -> BTreeSet<u64> {
    let mut states: BTreeSet<u64> = (0..1 << draft.facts).filter(|state| is_init(draft, *state)).collect();
    loop {
        let led = states.iter().flat_map(|s| draft.actions.iter().filter_map(|a| lead(a, *s)));
        let more: Vec<u64> = led.filter(|state| !states.contains(state)).collect();
        if more.is_empty() {
            return states;
        }
        states.extend(more);
    }
}

/// Whether the action is in an action set, by the meaning of its kind.
pub fn has_action(draft: &Draft, set: u16, action: u16) -> bool {
    match &draft.action_sets[set as usize] {
        DraftActions::All => (action as usize) < draft.actions.len(),
        DraftActions::List(list) => list.contains(&action),
        DraftActions::Union(a, b) => has_action(draft, *a, action) || has_action(draft, *b, action),
    }
}

/// Whether the state is in an entry, by the meaning of its kind, for any number of facts. That it is in a
/// progression has to be shown by a state and an action that lead there.
pub fn has_state(draft: &Draft, entry: u16, state: u64, from: Option<(u64, u16)>) -> bool {
    let has = |e: u16, s: u64| has_state(draft, e, s, from);
    match &draft.state_sets[entry as usize] {
        DraftSet::Empty => false,
        DraftSet::Init => is_init(draft, state),
        DraftSet::Goal => is_goal(draft, state),
        DraftSet::Explicit(states) => states.contains(&state),
        DraftSet::Horn(clauses) | DraftSet::TwoCnf(clauses) => clauses.iter().all(|c| meets(c, state)),
        DraftSet::Complement(s) => !has(*s, state),
        DraftSet::Intersection(s, u) => has(*s, state) && has(*u, state),
        DraftSet::Union(s, u) => has(*s, state) || has(*u, state),
        DraftSet::Progression(s, a) => {
            let (before, action) = from.expect("a state and an action that lead into the progression");
            let led = lead(&draft.actions[action as usize], before);
            has_action(draft, *a, action) && led == Some(state) && has_state(draft, *s, before, None)
        }
        DraftSet::Regression(s, a) => (0..draft.actions.len() as u16).any(|action| {
            let led = lead(&draft.actions[action as usize], state);
            has_action(draft, *a, action) && led.is_some_and(|led| has(*s, led))
        }),
    }
}

fn meets(clause: &Clause, state: u64) -> bool {
    (0..64).any(|f| {
        let on = state >> f & 1 == 1;
        (on && clause.positive >> f & 1 == 1) || (!on && clause.negative >> f & 1 == 1)
    })
}

/// The kind number of an entry.
pub fn kind(set: &DraftSet) -> u8 {
    match set {
        DraftSet::Empty => 0,
        DraftSet::Init => 1,
        DraftSet::Goal => 2,
        DraftSet::Explicit(_) => 3,
        DraftSet::Horn(_) => 4,
        DraftSet::TwoCnf(_) => 5,
        DraftSet::Complement(_) => 6,
        DraftSet::Intersection(..) => 7,
        DraftSet::Union(..) => 8,
        DraftSet::Progression(..) => 9,
        DraftSet::Regression(..) => 10,
    }
}

/// The leaves of a tree of one compound kind, 7 or 8.
pub fn leaves(draft: &Draft, root: u16, join: u8, list: &mut Vec<u16>) {
    match &draft.state_sets[root as usize] {
        DraftSet::Intersection(s, u) if join == 7 => {
            leaves(draft, *s, join, list);
            leaves(draft, *u, join, list);
        }
        DraftSet::Union(s, u) if join == 8 => {
            leaves(draft, *s, join, list);
            leaves(draft, *u, join, list);
        }
        _ => list.push(root),
    }
}

/// The kind of a literal and whether it is complemented; none for no literal.
pub fn literal(draft: &Draft, entry: u16) -> Option<(u8, bool)> {
    let set = &draft.state_sets[entry as usize];
    match set {
        DraftSet::Complement(s) => {
            let inner = kind(&draft.state_sets[*s as usize]);
            (inner <= 5).then_some((inner, true))
        }
        _ => (kind(set) <= 5).then_some((kind(set), false)),
    }
}

/// Whether a basic statement B1 to B4 has a permitted shape. Kinds of the moved left,
/// the moved right and the inside of the bracket are lists.
pub fn shape(draft: &Draft, rule: u8, e: u16, f: u16) -> bool {
    if rule == 4 {
        let (Some(x), Some(y)) = (literal(draft, e), literal(draft, f)) else { return false };
        return pair(x, y);
    }
    let (mut left, mut right, mut inside) = (vec![], vec![], vec![]);
    let (mut left_leaves, mut right_leaves) = (vec![], vec![]);
    leaves(draft, e, 7, &mut left_leaves);
    leaves(draft, f, 8, &mut right_leaves);
    let mut brackets = 0;
    for leaf in &left_leaves {
        match (rule, &draft.state_sets[*leaf as usize]) {
            (2, DraftSet::Progression(s, _)) | (3, DraftSet::Regression(s, _)) => {
                brackets += 1;
                leaves(draft, *s, 7, &mut inside);
            }
            _ => match literal(draft, *leaf) {
                None => return false,
                Some((k, false)) => left.push(k),
                Some((k, true)) => right.push(k),
            },
        }
    }
    let written = left_leaves.len() - brackets + inside.len();
    if brackets != (rule != 1) as usize || written > 8 || right_leaves.len() > 8 {
        return false;
    }
    for leaf in &right_leaves {
        match literal(draft, *leaf) {
            None => return false,
            Some((k, false)) => right.push(k),
            Some((k, true)) => left.push(k),
        }
    }
    let inside: Vec<u8> = inside.iter().map(|s| kind(&draft.state_sets[*s as usize])).collect();
    let unknown = (0..64).filter(|f| draft.unknown >> f & 1 == 1).count();
    let leave: &[u8] = if unknown <= 12 { &[0, 1, 3] } else { &[0, 3] };
    inside.iter().all(|k| *k <= 5) && kinds_permitted(rule, leave, [&left, &right, &inside])
}

/// `leave` has the kinds of which one must stand where an explicit statement goes through states.
fn kinds_permitted(rule: u8, leave: &[u8], [left, right, inside]: [&[u8]; 3]) -> bool {
    let mut special: Vec<u8> =
        [left, right, inside].concat().into_iter().filter(|k| (3..=5).contains(k)).collect();
    special.dedup();
    special.sort_unstable();
    special.dedup();
    match special[..] {
        [] | [4] | [5] => right.iter().filter(|k| **k != 0).count() <= 2,
        [3] => {
            let listing = if rule == 2 { inside } else { left };
            listing.iter().any(|k| leave.contains(k))
        }
        _ => false,
    }
}

/// The permitted forms of B4, written out.
fn pair(x: (u8, bool), y: (u8, bool)) -> bool {
    match (x, y) {
        ((3, false), (4 | 5, _)) => true,
        ((4 | 5, _), (3, true)) => true,
        ((4, turned_x), (5, turned_y)) | ((5, turned_x), (4, turned_y)) => turned_x || !turned_y,
        _ => false,
    }
}

/// Premise count and judgement kind of a rule.
pub fn signature(rule: u8) -> Option<(usize, u8)> {
    let judgement = match rule {
        1..=4 => 1,
        5 => 2,
        6..=12 => 0,
        13 | 14 => 3,
        15..=28 => 1,
        _ => return None,
    };
    let counts = [0, 0, 0, 0, 0, 0, 2, 2, 3, 3, 3, 3, 1, 1, 0, 0, 0, 0, 0, 2, 2, 2, 2, 2, 2, 2, 1, 1];
    Some((counts[rule as usize - 1], judgement))
}

/// The reply's number for a step's own fields.
fn fields_lawful(draft: &Draft, step: &Step, number: usize) -> bool {
    let Some((premises, judgement)) = signature(step.rule) else { return false };
    let (states, actions) = (draft.state_sets.len(), draft.action_sets.len());
    let limits = match step.kind {
        0 => [states, 1],
        1 => [states, states],
        2 => [actions, actions],
        _ => [1, 1],
    };
    let entries = (0..2).all(|k| (step.entries[k] as usize) < limits[k]);
    let places = (0..3).all(|k| (step.premises[k] as usize) < if k < premises { number } else { 1 });
    step.kind == judgement && entries && places
}

/// The number of the reply for one step, 0 where it passes.
pub fn step_reply(file: &File, meaning: &Meaning, number: usize) -> u8 {
    let step = &file.steps[number];
    if !fields_lawful(&meaning.draft, step, number) {
        return 8;
    }
    let [e, f] = step.entries;
    match step.rule {
        5 => {
            if meaning.actions_within(e, f) {
                0
            } else {
                11
            }
        }
        1..=4 if !shape(&meaning.draft, step.rule, e, f) => 10,
        1..=4 => {
            if meaning.within(e, f) {
                0
            } else {
                11
            }
        }
        _ => {
            if follows(file, step) {
                0
            } else {
                9
            }
        }
    }
}

/// Whether a rule step matches the text of its rule.
pub fn follows(file: &File, step: &Step) -> bool {
    let pattern = parse(RULES[step.rule as usize - 1].text).expect("the rule text has the usual form");
    let mut letters = NO_LETTERS;
    // A judgement of no kind is matched by no claim.
    let mut matches = |claim, step: &Step| {
        step.judgement().is_some_and(|found| match_claim(file, claim, found, &mut letters))
    };
    let mut premises = pattern.premises.iter().zip(step.premises);
    premises.all(|(claim, p)| matches(claim, &file.steps[p as usize])) && matches(&pattern.conclusion, step)
}

/// The reply for a file with lawful layout.
pub fn check(file: &File) -> Reply {
    let meaning = Meaning::of(file);
    for number in 0..file.steps.len() {
        let reply = step_reply(file, &meaning, number);
        if reply != 0 {
            return Reply::Refused { number: reply, place: number as u64 };
        }
    }
    let last = file.steps.len() - 1;
    match file.steps[last].kind {
        3 => Reply::Accepted,
        _ => Reply::Refused { number: 12, place: last as u64 },
    }
}

/// What each of the functions of the checker says of a file: check, question, round, small check, check with a list.
pub fn all_replies(bytes: &[u8]) -> [String; 5] {
    let list: Vec<u8> = (1..=28).collect();
    [
        reference::check(bytes).to_string(),
        ask(bytes, 1, 0).to_string(),
        check_round(bytes, 0, 1).to_string(),
        check_small(bytes).to_string(),
        check_numbered(bytes, &list).to_string(),
    ]
}
