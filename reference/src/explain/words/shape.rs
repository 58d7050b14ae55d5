//! Why a shape is not permitted, in words.

use super::text::{counted, Text};
use crate::draft::DraftSet;
use crate::explain::shape::{Leaf, PairFault, ShapeFault, Side, MANY, MAX_LEAVES, MAX_RIGHT};
use crate::shape::MAX_UNKNOWN;

impl Side {
    fn name(self) -> &'static str {
        match self {
            Side::Left => "left",
            Side::Right => "right",
        }
    }
}

/// The fault in lines.
pub fn words(text: &Text, rule: u8, fault: &ShapeFault) -> Vec<String> {
    let lines = match fault {
        ShapeFault::TooManyLeaves { side, outside, inside } => vec![too_many(*side, *outside, *inside)],
        ShapeFault::NoLiteral { side, leaf } => no_literal(text, *side, *leaf),
        ShapeFault::NoBracket => {
            let word = bracket_word(rule);
            vec![format!(
                "No left leaf is a {word}; B{rule} takes exactly one. A statement of literals alone is B1."
            )]
        }
        ShapeFault::TwoBrackets { first, second } => {
            let head = format!("Two left leaves are {}s; B{rule} takes exactly one:", bracket_word(rule));
            vec![head, format!("  {}", text.set(*first)), format!("  {}", text.set(*second))]
        }
        ShapeFault::Inside { bracket, leaf } => vec![
            format!("Inside the bracket, {}, stands the leaf {}.", text.set(*bracket), text.set(*leaf)),
            format!(
                "It is {}; inside a bracket leaves are of kinds 0 to 5, and not complements.",
                text.set_kind(*leaf)
            ),
        ],
        ShapeFault::KindsMeet { first, second } => {
            let head = "Of lists of states, Horn and two-literal clauses (kinds 3, 4, 5) only one may be in a statement:";
            [vec![head.to_string()], with_kinds(text, [first, second])].concat()
        }
        ShapeFault::TooManyRight { leaves } => too_many_right(text, leaves),
        ShapeFault::NoListed { leaves } => no_listed(text, rule, leaves),
        ShapeFault::Pair(fault) => pair_words(text, fault),
    };
    [vec!["The shape is not permitted.".to_string()], lines].concat()
}

/// The faults of B4.
fn pair_words(text: &Text, fault: &PairFault) -> Vec<String> {
    let kinds = "B4 takes two sets of different kinds among 3 (a list of states), 4 (Horn) and 5 (two-literal), or their complements.";
    match fault {
        PairFault::Kind { side, leaf } => {
            let line =
                format!("The {} side is {}, {}.", side.name(), text.set(leaf.entry), base_kind(text, leaf));
            vec![line, kinds.to_string()]
        }
        PairFault::Alike { left, right } => {
            let head = vec!["Both sides are of one kind:".to_string()];
            [head, with_kinds(text, [left, right]), vec![kinds.to_string()]].concat()
        }
        PairFault::List { list } => {
            let side = if list.complemented { "left, as a complement" } else { "right" };
            vec![
                format!("The list of states, set {}, stands on the {side}.", list.base),
                "With X a list of states and Y clauses, B4 takes X<Y, X<~Y, ~Y<~X and Y<~X.".into(),
            ]
        }
        PairFault::Disjoint { left, right } => {
            let head = vec!["This says that two sets of clauses have no state in common:".to_string()];
            let tail = "With X and Y clauses of different kinds, B4 takes X<Y, ~X<Y and ~X<~Y, but not X<~Y.";
            [head, with_kinds(text, [left, right]), vec![tail.to_string()]].concat()
        }
    }
}

fn too_many(side: Side, outside: usize, inside: usize) -> String {
    let many = |count: usize| {
        let over = if count >= MANY { "at least " } else { "" };
        format!("{over}{}", counted(count, "leaf"))
    };
    let counts = match inside {
        0 => many(outside),
        _ => format!("{} outside the bracket and {} inside", many(outside), many(inside)),
    };
    format!("The {} side has {counts}; at most {MAX_LEAVES} are permitted.", side.name())
}

fn bracket_word(rule: u8) -> &'static str {
    if rule == 2 {
        "progression"
    } else {
        "regression"
    }
}

/// What the leaf is instead of a literal.
fn no_literal(text: &Text, side: Side, leaf: u16) -> Vec<String> {
    let is = match text.draft.state_sets[leaf as usize] {
        DraftSet::Complement(of) => {
            format!("It is the complement of {}, {}", text.set(of), text.set_kind(of))
        }
        _ => format!("It is {}", text.set_kind(leaf)),
    };
    vec![
        format!("A leaf on the {} is no literal: {}.", side.name(), text.set(leaf)),
        format!("{is}; a literal is a set of kinds 0 to 5 or the complement of one."),
        "On the left, B1 to B3 open intersections, B2 one progression, B3 one regression; on the right, unions.".into(),
    ]
}

/// The kind of the entry that a leaf is, or is the complement of.
fn base_kind(text: &Text, leaf: &Leaf) -> String {
    let of = if leaf.complemented { "the complement of " } else { "" };
    format!("{of}{}", text.set_kind(leaf.base))
}

fn with_kinds(text: &Text, leaves: [&Leaf; 2]) -> Vec<String> {
    let line = |leaf: &Leaf| format!("  {}, {}", text.set(leaf.entry), base_kind(text, leaf));
    leaves.map(line).to_vec()
}

/// A leaf that has changed sides is told with the entry that it complements.
fn moved(text: &Text, leaf: &Leaf) -> String {
    match leaf.complemented {
        false => format!("  {}", text.set(leaf.entry)),
        true => format!(
            "  {}, from the other side, where set {} = ~ {} stands",
            text.set(leaf.base),
            leaf.entry,
            leaf.base
        ),
    }
}

fn too_many_right(text: &Text, leaves: &[Leaf]) -> Vec<String> {
    let mut lines = vec![
        format!("In a statement without a list of states, at most {MAX_RIGHT} leaves may stand on the right, empty sets not"),
        format!("counted, once complements have changed sides. Here {} do:", leaves.len()),
    ];
    lines.extend(leaves.iter().map(|leaf| moved(text, leaf)));
    lines
}

/// Why init does not do as the leaf that has to stand somewhere, where it stands there.
fn too_many_inits(text: &Text, leaves: &[Leaf]) -> Option<String> {
    let is_init = |leaf: &Leaf| text.draft.state_sets[leaf.base as usize] == DraftSet::Init;
    let unknown = text.draft.unknown.count_ones();
    leaves.iter().any(is_init).then(|| {
        format!(
            "Init does only with at most {MAX_UNKNOWN} unknown facts: here {unknown} are, for {}.",
            text.init_count()
        )
    })
}

fn no_listed(text: &Text, rule: u8, leaves: &[Leaf]) -> Vec<String> {
    let place = match rule {
        2 => "inside the bracket",
        3 => "on the left outside the bracket, once complements have changed sides",
        _ => "on the left, once complements have changed sides",
    };
    let mut lines = vec![
        "In a statement with a list of states, a leaf of kind 0, 1 or 3 (empty, init or a list) has to stand"
            .to_string(),
        format!("{place}. There {}", if leaves.is_empty() { "stands no leaf." } else { "stand only:" }),
    ];
    lines.extend(leaves.iter().map(|leaf| moved(text, leaf)));
    lines.extend(too_many_inits(text, leaves));
    lines
}
