//! The bound on looks at clauses, held to numbers worked out by hand.

use reference::cost::{self, Cost};
use reference::draft::{sample, step, Draft};
use reference::generate::limits::workload;
use reference::generate::random::Random;
use reference::generate::worst::{busiest, no_model, two_right_leaves, Left, Order};
use reference::layout::MAX_BYTES;
use reference::shape::Method;
use reference::Reply;

#[test]
fn listed_states_take_no_looks() {
    assert_eq!(cost::of(&sample().encode()), Ok(vec![]));
    assert_eq!(cost::of(&[]).expect_err("no layout").number, 1);
}

#[test]
fn two_right_leaves_multiply() {
    let left = Left { written: 8, complements: 6 };
    let bytes = two_right_leaves(Method::Horn, left, Order::LastLeaf, [4, 256]).encode();
    assert_eq!(cost::of(&bytes), Ok(vec![Cost { step: 7, looks: 3584 * (65 + 64 * 4 + 64 * 4 * 256) }]));
    let bytes = two_right_leaves(Method::TwoCnf, left, Order::LastLeaf, [4, 256]).encode();
    let search = 64 * 65 / 2 + 64;
    assert_eq!(
        cost::of(&bytes),
        Ok(vec![Cost { step: 7, looks: 3584 * (65 + search + 64 * 4 + 64 * 4 * 256) }])
    );
    // The chain of 59 links is gone through for each pair of right clauses: the bound is not far above that.
    let (taken, bound): (u64, u64) = (59 * 3584 * 4 * 256, 3584 * (65 + 64 * 4 + 64 * 4 * 256));
    assert!(taken < bound && bound < taken + taken / 10, "{taken} {bound}");
}

#[test]
fn each_action_of_a_bracket_counts() {
    let left = Left { written: 8, complements: 0 };
    let bytes = no_model(left, Order::Ends, 32).encode();
    // Nothing but the empty set on the right: one clause each, in its two places.
    let looks = 32 * 2048 * (65 + 64 * 65 / 2 + 64 + 64 + 64);
    assert_eq!(cost::of(&bytes), Ok(vec![Cost { step: 7, looks }]));
}

#[test]
fn the_usual_statement() {
    // S[A] within S and the empty set; S and the goal within the empty set; the initial state within S.
    let bytes = workload(&mut Random::new(1), 2).encode();
    let costs = cost::of(&bytes).expect("a layout");
    let looks = [
        256 * 256 * (65 + 64 * 256 + 64 * 256),
        (256 + 64) * (65 + 64 + 64),
        64 * (65 + 64 * 256 + 64 * 256),
    ];
    let mut found: Vec<u64> = costs.iter().map(|cost| cost.looks).collect();
    found.sort_unstable_by(|a, b| b.cmp(a));
    let mut looks = looks;
    looks.sort_unstable_by(|a, b| b.cmp(a));
    assert_eq!(found, looks);
}

/// The goal within the empty set: a clause for each of 64 facts, whatever is in the goal's masks.
#[test]
fn the_goal_has_a_clause_for_each_fact() {
    for goal_off in [0, 4, 1, 7] {
        let mut d = Draft { version: 3, facts: 3, goal_off, ..sample() };
        d.steps = vec![step(1, 1, &[2, 0], &[])];
        let looks = 64 * (4 + 3 + 3);
        assert_eq!(cost::of(&d.encode()), Ok(vec![Cost { step: 0, looks }]), "{goal_off}");
    }
}

#[test]
fn the_busiest_file_fits() {
    // Eight steps of the 2,048 are the sample's.
    let bytes = busiest(Method::TwoCnf, 2040, 256, [256, 256]).encode();
    assert!(bytes.len() <= MAX_BYTES, "{}", bytes.len());
    let looks: u64 = cost::of(&bytes).expect("a layout").iter().map(|cost| cost.looks).sum();
    assert_eq!(looks, 2040 * 256 * 3584 * (65 + 64 * 65 / 2 + 64 + 64 * 256 + 64 * 256 * 256));
    // With fewer of each it is accepted.
    for method in [Method::Horn, Method::TwoCnf] {
        let bytes = busiest(method, 3, 2, [2, 3]).encode();
        assert_eq!(reference::check(&bytes), Reply::Accepted);
    }
}
