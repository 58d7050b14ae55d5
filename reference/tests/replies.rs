//! Each reply at its exact place, and the misreadings of document 01 one by one.

use reference::draft::{mend_length, sample, step, Draft, DraftActions, DraftSet};
use reference::file::Clause;
use reference::task::Action;
use reference::{ask, check};

/// The reply to the sample with one change.
fn reply(change: impl FnOnce(&mut Draft)) -> String {
    let mut draft = sample();
    change(&mut draft);
    check(&draft.encode()).to_string()
}

/// The reply to the sample with a change of its bytes, length mended.
fn reply_to_bytes(change: impl FnOnce(&mut Vec<u8>)) -> String {
    let mut bytes = sample().encode();
    change(&mut bytes);
    mend_length(&mut bytes);
    check(&bytes).to_string()
}

/// The reply to the sample with further sets (from number 7 on) and one more step before
/// its last.
fn reply_with(sets: &[DraftSet], extra: reference::file::Step) -> String {
    reply(|d| {
        d.state_sets.extend_from_slice(sets);
        d.steps.insert(7, extra);
    })
}

fn clause(positive: u64, negative: u64) -> Clause {
    Clause { positive, negative }
}

// Places in the sample: actions from 24, action set 0 at 74, state sets from 79, set 3 at
// 88 with its states from 91, steps from 138.

#[test]
fn reply_1_to_3_lengths_version_and_ends() {
    assert_eq!(check(&[0, 0, 0]).to_string(), "refused 1 0");
    assert_eq!(check(&[0, 0, 0, 0]).to_string(), "refused 3 4");
    assert_eq!(check(&[0, 0, 0, 1]).to_string(), "refused 1 0");
    assert_eq!(check(&[0, 0, 0, 1, 7]).to_string(), "refused 2 4");
    assert_eq!(check(&[0, 0, 0, 1, 1]).to_string(), "refused 3 5");
    assert_eq!(reply_to_bytes(|b| b.push(0)), "refused 3 234");
    assert_eq!(reply_to_bytes(|b| b.truncate(233)), "refused 3 222");
    // Cut within a field, a mask, a count, an entry's length, an entry, a step.
    for (length, place) in
        [(13, 6), (21, 14), (23, 22), (40, 40), (41, 40), (73, 72), (75, 74), (77, 77), (78, 77)]
    {
        let expected = format!("refused 3 {place}");
        assert_eq!(reply_to_bytes(|b| b.truncate(length)), expected, "cut at {length}");
    }
    for (length, place) in [(76, 74), (79, 79), (90, 88), (113, 88), (137, 136), (139, 138), (149, 138)] {
        let expected = format!("refused 3 {place}");
        assert_eq!(reply_to_bytes(|b| b.truncate(length)), expected, "cut at {length}");
    }
}

#[test]
fn every_cut_of_the_sample_is_refused_with_3() {
    for length in 4..234 {
        let refused = reply_to_bytes(|b| b.truncate(length));
        let place = refused.strip_prefix("refused 3 ").and_then(|place| place.parse::<usize>().ok());
        assert!(place.is_some_and(|place| place <= length), "cut at {length}: {refused}");
    }
}

#[test]
fn reply_4_counts_kinds_and_entry_lengths() {
    assert_eq!(reply_to_bytes(|b| b[22] = 2), "refused 4 22");
    assert_eq!(reply_to_bytes(|b| b[72] = 2), "refused 4 72");
    assert_eq!(reply_to_bytes(|b| b[77] = 9), "refused 4 77");
    assert_eq!(reply_to_bytes(|b| b[136] = 9), "refused 4 136");
    assert_eq!(reply(|d| d.steps.clear()), "refused 4 136");
    assert_eq!(reply_to_bytes(|b| b[76] = 3), "refused 4 76");
    assert_eq!(reply_to_bytes(|b| b[81] = 11), "refused 4 81");
    // Length 0: no kind is read. Lengths that end within the file but do not fit.
    assert_eq!(reply_to_bytes(|b| b[75] = 0), "refused 4 74");
    assert_eq!(reply_to_bytes(|b| b[80] = 2), "refused 4 79");
    assert_eq!(reply_to_bytes(|b| b[89] = 24), "refused 4 88");
    // The kind comes before the length against the kind.
    assert_eq!(reply_to_bytes(|b| (b[80], b[81]) = (2, 11)), "refused 4 81");
}

#[test]
fn reply_5_facts_outside_the_task() {
    assert_eq!(reply(|d| d.init = 4), "refused 5 6");
    assert_eq!(reply(|d| d.goal = 1 << 63), "refused 5 14");
    assert_eq!(reply(|d| d.actions[1].pre = 4), "refused 5 48");
    assert_eq!(reply(|d| d.actions[1].del = 4), "refused 5 64");
    assert_eq!(reply(|d| d.state_sets[3] = DraftSet::Explicit(vec![0, 1, 4])), "refused 5 107");
    let horn = |clauses: Vec<Clause>| reply(|d| d.state_sets[3] = DraftSet::Horn(clauses));
    assert_eq!(horn(vec![clause(4, 0)]), "refused 5 91");
    assert_eq!(horn(vec![clause(0, 3), clause(1, 4)]), "refused 5 115");
    // Both masks pass 5 before the clause is looked at; the first faulty item decides.
    assert_eq!(horn(vec![clause(3, 4)]), "refused 5 99");
    assert_eq!(horn(vec![clause(3, 0), clause(4, 0)]), "refused 7 91");
}

#[test]
fn reply_6_numbers_not_allowed() {
    assert_eq!(reply(|d| d.action_sets[0] = DraftActions::List(vec![0, 2])), "refused 6 79");
    assert_eq!(reply(|d| d.action_sets[0] = DraftActions::Union(0, 0)), "refused 6 77");
    assert_eq!(reply(|d| d.action_sets.push(DraftActions::Union(0, 1))), "refused 6 82");
    assert_eq!(reply(|d| d.state_sets[5] = DraftSet::Union(3, 5)), "refused 6 127");
    assert_eq!(reply(|d| d.state_sets[5] = DraftSet::Complement(6)), "refused 6 125");
    assert_eq!(reply(|d| d.state_sets[4] = DraftSet::Progression(3, 1)), "refused 6 120");
    assert_eq!(reply(|d| d.state_sets[4] = DraftSet::Regression(4, 1)), "refused 6 118");
}

#[test]
fn reply_7_orders_and_clauses() {
    assert_eq!(reply(|d| d.action_sets[0] = DraftActions::List(vec![1, 0])), "refused 7 79");
    assert_eq!(reply(|d| d.action_sets[0] = DraftActions::List(vec![1, 1])), "refused 7 79");
    assert_eq!(
        reply(|d| d.state_sets[3] = DraftSet::Horn(vec![clause(0, 3), clause(3, 0)])),
        "refused 7 107"
    );
    let two = |clause| reply(|d| d.state_sets[3] = DraftSet::TwoCnf(vec![clause]));
    assert_eq!(two(clause(3, 1)), "refused 7 91");
    // A fact on both sides counts twice.
    assert_eq!(two(clause(1, 3)), "refused 7 91");
    assert_eq!(two(clause(0, 3)), "accepted");
}

#[test]
fn reply_8_fields_of_steps() {
    assert_eq!(reply(|d| d.steps[0].rule = 0), "refused 8 0");
    assert_eq!(reply(|d| d.steps[2].rule = 29), "refused 8 2");
    assert_eq!(reply(|d| d.steps[1].kind = 2), "refused 8 1");
    assert_eq!(reply(|d| d.steps[7].kind = 0), "refused 8 7");
    assert_eq!(reply(|d| d.steps[1].entries[1] = 7), "refused 8 1");
    assert_eq!(reply(|d| d.steps[3].premises[0] = 3), "refused 8 3");
    assert_eq!(reply(|d| d.steps[0].entries[1] = 1), "refused 8 0");
    assert_eq!(reply(|d| d.steps[7].entries[0] = 1), "refused 8 7");
    assert_eq!(reply(|d| d.steps[1].premises[2] = 1), "refused 8 1");
    assert_eq!(reply_with(&[], step(5, 2, &[0, 1], &[])), "refused 8 7");
    // Rules 15 to 22 are about state sets.
    assert_eq!(reply_with(&[], step(15, 2, &[0, 0], &[])), "refused 8 7");
}

#[test]
fn reply_9_patterns() {
    assert_eq!(reply(|d| d.steps[0].entries[0] = 1), "refused 9 0");
    assert_eq!(reply(|d| d.steps[3].premises = [0, 0, 0]), "refused 9 3");
    assert_eq!(reply(|d| d.steps[3].premises = [2, 1, 0]), "refused 9 3");
    assert_eq!(reply(|d| d.state_sets[6] = DraftSet::Intersection(2, 3)), "refused 9 4");
    assert_eq!(reply(|d| d.steps[7].rule = 14), "refused 9 7");
}

#[test]
fn pg_pi_rg_ri_need_the_kind_all() {
    // A list of all actions and the union of all with itself hold every action.
    assert_eq!(reply(|d| d.action_sets[0] = DraftActions::List(vec![0, 1])), "refused 9 4");
    let union = reply(|d| {
        d.action_sets.push(DraftActions::Union(0, 0));
        d.state_sets[4] = DraftSet::Progression(3, 1);
    });
    assert_eq!(union, "refused 9 4");
    for rule in [9, 10, 11, 12] {
        for (actions, reply) in
            [(DraftActions::All, "accepted"), (DraftActions::List(vec![0, 1]), "refused 9 5")]
        {
            let mut d = four_ways(rule);
            d.action_sets[0] = actions;
            assert_eq!(check(&d.encode()).to_string(), reply, "rule {rule}");
        }
    }
}

/// No action changes fact 0, which init lacks and the goal needs; S is "fact 0 off" going
/// forward and "fact 0 on" going backward.
fn four_ways(rule: u8) -> Draft {
    let forward = rule < 11;
    let unit = if forward { clause(0, 1) } else { clause(1, 0) };
    let led = if forward { DraftSet::Progression(3, 0) } else { DraftSet::Regression(3, 0) };
    let third = [step(8, 0, &[8], &[2, 0]), step(8, 0, &[9], &[2, 0])];
    let (within, third, dead) = match rule {
        9 => ([8, 0], third[0], 3),
        10 => ([1, 3], step(1, 1, &[1, 3], &[]), 6),
        11 => ([9, 0], third[1], 6),
        _ => ([1, 6], step(1, 1, &[1, 6], &[]), 3),
    };
    // I is within S or ~S that is dead after PG and RG, G after PI and RI.
    let (end, last) = if rule == 9 || rule == 11 { (1, 13) } else { (2, 14) };
    Draft {
        facts: 2,
        init: 2,
        goal: 1,
        actions: vec![
            Action { pre: 0, add: 2, del: 0, ..Action::NOTHING },
            Action { pre: 1, add: 0, del: 2, ..Action::NOTHING },
        ],
        action_sets: vec![DraftActions::All],
        state_sets: vec![
            DraftSet::Empty,
            DraftSet::Init,
            DraftSet::Goal,
            DraftSet::Horn(vec![unit]),
            led,
            DraftSet::Union(3, 0),
            DraftSet::Complement(3),
            DraftSet::Empty,
            DraftSet::Intersection(3, 2),
            DraftSet::Intersection(6, 2),
        ],
        steps: vec![
            step(6, 0, &[0], &[]),
            step(if forward { 2 } else { 3 }, 1, &[4, 5], &[]),
            step(1, 1, &within, &[]),
            third,
            step(1, 1, &[end, dead], &[]),
            step(rule, 0, &[dead], &[1, 0, 3]),
            step(8, 0, &[end], &[4, 5]),
            step(last, 3, &[], &[6]),
        ],
        ..Draft::default()
    }
}

#[test]
fn pi_concludes_that_the_complement_is_dead() {
    let mut d = four_ways(10);
    d.steps[5].entries[0] = 3;
    assert_eq!(check(&d.encode()).to_string(), "refused 9 5");
}

#[test]
fn equal_content_is_not_the_same_entry() {
    // A second explicit set of the same states.
    let twin = reply(|d| {
        d.state_sets.push(d.state_sets[3].clone());
        d.steps[4].entries[0] = 7;
    });
    assert_eq!(twin, "refused 9 4");
    let twin_in_union = reply(|d| {
        d.state_sets.insert(4, d.state_sets[3].clone());
        d.state_sets[5] = DraftSet::Progression(3, 0);
        d.state_sets[6] = DraftSet::Union(4, 0);
        d.state_sets[7] = DraftSet::Intersection(3, 2);
        d.steps[1].entries = [5, 6];
        d.steps[2].entries[0] = 7;
        d.steps[3].entries[0] = 7;
    });
    assert_eq!(twin_in_union, "refused 9 4");
    // 0, I, G and T match by kind: other entries of these kinds will do.
    let other_goal = reply(|d| {
        d.state_sets.insert(3, DraftSet::Goal);
        d.state_sets[4] = DraftSet::Explicit(vec![0, 1, 2]);
        d.state_sets[5] = DraftSet::Progression(4, 0);
        d.state_sets[6] = DraftSet::Union(4, 0);
        d.state_sets[7] = DraftSet::Intersection(4, 3);
        for s in &mut d.steps {
            s.entries.iter_mut().filter(|e| **e > 2).for_each(|e| *e += 1);
        }
    });
    assert_eq!(other_goal, "accepted");
}

#[test]
fn reply_10_shapes() {
    // A progression in B1, none or a regression in B2.
    assert_eq!(reply(|d| d.steps[1].rule = 1), "refused 10 1");
    assert_eq!(reply(|d| d.steps[2].rule = 2), "refused 10 2");
    assert_eq!(reply(|d| d.steps[1].rule = 3), "refused 10 1");
    // B4 with kinds 0 to 2, and with two sets of one kind.
    assert_eq!(reply(|d| d.steps[5].rule = 4), "refused 10 5");
    assert_eq!(reply_with(&[], step(4, 1, &[3, 3], &[])), "refused 10 7");
    // Two progressions, one of them met twice.
    assert_eq!(reply_with(&[DraftSet::Intersection(4, 4)], step(2, 1, &[7, 3], &[])), "refused 10 7");
    // A union on the left, an intersection on the right.
    assert_eq!(reply_with(&[], step(1, 1, &[5, 3], &[])), "refused 10 7");
    assert_eq!(reply_with(&[], step(1, 1, &[0, 6], &[])), "refused 10 7");
    // Explicit, Horn and two-literal sets meet.
    let horn = DraftSet::Horn(vec![]);
    assert_eq!(reply_with(&[horn.clone()], step(1, 1, &[3, 7], &[])), "refused 10 7");
    assert_eq!(reply_with(&[horn], step(4, 1, &[3, 7], &[])), "accepted");
}

#[test]
fn complements_in_brackets_and_of_compounds() {
    let not = |s| DraftSet::Complement(s);
    // ~0 inside the bracket is not permitted, outside it is.
    let inside = [not(0), DraftSet::Intersection(3, 7), DraftSet::Progression(8, 0)];
    assert_eq!(reply_with(&inside, step(2, 1, &[9, 3], &[])), "refused 10 7");
    let outside = [not(0), DraftSet::Intersection(4, 7)];
    assert_eq!(reply_with(&outside, step(2, 1, &[8, 3], &[])), "accepted");
    // The complement of a compound, or of a complement, is no literal.
    assert_eq!(reply_with(&[not(6)], step(1, 1, &[3, 7], &[])), "refused 10 7");
    assert_eq!(reply_with(&[not(3), not(7)], step(1, 1, &[3, 8], &[])), "refused 10 7");
}

#[test]
fn a_listed_leaf_is_of_kind_0_1_or_3() {
    let not_s = DraftSet::Complement(3);
    // G < ~S moves S to the left; G & ~S < 0 leaves only G there.
    assert_eq!(reply_with(&[not_s.clone()], step(1, 1, &[2, 7], &[])), "accepted");
    let goal_outside = [not_s.clone(), DraftSet::Intersection(2, 7)];
    assert_eq!(reply_with(&goal_outside, step(1, 1, &[8, 0], &[])), "refused 10 7");
    // Inside the bracket of B2: kind 2 will not do, kinds 0 and 1 will.
    for (base, reply) in [(2, "refused 10 7"), (0, "accepted"), (1, "accepted"), (3, "accepted")] {
        let sets = [DraftSet::Progression(base, 0)];
        assert_eq!(reply_with(&sets, step(2, 1, &[7, 3], &[])), reply, "bracket over {base}");
    }
    // B3: it must stand outside the bracket.
    let sets = [DraftSet::Regression(3, 0)];
    assert_eq!(reply_with(&sets, step(3, 1, &[7, 3], &[])), "refused 10 7");
    let sets = [DraftSet::Regression(3, 0), DraftSet::Intersection(7, 1)];
    assert_eq!(reply_with(&sets, step(3, 1, &[8, 3], &[])), "accepted");
}

#[test]
fn at_most_two_right_leaves_over_clauses() {
    let horn = |positive, negative| DraftSet::Horn(vec![clause(positive, negative)]);
    let two = [horn(1, 0), horn(0, 1), DraftSet::Union(7, 8), DraftSet::Union(9, 0)];
    assert_eq!(reply_with(&two, step(1, 1, &[2, 10], &[])), "accepted");
    let three = [horn(1, 0), horn(0, 1), DraftSet::Union(7, 8), DraftSet::Union(9, 2)];
    assert_eq!(reply_with(&three, step(1, 1, &[2, 10], &[])), "refused 10 7");
    // A complement on the left counts on the right.
    let moved = [horn(1, 0), DraftSet::Complement(7), DraftSet::Intersection(8, 2), DraftSet::Union(7, 1)];
    assert_eq!(reply_with(&moved, step(1, 1, &[9, 10], &[])), "refused 10 7");
    // The full set within X + ~X: every state is in one of them.
    let all = [DraftSet::Horn(vec![]), horn(1, 0), DraftSet::Complement(8), DraftSet::Union(8, 9)];
    assert_eq!(reply_with(&all, step(1, 1, &[7, 10], &[])), "accepted");
}

#[test]
fn reply_11_effects_clear_first_then_set() {
    // The action adds and deletes fact 0: it ends on.
    let both = |states: Vec<u64>| {
        reply(|d| {
            d.actions = vec![Action { pre: 0, add: 1, del: 1, ..Action::NOTHING }];
            d.state_sets[3] = DraftSet::Explicit(states);
        })
    };
    assert_eq!(both(vec![0, 1]), "accepted");
    assert_eq!(both(vec![0]), "refused 11 1");
    let both = |clauses: Vec<Clause>| {
        reply(|d| {
            d.actions = vec![Action { pre: 0, add: 1, del: 1, ..Action::NOTHING }];
            d.state_sets[3] = DraftSet::Horn(clauses);
        })
    };
    assert_eq!(both(vec![clause(0, 2)]), "accepted");
    assert_eq!(both(vec![clause(0, 1), clause(0, 2)]), "refused 11 1");
}

/// S says "not both"; the action adds fact 0 and leaves fact 1 as it was. Striking the
/// changed fact from what must hold before would lose that fact 1 binds.
#[test]
fn old_values_of_changed_facts_still_bind() {
    let wrong = |set: DraftSet| {
        reply(|d| {
            d.actions = vec![Action { pre: 0, add: 1, del: 0, ..Action::NOTHING }];
            d.state_sets[3] = set;
        })
    };
    assert_eq!(wrong(DraftSet::Horn(vec![clause(0, 3)])), "refused 11 1");
    assert_eq!(wrong(DraftSet::TwoCnf(vec![clause(0, 3)])), "refused 11 1");
    // From {0 -> 1} the action that deletes 0 leads to states with 1 off as well; the
    // old value of fact 0 says that fact 1 was on where it applies.
    let right = |set: DraftSet, goal: u64| {
        reply(|d| {
            d.actions = vec![Action { pre: 1, add: 0, del: 1, ..Action::NOTHING }];
            d.goal = goal;
            d.state_sets.push(DraftSet::Horn(vec![clause(2, 1)]));
            d.state_sets.push(DraftSet::Progression(7, 0));
            d.state_sets.push(set);
            d.steps.insert(7, step(2, 1, &[8, 9], &[]));
        })
    };
    assert_eq!(right(DraftSet::Horn(vec![clause(2, 0)]), 3), "accepted");
    assert_eq!(right(DraftSet::Horn(vec![clause(1, 0)]), 3), "refused 11 7");
}

/// A checker that compares an action set with itself would let B5 pass here and then
/// carry a closure under the first action over to all actions.
#[test]
fn a_false_action_inclusion_is_refused() {
    let mut d = sample();
    d.actions[1] = Action { pre: 0, add: 3, del: 0, ..Action::NOTHING };
    d.action_sets.push(DraftActions::List(vec![0]));
    d.state_sets.push(DraftSet::Progression(3, 1));
    d.steps = vec![
        step(6, 0, &[0], &[]),
        step(2, 1, &[7, 5], &[]),
        step(5, 2, &[0, 1], &[]),
        step(23, 1, &[4, 5], &[1, 2]),
        step(1, 1, &[6, 0], &[]),
        step(8, 0, &[6], &[4, 0]),
        step(9, 0, &[3], &[3, 0, 5]),
        step(1, 1, &[1, 3], &[]),
        step(8, 0, &[1], &[7, 6]),
        step(13, 3, &[], &[8]),
    ];
    assert_eq!(check(&d.encode()).to_string(), "refused 11 2");
    d.actions.pop();
    assert_eq!(check(&d.encode()).to_string(), "accepted");
}

#[test]
fn reply_12_and_13() {
    assert_eq!(reply(|d| d.steps.truncate(1)), "refused 12 0");
    assert_eq!(reply(|d| d.steps.push(step(6, 0, &[0], &[]))), "refused 12 8");
    let mut d = sample();
    d.state_sets.extend([
        DraftSet::Complement(3),
        DraftSet::Regression(7, 0),
        DraftSet::Union(8, 0),
        DraftSet::Complement(9),
        DraftSet::Union(0, 4),
    ]);
    let bytes = d.encode();
    let asked = |entry, state| ask(&bytes, entry, state).to_string();
    assert_eq!(asked(9, 0), "out");
    assert_eq!(asked(10, 0), "refused 13 0");
    assert_eq!(asked(11, 0), "refused 13 0");
    assert_eq!(asked(12, 0), "refused 13 0");
    assert_eq!(asked(9, 4), "refused 13 0");
    d.steps.clear();
    assert_eq!(ask(&d.encode(), 9, 0).to_string(), format!("refused 4 {}", d.encode().len() - 2));
}
