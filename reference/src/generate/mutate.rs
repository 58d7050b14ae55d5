//! Damage: one field of a draft changed, or the bytes of a file cut, extended or
//! overwritten.

use crate::draft::{mend_length, Draft, DraftActions, DraftSet};
use crate::file::{Clause, Step};
use crate::generate::limits::shuffle;
use crate::generate::random::Random;
use crate::version::{Places, VERSIONS};

/// Changes one thing in the draft.
pub fn draft(random: &mut Random, d: &mut Draft) {
    match random.below(27) {
        0..=8 => step(random, d),
        9 | 10 => step_list(random, d),
        11..=13 => reference(random, d),
        14 | 15 => kind(random, d),
        16..=18 => content(random, d),
        19 | 20 => action_set(random, d),
        21 => twin(random, d),
        22 | 23 => mask(random, d),
        _ => head(random, d),
    }
}

/// One place of a step; rare rules are as likely as frequent ones.
fn step(random: &mut Random, d: &mut Draft) {
    let mut rules: Vec<u8> = d.steps.iter().map(|step| step.rule).collect();
    rules.sort_unstable();
    rules.dedup();
    if rules.is_empty() {
        return;
    }
    let rule = random.pick(&rules);
    let Some(at) = choose(random, &d.steps, |step| step.rule == rule) else { return };
    let sets = d.state_sets.len();
    let s = &mut d.steps[at];
    match random.below(14) {
        0..=3 => s.premises[random.below(3)] = random.below(at + 2) as u16,
        4..=6 => s.entries[random.below(2)] = random.below(sets + 1) as u16,
        11 => s.premises[random.below(3)] = at as u16,
        12 => s.entries[1] = sets as u16,
        7 => s.premises.swap(0, 1),
        8 => s.entries.swap(0, 1),
        9 => s.rule = random.between(0, 29) as u8,
        10 => s.kind = random.between(0, 4) as u8,
        _ => relabel(random, s),
    }
}

/// Another rule with the same number of premises and judgement kind.
fn relabel(random: &mut Random, s: &mut Step) {
    let Some(old) = crate::rules::by_number(s.rule) else { return };
    let alike = |rule: &&crate::rules::Rule| {
        rule.premises == old.premises && rule.judgement == old.judgement && rule.number != s.rule
    };
    let alike: Vec<u8> = crate::rules::RULES.iter().filter(alike).map(|r| r.number).collect();
    if !alike.is_empty() {
        s.rule = random.pick(&alike);
    }
}

/// A step dropped, doubled or put elsewhere.
fn step_list(random: &mut Random, d: &mut Draft) {
    if d.steps.is_empty() {
        return;
    }
    let (at, to) = (random.below(d.steps.len()), random.below(d.steps.len()));
    match random.below(5) {
        0 | 1 => drop(d.steps.pop()),
        2 => drop(d.steps.remove(at)),
        3 => d.steps.insert(to, d.steps[at]),
        _ => d.steps.swap(at, to),
    }
}

/// A reference of a compound entry: another one, too high, or both turned about.
fn reference(random: &mut Random, d: &mut Draft) {
    let compound = |set: &DraftSet| {
        use DraftSet::*;
        matches!(set, Complement(_) | Intersection(..) | Union(..) | Progression(..) | Regression(..))
    };
    let Some(at) = choose(random, &d.state_sets, compound) else { return };
    let any = if random.chance(20) { at + random.below(3) } else { random.below(at) } as u16;
    let action_sets = d.action_sets.len();
    use DraftSet::*;
    match &mut d.state_sets[at] {
        Intersection(s, u) | Union(s, u) => match random.below(3) {
            0 => std::mem::swap(s, u),
            1 => *s = any,
            _ => *u = any,
        },
        Progression(s, a) | Regression(s, a) => {
            if random.chance(50) {
                *s = any;
            } else {
                *a = random.below(action_sets + 1) as u16;
            }
        }
        Complement(s) => *s = any,
        _ => (),
    }
}

/// The number of one of the items that are wanted, where there are any.
pub fn choose<T>(random: &mut Random, list: &[T], wanted: impl Fn(&T) -> bool) -> Option<usize> {
    let places: Vec<usize> = (0..list.len()).filter(|k| wanted(&list[*k])).collect();
    (!places.is_empty()).then(|| random.pick(&places))
}

/// Another kind over the same content.
fn kind(random: &mut Random, d: &mut Draft) {
    if d.state_sets.is_empty() {
        return;
    }
    use DraftSet::*;
    let at = random.below(d.state_sets.len());
    let new = match d.state_sets[at].clone() {
        Empty | Init | Goal | Explicit(_) => constant(random),
        Horn(clauses) => TwoCnf(clauses),
        TwoCnf(clauses) => Horn(clauses),
        Complement(s) => Intersection(s, s),
        Intersection(s, u) | Union(s, u) if random.chance(20) => random_pair(random, s, u),
        Intersection(s, u) => Union(s, u),
        Union(s, u) => Intersection(s, u),
        Progression(s, a) => Regression(s, a),
        Regression(s, a) => Progression(s, a),
    };
    d.state_sets[at] = new;
}

fn constant(random: &mut Random) -> DraftSet {
    match random.below(3) {
        0 => DraftSet::Empty,
        1 => DraftSet::Init,
        _ => DraftSet::Goal,
    }
}

fn random_pair(random: &mut Random, s: u16, u: u16) -> DraftSet {
    match random.below(3) {
        0 => DraftSet::Complement(s),
        1 => DraftSet::Progression(s, u),
        _ => DraftSet::Regression(u, s),
    }
}

/// A state or clause dropped, doubled, changed or put elsewhere.
fn content(random: &mut Random, d: &mut Draft) {
    let listed =
        |set: &DraftSet| matches!(set, DraftSet::Explicit(_) | DraftSet::Horn(_) | DraftSet::TwoCnf(_));
    let bit = 1u64 << random.below(d.facts as usize + 1).min(63);
    let Some(at) = choose(random, &d.state_sets, listed) else { return };
    match &mut d.state_sets[at] {
        DraftSet::Explicit(states) => items(random, states, |s| *s ^= bit, bit),
        DraftSet::Horn(clauses) | DraftSet::TwoCnf(clauses) => {
            let on_positive = random.chance(50);
            let flip = |c: &mut Clause| {
                *(if on_positive { &mut c.positive } else { &mut c.negative }) ^= bit;
            };
            items(random, clauses, flip, Clause::default());
        }
        _ => (),
    }
}

fn items<T: Copy>(random: &mut Random, list: &mut Vec<T>, change: impl Fn(&mut T), new: T) {
    if list.is_empty() {
        list.push(new);
        return;
    }
    let (at, to) = (random.below(list.len()), random.below(list.len()));
    match random.below(6) {
        0 => drop(list.remove(at)),
        1 => list.insert(at, list[at]),
        2 => list.swap(at, to),
        3 => list.push(new),
        _ => change(&mut list[at]),
    }
}

/// A list of actions changed or put out of order, a union changed, or a list of all actions instead of their kind.
fn action_set(random: &mut Random, d: &mut Draft) {
    if d.action_sets.is_empty() {
        return;
    }
    let at = random.below(d.action_sets.len());
    let actions = d.actions.len();
    match &mut d.action_sets[at] {
        DraftActions::Union(a, b) => {
            if random.chance(50) {
                std::mem::swap(a, b);
            } else {
                *a = random.below(at + 2) as u16;
            }
        }
        DraftActions::List(list) => items(random, list, |a| *a = a.wrapping_add(1), actions as u16),
        all => {
            let mut list: Vec<u16> = (0..actions as u16).collect();
            if random.chance(40) {
                shuffle(random, &mut list);
            }
            *all = DraftActions::List(list);
        }
    }
}

/// A second entry of equal content, named in one place instead of the first.
fn twin(random: &mut Random, d: &mut Draft) {
    if d.state_sets.is_empty() || d.steps.is_empty() {
        return;
    }
    let first = random.below(d.state_sets.len());
    twin_of(random, d, first);
}

/// A second entry of this one's content, named by a step instead of it where one names it: its number.
pub fn twin_of(random: &mut Random, d: &mut Draft, first: usize) -> usize {
    let number = d.state_sets.len() as u16;
    d.state_sets.push(d.state_sets[first].clone());
    let named = |step: &Step| step.kind < 2 && step.entries.contains(&(first as u16));
    if let Some(at) = choose(random, &d.steps, named) {
        let entries = &mut d.steps[at].entries;
        let place = entries.iter().position(|entry| *entry == first as u16);
        entries[place.unwrap_or(0)] = number;
    }
    number as usize
}

fn mask(random: &mut Random, d: &mut Draft) {
    let bit = 1u64 << random.below(d.facts as usize + 1).min(63);
    let (actions, places) = (d.actions.len(), Places::of(d.version));
    match random.below(8) {
        0 => d.init ^= bit,
        1 => d.goal ^= bit,
        2 if places.unknown.is_some() => d.unknown ^= bit,
        3 if places.has_off() => d.goal_off ^= bit,
        _ if actions == 0 => (),
        _ => {
            let action = &mut d.actions[random.below(actions)];
            match places.masks[random.below(places.masks.len())] {
                "pre" => action.pre ^= bit,
                "add" => action.add ^= bit,
                "del" => action.del ^= bit,
                _ => action.off ^= bit,
            }
        }
    }
}

fn head(random: &mut Random, d: &mut Draft) {
    match random.below(12) {
        0 | 8 | 9 => d.version = random.pick(&[0, VERSIONS.end() + 1, 255]),
        10 => d.version = random.pick(&[1, 2, 3]),
        11 => d.unknown = random.mask(d.unknown, 1),
        1 => d.facts = random.pick(&[0, 65, 255]),
        2 => d.facts = d.facts.wrapping_sub(1),
        3 => d.facts = (d.facts + 1).min(64),
        4 => drop(d.actions.pop()),
        5 => d.steps.clear(),
        6 => drop(d.state_sets.pop()),
        _ => drop(d.action_sets.pop()),
    }
}

/// The places and widths of counts, entry lengths and entry kinds in the draft's bytes.
fn frame(d: &Draft, bytes: &[u8]) -> Vec<(usize, usize)> {
    let begun = Places::of(d.version);
    let mut places = vec![(begun.action_count, 2)];
    let mut at = begun.actions + begun.action * d.actions.len();
    for count in [d.action_sets.len(), d.state_sets.len()] {
        places.push((at, 2));
        at += 2;
        for _ in 0..count {
            let Some(&[high, low, _]) = bytes.get(at..at + 3) else { return places };
            places.extend([(at, 2), (at + 2, 1)]);
            at += 2 + u16::from_be_bytes([high, low]) as usize;
        }
    }
    places.push((at, 2));
    places
}

/// Cuts, extends or overwrites, or takes one version's bytes for another's; the length field is mended in most cases.
pub fn bytes(random: &mut Random, d: &Draft) -> Vec<u8> {
    let mut bytes = d.encode();
    let length = bytes.len();
    match random.below(17) {
        0..=3 => bytes.truncate(random.below(length)),
        4 | 5 => bytes.extend((0..random.between(1, 14)).map(|k| k as u8)),
        6 => bytes[4] = (bytes[4] + random.below(2) as u8) % 3 + 1,
        7 | 8 => {
            let at = random.below(length);
            bytes[at] = random.next() as u8;
        }
        9 | 10 => {
            let at = random.below(length);
            let count = random.between(1, 3).min(length - at);
            bytes.drain(at..at + count);
        }
        _ => {
            let (at, width) = random.pick(&frame(d, &bytes));
            if let Some(low) = bytes.get_mut(at + width - 1) {
                *low = low.wrapping_add(random.pick(&[1, 255, 2, 8, 16]));
            }
        }
    }
    if random.chance(90) {
        mend_length(&mut bytes);
    }
    bytes
}
