//! Correct applications of single rules and random basic statements, added to a file
//! under construction.

use std::collections::BTreeSet;
use std::sync::OnceLock;

use crate::file::{ActionSetKind, Clause, Judgement, StateSet, Step};
use crate::generate::builder::{Builder, EMPTY};
use crate::generate::certificates::kind;
use crate::generate::tasks;
use crate::layout::MAX_ACTION_SETS;
use crate::pattern::{parse, ActionTerm, Claim, Letters, Pattern, Term, NO_LETTERS};
use crate::rules::RULES;
use crate::shape::Method;

/// The patterns of rules 6 to 28.
pub fn patterns() -> &'static [Pattern] {
    static ALL: OnceLock<Vec<Pattern>> = OnceLock::new();
    ALL.get_or_init(|| RULES[5..].iter().filter_map(|rule| parse(rule.text)).collect())
}

/// Adds some base sets, lists of actions and a few compounds to choose from.
pub fn add_pool(b: &mut Builder) {
    let facts = b.file.task.all_facts();
    for _ in 0..b.random.between(1, 4) {
        let method = b.random.pick(&[Method::Explicit, Method::Horn, Method::TwoCnf]);
        let size = b.random.between(0, 3);
        if method == Method::Explicit {
            let states: BTreeSet<u64> = (0..2 * size).map(|_| b.random.mask(facts, 1)).collect();
            b.listed(states);
        } else {
            let mut clauses: Vec<_> = (0..size).map(|_| tasks::clause(b.random, method, facts)).collect();
            if method == Method::TwoCnf && b.random.chance(30) {
                clauses.extend(tight(b, facts));
            }
            b.clauses(kind(method), &clauses);
        }
    }
    for _ in 0..b.random.between(0, 3) {
        add_action_set(b);
    }
    for _ in 0..b.random.between(0, 3) {
        let s = any_set(b);
        let u = any_set(b);
        let set =
            b.random.pick(&[StateSet::Complement(s), StateSet::Union(s, u), StateSet::Intersection(s, u)]);
        b.set(set);
    }
}

/// Three or all four of the clauses over two facts: four have no model, and no unit.
fn tight(b: &mut Builder, facts: u64) -> Vec<Clause> {
    let x = b.random.bit(facts);
    let y = b.random.bit(facts & !x);
    let clause = |positive: u64| Clause { positive, negative: (x | y) & !positive };
    let all = [clause(0), clause(x), clause(y), clause(x | y)];
    all[b.random.below(2)..].to_vec()
}

fn add_action_set(b: &mut Builder) {
    if b.file.action_sets.len() >= MAX_ACTION_SETS {
        return;
    }
    if b.random.chance(50) {
        let marks = b.file.all_marks().map(|word| word & b.random.next());
        b.actions(ActionSetKind::List, marks);
    } else {
        let (first, second) = (any_actions(b), any_actions(b));
        b.action_union(first, second);
    }
}

fn any_actions(b: &mut Builder) -> u16 {
    b.random.below(b.file.action_sets.len()) as u16
}

/// Some entry, the first ones (the constants and the certificate's set) more often.
fn any_set(b: &mut Builder) -> u16 {
    let sets = b.file.state_sets.len();
    let most = match b.random.below(10) {
        0 => 1,
        1..=3 => sets.min(4),
        _ => sets,
    };
    b.random.below(most) as u16
}

/// Letters of a pattern with their entries. The place numbered `slip`, if any, gets
/// another entry than its letter stands for: mostly one of equal content.
struct Instance {
    letters: Letters,
    slip: Option<usize>,
}

impl Instance {
    fn new(slip: Option<usize>) -> Instance {
        Instance { letters: NO_LETTERS, slip }
    }

    /// Whether this place is the one that slips.
    fn slips(&mut self) -> bool {
        let here = self.slip == Some(0);
        self.slip = self.slip.and_then(|places| places.checked_sub(1));
        here
    }
}

/// How many places of a rule's pattern can slip.
pub fn places(rule: u8) -> usize {
    let pattern = pattern(rule);
    pattern.premises.iter().chain([&pattern.conclusion]).map(claim_places).sum()
}

fn claim_places(claim: &Claim) -> usize {
    match claim {
        Claim::Dead(s) => term_places(s),
        Claim::Within(s, u) => term_places(s) + term_places(u),
        Claim::ActionsWithin(..) => 2,
        Claim::Unsolvable => 0,
    }
}

fn term_places(term: &Term) -> usize {
    match term {
        Term::Complement(s) => 1 + term_places(s),
        Term::Intersection(s, u) | Term::Union(s, u) => 1 + term_places(s) + term_places(u),
        Term::Progression(s, a) | Term::Regression(s, a) => {
            let union = matches!(a, ActionTerm::Union(..));
            2 + 2 * union as usize + term_places(s)
        }
        _ => 1,
    }
}

/// Adds a correct application of the rule, with proofs of its premises, where a few
/// tries find one.
pub fn apply(b: &mut Builder, rule: u8) -> bool {
    (0..12).any(|_| {
        let mark = b.mark();
        let done = b.has_room() && try_apply(b, rule).is_some();
        if !done {
            b.take_back(mark);
        }
        done
    })
}

fn try_apply(b: &mut Builder, rule: u8) -> Option<u16> {
    let mut instance = Instance::new(None);
    let premises = proved_premises(b, rule, &mut instance)?;
    let conclusion = judgement(b, &pattern(rule).conclusion, &mut instance);
    b.passing(rule, conclusion, &premises)
}

/// Adds an application with proved premises in which one letter may have slipped.
pub fn apply_nearly(b: &mut Builder, rule: u8) -> bool {
    let places = places(rule);
    (0..25).any(|_| {
        let mark = b.mark();
        let mut instance = Instance::new(Some(b.random.below(places)));
        if let Some(premises) = proved_premises(b, rule, &mut instance).filter(|_| b.has_room()) {
            let conclusion = judgement(b, &pattern(rule).conclusion, &mut instance);
            b.step(rule, conclusion, &premises);
            return true;
        }
        b.take_back(mark);
        false
    })
}

/// Adds an application to premises that are not proved, right but for the place that slips: its step.
pub fn apply_unproved(b: &mut Builder, rule: u8, slip: Option<usize>) -> Step {
    let mut instance = Instance::new(slip);
    let mut premises = Vec::new();
    for claim in &pattern(rule).premises {
        let premise = judgement(b, claim, &mut instance);
        premises.push(b.step(1, premise, &[]));
    }
    let conclusion = judgement(b, &pattern(rule).conclusion, &mut instance);
    let number = b.step(rule, conclusion, &premises);
    b.file.steps[number as usize]
}

fn pattern(rule: u8) -> &'static Pattern {
    &patterns()[rule as usize - 6]
}

fn proved_premises(b: &mut Builder, rule: u8, instance: &mut Instance) -> Option<Vec<u16>> {
    let mut premises = Vec::new();
    for claim in &pattern(rule).premises {
        let judgement = judgement(b, claim, instance);
        premises.push(b.prove(judgement, 2)?);
    }
    Some(premises)
}

/// The claim as a judgement over entries; free letters get any entry.
fn judgement(b: &mut Builder, claim: &Claim, instance: &mut Instance) -> Judgement {
    match claim {
        Claim::Dead(s) => Judgement::Dead(state_set(b, s, instance)),
        Claim::Within(s, u) => {
            let s = state_set(b, s, instance);
            Judgement::Within(s, state_set(b, u, instance))
        }
        Claim::ActionsWithin(s, u) => {
            let s = action_set(b, s, instance);
            Judgement::ActionsWithin(s, action_set(b, u, instance))
        }
        Claim::Unsolvable => Judgement::Unsolvable,
    }
}

fn action_set(b: &mut Builder, term: &ActionTerm, instance: &mut Instance) -> u16 {
    if b.file.action_sets.len() + 2 >= MAX_ACTION_SETS {
        return any_actions(b);
    }
    if instance.slips() {
        let meant = action_set(b, term, instance);
        b.file.action_sets.push(b.file.action_sets[meant as usize]);
        let twin = b.random.chance(if *term == ActionTerm::All { 20 } else { 70 });
        return if twin { b.file.action_sets.len() as u16 - 1 } else { any_actions(b) };
    }
    match term {
        ActionTerm::Letter(letter) => {
            let entry = &mut instance.letters[*letter as usize];
            *entry.get_or_insert_with(|| any_actions(b))
        }
        ActionTerm::All => b.actions(ActionSetKind::All, b.file.all_marks()),
        ActionTerm::Union(s, t) => {
            let s = action_set(b, s, instance);
            let t = action_set(b, t, instance);
            b.action_union(s, t)
        }
    }
}

fn state_set(b: &mut Builder, term: &Term, instance: &mut Instance) -> u16 {
    if instance.slips() {
        let meant = state_set(b, term, instance);
        b.file.state_sets.push(b.file.state_sets[meant as usize]);
        // An entry of equal content does for 0, I and G, which match by kind.
        let constant = matches!(term, Term::Empty | Term::Init | Term::Goal);
        let twin = b.random.chance(if constant { 20 } else { 70 });
        return if twin { b.file.state_sets.len() as u16 - 1 } else { any_set(b) };
    }
    let set = match term {
        Term::Letter(letter) => {
            let entry = &mut instance.letters[*letter as usize];
            return *entry.get_or_insert_with(|| any_set(b));
        }
        Term::Empty => StateSet::Empty,
        Term::Init => StateSet::Init,
        Term::Goal => StateSet::Goal,
        Term::Complement(s) => StateSet::Complement(state_set(b, s, instance)),
        Term::Intersection(s, u) => {
            let s = state_set(b, s, instance);
            StateSet::Intersection(s, state_set(b, u, instance))
        }
        Term::Union(s, u) => {
            let s = state_set(b, s, instance);
            StateSet::Union(s, state_set(b, u, instance))
        }
        Term::Progression(s, a) => {
            let s = state_set(b, s, instance);
            StateSet::Progression(s, action_set(b, a, instance))
        }
        Term::Regression(s, a) => {
            let s = state_set(b, s, instance);
            StateSet::Regression(s, action_set(b, a, instance))
        }
    };
    b.set(set)
}

/// A random basic statement as rule and judgement; most have a permitted shape. Some
/// mix kinds 3 to 5, some have many leaves.
pub fn basic(b: &mut Builder) -> (u8, Judgement) {
    let rule = b.random.pick(&[1, 1, 2, 2, 2, 3, 3, 3, 4, 4, 5]);
    if rule == 5 {
        let (first, second) = (any_actions(b), any_actions(b));
        return (5, Judgement::ActionsWithin(first, second));
    }
    let method = b.random.pick(&[Method::Explicit, Method::Horn, Method::TwoCnf]);
    let mixed = rule == 4 || b.random.chance(10);
    let base: Vec<u16> = base_sets(b, if mixed { None } else { Some(method) });
    if rule == 4 {
        let left = literal(b, &base, 40);
        return (4, Judgement::Within(left, literal(b, &base, 40)));
    }
    (rule, over(b, &base, rule))
}

/// A statement of B1 to B3 over these sets.
pub fn over(b: &mut Builder, base: &[u16], rule: u8) -> Judgement {
    let wide = b.random.chance(20);
    let left = left_side(b, base, rule, wide);
    let count = b.random.pick(if wide { &[1, 2, 7, 8, 9] } else { &[1, 1, 1, 2, 2, 3] });
    // Of many right leaves most are empty: only two others are allowed over clauses.
    let leaf = |b: &mut Builder, k| if wide && k > 1 { EMPTY } else { literal(b, base, 25) };
    let right: Vec<u16> = (0..count).map(|k| leaf(b, k)).collect();
    let left = tree(b, &left, StateSet::Intersection);
    Judgement::Within(left, tree(b, &right, StateSet::Union))
}

/// The leaves of a left side: literals and for B2 and B3 mostly one bracket.
fn left_side(b: &mut Builder, base: &[u16], rule: u8, wide: bool) -> Vec<u16> {
    let count = b.random.pick(if wide { &[0, 3, 4, 6, 7, 8] } else { &[0, 1, 1, 1, 2, 2] });
    let mut left: Vec<u16> = (0..count).map(|_| literal(b, base, if wide { 10 } else { 30 })).collect();
    let brackets = if rule == 1 { 0 } else { b.random.pick(&[1, 1, 1, 1, 1, 1, 1, 1, 1, 2]) };
    for _ in 0..brackets.max((left.is_empty()) as usize) {
        let led = bracket(b, base, rule, wide);
        let at = b.random.below(left.len() + 1);
        left.insert(at, led);
    }
    left
}

/// Entries of kinds 0 to 5; of kinds 3 to 5 only those of the method, if one is given.
fn base_sets(b: &Builder, method: Option<Method>) -> Vec<u16> {
    let fits = |set: &StateSet| match set {
        StateSet::Empty | StateSet::Init | StateSet::Goal => true,
        StateSet::Explicit(_) => method.is_none_or(|m| m == Method::Explicit),
        StateSet::Horn(_) => method.is_none_or(|m| m == Method::Horn),
        StateSet::TwoCnf(_) => method.is_none_or(|m| m == Method::TwoCnf),
        _ => false,
    };
    let numbered = b.file.state_sets.iter().enumerate();
    let fitting: Vec<u16> = numbered.filter(|(_, set)| fits(set)).map(|(e, _)| e as u16).collect();
    // The constants are three of them; the later ones are the interesting ones.
    fitting.iter().chain(&fitting[3.min(fitting.len())..]).copied().collect()
}

/// An entry of the list, complemented in some percent of the cases.
fn literal(b: &mut Builder, base: &[u16], percent: usize) -> u16 {
    let set = b.random.pick(base);
    if b.random.chance(percent) {
        b.not(set)
    } else {
        set
    }
}

fn bracket(b: &mut Builder, base: &[u16], rule: u8, wide: bool) -> u16 {
    let count = if wide { b.random.between(1, 5) } else { b.random.between(1, 2) };
    let complemented = if b.random.chance(5) { 20 } else { 0 };
    let inside: Vec<u16> = (0..count).map(|_| literal(b, base, complemented)).collect();
    let inside = tree(b, &inside, StateSet::Intersection);
    let actions = any_actions(b);
    match rule {
        1 => inside,
        2 => b.set(StateSet::Progression(inside, actions)),
        _ => b.set(StateSet::Regression(inside, actions)),
    }
}

/// A tree over the leaves, split at random places.
fn tree(b: &mut Builder, leaves: &[u16], join: fn(u16, u16) -> StateSet) -> u16 {
    if let [leaf] = leaves {
        return *leaf;
    }
    let at = b.random.between(1, leaves.len() - 1);
    let left = tree(b, &leaves[..at], join);
    let right = tree(b, &leaves[at..], join);
    b.set(join(left, right))
}

/// Adds up to `count` true basic statements; others are taken back.
pub fn add_true_statements(b: &mut Builder, count: usize) {
    for _ in 0..count {
        let mark = b.mark();
        if !b.has_room() {
            return;
        }
        let (rule, judgement) = basic(b);
        if b.passing(rule, judgement, &[]).is_none() {
            b.take_back(mark);
        }
    }
}

/// Adds compound entries for questions, of depths up to 6, some with a progression.
pub fn add_compounds(b: &mut Builder, count: usize) {
    for _ in 0..count {
        let s = b.random.below(b.file.state_sets.len()) as u16;
        let u = b.random.below(b.file.state_sets.len()) as u16;
        let a = any_actions(b);
        let set = match b.random.below(20) {
            0 => StateSet::Progression(s, a),
            1..=4 => StateSet::Complement(s),
            5..=8 => StateSet::Intersection(s, u),
            9..=12 => StateSet::Union(s, u),
            _ => StateSet::Regression(s, a),
        };
        if b.has_room() {
            b.file.state_sets.push(set);
        }
    }
}
