//! Reply 9: the entry that is told stands where it is told to stand, and the rule has something else
//! there. The places of a pattern are listed here from the rule's text and the file's sets.

use crate::common::{follows, kind};
use crate::{explained, Tally};
use reference::derivation;
use reference::draft::{Draft, DraftActions, DraftSet};
use reference::explain::pattern::{Entry, MatchFault, Met, Mismatch, Part, Role};
use reference::explain::Why;
use reference::fault::StepCause;
use reference::file::Step;
use reference::generate::applications::{add_pool, apply_unproved, patterns, places};
use reference::generate::builder::Builder;
use reference::generate::random::Random;
use reference::generate::tasks;
use reference::pattern::{ActionTerm, Claim, Term};
use reference::rules::RULES;
use Entry::{Actions, States};

/// A place of a pattern: a letter, or a part that wants a kind; and the entry that stands there.
enum Wants {
    Letter(u8),
    Kind(u8),
}

struct Place {
    wants: Wants,
    met: Met,
}

/// The places of a pattern in the order of the rule's text, as deep as the kinds of the entries go.
struct Places<'a> {
    draft: &'a Draft,
    part: Part,
    list: Vec<Place>,
}

impl Places<'_> {
    fn add(&mut self, wants: Wants, entry: Entry, role: Role) {
        self.list.push(Place { wants, met: Met { entry, part: self.part, role } });
    }

    /// The places of a premise or conclusion; false where the judgement is of another kind.
    fn claim(&mut self, claim: &Claim, step: &Step) -> bool {
        let [e, f] = step.entries;
        match (claim, step.kind) {
            (Claim::Dead(s), 0) => self.term(s, e, Role::Dead),
            (Claim::Within(s, u), 1) => {
                self.term(s, e, Role::Left);
                self.term(u, f, Role::Right);
            }
            (Claim::ActionsWithin(s, u), 2) => {
                self.actions(s, e, Role::Left);
                self.actions(u, f, Role::Right);
            }
            (Claim::Unsolvable, 3) => (),
            _ => return false,
        }
        true
    }

    fn term(&mut self, term: &Term, entry: u16, role: Role) {
        let here = States(entry);
        let wanted = match term {
            Term::Letter(letter) => return self.add(Wants::Letter(*letter), here, role),
            Term::Empty => 0,
            Term::Init => 1,
            Term::Goal => 2,
            Term::Complement(_) => 6,
            Term::Intersection(..) => 7,
            Term::Union(..) => 8,
            Term::Progression(..) => 9,
            Term::Regression(..) => 10,
        };
        self.add(Wants::Kind(wanted), here, role);
        let set = self.draft.state_sets[entry as usize].clone();
        match (term, set) {
            (Term::Complement(s), DraftSet::Complement(a)) => self.term(s, a, Role::Complemented(entry)),
            (Term::Intersection(s, u), DraftSet::Intersection(a, b))
            | (Term::Union(s, u), DraftSet::Union(a, b)) => {
                self.term(s, a, Role::First(here));
                self.term(u, b, Role::Second(here));
            }
            (Term::Progression(s, t), DraftSet::Progression(a, b))
            | (Term::Regression(s, t), DraftSet::Regression(a, b)) => {
                self.term(s, a, Role::StatesOf(entry));
                self.actions(t, b, Role::ActionsOf(entry));
            }
            _ => (),
        }
    }

    fn actions(&mut self, term: &ActionTerm, entry: u16, role: Role) {
        let here = Actions(entry);
        match (term, &self.draft.action_sets[entry as usize]) {
            (ActionTerm::Letter(letter), _) => self.add(Wants::Letter(*letter), here, role),
            (ActionTerm::All, _) => self.add(Wants::Kind(0), here, role),
            (ActionTerm::Union(s, u), set) => {
                let parts = if let DraftActions::Union(a, b) = set { Some((*a, *b)) } else { None };
                self.add(Wants::Kind(2), here, role);
                if let Some((a, b)) = parts {
                    self.actions(s, a, Role::First(here));
                    self.actions(u, b, Role::Second(here));
                }
            }
        }
    }
}

fn entry_kind(draft: &Draft, entry: Entry) -> u8 {
    match entry {
        States(e) => kind(&draft.state_sets[e as usize]),
        Actions(e) => match draft.action_sets[e as usize] {
            DraftActions::All => 0,
            DraftActions::List(_) => 1,
            DraftActions::Union(..) => 2,
        },
    }
}

/// The first place at which the step parts from its rule: the part, and the entries that are told.
#[derive(Debug, PartialEq, Eq)]
enum Parts {
    Judgement(u8, u8),
    Kind(u8, Met),
    Letter(char, Met, Met),
}

fn first_difference(draft: &Draft, step: &Step) -> Option<(Part, Parts)> {
    let pattern = &patterns()[step.rule as usize - 6];
    let mut letters: Vec<(u8, Met)> = Vec::new();
    let premises = (0..pattern.premises.len())
        .map(|k| (Part::Premise(k as u8 + 1), &pattern.premises[k], draft.steps[step.premises[k] as usize]));
    for (part, claim, step) in premises.chain([(Part::Conclusion, &pattern.conclusion, *step)]) {
        let mut places = Places { draft, part, list: Vec::new() };
        if !places.claim(claim, &step) {
            let wanted = match claim {
                Claim::Dead(_) => 0,
                Claim::Within(..) => 1,
                Claim::ActionsWithin(..) => 2,
                Claim::Unsolvable => 3,
            };
            return Some((part, Parts::Judgement(wanted, step.kind)));
        }
        for Place { wants, met } in places.list {
            match wants {
                Wants::Kind(kind) if entry_kind(draft, met.entry) != kind => {
                    return Some((part, Parts::Kind(kind, met)))
                }
                Wants::Kind(_) => (),
                Wants::Letter(letter) => match letters.iter().find(|(other, _)| *other == letter) {
                    None => letters.push((letter, met)),
                    Some((_, first)) if first.entry != met.entry => {
                        return Some((part, Parts::Letter(letter as char, *first, met)));
                    }
                    Some(_) => (),
                },
            }
        }
    }
    None
}

/// What is told as a value.
fn told(found: &Mismatch) -> (Part, Parts) {
    let parts = match &found.fault {
        MatchFault::Judgement { wanted, found } => Parts::Judgement(*wanted, *found),
        MatchFault::Kind { wanted, found } => Parts::Kind(wanted.kind, *found),
        MatchFault::Letter { letter, first, second } => Parts::Letter(*letter, *first, *second),
    };
    (found.part, parts)
}

/// The part of the rule's text that is told is the one that it has there, and what was wanted is in it.
fn is_in_the_rule(rule: u8, found: &Mismatch) -> bool {
    let text = RULES[rule as usize - 1].text;
    let (premises, conclusion) = text.split_once("; ").unwrap_or(("", text));
    let claim = match found.part {
        Part::Premise(k) => premises.split(", ").nth(k as usize - 1),
        Part::Conclusion => Some(conclusion),
    };
    let term = match &found.fault {
        MatchFault::Judgement { .. } => String::new(),
        MatchFault::Kind { wanted, .. } => wanted.term.clone(),
        MatchFault::Letter { letter, .. } => letter.to_string(),
    };
    claim == Some(&found.claim) && found.claim.contains(&term)
}

fn label(parts: &Parts) -> &'static str {
    match parts {
        Parts::Judgement(..) => "judgement",
        Parts::Kind(..) => "kind",
        Parts::Letter(..) => "letter",
    }
}

#[test]
fn applications_with_one_wrong_place() {
    let mut seen: Tally<(u8, &'static str)> = Tally::new();
    for seed in 0..800 {
        let mut random = Random::new(seed);
        let (task, _) = tasks::reachable(&mut random, 3, 8);
        for rule in 6..=28 {
            let mut b = Builder::new(task.clone(), &mut random);
            add_pool(&mut b);
            let slip = Some(b.random.below(places(rule)));
            let mut step = apply_unproved(&mut b, rule, slip);
            let count = RULES[rule as usize - 1].premises as usize;
            if count > 0 && b.random.chance(20) {
                let other = b.random.pick(&[6, 8, 13, 20, 23]);
                apply_unproved(&mut b, other, None);
                step.premises[b.random.below(count)] = b.file.steps.len() as u16 - 1;
            }
            let found = reference::explain::pattern::mismatch(&b.file, &step);
            assert_eq!(found.is_none(), follows(&b.file, &step), "seed {seed}, rule {rule}");
            let Some(found) = found else { continue };
            let blamed = match derivation::check(&b.file, &step) {
                Err(StepCause::Premise(k)) => Some(Part::Premise(k)),
                Err(StepCause::Conclusion) => Some(Part::Conclusion),
                _ => None,
            };
            let told = told(&found);
            assert_eq!(blamed, Some(told.0), "seed {seed}, rule {rule}, {found:?}");
            assert!(is_in_the_rule(rule, &found), "seed {seed}, {found:?}");
            seen.add((rule, label(&told.1)));
            assert_eq!(first_difference(&Draft::of(&b.file), &step), Some(told), "seed {seed}, rule {rule}");
        }
    }
    // ED, CI and CG have no letters; SD and ST have nothing else.
    seen.each_at_least(15, (7..=28).filter(|rule| ![13, 14].contains(rule)).map(|rule| (rule, "letter")));
    seen.each_at_least(10, (6..=28).filter(|rule| ![8, 22].contains(rule)).map(|rule| (rule, "kind")));
    let premises = (7..=28).filter(|rule| RULES[*rule as usize - 1].premises > 0);
    seen.each_at_least(15, premises.map(|rule| (rule, "judgement")));
}

/// The entry as explanations write its number.
fn number(entry: Entry) -> String {
    match entry {
        States(e) => format!("set {e} "),
        Actions(e) => format!("actions {e} "),
    }
}

#[test]
fn whole_files() {
    let mut seen: Tally<&'static str> = Tally::new();
    for case in reference::generate::cases(32, 5000).filter(|case| case.is_check()) {
        let explained = explained(&case.bytes);
        let Why::Pattern(found) = &explained.why else { continue };
        let (part, parts) = told(found);
        let part = match part {
            Part::Premise(k) => format!("\nPremise {k}, step "),
            Part::Conclusion => "\nThe conclusion, this step itself,".to_string(),
        };
        let there = format!(" does not match {}:\n", found.claim);
        let stands = match parts {
            Parts::Judgement(_, kind) => {
                let name =
                    ["E dead", "E within F", "A within B, of action sets", "unsolvable"][kind as usize];
                format!("\nThere stands: \"{name}\" (judgement kind {kind}).\n")
            }
            Parts::Kind(_, met) | Parts::Letter(_, _, met) => {
                format!("\nThere stands: {}", number(met.entry))
            }
        };
        let text = &explained.text;
        assert!(text.contains(&part) && text.contains(&there) && text.contains(&stands), "{stands}\n{text}");
        if let Parts::Letter(letter, first, _) = parts {
            assert!(text.contains(&format!(": {letter}, which is {}", number(first.entry))), "{text}");
        }
        seen.add(label(&parts));
    }
    seen.each_at_least(30, ["judgement", "kind", "letter"]);
}
