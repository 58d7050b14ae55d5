//! Rules 6 to 28: whether a step's premises and conclusion match the rule's pattern.
//! A pattern is matched through kinds down to its letters; a letter is one entry
//! number throughout, and 0, I, G and T match by kind. A premise that would not pass itself
//! may name entries that the file does not have: such a number is of no kind.

use crate::fault::StepCause;
use crate::file::{ActionSetKind, File, Judgement, StateSet, Step};
use StepCause::{Conclusion, Premise};

type Matched<T> = Result<T, StepCause>;

/// Whether the step, whose own fields are lawful, follows by its rule (else reply 9).
pub fn check(file: &File, step: &Step) -> Matched<()> {
    let c = Context { file, step };
    match step.rule {
        6 => c.ed(),
        7 => c.ud(),
        8 => c.sd(),
        9 => c.pg(),
        10 => c.pi(),
        11 => c.rg(),
        12 => c.ri(),
        13 | 14 => c.unsolvable(step.rule == 13),
        15..=18 => c.part_of_whole(),
        19 => c.di(),
        20 => c.su(),
        21 => c.si(),
        22 => c.st(),
        23 => c.at(),
        24 => c.au(),
        25 => c.pt(),
        26 => c.pu(),
        27 => c.pr(),
        _ => c.rp(),
    }
}

/// Gives the value, or blames a part of the step.
fn or_blame<T>(value: Option<T>, part: StepCause) -> Matched<T> {
    value.ok_or(part)
}

fn need(holds: bool, part: StepCause) -> Matched<()> {
    if holds {
        Ok(())
    } else {
        Err(part)
    }
}

struct Context<'a> {
    file: &'a File,
    step: &'a Step,
}

/// Taking entries and judgements apart.
impl Context<'_> {
    /// The entry of a number, where the file has one.
    fn set(&self, entry: u16) -> Option<StateSet> {
        self.file.state_sets.get(entry as usize).copied()
    }

    fn complement(&self, entry: u16) -> Option<u16> {
        let Some(StateSet::Complement(s)) = self.set(entry) else { return None };
        Some(s)
    }

    fn union(&self, entry: u16) -> Option<(u16, u16)> {
        let Some(StateSet::Union(s, u)) = self.set(entry) else { return None };
        Some((s, u))
    }

    fn intersection(&self, entry: u16) -> Option<(u16, u16)> {
        let Some(StateSet::Intersection(s, u)) = self.set(entry) else { return None };
        Some((s, u))
    }

    fn progression(&self, entry: u16) -> Option<(u16, u16)> {
        let Some(StateSet::Progression(s, a)) = self.set(entry) else { return None };
        Some((s, a))
    }

    fn regression(&self, entry: u16) -> Option<(u16, u16)> {
        let Some(StateSet::Regression(s, a)) = self.set(entry) else { return None };
        Some((s, a))
    }

    fn is_all(&self, actions: u16) -> bool {
        self.file.action_sets[actions as usize].kind == ActionSetKind::All
    }

    /// The judgement of the k-th premise, counted from 1.
    fn premise(&self, k: u8) -> Option<Judgement> {
        let number = self.step.premises[k as usize - 1];
        self.file.steps[number as usize].judgement()
    }

    fn dead(&self, k: u8) -> Matched<u16> {
        let Some(Judgement::Dead(s)) = self.premise(k) else { return Err(Premise(k)) };
        Ok(s)
    }

    fn within(&self, k: u8) -> Matched<(u16, u16)> {
        let Some(Judgement::Within(s, u)) = self.premise(k) else { return Err(Premise(k)) };
        Ok((s, u))
    }

    /// S[A]<U as premise k: S, A, U.
    fn progression_within(&self, k: u8) -> Matched<(u16, u16, u16)> {
        let (e, u) = self.within(k)?;
        let (s, a) = or_blame(self.progression(e), Premise(k))?;
        Ok((s, a, u))
    }

    /// [A]S<U as premise k: S, A, U.
    fn regression_within(&self, k: u8) -> Matched<(u16, u16, u16)> {
        let (e, u) = self.within(k)?;
        let (s, a) = or_blame(self.regression(e), Premise(k))?;
        Ok((s, a, u))
    }

    /// The state set of a conclusion "E dead" and the first of "E within F".
    fn first(&self) -> u16 {
        self.step.entries[0]
    }

    /// The second state set of a conclusion "E within F".
    fn second(&self) -> u16 {
        self.step.entries[1]
    }
}

/// Rules that conclude that a set is dead, or that the task is unsolvable.
impl Context<'_> {
    fn ed(&self) -> Matched<()> {
        need(self.set(self.first()) == Some(StateSet::Empty), Conclusion)
    }

    fn ud(&self) -> Matched<()> {
        let (s, u) = (self.dead(1)?, self.dead(2)?);
        need(self.union(self.first()) == Some((s, u)), Conclusion)
    }

    fn sd(&self) -> Matched<()> {
        let (s, u) = self.within(1)?;
        need(self.dead(2)? == u, Premise(2))?;
        need(self.first() == s, Conclusion)
    }

    /// Premise 1 "S[T] or [T]S within S+U" taken apart, and premise 2 "U dead": S.
    fn closed_up_to_dead(&self, (s, all, whole): (u16, u16, u16)) -> Matched<u16> {
        need(self.is_all(all), Premise(1))?;
        let (same, u) = or_blame(self.union(whole), Premise(1))?;
        need(same == s, Premise(1))?;
        need(self.dead(2)? == u, Premise(2))?;
        Ok(s)
    }

    fn pg(&self) -> Matched<()> {
        let s = self.closed_up_to_dead(self.progression_within(1)?)?;
        let (same, goal) = or_blame(self.intersection(self.dead(3)?), Premise(3))?;
        need(same == s && self.set(goal) == Some(StateSet::Goal), Premise(3))?;
        need(self.first() == s, Conclusion)
    }

    fn pi(&self) -> Matched<()> {
        let s = self.closed_up_to_dead(self.progression_within(1)?)?;
        let (init, same) = self.within(3)?;
        need(same == s && self.set(init) == Some(StateSet::Init), Premise(3))?;
        need(self.complement(self.first()) == Some(s), Conclusion)
    }

    fn rg(&self) -> Matched<()> {
        let s = self.closed_up_to_dead(self.regression_within(1)?)?;
        let (not_s, goal) = or_blame(self.intersection(self.dead(3)?), Premise(3))?;
        need(self.complement(not_s) == Some(s) && self.set(goal) == Some(StateSet::Goal), Premise(3))?;
        need(self.complement(self.first()) == Some(s), Conclusion)
    }

    fn ri(&self) -> Matched<()> {
        let s = self.closed_up_to_dead(self.regression_within(1)?)?;
        let (init, not_s) = self.within(3)?;
        need(self.complement(not_s) == Some(s) && self.set(init) == Some(StateSet::Init), Premise(3))?;
        need(self.first() == s, Conclusion)
    }

    fn unsolvable(&self, by_init: bool) -> Matched<()> {
        let wanted = if by_init { StateSet::Init } else { StateSet::Goal };
        need(self.set(self.dead(1)?) == Some(wanted), Premise(1))
    }
}

/// Rules that conclude that one state set is within another.
impl Context<'_> {
    /// UR, UL, IR and IL.
    fn part_of_whole(&self) -> Matched<()> {
        let (e, f) = (self.first(), self.second());
        let holds = match self.step.rule {
            15 => self.union(f).is_some_and(|(s, _)| s == e),
            16 => self.union(f).is_some_and(|(_, s)| s == e),
            17 => self.intersection(e).is_some_and(|(s, _)| s == f),
            _ => self.intersection(e).is_some_and(|(_, s)| s == f),
        };
        need(holds, Conclusion)
    }

    fn di(&self) -> Matched<()> {
        let distributed = || {
            let (whole, w) = self.intersection(self.first())?;
            let (s, u) = self.union(whole)?;
            let (left, right) = self.union(self.second())?;
            let parts = (self.intersection(left)?, self.intersection(right)?);
            (parts == ((s, w), (u, w))).then_some(())
        };
        or_blame(distributed(), Conclusion)
    }

    fn su(&self) -> Matched<()> {
        let ((s, w), (u, same)) = (self.within(1)?, self.within(2)?);
        need(same == w, Premise(2))?;
        need(self.union(self.first()) == Some((s, u)) && self.second() == w, Conclusion)
    }

    fn si(&self) -> Matched<()> {
        let ((s, u), (same, w)) = (self.within(1)?, self.within(2)?);
        need(same == s, Premise(2))?;
        need(self.first() == s && self.intersection(self.second()) == Some((u, w)), Conclusion)
    }

    fn st(&self) -> Matched<()> {
        let ((s, u), (same, w)) = (self.within(1)?, self.within(2)?);
        need(same == u, Premise(2))?;
        need(self.first() == s && self.second() == w, Conclusion)
    }

    fn at(&self) -> Matched<()> {
        let (s, a, u) = self.progression_within(1)?;
        let Some(Judgement::ActionsWithin(b, same)) = self.premise(2) else {
            return Err(Premise(2));
        };
        need(same == a, Premise(2))?;
        need(self.progression(self.first()) == Some((s, b)) && self.second() == u, Conclusion)
    }

    fn au(&self) -> Matched<()> {
        let (s, a, u) = self.progression_within(1)?;
        let (same_s, b, same_u) = self.progression_within(2)?;
        need(same_s == s && same_u == u, Premise(2))?;
        let (same, both) = or_blame(self.progression(self.first()), Conclusion)?;
        let united = self.file.action_sets[both as usize].kind == ActionSetKind::Union(a, b);
        need(same == s && united && self.second() == u, Conclusion)
    }

    fn pt(&self) -> Matched<()> {
        let (s, a, w) = self.progression_within(1)?;
        let (u, same) = self.within(2)?;
        need(same == s, Premise(2))?;
        need(self.progression(self.first()) == Some((u, a)) && self.second() == w, Conclusion)
    }

    fn pu(&self) -> Matched<()> {
        let (s, a, w) = self.progression_within(1)?;
        let (u, same_a, same_w) = self.progression_within(2)?;
        need(same_a == a && same_w == w, Premise(2))?;
        let (whole, same) = or_blame(self.progression(self.first()), Conclusion)?;
        need(same == a && self.union(whole) == Some((s, u)) && self.second() == w, Conclusion)
    }

    fn pr(&self) -> Matched<()> {
        let (s, a, u) = self.progression_within(1)?;
        let (not_u, same) = or_blame(self.regression(self.first()), Conclusion)?;
        let complements = (self.complement(not_u), self.complement(self.second()));
        need(same == a && complements == (Some(u), Some(s)), Conclusion)
    }

    fn rp(&self) -> Matched<()> {
        let (s, a, u) = self.regression_within(1)?;
        let (not_u, same) = or_blame(self.progression(self.first()), Conclusion)?;
        let complements = (self.complement(not_u), self.complement(self.second()));
        need(same == a && complements == (Some(u), Some(s)), Conclusion)
    }
}
