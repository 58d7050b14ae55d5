//! The 28 rules by number: name, premise count, judgement kind and the text of
//! document 01. Rules 1 to 5 are the basic statements B1 to B5.

#[derive(Clone, Copy, Debug, PartialEq, Eq)]
pub struct Rule {
    pub number: u8,
    pub name: &'static str,
    pub premises: u8,
    /// 0 dead, 1 within, 2 action sets within, 3 unsolvable.
    pub judgement: u8,
    /// Premises and conclusion of rules 6 to 28; empty for basic statements.
    pub text: &'static str,
}

const fn rule(number: u8, name: &'static str, premises: u8, judgement: u8, text: &'static str) -> Rule {
    Rule { number, name, premises, judgement, text }
}

pub static RULES: [Rule; 28] = [
    rule(1, "B1", 0, 1, ""),
    rule(2, "B2", 0, 1, ""),
    rule(3, "B3", 0, 1, ""),
    rule(4, "B4", 0, 1, ""),
    rule(5, "B5", 0, 2, ""),
    rule(6, "ED", 0, 0, "0 dead"),
    rule(7, "UD", 2, 0, "S dead, U dead; S+U dead"),
    rule(8, "SD", 2, 0, "S<U, U dead; S dead"),
    rule(9, "PG", 3, 0, "S[T]<S+U, U dead, S&G dead; S dead"),
    rule(10, "PI", 3, 0, "S[T]<S+U, U dead, I<S; ~S dead"),
    rule(11, "RG", 3, 0, "[T]S<S+U, U dead, ~S&G dead; ~S dead"),
    rule(12, "RI", 3, 0, "[T]S<S+U, U dead, I<~S; S dead"),
    rule(13, "CI", 1, 3, "I dead; unsolvable"),
    rule(14, "CG", 1, 3, "G dead; unsolvable"),
    rule(15, "UR", 0, 1, "S<S+U"),
    rule(16, "UL", 0, 1, "S<U+S"),
    rule(17, "IR", 0, 1, "S&U<S"),
    rule(18, "IL", 0, 1, "U&S<S"),
    rule(19, "DI", 0, 1, "(S+U)&W<(S&W)+(U&W)"),
    rule(20, "SU", 2, 1, "S<W, U<W; S+U<W"),
    rule(21, "SI", 2, 1, "S<U, S<W; S<U&W"),
    rule(22, "ST", 2, 1, "S<U, U<W; S<W"),
    rule(23, "AT", 2, 1, "S[A]<U, B within A; S[B]<U"),
    rule(24, "AU", 2, 1, "S[A]<U, S[B]<U; S[A+B]<U"),
    rule(25, "PT", 2, 1, "S[A]<W, U<S; U[A]<W"),
    rule(26, "PU", 2, 1, "S[A]<W, U[A]<W; (S+U)[A]<W"),
    rule(27, "PR", 1, 1, "S[A]<U; [A]~U<~S"),
    rule(28, "RP", 1, 1, "[A]S<U; (~U)[A]<~S"),
];

/// The rule of a number, where there is one.
#[inline]
pub fn by_number(number: u8) -> Option<&'static Rule> {
    RULES.get((number as usize).wrapping_sub(1))
}

pub fn by_name(name: &str) -> Option<&'static Rule> {
    RULES.iter().find(|rule| rule.name == name)
}

/// How many of the two entry numbers a judgement kind uses.
#[inline]
pub fn entries_used(judgement: u8) -> usize {
    match judgement {
        0 => 1,
        1 | 2 => 2,
        _ => 0,
    }
}
