//! The rules: Figure 1 of 003 without the quantifiers, and Gentzen's rules for and and or, read
//! from the conclusion upward.

use super::formula::Formula;
use super::formula::Formula::{And, Atom, False, Implies, Or, Says};
use super::sequent::Judgment::{Affirms, True};
use super::sequent::Sequent;
use super::step::Rule;

/// The premises, in order, of a rule whose conclusion is `below` and whose named hypothesis is
/// `named`: one arm for each row of 01's table. "Principal propositions of left rules implicitly
/// remain available in all premises": nothing is ever taken out of the hypotheses. Where the rule
/// doesn't fit, the refusal's number, 13 or 14.
pub fn premises<'a>(
    rule: Rule,
    below: &Sequent<'a>,
    named: Option<&'a Formula>,
) -> Result<Vec<Sequent<'a>>, u8> {
    match (rule, below.goal, named) {
        // INIT: Γ, P true ⟹ P true, for an atom P.
        (Rule::Init, True(Atom(p)), Some(Atom(q))) if p == q => Ok(vec![]),
        // AFF: K affirms A, from A true.
        (Rule::Affirm, Affirms(_, a), None) => Ok(vec![below.to(True(a))]),
        // ⊃R: A implies B, from B with A added.
        (Rule::ImpliesRight, True(Implies(a, b)), None) => Ok(vec![below.with(a).to(True(b))]),
        // ⊃L: any goal γ, from A true (a truth, whatever γ is), and from γ with B added.
        (Rule::ImpliesLeft, _, Some(Implies(a, b))) => Ok(vec![below.to(True(a)), below.with(b)]),
        // ⊥L: any goal, from nothing.
        (Rule::FalseLeft, _, Some(False)) => Ok(vec![]),
        // And right: A and B, from A; from B.
        (Rule::AndRight, True(And(a, b)), None) => Ok(vec![below.to(True(a)), below.to(True(b))]),
        // And left: any goal, from the goal with A and B added.
        (Rule::AndLeft, _, Some(And(a, b))) => Ok(vec![below.with(a).with(b)]),
        // Or right first: A or B, from A.
        (Rule::OrRightFirst, True(Or(a, _)), None) => Ok(vec![below.to(True(a))]),
        // Or right second: A or B, from B.
        (Rule::OrRightSecond, True(Or(_, b)), None) => Ok(vec![below.to(True(b))]),
        // Or left: any goal, from the goal with A added; from the goal with B added.
        (Rule::OrLeft, _, Some(Or(a, b))) => Ok(vec![below.with(a), below.with(b)]),
        // saysR: K says A, from K affirms A.
        (Rule::SaysRight, True(Says(k, a)), None) => Ok(vec![below.to(Affirms(*k, a))]),
        // saysL: K affirms C, naming K says A with the same K, from the same goal with A added.
        (Rule::SaysLeft, Affirms(k, _), Some(Says(same, a))) if k == *same => {
            Ok(vec![below.with(a)])
        }
        // Test 14: code 11 names a says-formula of K and the goal isn't an affirmation by K.
        (Rule::SaysLeft, _, Some(Says(..))) => Err(14),
        // Test 13: not the goal or not the named formula that the rule needs.
        _ => Err(13),
    }
}
