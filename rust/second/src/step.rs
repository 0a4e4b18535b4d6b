//! One step word: "code × 4,096 + the named formula's number; where the rule names none that part
//! is 0".

/// The rules by name, in the order of their codes.
#[derive(Clone, Copy, PartialEq, Eq)]
pub enum Rule {
    Init,
    Affirm,
    ImpliesRight,
    ImpliesLeft,
    FalseLeft,
    AndRight,
    AndLeft,
    OrRightFirst,
    OrRightSecond,
    OrLeft,
    SaysRight,
    SaysLeft,
}

use self::Rule::*;

/// The rule of each code.
const RULES: [Rule; 12] = [
    Init,
    Affirm,
    ImpliesRight,
    ImpliesLeft,
    FalseLeft,
    AndRight,
    AndLeft,
    OrRightFirst,
    OrRightSecond,
    OrLeft,
    SaysRight,
    SaysLeft,
];

/// A rule and the number of the hypothesis it names, if it is one that names any.
pub struct Step {
    pub rule: Rule,
    pub named: Option<u16>,
}

impl Step {
    /// Test 11: none when "the code is 12 or more, or a rule that names nothing has a part other
    /// than 0".
    pub fn read(word: u16) -> Option<Step> {
        let rule = *RULES.get(usize::from(word / 4096))?;
        let part = word % 4096;
        match rule {
            Init | ImpliesLeft | FalseLeft | AndLeft | OrLeft | SaysLeft => {
                Some(Step { rule, named: Some(part) })
            }
            Affirm | ImpliesRight | AndRight | OrRightFirst | OrRightSecond | SaysRight => {
                (part == 0).then_some(Step { rule, named: None })
            }
        }
    }
}
