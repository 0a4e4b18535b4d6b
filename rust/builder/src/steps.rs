//! Step words: "code × 4,096 + the named formula's number; where the rule names none that part is
//! 0".

/// The words of the rules, to which a rule that names a formula adds its number.
pub const INIT: u16 = 0;
pub const AFFIRM: u16 = 4096;
pub const IMPLIES_RIGHT: u16 = 2 * 4096;
pub const IMPLIES_LEFT: u16 = 3 * 4096;
pub const FALSE_LEFT: u16 = 4 * 4096;
pub const AND_RIGHT: u16 = 5 * 4096;
pub const AND_LEFT: u16 = 6 * 4096;
pub const OR_RIGHT_FIRST: u16 = 7 * 4096;
pub const OR_RIGHT_SECOND: u16 = 8 * 4096;
pub const OR_LEFT: u16 = 9 * 4096;
pub const SAYS_RIGHT: u16 = 10 * 4096;
pub const SAYS_LEFT: u16 = 11 * 4096;

/// The first word that is of no rule.
pub const NO_RULE: u16 = 12 * 4096;

/// The rules' names by code.
pub const RULES: [&str; 12] = [
    "init",
    "affirm",
    "implies right",
    "implies left",
    "false left",
    "and right",
    "and left",
    "or right first",
    "or right second",
    "or left",
    "says right",
    "says left",
];

/// The step's code.
pub fn code(step: u16) -> u16 {
    step / 4096
}

/// The step's part, the number of the formula that it names if its rule names one.
pub fn part(step: u16) -> u16 {
    step % 4096
}

/// The word of the step's rule, without a part.
pub fn rule(step: u16) -> u16 {
    step - part(step)
}

/// Whether the step's rule names a formula.
pub fn names(step: u16) -> bool {
    let naming = [INIT, IMPLIES_LEFT, FALSE_LEFT, AND_LEFT, OR_LEFT, SAYS_LEFT];
    naming.contains(&rule(step))
}

/// How many premises the step's rule has.
pub fn premises(step: u16) -> usize {
    match rule(step) {
        INIT | FALSE_LEFT => 0,
        IMPLIES_LEFT | AND_RIGHT | OR_LEFT => 2,
        _ => 1,
    }
}
