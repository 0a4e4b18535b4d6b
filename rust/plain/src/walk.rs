//! Tests 9 to 15: the walk through the steps, without recursion. What a premise adds is marked at
//! its number; what is still to be done stands on one stack: second premises to be proved, and
//! marks to be taken back before them.

use super::limits::{MOST_DEPTH, MOST_FORMULAS};
use super::words::Words;
use super::{refuse, Refusal};

/// A truth of a formula, or its affirmation by a principal.
#[derive(Clone, Copy, PartialEq, Eq)]
pub struct Goal {
    pub formula: u16,
    pub by: u16,
}

/// Stands for the principal of a truth: no principal has this number.
pub const NOBODY: u16 = u16::MAX;

/// What follows a walk: it is told each step that fits, and after test 15 it may make a test of its
/// own.
pub trait Follow {
    #[inline(always)]
    fn step(&mut self, _word: u16, _goal: Goal) {}

    fn end(&mut self, _heads: Words, _seconds: Words) -> Result<(), Refusal> {
        Ok(())
    }
}

/// Follows a walk and does nothing.
pub struct Nothing;

impl Follow for Nothing {}

fn truth(formula: u16) -> Goal {
    Goal { formula, by: NOBODY }
}

/// What is still to be done once the premise at hand is closed.
#[derive(Clone, Copy)]
enum Due {
    Release(u16),
    Prove { goal: Goal, added: Option<u16>, depth: u16 },
}

const ATOM: u16 = 0;
const FALSE: u16 = 1;
const IMPLIES: u16 = 2;
const AND: u16 = 3;
const OR: u16 = 4;
const SAYS: u16 = 5;

pub struct Walk<'a> {
    heads: Words<'a>,
    seconds: Words<'a>,
    steps: Words<'a>,
    next: usize,
    held: &'a mut [bool],
    /// Marks of what says lefts name; an exchange file lends none.
    opened: &'a mut [bool],
    due: Vec<Due>,
}

/// Lends marks of each formula, so many times, all of them off; a short table has few to clear.
pub fn with_marks<const TIMES: usize, T>(
    formulas: usize,
    run: impl FnOnce([&mut [bool]; TIMES]) -> T,
) -> T {
    match formulas {
        0..=64 => run([[false; 64]; TIMES].each_mut().map(|marks| &mut marks[..formulas])),
        65..=512 => run([[false; 512]; TIMES].each_mut().map(|marks| &mut marks[..formulas])),
        _ => run([[false; MOST_FORMULAS]; TIMES].each_mut().map(|marks| &mut marks[..formulas])),
    }
}

impl<'a> Walk<'a> {
    pub fn new(
        heads: Words<'a>,
        seconds: Words<'a>,
        steps: Words<'a>,
        held: &'a mut [bool],
        opened: &'a mut [bool],
    ) -> Self {
        Walk { heads, seconds, steps, next: 0, held, opened, due: Vec::new() }
    }

    /// Holds one list's statements instead of another's.
    pub fn hold_instead(&mut self, old: Words, new: Words) {
        old.iter().for_each(|n| self.held[n as usize] = false);
        new.iter().for_each(|n| self.held[n as usize] = true);
    }

    /// Test 15.
    pub fn end(&self) -> Result<(), Refusal> {
        if self.next < self.steps.len() {
            return refuse(15, self.next);
        }
        Ok(())
    }

    /// Tests 9 to 14 for the steps of one proof. Afterwards the same formulas are held as before.
    pub fn prove(&mut self, formula: u16, follow: &mut impl Follow) -> Result<(), Refusal> {
        let (mut goal, mut depth) = (truth(formula), 1);
        loop {
            let place = self.next;
            let Some(word) = self.steps.get(place) else {
                return refuse(9, place);
            };
            self.next += 1;
            let premise = match self.step(word, goal, depth) {
                Err(number) => return refuse(number, place),
                Ok(premise) => premise,
            };
            follow.step(word, goal);
            match premise {
                Some(premise) => (goal, depth) = (premise, depth + 1),
                None => match self.resume() {
                    Some(open) => (goal, depth) = open,
                    None => return Ok(()),
                },
            }
        }
    }

    /// Tests 10 to 14 for one step: the goal of its first premise, none where it has no premise, or
    /// a refusal's number.
    #[inline(always)]
    fn step(&mut self, word: u16, goal: Goal, depth: u16) -> Result<Option<Goal>, u8> {
        if depth > MOST_DEPTH {
            return Err(10);
        }
        let n = word & 4095;
        let premise = match word >> 12 {
            0 => {
                self.left(n, ATOM)?;
                return if goal == truth(n) { Ok(None) } else { Err(13) };
            }
            1 if n != 0 => return Err(11),
            1 if goal.by == NOBODY => return Err(13),
            1 => truth(goal.formula),
            2 => {
                let (a, b) = self.right(n, goal, IMPLIES)?;
                self.hold(a);
                truth(b)
            }
            3 => {
                let (a, b) = self.left(n, IMPLIES)?;
                self.due.push(Due::Prove { goal, added: Some(b), depth: depth + 1 });
                truth(a)
            }
            4 => {
                self.left(n, FALSE)?;
                return Ok(None);
            }
            5 => {
                let (a, b) = self.right(n, goal, AND)?;
                self.due.push(Due::Prove { goal: truth(b), added: None, depth: depth + 1 });
                truth(a)
            }
            6 => {
                let (a, b) = self.left(n, AND)?;
                self.hold(a);
                self.hold(b);
                goal
            }
            7 => truth(self.right(n, goal, OR)?.0),
            8 => truth(self.right(n, goal, OR)?.1),
            9 => {
                let (a, b) = self.left(n, OR)?;
                self.due.push(Due::Prove { goal, added: Some(b), depth: depth + 1 });
                self.hold(a);
                goal
            }
            10 => {
                let (by, formula) = self.right(n, goal, SAYS)?;
                Goal { formula, by }
            }
            11 => {
                let (by, a) = self.left(n, SAYS)?;
                if by != goal.by {
                    return Err(14);
                }
                if let Some(mark) = self.opened.get_mut(n as usize) {
                    *mark = true;
                }
                self.hold(a);
                goal
            }
            _ => return Err(11),
        };
        Ok(Some(premise))
    }

    /// The operands of the goal, for a rule that names nothing and needs a truth of this kind: 11,
    /// then 13.
    #[inline(always)]
    fn right(&self, n: u16, goal: Goal, kind: u16) -> Result<(u16, u16), u8> {
        if n != 0 {
            return Err(11);
        }
        if goal.by != NOBODY {
            return Err(13);
        }
        self.operands(goal.formula, kind)
    }

    /// The operands of the named formula, for a rule that needs one of this kind: 12, then 13.
    #[inline(always)]
    fn left(&self, n: u16, kind: u16) -> Result<(u16, u16), u8> {
        if self.held.get(n as usize) != Some(&true) {
            return Err(12);
        }
        self.operands(n, kind)
    }

    #[inline(always)]
    fn operands(&self, n: u16, kind: u16) -> Result<(u16, u16), u8> {
        let head = self.heads.at(n as usize);
        if head >> 12 != kind {
            return Err(13);
        }
        Ok((head & 4095, self.seconds.at(n as usize)))
    }

    #[inline(always)]
    fn hold(&mut self, n: u16) {
        let mark = &mut self.held[n as usize];
        if !*mark {
            *mark = true;
            self.due.push(Due::Release(n));
        }
    }

    /// After a closed premise: takes back what it added, down to the last second premise that is
    /// still open.
    #[inline(always)]
    fn resume(&mut self) -> Option<(Goal, u16)> {
        loop {
            match self.due.pop()? {
                Due::Release(n) => self.held[n as usize] = false,
                Due::Prove { goal, added, depth } => {
                    if let Some(n) = added {
                        self.hold(n);
                    }
                    return Some((goal, depth));
                }
            }
        }
    }
}
