//! A finished session on a path, as docs/RULES.md says under "On a path", and the suppositions of demand 3.
//! crates/meaning/specs has both in the words of the proofs: Path.antt and Suppositions.antt.
use crate::finished::Finished;
use crate::types::UNSET;
use sangvireb::raw;

/// What a block itself does, in list order.
#[derive(Clone, Copy)]
pub enum Act {
    Makes { value: u32 },
    Gives { var: u32, value: u32 },
    Uses { var: u32, answer: u32 },
}

/// Each block's acts.
pub fn acts(session: &Finished) -> Vec<Vec<Act>> {
    let mut acts = vec![Vec::new(); session.blocks() as usize];
    for (&[kind, x, y, z], number) in session.accepted() {
        match kind {
            3 => acts[x as usize].push(Act::Makes { value: number }),
            4 | 5 => acts[z as usize].push(Act::Gives { var: x, value: number }),
            6 => acts[y as usize].push(Act::Uses { var: x, answer: number }),
            _ => {}
        }
    }
    acts
}

pub const SUPPOSITIONS: [&str; 5] = [
    "every block is sealed",
    "no branch goes into block 0",
    "every branch is declared to each of its destinations",
    "each definition takes a value made earlier in its own block, or answered to an earlier use there, or a caller's parameter of that block",
    "each destination was given one argument for each caller's parameter of its block, each of them a value that was made in the branching block, \
     or answered to a use there, or a caller's parameter of that block",
];

/// Which of the five suppositions the session meets.
pub fn supposed(session: &Finished) -> [bool; 5] {
    let mut blocks = 0..session.blocks();
    let acts = acts(session);
    [
        blocks.clone().all(|b| session.is_sealed(b)),
        blocks.clone().all(|p| !session.dests(p).contains(&0)),
        blocks.clone().all(|p| session.dests(p).iter().all(|&b| session.preds(b).contains(&p))),
        blocks.clone().all(|b| own_values(session.own_params(b), &acts[b as usize])),
        own_counts(session) && blocks.all(|p| own_sources(session, p, &acts[p as usize])),
    ]
}

/// The same with arguments of the caller's that come from anywhere: that suffices for the conclusion.
pub fn counted(session: &Finished) -> bool {
    let [sealed, none_enters_0, declared, own_values, _] = supposed(session);
    sealed && none_enters_0 && declared && own_values && own_counts(session)
}

fn own_values(callers: &[u32], acts: &[Act]) -> bool {
    let mut had = callers.to_vec();
    acts.iter().all(|act| match *act {
        Act::Makes { value } | Act::Uses { answer: value, .. } => {
            had.push(value);
            true
        }
        Act::Gives { value, .. } => had.contains(&value),
    })
}

/// The values that accepted calls of kind 16 gave, each with the branch and the place of its destination.
fn given(session: &Finished) -> Vec<(u32, u32, u32)> {
    session.accepted().filter(|(call, _)| call[0] == 16).map(|(&[_, branch, value, place], _)| (branch, place, value)).collect()
}

/// Each destination was given as many arguments as its block has parameters of the caller's.
fn own_counts(session: &Finished) -> bool {
    let given = given(session);
    let count = |p, i| given.iter().filter(|&&(branch, place, _)| (branch, place) == (p, i)).count();
    (0..session.blocks()).all(|p| session.dests(p).iter().zip(0..).all(|(&to, i)| count(p, i) == session.own_params(to).len()))
}

/// What branch p's destinations were given are values of block p.
fn own_sources(session: &Finished, p: u32, acts: &[Act]) -> bool {
    let had = |value: u32| {
        acts.iter().any(|act| match *act {
            Act::Makes { value: own } | Act::Uses { answer: own, .. } => own == value,
            Act::Gives { .. } => false,
        })
    };
    given(session).into_iter().all(|(branch, _, value)| branch != p || had(value) || session.own_params(p).contains(&value))
}

/// The first destination whose arguments are not one for each parameter: branch and place.
pub fn unfed(session: &Finished) -> Option<(u32, usize)> {
    let edges = (0..session.blocks()).flat_map(|p| (0..session.dests(p).len()).map(move |i| (p, i)));
    edges.into_iter().find(|&(p, i)| session.args(p, i).len() != session.params(session.dests(p)[i]).len())
}

/// A use met on a path.
pub struct Met {
    pub block: u32,
    pub var: u32,
    pub answer: u32,
    /// the bits that the answer, aliases resolved, holds
    pub holds: u128,
    /// the bits that the variable last received, or those of its type's unset value
    pub received: u128,
    /// whether the variable has received nothing on the path
    pub unset: bool,
}

/// What a value holds that the session does not determine.
pub enum Content {
    Unset,
    Made,
}

/// What chooses a path and its contents, and looks at what is met there.
pub trait Walker {
    /// the place of the destination to take, or the path's end
    fn next(&mut self, dests: &[u32]) -> Option<usize>;
    fn content(&mut self, of: Content) -> u128;
    fn meet(&mut self, met: Met);
}

struct Held<'s> {
    session: &'s Finished<'s>,
    values: Vec<u128>,
    vars: Vec<u128>,
    /// by variable: it has received something
    given: Vec<bool>,
}

impl Held<'_> {
    fn set_zeros(&mut self, block: u32) {
        for value in 0..self.values.len() as u32 {
            if self.session.is_zero_of(value, block) {
                self.values[value as usize] = raw::type_facts(self.session.type_of(value)).unset_bits();
            }
        }
    }

    fn read(&self, value: u32) -> u128 {
        self.values[self.session.resolve(value) as usize]
    }

    /// The block's own calls in list order.
    fn stay(&mut self, block: u32, acts: &[Act], walker: &mut impl Walker) {
        for act in acts {
            match *act {
                Act::Makes { value } => self.values[value as usize] = walker.content(Content::Made),
                Act::Gives { var, value } => {
                    self.vars[var as usize] = self.read(value);
                    self.given[var as usize] = true;
                }
                Act::Uses { var, answer } => {
                    let (holds, received, unset) = (self.read(answer), self.vars[var as usize], !self.given[var as usize]);
                    walker.meet(Met { block, var, answer, holds, received, unset })
                }
            }
        }
    }

    /// All arguments are read before any parameter is set.
    fn go(&mut self, from: u32, place: usize) -> u32 {
        let to = self.session.dests(from)[place];
        let read: Vec<u128> = self.session.args(from, place).iter().map(|&arg| self.read(arg)).collect();
        for (&param, word) in self.session.params(to).iter().zip(read) {
            self.values[param as usize] = word;
        }
        self.set_zeros(to);
        to
    }
}

/// A path from block 0.
pub fn walk(session: &Finished, acts: &[Vec<Act>], walker: &mut impl Walker) {
    walk_by(session, acts, walker, |held, from, place| held.go(from, place));
}

fn walk_by<'s>(session: &'s Finished<'s>, acts: &[Vec<Act>], walker: &mut impl Walker, go: impl Fn(&mut Held<'s>, u32, usize) -> u32) {
    let values = (0..session.values()).map(|_| walker.content(Content::Unset)).collect();
    let vars: Vec<u128> = session.variable_types().iter().map(|&ty| UNSET[ty as usize]).collect();
    let given = vec![false; vars.len()];
    let mut held = Held { session, values, vars, given };
    let mut block = 0;
    held.set_zeros(block);
    loop {
        held.stay(block, &acts[block as usize], walker);
        let Some(place) = walker.next(session.dests(block)) else { return };
        block = go(&mut held, block, place);
    }
}

#[cfg(test)]
mod tests {
    use super::*;
    use crate::lent::Lent;
    use crate::rng::Rng;

    /// Three blocks further, always by the first destination; no two contents are the same.
    struct Short {
        left: u32,
        contents: u128,
        wrong: u32,
    }

    impl Walker for Short {
        fn next(&mut self, _: &[u32]) -> Option<usize> {
            self.left = self.left.checked_sub(1)?;
            Some(0)
        }

        fn content(&mut self, _: Content) -> u128 {
            self.contents += 1;
            self.contents
        }

        fn meet(&mut self, met: Met) {
            self.wrong += u32::from(met.holds != met.received);
        }
    }

    /// A slip: each parameter is set before the next argument is read.
    fn go_in_turn(held: &mut Held, from: u32, place: usize) -> u32 {
        let to = held.session.dests(from)[place];
        for (&param, &arg) in held.session.params(to).iter().zip(held.session.args(from, place)) {
            held.values[param as usize] = held.read(arg);
        }
        held.set_zeros(to);
        to
    }

    #[test]
    fn parameters_taken_in_turn_lose_a_value() {
        let lists = crate::read(include_str!("../../../examples/swap.txt")).expect("the example is a list");
        let mut lent = Lent::new(1);
        assert_eq!(lent.run(&lists[0], &mut Rng::new(1)), 0);
        let session = Finished::of(&lists[0], &lent);
        assert_eq!(supposed(&session), [true; SUPPOSITIONS.len()]);
        let acts = acts(&session);
        let start = || Short { left: 3, contents: 0, wrong: 0 };
        let (mut at_once, mut in_turn) = (start(), start());
        walk(&session, &acts, &mut at_once);
        walk_by(&session, &acts, &mut in_turn, go_in_turn);
        assert_eq!(at_once.wrong, 0);
        assert!(in_turn.wrong > 0);
    }
}
