//! How a list is drafted: its size, the order of its calls, and what is mixed in.
use crate::rng::Rng;
use crate::types;

#[derive(Clone, Copy, PartialEq, Debug)]
pub enum Sealing {
    /// a block is sealed when its last edge is declared
    WhenComplete,
    /// a block is sealed when it is first visited, whatever is still missing
    AtOnce,
    /// all at the end
    AtEnd,
    /// at any moment
    AnyTime,
    Never,
}

#[derive(Clone, Debug)]
pub struct Manner {
    pub blocks: u32,
    pub vars: u32,
    /// acts of a block, at most
    pub acts: u32,
    /// calls after the graph is built, at most
    pub tail: u32,
    pub sealing: Sealing,
    /// meets the suppositions of demand 3, unless a bad call happens to be accepted
    pub proper: bool,
    /// bad calls among a thousand
    pub bad: u32,
    /// edges removed again, among a hundred
    pub removed: u32,
    /// all blocks and variables are declared first
    pub declared_first: bool,
    /// blocks take turns, instead of one being finished before the next begins
    pub in_turns: bool,
    /// blocks are visited by their number, else in any order
    pub by_number: bool,
    /// of variables, made values and parameters of the caller's
    pub types: Vec<u32>,
    /// an edge may be declared long after its branch is there
    pub edges_wait: bool,
    /// parameters of the caller's that a block gets when it is declared, at most
    pub own_params: u32,
    /// of a hundred, arguments of the caller's that are left out or otherwise wrong; in a proper list, those that come from another block
    pub astray: u32,
    /// of a hundred, variables that are marked for stack maps when they are declared; further marks come at any time, unless there are none at all
    pub marked: u32,
}

impl Manner {
    pub fn any(rng: &mut Rng) -> Manner {
        use Sealing::*;
        let sealing = rng.pick(&[WhenComplete, WhenComplete, AtOnce, AtEnd, AtEnd, AnyTime, Never]);
        Manner { sealing, ..Manner::sized(rng) }
    }

    /// As demand 3 supposes. Early seals are those that refuse no declaration.
    pub fn proper(rng: &mut Rng) -> Manner {
        let sealing = rng.pick(&[Sealing::WhenComplete, Sealing::AtEnd]);
        let bad = rng.pick(&[0, 0, 0, 10]);
        let astray = rng.pick(&[0, 0, 0, 20]);
        Manner { sealing, bad, astray, proper: true, ..Manner::sized(rng) }
    }

    /// Most lists are short, some have hundreds of calls, a few come near the limits.
    fn sized(rng: &mut Rng) -> Manner {
        let (blocks, vars, acts, tail) = match rng.below(4000) {
            0 => (rng.within(33, 64), rng.within(17, 64), 60, 3000),
            1..=20 => (rng.within(9, 64), rng.within(3, 24), 10, 200),
            21..=300 => (rng.within(4, 20), rng.within(1, 8), 6, 40),
            _ => (rng.within(1, 6), rng.within(1, 3), rng.within(1, 3), 8),
        };
        Manner {
            blocks,
            vars,
            acts,
            tail,
            sealing: Sealing::AtEnd,
            proper: false,
            bad: rng.pick(&[0, 0, 20, 200]),
            removed: rng.pick(&[0, 0, 10, 40]),
            declared_first: rng.chance(1, 2),
            in_turns: rng.chance(1, 2),
            by_number: rng.chance(1, 2),
            types: types::few(rng),
            edges_wait: rng.chance(1, 3),
            own_params: rng.pick(&[0, 0, 1, 1, 2, 4]),
            astray: rng.pick(&[0, 0, 10, 40]),
            marked: rng.pick(&[0, 20, 70]),
        }
    }
}
