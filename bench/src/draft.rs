//! A list in the making. The number that a value will bear depends on the uses before it, so until `finish` a definition names its value by the
//! place of the call that makes it.
use crate::library::Library;
use lists::Call;

const DEF: u32 = 4;
pub const TYPES: u32 = 6;

pub struct Draft(Vec<Call>);

impl Draft {
    /// Declares blocks, and variables of every type in turn.
    pub fn new(blocks: u32, vars: u32) -> Draft {
        let declared = (0..blocks).map(|b| [1, b, 0, 0]).chain((0..vars).map(|v| [2, v, v % TYPES, 0]));
        Draft(declared.collect())
    }

    /// Makes a value for the variable; answers the call's place.
    pub fn make(&mut self, var: u32, block: u32) -> u32 {
        self.0.push([3, block, var % TYPES, 0]);
        self.0.len() as u32 - 1
    }

    pub fn give(&mut self, var: u32, maker: u32, block: u32) {
        self.0.push([DEF, var, maker, block]);
    }

    pub fn define(&mut self, var: u32, block: u32) {
        let maker = self.make(var, block);
        self.give(var, maker, block);
    }

    pub fn read(&mut self, var: u32, block: u32) {
        self.0.push([6, var, block, 0]);
    }

    /// A branch with its destinations, declared to each.
    pub fn branch(&mut self, block: u32, dests: &[u32]) {
        self.0.push([7, block, 0, 0]);
        self.0.extend(dests.iter().map(|&dest| [8, block, dest, 0]));
        self.0.extend(dests.iter().map(|&dest| [9, dest, block, 0]));
    }

    pub fn seal(&mut self, block: u32) {
        self.0.push([11, block, 0, 0]);
    }

    pub fn seal_all(&mut self) {
        self.0.push([12, 0, 0, 0]);
    }

    /// Each definition gets its value's number, as the library answers it. A run with wrong numbers is right up to the first of them, so each
    /// round has more of them right.
    pub fn finish(self) -> Vec<Call> {
        let mut calls = self.0.clone();
        loop {
            let mut library = Library::new(&calls);
            library.session();
            let before = calls.clone();
            for (call, drafted) in calls.iter_mut().zip(&self.0).filter(|(_, drafted)| drafted[0] == DEF) {
                call[2] = library.numbers[drafted[2] as usize];
            }
            if calls == before {
                assert!(library.all_accepted(), "the bench's lists have no refused calls");
                return calls;
            }
        }
    }
}
