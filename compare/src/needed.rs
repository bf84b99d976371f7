//! Each supposition of demand 3 is needed: a list that drops only that one, run by the library and by the oracle, and where its conclusion fails.
//! The proofs have the same lists (crates/meaning/proofs/Against.antt).
use crate::both::Both;
use lists::finished::Finished;
use lists::path::{self, Content, Met, SUPPOSITIONS, Walker};
use lists::{Call, text};
use std::process::ExitCode;

struct Example {
    /// which of the suppositions is dropped, from 0
    drops: usize,
    story: &'static str,
    calls: &'static [Call],
    /// the places of the destinations taken, or nothing if it is about arguments
    path: Option<&'static [usize]>,
}

const UNSEALED: &[Call] = &[[1, 0, 0, 0], [2, 0, 2, 0], [6, 0, 0, 0]];

const ENTERED: &[Call] =
    &[[1, 0, 0, 0], [2, 0, 2, 0], [6, 0, 0, 0], [3, 0, 2, 0], [4, 0, 1, 0], [7, 0, 0, 0], [8, 0, 0, 0], [9, 0, 0, 0], [12, 0, 0, 0]];

const UNDECLARED: &[Call] =
    &[[1, 0, 0, 0], [1, 1, 0, 0], [2, 0, 2, 0], [3, 0, 2, 0], [4, 0, 0, 0], [7, 0, 0, 0], [8, 0, 1, 0], [12, 0, 0, 0], [6, 0, 1, 0]];

const FOREIGN: &[Call] = &[
    [1, 0, 0, 0], [1, 1, 0, 0], [2, 0, 2, 0], [3, 1, 2, 0], [4, 0, 0, 0], [7, 0, 0, 0], [8, 0, 1, 0], [9, 1, 0, 0], [12, 0, 0, 0], [6, 0, 1, 0],
];

const SHORT: &[Call] = &[
    [1, 0, 0, 0], [1, 1, 0, 0], [2, 0, 2, 0], [15, 1, 2, 0], [3, 0, 2, 0], [4, 0, 1, 0], [7, 0, 0, 0], [8, 0, 1, 0], [9, 1, 0, 0], [6, 0, 1, 0],
    [3, 1, 2, 0], [4, 0, 3, 1], [7, 1, 0, 0], [8, 1, 1, 0], [9, 1, 1, 0], [12, 0, 0, 0],
];

const WAITING: &[Call] = &[[1, 0, 0, 0], [1, 1, 0, 0], [2, 0, 2, 0], [7, 0, 0, 0], [8, 0, 1, 0], [9, 1, 0, 0], [6, 0, 1, 0]];

const UNFED: &[Call] = &[
    [1, 0, 0, 0], [1, 1, 0, 0], [1, 2, 0, 0], [2, 0, 2, 0], [3, 0, 2, 0], [4, 0, 0, 0], [7, 0, 0, 0], [8, 0, 1, 0], [9, 1, 0, 0], [6, 0, 1, 0],
    [3, 1, 2, 0], [4, 0, 2, 1], [7, 1, 0, 0], [8, 1, 1, 0], [9, 1, 1, 0], [7, 2, 0, 0], [8, 2, 1, 0], [12, 0, 0, 0],
];

const UNGIVEN: &[Call] = &[[1, 0, 0, 0], [1, 1, 0, 0], [15, 1, 0, 0], [7, 0, 0, 0], [8, 0, 1, 0], [9, 1, 0, 0], [12, 0, 0, 0]];

const EXAMPLES: [Example; 8] = [
    Example { drops: 0, story: "Block 0 is not sealed: the answer is a parameter that nothing sets.", calls: UNSEALED, path: Some(&[]) },
    Example { drops: 1, story: "Block 0 goes to itself: the answer is the value made there, the first time not made yet.", calls: ENTERED, path: Some(&[]) },
    Example { drops: 2, story: "Block 0 goes to block 1, which is not told: the variable counts as never set.", calls: UNDECLARED, path: Some(&[0]) },
    Example { drops: 3, story: "Block 0 gives the variable a value of block 1, which makes it anew.", calls: FOREIGN, path: Some(&[0]) },
    Example { drops: 4, story: "Block 1's own parameter is given no argument: the builder's stands in its place.", calls: SHORT, path: Some(&[0]) },
    Example { drops: 0, story: "Block 1 is not sealed: its parameter has no arguments yet.", calls: WAITING, path: None },
    Example { drops: 2, story: "Block 2 goes to block 1, which is not told: its branch carries no argument.", calls: UNFED, path: None },
    Example { drops: 4, story: "Block 1's own parameter is given no argument, and there is no other.", calls: UNGIVEN, path: None },
];

/// Takes the given places, and keeps what it meets in the last block.
struct Guided {
    places: Vec<usize>,
    blocks: Vec<u32>,
    met: Vec<Met>,
}

impl Walker for Guided {
    fn next(&mut self, dests: &[u32]) -> Option<usize> {
        let place = self.places.pop()?;
        self.blocks.push(dests[place]);
        self.met.clear();
        Some(place)
    }

    /// The unset value of I32 is 0, so these differ from it and from each other.
    fn content(&mut self, of: Content) -> u128 {
        match of {
            Content::Unset => 1,
            Content::Made => 2,
        }
    }

    fn meet(&mut self, met: Met) {
        self.met.push(met);
    }
}

fn said(word: u128) -> &'static str {
    ["zero", "whatever stood there, for it was never set", "what the made value holds"][word as usize]
}

/// Shows where a use goes wrong; says whether one does.
fn wrong_use(session: &Finished, places: &[usize]) -> bool {
    let mut walker = Guided { places: places.iter().rev().copied().collect(), blocks: vec![0], met: vec![] };
    path::walk(session, &path::acts(session), &mut walker);
    println!("on the path through blocks {:?}:", walker.blocks);
    for met in &walker.met {
        println!("  the use of variable {} in block {} answers {}, which resolves to {}", met.var, met.block, met.answer, session.resolve(met.answer));
        println!("  it holds {}", said(met.holds));
        println!("  the variable last received {}", if met.received == 0 { "nothing: zero is due" } else { said(met.received) });
    }
    walker.met.iter().any(|met| met.holds != met.received)
}

fn wrong_arguments(session: &Finished) -> bool {
    let Some((branch, place)) = path::unfed(session) else { return false };
    let to = session.dests(branch)[place];
    println!("destination {place} of branch {branch} carries {:?}, block {to} has the parameters {:?}", session.args(branch, place), session.params(to));
    true
}

fn show(example: &Example, both: &mut Both) -> bool {
    println!("without \"{}\"\n{}\n{}", SUPPOSITIONS[example.drops], example.story, text(example.calls).trim_end());
    let difference = both.difference(example.calls);
    println!("library and oracle: {}", difference.as_deref().unwrap_or("no difference"));
    let session = Finished::of(example.calls, &both.lent);
    let only_this = path::supposed(&session).iter().enumerate().all(|(i, met)| *met == (i != example.drops));
    println!("the others are met: {}", if only_this { "yes" } else { "no" });
    let wrong = example.path.map_or_else(|| wrong_arguments(&session), |places| wrong_use(&session, places));
    println!("the conclusion fails: {}\n", if wrong { "yes" } else { "no" });
    difference.is_none() && only_this && wrong
}

pub fn run() -> ExitCode {
    let mut both = Both::new(1);
    let shown = EXAMPLES.iter().filter(|example| show(example, &mut both)).count();
    println!("{shown} of {} lists show that a supposition is needed", EXAMPLES.len());
    if shown == EXAMPLES.len() { ExitCode::SUCCESS } else { ExitCode::FAILURE }
}
