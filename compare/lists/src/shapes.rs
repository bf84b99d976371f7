//! Graphs of every shape: which blocks each block's branch names.
use crate::rng::Rng;
use sangvireb::raw::DESTS;

/// The destinations of each block's branch; a block without any may have no branch.
pub type Graph = Vec<Vec<u32>>;

#[derive(Clone, Copy, PartialEq, Eq, Debug)]
pub enum Shape {
    Ladder,
    Diamonds,
    Loops,
    Nest,
    Irreducible,
    Rings,
    Unreachable,
    Repeated,
    Dense,
    Sparse,
    Wild,
    Limits,
}

pub const SHAPES: [Shape; 12] = {
    use Shape::*;
    [Ladder, Diamonds, Loops, Nest, Irreducible, Rings, Unreachable, Repeated, Dense, Sparse, Wild, Limits]
};

impl Shape {
    pub fn name(self) -> String {
        format!("{self:?}").to_lowercase()
    }

    pub fn named(name: &str) -> Option<Shape> {
        SHAPES.into_iter().find(|shape| shape.name() == name)
    }

    /// A graph of n blocks, n at least 1. The last two shapes are no graphs: their lists name what they like.
    pub fn graph(self, n: u32, rng: &mut Rng) -> Graph {
        let mut graph: Graph = (0..n).map(|b| self.dests(b, n, rng)).collect();
        if rng.chance(1, 4) {
            renumber(&mut graph, rng);
        }
        graph
    }

    fn dests(self, b: u32, n: u32, rng: &mut Rng) -> Vec<u32> {
        let mut dests = match self {
            Shape::Ladder => vec![b + 1, b + 2],
            Shape::Diamonds => if b.is_multiple_of(3) { vec![b + 1, b + 2] } else { vec![b - b % 3 + 3] },
            Shape::Loops => back_and_on(b, rng),
            Shape::Nest => if b < n / 2 { vec![b + 1] } else { vec![n - 1 - b, b + 1] },
            Shape::Irreducible => if b == 0 { some(2, 3, n, rng) } else { vec![b % n.max(2) + 1, rng.below(n)] },
            Shape::Rings => ring(b, n, rng),
            Shape::Unreachable => if b % 3 == 1 { vec![] } else { some(0, 2, n, rng).into_iter().map(|d| d - d % 2).collect() },
            Shape::Repeated => repeated(n, rng),
            Shape::Dense => some(4, DESTS as u32, n, rng),
            Shape::Sparse | Shape::Wild | Shape::Limits => some(0, 3, n, rng),
        };
        dests.retain(|&d| d < n);
        if rng.chance(1, 3) {
            rng.shuffle(&mut dests);
        }
        dests
    }
}

/// From `low` to `high` destinations anywhere.
fn some(low: u32, high: u32, n: u32, rng: &mut Rng) -> Vec<u32> {
    (0..rng.within(low, high)).map(|_| rng.below(n)).collect()
}

fn back_and_on(b: u32, rng: &mut Rng) -> Vec<u32> {
    let mut dests = vec![b + 1];
    for _ in 0..rng.below(3) {
        dests.push(rng.below(b + 1));
    }
    dests
}

/// Rings of three blocks; a few have a way out to the next or a way in from block 0.
fn ring(b: u32, n: u32, rng: &mut Rng) -> Vec<u32> {
    let first = b - b % 3;
    let last = (first + 2).min(n - 1);
    let mut dests = vec![if b == last { first } else { b + 1 }];
    if b == 0 || rng.chance(1, 5) {
        dests.push(rng.below(n));
    }
    dests
}

/// A branch that names some of its blocks several times.
fn repeated(n: u32, rng: &mut Rng) -> Vec<u32> {
    let mut dests = Vec::new();
    for _ in 0..rng.within(1, 3) {
        let d = rng.below(n);
        for _ in 0..rng.within(1, 3) {
            dests.push(d);
        }
    }
    rng.shuffle(&mut dests);
    dests.truncate(DESTS);
    dests
}

/// The same graph with other numbers, so that number order and flow differ; block 0 keeps its own.
fn renumber(graph: &mut Graph, rng: &mut Rng) {
    let mut to: Vec<u32> = (0..graph.len() as u32).collect();
    rng.shuffle(&mut to[1..]);
    let mut moved = vec![Vec::new(); graph.len()];
    for (b, dests) in graph.iter().enumerate() {
        moved[to[b] as usize] = dests.iter().map(|&d| to[d as usize]).collect();
    }
    *graph = moved;
}
