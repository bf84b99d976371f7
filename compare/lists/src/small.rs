//! All small lists: every graph of up to three blocks, with definitions, uses, branches and seals in every order. README.md says what each part has.
use crate::Call;
use crate::shapes::Graph;
use std::slice::from_ref;

/// A visitor of lists; it says whether to go on.
pub type Visit<'v> = &'v mut dyn FnMut(&[Call]) -> bool;

pub struct Part {
    pub name: &'static str,
    /// takes many times as long as all others: run only if it is named
    pub long: bool,
    pub each: fn(Visit) -> bool,
}

const fn part(name: &'static str, each: fn(Visit) -> bool) -> Part {
    Part { name, long: false, each }
}

pub const PARTS: [Part; 11] = [
    part("one", one),
    part("two-uses", two_uses),
    part("two-definitions", two_definitions),
    part("three-sealing", three_sealing),
    part("three-branching", three_branching),
    part("three-late", three_late),
    part("carried", |visit| carried(visit, giving_branches)),
    part("carried-short", |visit| carried(visit, branches)),
    part("carried-edge", carried_edge),
    part("marked", marked),
    Part { name: "three-long", long: true, each: three_long },
];

/// A step is a few calls in a row; a bag holds each step with how often it is still to come.
type Bag = Vec<(Vec<Call>, u32)>;

const TYPE: u32 = 2;

/// Every different order of the bag's steps, between a beginning and an end.
fn orders(bag: &mut Bag, list: &mut Vec<Call>, end: &[Call], visit: Visit) -> bool {
    if bag.iter().all(|(_, left)| *left == 0) {
        let whole = list.len();
        list.extend_from_slice(end);
        let on = visit(list);
        list.truncate(whole);
        return on;
    }
    (0..bag.len()).all(|i| {
        if bag[i].1 == 0 {
            return true;
        }
        let before = list.len();
        bag[i].1 -= 1;
        list.extend_from_slice(&bag[i].0);
        let on = orders(bag, list, end, visit);
        list.truncate(before);
        bag[i].1 += 1;
        on
    })
}

/// Declares n blocks and variable 0, and makes a value in each of these blocks: their numbers are 0, 1, ..
fn beginning(n: u32, made_in: &[u32]) -> Vec<Call> {
    let mut calls: Vec<Call> = (0..n).map(|b| [1, b, 0, 0]).collect();
    calls.push([2, 0, TYPE, 0]);
    calls.extend(made_in.iter().map(|&b| [3, b, TYPE, 0]));
    calls
}

fn seals(n: u32) -> Bag {
    (0..n).map(|b| (vec![[11, b, 0, 0]], 1)).collect()
}

/// A step for each branch that names something: the branch, its destinations, its declarations.
fn branches(graph: &Graph) -> Bag {
    let step = |b: usize| {
        let mut calls = vec![[7, b as u32, 0, 0]];
        calls.extend(graph[b].iter().map(|&d| [8, b as u32, d, 0]));
        let mut declared = graph[b].clone();
        declared.dedup();
        calls.extend(declared.iter().map(|&d| [9, d, b as u32, 0]));
        (calls, 1)
    };
    (0..graph.len()).filter(|&b| !graph[b].is_empty()).map(step).collect()
}

/// Value i is given to the variable in the ith of these blocks.
fn definitions(blocks: &[u32]) -> Bag {
    blocks.iter().enumerate().map(|(i, &b)| (vec![[4, 0, i as u32, b]], 1)).collect()
}

fn uses(blocks: &[u32]) -> Vec<Call> {
    blocks.iter().map(|&b| [6, 0, b, 0]).collect()
}

/// So many uses in each block.
fn use_steps(counts: &[u32]) -> Bag {
    counts.iter().enumerate().map(|(b, &count)| (uses(&[b as u32]), count)).collect()
}

/// What a branch can name: any set of blocks; if asked for, also with its first block named twice.
fn choices(n: u32, doubled: bool) -> Vec<Vec<u32>> {
    let sets = (0..1u32 << n).map(|set| (0..n).filter(|b| set >> b & 1 == 1).collect::<Vec<u32>>());
    let mut all: Vec<Vec<u32>> = sets.collect();
    if doubled {
        all.extend(all.clone().iter().filter(|set| !set.is_empty()).map(|set| twice(set)));
    }
    all
}

fn twice(set: &[u32]) -> Vec<u32> {
    set.first().into_iter().chain(set).copied().collect()
}

/// Every graph of n blocks whose branches are of these choices.
fn graphs(n: u32, choices: &[Vec<u32>]) -> Vec<Graph> {
    let mut all: Vec<Graph> = vec![vec![]];
    for _ in 0..n {
        all = all.iter().flat_map(|graph| choices.iter().map(|dests| [graph, from_ref(dests)].concat())).collect();
    }
    all
}

/// The graphs of three blocks, and each that has an edge once more, every branch with its first block named twice.
fn three_with_doubled() -> Vec<Graph> {
    let plain = graphs(3, &choices(3, false));
    let doubled = plain.iter().filter(|graph| graph.iter().any(|set| !set.is_empty())).map(|graph| graph.iter().map(|set| twice(set)).collect());
    plain.iter().cloned().chain(doubled).collect()
}

/// One block; up to two definitions and three uses.
fn one(visit: Visit) -> bool {
    graphs(1, &choices(1, true)).iter().all(|graph| {
        [&[][..], &[0], &[0, 0]].into_iter().all(|defined| {
            (0..=3).all(|count| {
                let mut bag = [branches(graph), seals(1), definitions(defined), use_steps(&[count])].concat();
                orders(&mut bag, &mut beginning(1, defined), &uses(&[0]), visit)
            })
        })
    })
}

fn two(visit: Visit, doubled: bool, defined: &[&[u32]], used: &[[u32; 2]]) -> bool {
    graphs(2, &choices(2, doubled)).iter().all(|graph| {
        defined.iter().all(|defined| {
            used.iter().all(|used| {
                let mut bag = [branches(graph), seals(2), definitions(defined), use_steps(used)].concat();
                orders(&mut bag, &mut beginning(2, defined), &uses(&[0, 1]), visit)
            })
        })
    })
}

fn two_uses(visit: Visit) -> bool {
    two(visit, true, &[&[], &[0], &[1]], &[[1, 0], [0, 1], [2, 0], [1, 1], [0, 2]])
}

fn two_definitions(visit: Visit) -> bool {
    two(visit, false, &[&[0, 1], &[0, 0], &[1, 1]], &[[1, 0], [0, 1]])
}

/// One block of three is defined in and one is used in: every choice, by the places of both.
fn places(mut each: impl FnMut(u32, u32) -> bool) -> bool {
    (0..9).all(|place| each(place / 3, place % 3))
}

fn once(b: u32) -> Bag {
    vec![(uses(&[b]), 1)]
}

/// All branches first; then three seals, a definition and a use.
fn three_sealing(visit: Visit) -> bool {
    three_with_doubled().iter().all(|graph| {
        let branched: Vec<Call> = branches(graph).into_iter().flat_map(|(calls, _)| calls).collect();
        places(|defined, used| {
            let mut list = [beginning(3, &[defined]), branched.clone()].concat();
            let mut bag = [seals(3), definitions(&[defined]), once(used)].concat();
            orders(&mut bag, &mut list, &uses(&[0, 1, 2]), visit)
        })
    })
}

/// A definition first; then branches, seals and some uses; at the end a use in each block.
fn defined_first(visit: Visit, steps: &[Bag]) -> bool {
    graphs(3, &choices(3, false)).iter().all(|graph| {
        (0..3).all(|defined| {
            let mut list = beginning(3, &[defined]);
            list.push([4, 0, 0, defined]);
            steps.iter().all(|step| {
                let mut bag = [branches(graph), seals(3), step.clone()].concat();
                orders(&mut bag, &mut list, &uses(&[2, 1, 0]), visit)
            })
        })
    })
}

fn three_branching(visit: Visit) -> bool {
    defined_first(visit, &[vec![]])
}

fn three_long(visit: Visit) -> bool {
    defined_first(visit, &[once(0), once(1), once(2)])
}

/// Branches, a definition and a use; at the end everything is sealed, and a use in each block.
fn three_late(visit: Visit) -> bool {
    three_with_doubled().iter().all(|graph| {
        places(|defined, used| {
            let mut bag = [branches(graph), definitions(&[defined]), once(used)].concat();
            let end = [vec![[12, 0, 0, 0]], uses(&[0, 1, 2])].concat();
            orders(&mut bag, &mut beginning(3, &[defined]), &end, visit)
        })
    })
}

/// As `branches`, where each destination is given the value that was made in the branching block, which has that block's number.
fn giving_branches(graph: &Graph) -> Bag {
    let mut bag = branches(graph);
    for (calls, _) in &mut bag {
        let named = calls.iter().filter(|call| call[0] == 8).count();
        let (b, declared) = (calls[0][1], calls.split_off(1 + named));
        calls.extend((0..named as u32).map(|place| [16, b, b, place]));
        calls.extend(declared);
    }
    bag
}

/// A parameter of the caller's on one of two blocks, a definition and a use; branches that come after the parameter have an argument for it, or none.
fn carried(visit: Visit, branches: fn(&Graph) -> Bag) -> bool {
    graphs(2, &choices(2, false)).iter().all(|graph| {
        (0..8).all(|place| {
            let [own, defined, used] = [place & 1, place >> 1 & 1, place >> 2];
            let mut bag = [branches(graph), seals(2), once(used)].concat();
            bag.extend([(vec![[15, own, TYPE, 0]], 1), (vec![[4, 0, defined, defined]], 1)]);
            orders(&mut bag, &mut beginning(2, &[0, 1]), &uses(&[0, 1]), visit)
        })
    })
}

/// One edge, to the other block or back: made, declared and removed; two parameters of the caller's, of different types, two arguments, a use and a seal.
fn carried_edge(visit: Visit) -> bool {
    [0, 1].into_iter().all(|to| {
        let steps: [&[Call]; 7] =
            [&[[7, 0, 0, 0], [8, 0, to, 0]], &[[9, to, 0, 0]], &[[10, to, 0, 0]], &[[15, to, TYPE, 0]], &[[15, to, 0, 0]], &[[6, 0, to, 0]], &[[11, to, 0, 0]]];
        let mut bag: Bag = steps.into_iter().map(|step| (step.to_vec(), 1)).collect();
        bag.push((vec![[16, 0, 0, 0]], 2));
        let end = [vec![[12, 0, 0, 0]], uses(&[1, 0])].concat();
        orders(&mut bag, &mut beginning(2, &[0]), &end, visit)
    })
}

/// A mark, a definition and a use beside branches and seals.
fn marked(visit: Visit) -> bool {
    graphs(2, &choices(2, false)).iter().all(|graph| {
        (0..4).all(|place| {
            let (defined, used) = (place & 1, place >> 1);
            let mut bag = [branches(graph), seals(2), definitions(&[defined]), once(used)].concat();
            bag.push((vec![[17, 0, 0, 0]], 1));
            orders(&mut bag, &mut beginning(2, &[defined]), &uses(&[0, 1]), visit)
        })
    })
}

#[cfg(test)]
mod tests {
    use super::*;

    #[test]
    fn every_order_comes_once() {
        let mut seen = Vec::new();
        let mut bag = [seals(2), use_steps(&[2, 0])].concat();
        assert!(orders(&mut bag, &mut vec![], &[], &mut |list| {
            seen.push(list.to_vec());
            true
        }));
        let count = seen.len();
        seen.sort();
        seen.dedup();
        assert_eq!((count, seen.len()), (12, 12));
    }

    #[test]
    fn graphs_are_counted() {
        assert_eq!(graphs(1, &choices(1, true)).len(), 3);
        assert_eq!(graphs(2, &choices(2, true)).len(), 49);
        assert_eq!(three_with_doubled().len(), 512 + 511);
    }
}
