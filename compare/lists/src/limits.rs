//! Lists that fill what docs/RULES.md limits: blocks, variables, destinations, made values, calls, and the rooms that follow from them.
use crate::rng::Rng;
use crate::{Call, MAX_CALLS, odd, types};
use sangvireb::raw::{BLOCKS, DESTS, MADE, OWN_PARAMS, VARIABLES};
use sangvireb::Type;

pub fn list(rng: &mut Rng) -> Vec<Call> {
    match rng.below(8) {
        0 => made_values(rng),
        1 => every_cell(rng),
        2 => full_lookup(rng),
        3 => alias_chain(rng),
        4 => arguments(rng, 0),
        7 => arguments(rng, OWN_PARAMS),
        5 => waiting_results(rng),
        _ => calls(rng),
    }
}

/// A list for each limit, always the same: what is just accepted, and what is refused after it.
pub fn fixed() -> Vec<Vec<Call>> {
    let mut rng = Rng::new(0);
    let one_too_many = vec![[12, 0, 0, 0]; MAX_CALLS + 1];
    let argued = [arguments(&mut rng, 0), arguments(&mut rng, OWN_PARAMS)];
    argued.into_iter().chain([full_lookup(&mut rng), waiting_results(&mut rng), followed_chain(16, 16), everything(), one_too_many]).collect()
}

/// As many calls as a list can have, and as many values: made, and for each variable in each block, none of which has a way in, a parameter and a zero in two
/// steps.
/// All variables are marked, so every such parameter is recorded; marked again at the end, each is refused.
/// Block 2 has as many parameters of the caller's as it can have, which count as made. Once no more can be made, making one is still refused for other
/// reasons first: an unknown block, an unknown type, a branch; for a parameter of the caller's, a block that is full or sealed.
fn everything() -> Vec<Call> {
    let mut calls = declared_as(BLOCKS, VARIABLES, |v| types::IN_TWO_STEPS[v as usize % types::IN_TWO_STEPS.len()].number());
    let (absent, no_type) = (BLOCKS as u32, Type::ALL.len() as u32);
    calls.extend(marks());
    calls.extend((0..OWN_PARAMS + 1).map(|_| [15, 2, 2, 0]));
    calls.extend((0..MADE - OWN_PARAMS + 1).map(|_| [3, 0, 2, 0]));
    calls.extend([[3, absent, 2, 0], [3, 0, no_type, 0], [7, 1, 0, 0], [3, 1, 2, 0]]);
    calls.extend([[15, absent, 2, 0], [15, 2, no_type, 0], [15, 2, 2, 0], [15, 3, 2, 0]]);
    calls.push([12, 0, 0, 0]);
    calls.extend([[15, 3, no_type, 0], [15, 2, 2, 0], [15, 3, 2, 0]]);
    for _ in 0..2 {
        calls.extend((0..BLOCKS as u32).flat_map(|b| (0..VARIABLES as u32).map(move |v| [6, v, b, 0])));
    }
    calls.extend(marks());
    calls.resize(MAX_CALLS, [14, 0, 0, 0]);
    calls
}

/// A mark for every variable, and one for a variable more than there can be.
fn marks() -> impl Iterator<Item = Call> {
    (0..VARIABLES as u32 + 1).map(|v| [17, v, 0, 0])
}

/// One more block and variable than there can be: the last of each is refused.
fn declared(blocks: usize, vars: usize) -> Vec<Call> {
    declared_as(blocks, vars, |_| Type::I32.number())
}

/// With these types of the variables.
fn declared_as(blocks: usize, vars: usize, mut ty: impl FnMut(u32) -> u32) -> Vec<Call> {
    let mut calls: Vec<Call> = (0..blocks as u32 + 1).map(|b| [1, b, 0, 0]).collect();
    calls.extend((0..vars as u32 + 1).map(|v| [2, v, ty(v), 0]));
    calls
}

/// More values than can be made, spread over the blocks, each given to a variable.
fn made_values(rng: &mut Rng) -> Vec<Call> {
    let mut calls = declared(BLOCKS, VARIABLES);
    calls.extend(marks().filter(|_| rng.chance(1, 3)));
    for i in 0..MADE as u32 + 3 {
        let b = rng.below(BLOCKS as u32);
        calls.push([if rng.chance(1, 4) { 15 } else { 3 }, b, 2, 0]);
        if rng.chance(1, 2) {
            calls.push([4, rng.below(VARIABLES as u32), i, b]);
        }
    }
    calls.push([6, 0, 0, 0]);
    calls
}

/// A branch of each block to blocks of a random choice, declared but perhaps not sealed.
fn branches(rng: &mut Rng, blocks: u32, dests: u32) -> Vec<Call> {
    let mut calls = Vec::new();
    for b in 0..blocks {
        calls.push([7, b, 0, 0]);
        let named: Vec<u32> = (0..dests).map(|_| rng.below(blocks)).collect();
        calls.extend(named.iter().map(|&d| [8, b, d, 0]));
        calls.extend(named.iter().map(|&d| [9, d, b, 0]));
    }
    calls
}

/// Every variable is used in every block while all are unsealed, then all is sealed: a parameter and often a zero for each, in two steps or in as many as
/// their types take. In one block they stand behind as many parameters of the caller's as there can be.
fn every_cell(rng: &mut Rng) -> Vec<Call> {
    let wide = rng.chance(1, 2);
    let mut calls = declared_as(BLOCKS, VARIABLES, |_| if wide { rng.pick(&types::IN_TWO_STEPS).number() } else { types::any(rng) });
    let islands = rng.chance(1, 2);
    let full = rng.below(BLOCKS as u32);
    calls.extend(marks().filter(|_| rng.chance(1, 3)));
    calls.extend((0..OWN_PARAMS).map(|_| [15, full, 2, 0]));
    calls.extend((0..MADE as u32).map(|_| [3, 0, 2, 0]));
    if !islands {
        calls.extend(branches(rng, BLOCKS as u32, 3));
    }
    let mut cells: Vec<(u32, u32)> = (0..BLOCKS as u32).flat_map(|b| (0..VARIABLES as u32).map(move |v| (v, b))).collect();
    rng.shuffle(&mut cells);
    calls.extend(cells.iter().map(|&(v, b)| [6, v, b, 0]));
    calls.push([12, 0, 0, 0]);
    calls.extend(cells.iter().take(2000).map(|&(v, b)| [6, v, b, 0]));
    calls.truncate(MAX_CALLS);
    calls
}

/// Sealed blocks that all branch to eight others: one use schedules as many calls as a run can.
fn full_lookup(rng: &mut Rng) -> Vec<Call> {
    let mut calls = declared(BLOCKS, 2);
    let (blocks, dests) = (BLOCKS as u32, DESTS as u32);
    let (stride, offset) = (2 * rng.below(blocks / 2) + 1, rng.below(blocks));
    let mut turns: Vec<u32> = (0..blocks).collect();
    if rng.chance(1, 2) {
        rng.shuffle(&mut turns);
    }
    for p in turns {
        let named: Vec<u32> = (0..dests).map(|i| (p + offset + i * stride) % blocks).collect();
        calls.push([7, p, 0, 0]);
        calls.extend(named.iter().map(|&d| [8, p, d, 0]));
        calls.extend(named.iter().map(|&d| [9, d, p, 0]));
    }
    calls.push([12, 0, 0, 0]);
    calls.extend((0..8).map(|_| [6, rng.below(2), rng.below(blocks), 0]));
    calls
}

/// Each block is entered by those before it, which have their answer by then, and last by the one after it: results wait while that is read.
fn waiting_results(rng: &mut Rng) -> Vec<Call> {
    let mut calls = declared(BLOCKS, 1);
    let (blocks, back) = (BLOCKS as u32, rng.within(4, DESTS as u32 - 1));
    for p in 0..blocks {
        calls.push([7, p, 0, 0]);
        let named = (p + 1..blocks.min(p + back + 1)).chain(p.checked_sub(1));
        calls.extend(named.map(|d| [8, p, d, 0]));
    }
    for b in 0..blocks {
        let entered = (b.saturating_sub(back)..b).chain((b + 1 < blocks).then_some(b + 1));
        calls.extend(entered.map(|p| [9, b, p, 0]));
    }
    calls.extend([[12, 0, 0, 0], [6, 0, rng.below(3), 0], [6, 0, rng.below(blocks), 0]]);
    calls
}

/// The longest chain that there can be, or a short one, or one that another order of seals breaks up.
fn alias_chain(rng: &mut Rng) -> Vec<Call> {
    match rng.below(4) {
        0 => one_chain(rng.within(2, 20), rng.within(1, 20), |_| {}),
        1 => one_chain(rng.within(2, 20), rng.within(1, 20), |seals| rng.shuffle(seals)),
        _ => one_chain(BLOCKS as u32, VARIABLES as u32, |_| {}),
    }
}

/// A line of blocks, all parameters of which become one chain. In each block every variable is used, the last first; then the block before is told
/// that variable k is what k - 1 was there, and variable 0 what the last one is one block earlier. Sealed from the end of the line, each parameter
/// becomes an alias of the next before that is one itself. The line is declared after its definitions, which would come late otherwise.
fn one_chain(blocks: u32, vars: u32, order: impl FnOnce(&mut [u32])) -> Vec<Call> {
    let mut calls = declared(blocks as usize - 1, vars as usize - 1);
    for b in 0..blocks - 1 {
        calls.extend([[7, b, 0, 0], [8, b, b + 1, 0]]);
    }
    let first = calls.len() as u32;
    let answer = |b: u32, v: u32| first + b * vars + vars - 1 - v;
    for b in 0..blocks {
        calls.extend((0..vars).rev().map(|v| [6, v, b, 0]));
    }
    for b in 1..blocks {
        calls.push([5, 0, answer(b - 1, vars - 1), b - 1]);
        calls.extend((1..vars).map(|v| [5, v, answer(b, v - 1), b - 1]));
    }
    calls.extend((1..blocks).map(|b| [9, b, b - 1, 0]));
    let mut seals: Vec<u32> = (0..blocks).rev().collect();
    order(&mut seals);
    calls.extend(seals.iter().map(|&b| [11, b, 0, 0]));
    calls
}

/// Such a chain, followed from its end: a block that is entered directly and by way of another uses the variable there.
fn followed_chain(blocks: u32, vars: u32) -> Vec<Call> {
    let mut calls = one_chain(blocks, vars, |_| {});
    let (last, side, join) = (blocks - 1, blocks, blocks + 1);
    calls.extend([[1, side, 0, 0], [1, join, 0, 0], [7, last, 0, 0], [8, last, side, 0], [8, last, join, 0], [7, side, 0, 0], [8, side, join, 0]]);
    calls.extend([[9, side, last, 0], [9, join, last, 0], [9, join, side, 0], [12, 0, 0, 0], [6, vars - 1, join, 0]]);
    calls
}

/// Two blocks enter a third eight times each with a value for every variable and for so many parameters of the caller's, behind which one more argument
/// is refused; so is the ninth destination, and one more parameter if there are as many as there can be.
fn arguments(rng: &mut Rng, own: usize) -> Vec<Call> {
    let mut calls = declared(4, VARIABLES);
    let (own, past) = (own as u32, u32::from(own == OWN_PARAMS));
    calls.extend((0..own + past).map(|_| [15, 3, 2, 0]));
    for v in 0..VARIABLES as u32 {
        for b in 1..3 {
            calls.extend([[3, b, 2, 0], [4, v, own + 2 * v + b - 1, b]]);
        }
    }
    for b in 1..3 {
        calls.push([7, b, 0, 0]);
        calls.extend((0..DESTS + 1).map(|_| [8, b, 3, 0]));
        calls.extend((0..DESTS as u32).flat_map(|place| (0..own + past).map(move |i| [16, b, own + 2 * (i % VARIABLES as u32) + b - 1, place])));
        calls.push([9, 3, b, 0]);
    }
    let sealed_first = rng.chance(1, 2);
    calls.extend(sealed_first.then_some([12, 0, 0, 0]));
    calls.extend((0..VARIABLES as u32).map(|v| [6, v, 3, 0]));
    calls.extend([[12, 0, 0, 0], [15, 3, 2, 0]]);
    calls
}

/// As many calls as a list can have, or one more.
fn calls(rng: &mut Rng) -> Vec<Call> {
    let (blocks, vars) = (rng.within(2, BLOCKS as u32), rng.within(1, VARIABLES as u32));
    let types = types::few(rng);
    let mut calls = declared_as(blocks as usize, vars as usize, |_| rng.pick(&types));
    while calls.len() < MAX_CALLS {
        calls.push(odd::likely(calls.len() as u32, blocks, vars, &types, rng));
    }
    calls.extend(rng.chance(1, 4).then_some([1, 0, 0, 0]));
    calls
}
