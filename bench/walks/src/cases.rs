//! Lists of targets with the walks to take in them.

const CELLS: u32 = 4096;
const LONG: u32 = 4032;
/// Walks in a sample: as many as make the clock's own time small.
const MANY: usize = 1024;
const FEW: usize = 4;

pub struct Case {
    pub name: String,
    pub targets: Vec<u32>,
    /// where each walk starts, and how many links it has
    pub walks: Vec<(u32, u32)>,
    /// what the public call answers
    pub code: u32,
}

/// The same numbers in each run.
struct Chance(u64);

impl Chance {
    fn below(&mut self, n: u32) -> u32 {
        self.0 = self.0.wrapping_mul(6364136223846793005).wrapping_add(1442695040888963407);
        ((self.0 >> 33) % u64::from(n)) as u32
    }
}

/// Every value its own target, and all of them in an order by chance, so that a chain's cells lie anywhere in the list.
fn start() -> (Vec<u32>, Vec<u32>, Chance) {
    let (mut order, mut chance): (Vec<u32>, _) = ((0..CELLS).collect(), Chance(2));
    (1..CELLS).rev().for_each(|i| order.swap(i as usize, chance.below(i + 1) as usize));
    ((0..CELLS).collect(), order, chance)
}

/// Chains side by side, each with as many links as `links` says; `last` is the target of their last values, which else end the chains.
fn chains(name: String, links: impl Fn(&mut Chance) -> u32, last: Option<u32>, code: u32) -> Case {
    let (mut targets, order, mut chance) = start();
    let (mut free, mut made) = (&order[..], Vec::new());
    loop {
        let n = links(&mut chance);
        if free.len() <= n as usize || made.len() == MANY {
            break;
        }
        let (chain, rest) = free.split_at(n as usize + 1);
        chain.windows(2).for_each(|pair| targets[pair[0] as usize] = pair[1]);
        if let Some(target) = last {
            targets[chain[n as usize] as usize] = target;
        }
        made.push((chain[0], n));
        free = rest;
    }
    let count = if made.iter().any(|walk| walk.1 == LONG) { FEW } else { MANY };
    Case { name, targets, walks: made.iter().cycle().take(count).copied().collect(), code }
}

/// Walks that end, then those that don't.
pub fn all() -> (Vec<Case>, Vec<Case>) {
    let mut hits: Vec<Case> = [0, 1, 8, LONG].map(|n| chains(format!("{n}"), move |_| n, None, 0)).into();
    hits.insert(2, chains("0 or 1, by chance".into(), |chance| chance.below(2), None, 0));
    let mut misses: Vec<Case> = [0, 1, 8, LONG].map(|n| chains(format!("14, left after {n}"), move |_| n, Some(CELLS), 14)).into();
    let past = (0..MANY as u32).map(|i| (CELLS + i, 0)).collect();
    misses.insert(0, Case { name: "6, past the list".into(), targets: start().0, walks: past, code: 6 });
    let (mut targets, order, _) = start();
    (0..CELLS as usize).for_each(|i| targets[order[i] as usize] = order[(i + 1) % CELLS as usize]);
    misses.push(Case { name: format!("14, round all {CELLS}"), targets, walks: vec![(0, CELLS); FEW], code: 14 });
    (hits, misses)
}
