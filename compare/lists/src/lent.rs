//! What is lent to the library, filled with garbage before each session, and what it left there.
use crate::Call;
use crate::rng::Rng;
use sangvireb::raw;

pub const TABLES: [&str; 5] = ["codes", "numbers", "graph", "form", "work"];

/// How many cells each of the five tables needs for so many calls.
pub fn needs(calls: usize) -> [usize; 5] {
    [calls, calls, raw::GRAPH_NEED, raw::FORM_NEED, raw::WORK_NEED]
}

const POOL: usize = 1 << 17;
const SLACK: u32 = 8;

/// Four call lists, and five tables that are up to seven cells longer than their need.
pub struct Lent {
    calls: [Vec<u32>; 4],
    pub tables: [Vec<u32>; 5],
    garbage: Vec<u32>,
    from: [usize; 5],
}

impl Lent {
    pub fn new(seed: u64) -> Lent {
        let mut rng = Rng::new(seed);
        let garbage = (0..POOL + raw::FORM_NEED + SLACK as usize).map(|_| rng.any() >> (rng.any() & 31)).collect();
        Lent { calls: Default::default(), tables: Default::default(), garbage, from: [0; 5] }
    }

    /// Fills the tables with garbage and runs the list once; answers the session's own code.
    pub fn run(&mut self, calls: &[Call], rng: &mut Rng) -> u32 {
        for (column, list) in self.calls.iter_mut().enumerate() {
            list.clear();
            list.extend(calls.iter().map(|call| call[column]));
        }
        for (t, need) in needs(calls.len()).into_iter().enumerate() {
            let (from, len) = (rng.below(POOL as u32) as usize, need + rng.below(SLACK) as usize);
            self.from[t] = from;
            self.tables[t].clear();
            self.tables[t].extend_from_slice(&self.garbage[from..from + len]);
        }
        let [kinds, xs, ys, zs] = &self.calls;
        let [codes, numbers, graph, form, work] = &mut self.tables;
        raw::session(kinds, xs, ys, zs, codes, numbers, graph, form, work)
    }

    /// The first cell of a table, from `start` on, that no longer holds what it held before the session.
    pub fn first_changed(&self, table: usize, start: usize) -> Option<usize> {
        let (now, from) = (&self.tables[table], self.from[table]);
        let before = &self.garbage[from..from + now.len()];
        (now[start..] != before[start..]).then(|| (start..now.len()).find(|&i| now[i] != before[i])).flatten()
    }

    /// What the cell held before the session.
    pub fn before(&self, table: usize, cell: usize) -> u32 {
        self.garbage[self.from[table] + cell]
    }

    pub fn codes(&self) -> &[u32] {
        &self.tables[0]
    }

    pub fn numbers(&self) -> &[u32] {
        &self.tables[1]
    }

    pub fn graph(&self) -> &[u32] {
        &self.tables[2]
    }

    pub fn form(&self) -> &[u32] {
        &self.tables[3]
    }
}
