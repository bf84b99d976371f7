//! What the lists had in them, so that a run shows what it has tried.
use crate::both::Both;
use lists::finished::Finished;
use lists::{Call, MAX_CALLS};
use sangvireb::{Kind, Sort, Type};
use sangvireb::raw::*;

const CODES: usize = 21;
/// 0, the kinds that there are, and one for all above.
const KINDS: usize = Kind::ALL.len() + 2;

#[derive(Clone, Default)]
pub struct Figures {
    pub lists: u64,
    pub calls: u64,
    codes: [u64; CODES],
    kinds: [u64; KINDS],
    accepted: [u64; KINDS],
    /// most in one list: calls, values, zeros, alias links in a chain, parameters of a block, arguments of a destination, scheduled calls, results
    most: [usize; 8],
    /// destinations that carry fewer or more arguments than their block has parameters
    uneven: u64,
    /// lists in which a variable is marked for stack maps; values recorded, of each sort
    marked: u64,
    recorded: [u64; Sort::ALL.len()],
    unfit: u64,
    /// by type: variables, made values and caller's parameters of it, and zeros
    types: [[u64; Type::ALL.len()]; 4],
    /// zeros that are the first of two steps
    steps: u64,
}

/// The kinds that name a type in their second number.
const OF_TYPES: [u32; 3] = [2, 3, 15];

impl Figures {
    /// Counts a list that was just compared.
    pub fn count(&mut self, calls: &[Call], both: &Both) {
        self.lists += 1;
        self.calls += calls.len() as u64;
        if calls.len() > MAX_CALLS {
            self.unfit += 1;
            return;
        }
        for (call, &code) in calls.iter().zip(both.lent.codes()) {
            let kind = (call[0] as usize).min(KINDS - 1);
            self.kinds[kind] += 1;
            self.accepted[kind] += u64::from(code == 0);
            self.codes[(code as usize).min(CODES - 1)] += 1;
        }
        self.count_types(calls, both);
        let form = both.lent.form();
        let (values, zeros) = (form[VALUE_COUNT] as usize, form[ZERO_CALLS] as usize);
        let args = (0..BLOCKS * DESTS).map(|i| form[ARG_ROWS + PARAM_ROW * i] as usize).max().unwrap_or(0);
        let params = (0..BLOCKS).map(|b| form[PARAM_ROWS + PARAM_ROW * b] as usize).max().unwrap_or(0);
        let session = Finished::of(calls, &both.lent);
        self.uneven += uneven(&session);
        self.marked += u64::from(both.lent.graph()[MARKS..][..VARIABLES].contains(&1));
        both.expected.recorded.iter().for_each(|&value| self.recorded[session.sort(value as u32) as usize] += 1);
        let links = longest_chain(&form[TARGET..TARGET + values]);
        let heights = [both.heights.scheduled, both.heights.results];
        self.raise([calls.len(), values, zeros, links, params, args, heights[0], heights[1]]);
    }

    fn count_types(&mut self, calls: &[Call], both: &Both) {
        let session = Finished::of(calls, &both.lent);
        for (call, _) in session.accepted() {
            if let Some(place) = OF_TYPES.iter().position(|&kind| kind == call[0]) {
                self.types[place][call[2] as usize] += 1;
            }
        }
        let mut zeros = 0;
        for value in (0..session.values()).filter(|&value| session.sort(value) == 2) {
            self.types[3][session.type_of(value) as usize] += 1;
            zeros += 1;
        }
        self.steps += zeros - u64::from(both.lent.form()[ZERO_CALLS]);
    }

    fn raise(&mut self, seen: [usize; 8]) {
        self.most.iter_mut().zip(seen).for_each(|(most, seen)| *most = seen.max(*most));
    }

    pub fn add(&mut self, other: &Figures) {
        self.lists += other.lists;
        self.calls += other.calls;
        self.unfit += other.unfit;
        self.uneven += other.uneven;
        self.marked += other.marked;
        let sum = |mine: &mut [u64], theirs: &[u64]| mine.iter_mut().zip(theirs).for_each(|(m, t)| *m += t);
        sum(&mut self.codes, &other.codes);
        sum(&mut self.recorded, &other.recorded);
        sum(&mut self.kinds, &other.kinds);
        sum(&mut self.accepted, &other.accepted);
        self.types.iter_mut().zip(&other.types).for_each(|(mine, theirs)| sum(mine, theirs));
        self.steps += other.steps;
        self.raise(other.most);
    }

    pub fn brief(&self) -> String {
        let [calls, values, zeros, links, params, args, scheduled, results] = self.most;
        format!(
            "{} lists, {} calls, {}% accepted; at most {calls} calls, {values} values, {zeros} zeros, {links} alias links, {params} parameters, \
             {args} arguments, {scheduled} scheduled, {results} results",
            self.lists,
            self.calls,
            100 * self.codes[0] / self.calls.max(1)
        )
    }

    /// How often each code and each kind came.
    pub fn full(&self) -> String {
        let codes: Vec<String> = (0..CODES).filter(|&c| self.codes[c] > 0).map(|c| format!("{c}: {}", self.codes[c])).collect();
        let kinds: Vec<String> = (0..KINDS).map(|k| format!("{k}: {}/{}", self.accepted[k], self.kinds[k])).collect();
        let (codes, kinds) = (codes.join("  "), kinds.join("  "));
        let (last, above) = (KINDS - 2, KINDS - 1);
        let recorded: Vec<String> = Sort::ALL.iter().zip(self.recorded).map(|(sort, count)| format!("{sort} {count}")).collect();
        let [variables, made, callers, zeros] = self.types.map(|of| of.into_iter().min().unwrap_or(0));
        format!(
            "codes: {codes}\nlists with a marked variable: {}; values recorded: {}\n\
             sessions refused with 2: {}; destinations with another count than their block's parameters: {}\n\
             accepted/asked by kind, {above} for all above {last}: {kinds}\n\
             of each type at least {variables} variables, {made} made values, {callers} caller's parameters, {zeros} zeros; first steps of zeros: {}",
            self.marked,
            recorded.join(", "),
            self.unfit,
            self.uneven,
            self.steps
        )
    }
}

/// How many destinations have not one argument for each parameter.
fn uneven(session: &Finished) -> u64 {
    let edges = (0..session.blocks()).flat_map(|b| session.dests(b).iter().enumerate().map(move |(i, &to)| (b, i, to)));
    edges.filter(|&(b, i, to)| session.args(b, i).len() != session.params(to).len()).count() as u64
}

/// How many links the longest chain of aliases has.
fn longest_chain(targets: &[u32]) -> usize {
    let mut known: Vec<Option<usize>> = vec![None; targets.len()];
    let mut most = 0;
    for start in 0..targets.len() {
        let mut passed = vec![];
        let mut at = start;
        while known[at].is_none() && targets[at] as usize != at && passed.len() < targets.len() {
            passed.push(at);
            at = targets[at] as usize;
        }
        let mut links = known[at].unwrap_or(0);
        known[at] = Some(links);
        for value in passed.into_iter().rev() {
            links += 1;
            known[value] = Some(links);
        }
        most = most.max(links);
    }
    most
}
