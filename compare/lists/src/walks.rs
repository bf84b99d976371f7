//! Random lists that meet the suppositions of demand 3, walked on random paths.
use crate::Call;
use crate::draft::Draft;
use crate::finished::Finished;
use crate::lent::Lent;
use crate::manner::Manner;
use crate::path::{self, Content, Met, Walker};
use crate::progress::Progress;
use crate::rng::Rng;
use crate::shapes::{Graph, SHAPES, Shape};
use crate::shrink::shrink;
use crate::text;
use crate::types::{self, UNSET};
use sangvireb::Sort;
use std::process::ExitCode;

const PATHS: u32 = 8;

#[derive(Default)]
struct Figures {
    lists: u64,
    calls: u64,
    unfit: u64,
    paths: u64,
    blocks: u64,
    /// uses met, by the sort of the value to which the answer resolves
    uses: [u64; Sort::ALL.len()],
    /// lists with parameters of the caller's, and arguments given for them
    carrying: u64,
    given: u64,
    /// lists that give arguments of other blocks than the branching one
    foreign: u64,
    aliases: u64,
    /// uses met of a variable that had received nothing; those of them where it is a float, or a vector of floats; and those whose zero takes two steps
    unset: [u64; 3],
}

struct Random<'a> {
    session: &'a Finished<'a>,
    rng: &'a mut Rng,
    figures: &'a mut Figures,
    left: u32,
    breach: Option<Met>,
}

impl Walker for Random<'_> {
    fn next(&mut self, dests: &[u32]) -> Option<usize> {
        self.figures.blocks += 1;
        self.left = self.left.checked_sub(1)?;
        (!dests.is_empty()).then(|| self.rng.below(dests.len() as u32) as usize)
    }

    /// Two values, or a value and a type's unset value, hold the same only by a chance of one in 2 to the 128.
    fn content(&mut self, _: Content) -> u128 {
        u128::from(self.rng.word()) << 64 | u128::from(self.rng.word())
    }

    fn meet(&mut self, met: Met) {
        let end = self.session.resolve(met.answer);
        self.figures.uses[self.session.sort(end) as usize] += 1;
        self.figures.aliases += u64::from(end != met.answer);
        self.figures.unset[0] += u64::from(met.unset);
        let ty = self.session.variable_types()[met.var as usize];
        self.figures.unset[1] += u64::from(met.unset && UNSET[ty as usize] != 0);
        self.figures.unset[2] += u64::from(met.unset && types::step(ty).is_some());
        if met.holds != met.received && self.breach.is_none() {
            self.breach = Some(met);
        }
    }
}

/// Any shape, with no way into block 0 and, if there are other blocks, a way out of it.
fn graph(manner: &Manner, rng: &mut Rng) -> Graph {
    let shapes = &SHAPES[..SHAPES.len() - 2];
    let shape: Shape = rng.pick(shapes);
    let mut graph = shape.graph(manner.blocks, rng);
    graph.iter_mut().for_each(|dests| dests.retain(|&d| d != 0));
    if graph[0].is_empty() && manner.blocks > 1 {
        graph[0].push(rng.within(1, manner.blocks - 1));
    }
    graph
}

/// What is wrong with a finished session that meets the suppositions, if anything.
fn breach(session: &Finished, rng: &mut Rng, figures: &mut Figures) -> Option<String> {
    if let Some((branch, place)) = path::unfed(session) {
        return Some(format!("destination {place} of branch {branch} has not one argument for each parameter"));
    }
    let acts = path::acts(session);
    for _ in 0..PATHS {
        figures.paths += 1;
        let left = rng.below(4 * session.blocks() + 8);
        let mut walker = Random { session, rng, figures, left, breach: None };
        path::walk(session, &acts, &mut walker);
        if let Some(met) = walker.breach {
            let Met { block, var, answer, holds, received, .. } = met;
            return Some(format!("in block {block} the answer {answer} of variable {var} holds {holds:x}, and it received {received:x}"));
        }
    }
    None
}

/// Runs and walks one list; counts it apart if it does not meet the suppositions.
fn try_list(calls: &[Call], lent: &mut Lent, rng: &mut Rng, figures: &mut Figures) -> Option<String> {
    let code = lent.run(calls, rng);
    assert_eq!(code, 0, "the list is run");
    let session = Finished::of(calls, lent);
    if !path::counted(&session) {
        figures.unfit += 1;
        return None;
    }
    figures.lists += 1;
    figures.calls += calls.len() as u64;
    figures.foreign += u64::from(path::supposed(&session).contains(&false));
    figures.carrying += u64::from((0..session.blocks()).any(|b| !session.own_params(b).is_empty()));
    figures.given += session.accepted().filter(|(call, _)| call[0] == 16).count() as u64;
    breach(&session, rng, figures)
}

fn proper_list(lent: &mut Lent, rng: &mut Rng) -> Vec<Call> {
    let manner = Manner::proper(rng);
    Draft::new(graph(&manner, rng), manner, rng).list(lent)
}

pub fn run(lists: u64, seed: u64) -> ExitCode {
    let mut lent = Lent::new(seed);
    let mut figures = Figures::default();
    let mut progress = Progress::new(lists);
    let mut number = 0;
    while figures.lists < lists {
        let mut rng = Rng::nth(seed, number);
        let calls = proper_list(&mut lent, &mut rng);
        if let Some(what) = try_list(&calls, &mut lent, &mut rng, &mut figures) {
            println!("list {number} of seed {seed} meets the suppositions, but {what}");
            let smallest = shrink(&calls, |list| try_list(list, &mut lent, &mut rng, &mut Figures::default()).is_some());
            println!("the smallest list found with a breach:\n{}", text(&smallest));
            return ExitCode::FAILURE;
        }
        number += 1;
        progress.show(figures.lists, figures.calls);
    }
    progress.end(figures.lists, figures.calls);
    summary(&figures);
    ExitCode::SUCCESS
}

fn summary(figures: &Figures) {
    let resolved: Vec<String> = Sort::ALL.iter().zip(figures.uses).map(|(sort, uses)| format!("{sort} {uses}")).collect();
    let supposed = figures.lists - figures.foreign;
    println!("{supposed} lists meet the suppositions, {} all but where their arguments come from; {} others were not walked", figures.foreign, figures.unfit);
    println!("{} of those walked have parameters of the caller's, with {} arguments given for them", figures.carrying, figures.given);
    println!("{} paths through {} blocks, {} uses met on them", figures.paths, figures.blocks, figures.uses.iter().sum::<u64>());
    println!("sorts to which answers resolve: {}; {} were aliases", resolved.join(", "), figures.aliases);
    let [unset, floats, two] = figures.unset;
    println!("{unset} times the variable had received nothing, {floats} of them a float or a vector of floats, whose lanes are quiet NaNs;");
    println!("{two} of them a type whose zero takes two steps");
    println!("no breach");
}

#[cfg(test)]
mod tests {
    use super::*;
    use sangvireb::raw::*;

    /// Puts another value for the first argument that the builder appended, if there is one: behind the caller's.
    fn spoil(calls: &[Call], lent: &mut Lent) -> bool {
        let session = Finished::of(calls, lent);
        let edges = (0..session.blocks()).flat_map(|b| session.dests(b).iter().enumerate().map(move |(i, &to)| (b as usize, i, to)));
        let first = |(b, i, to)| (ARG_ROWS + PARAM_ROW * (DESTS * b + i), session.own_params(to).len());
        let found = edges.map(first).find(|&(row, own)| lent.form()[row] as usize > own);
        let Some((row, own)) = found else { return false };
        let form = &mut lent.tables[3];
        form[row + 1 + own] = (form[row + 1 + own] + 1) % form[VALUE_COUNT];
        true
    }

    #[test]
    fn a_wrong_argument_is_met() {
        let mut lent = Lent::new(1);
        let (mut spoiled, mut found) = (0, 0);
        for number in 0..400 {
            let mut rng = Rng::nth(9, number);
            let calls = proper_list(&mut lent, &mut rng);
            lent.run(&calls, &mut rng);
            if spoil(&calls, &mut lent) {
                spoiled += 1;
                found += u32::from(breach(&Finished::of(&calls, &lent), &mut rng, &mut Figures::default()).is_some());
            }
        }
        assert!(found * 4 > spoiled && spoiled > 40, "{found} of {spoiled}");
    }
}
