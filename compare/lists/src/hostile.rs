//! Anything at all as calls, as lengths and as what the tables hold: the library answers as docs/RULES.md says and touches nothing that was not lent.
use crate::drawing::Drawing;
use crate::fence::{Ground, Side};
use crate::lent::{TABLES, needs};
use crate::progress::Progress;
use crate::rng::Rng;
use crate::{Call, MAX_CALLS, limits, odd, types};
use sangvireb::raw::{self, Asked};
use sangvireb::{Block, Branch, Kind};
use std::ops::Range;
use std::os::unix::process::ExitStatusExt;
use std::process::{Command, ExitCode};

/// Nine lists: four of calls, five of tables.
type Lists = [Vec<u32>; 9];

/// How many cells more than its need a list has at most.
pub const SPARE: usize = 64;
const SIGSEGV: i32 = 11;
/// Numbers below this are a row's room or near it.
const SMALL: u32 = raw::PARAM_ROOM as u32 + 6;

struct Field {
    grounds: [Ground; 9],
    heap: bool,
}

#[derive(Default)]
struct Figures {
    rounds: u64,
    calls: u64,
    /// sessions that answered 0, 1, 2
    sessions: [u64; 3],
    resolved: [u64; 3],
    /// rows with entries, empty rows, no row
    rows: [u64; 3],
    /// values recorded, not recorded, not there
    recorded: [u64; 3],
}

fn calls(rng: &mut Rng) -> Vec<Call> {
    let long = rng.below(200);
    let count = match long {
        0 => MAX_CALLS as u32 + rng.below(4) - 2,
        1 => return limits::list(rng),
        2..=9 => rng.below(2000),
        10..=29 => 0,
        _ => rng.below(60),
    };
    let (blocks, vars, types, manner) = (rng.within(1, 5), rng.within(1, 3), types::few(rng), rng.below(4));
    let mut calls: Vec<Call> = Vec::new();
    while calls.len() < count as usize {
        let n = calls.len() as u32;
        calls.push(match manner {
            0 => std::array::from_fn(|_| rng.any()),
            1 => odd::call(n, blocks, rng),
            2 if n < blocks => [1, n, rng.any(), rng.any()],
            2 if n < blocks + vars => [2, n - blocks, rng.pick(&types), rng.any()],
            _ if rng.chance(1, 6) => odd::call(n, blocks, rng),
            _ => odd::likely(n, blocks, vars, &types, rng),
        });
    }
    calls
}

/// A length at or near what it should be, now and then far from it.
pub fn length(right: usize, rng: &mut Rng) -> usize {
    match rng.below(64) {
        0 => right.saturating_sub(1),
        1 => 0,
        2 => rng.below(right as u32 + 1) as usize,
        3..=9 => right + 1,
        10..=12 => right + rng.below(SPARE as u32) as usize,
        _ => right,
    }
}

fn lists(calls: &[Call], rng: &mut Rng) -> Lists {
    let mut lists: Lists = Default::default();
    for column in 0..4 {
        lists[column] = calls.iter().map(|call| call[column]).collect();
        match rng.below(128) {
            0 => lists[column].push(rng.any()),
            1 => drop(lists[column].pop()),
            2 => lists[column].clear(),
            _ => {}
        }
    }
    for (table, need) in needs(calls.len()).into_iter().enumerate() {
        lists[4 + table] = garbage(length(need, rng), rng);
    }
    lists
}

/// Any numbers, or one number everywhere.
pub fn garbage(len: usize, rng: &mut Rng) -> Vec<u32> {
    let (same, small) = (rng.any(), rng.chance(1, 3));
    match rng.below(4) {
        0 => vec![u32::MAX; len],
        1 => vec![same % SMALL; len],
        _ => (0..len).map(|_| if small { rng.below(SMALL) } else { rng.any() }).collect(),
    }
}

/// What docs/RULES.md says of the lengths alone.
fn whole_answer(lists: &Lists) -> u32 {
    let calls = lists[0].len();
    if lists[..4].iter().any(|list| list.len() != calls) || calls > MAX_CALLS {
        return raw::UNFIT;
    }
    let short = needs(calls).into_iter().zip(&lists[4..]).any(|(need, table)| table.len() < need);
    if short { raw::SHORT } else { raw::RUN }
}

impl Field {
    fn new(heap: bool) -> Field {
        let calls = MAX_CALLS + SPARE;
        let [codes, numbers, graph, form, work] = needs(calls).map(|need| need + SPARE);
        Field { grounds: [calls, calls, calls, calls, codes, numbers, graph, form, work].map(|most| Ground::new(heap, most)), heap }
    }

    /// Lends copies of the lists; answers the session's code and the lists afterwards.
    fn run(&mut self, lists: &Lists, side: Side, around: u32) -> (u32, Lists) {
        for (ground, list) in self.grounds.iter_mut().zip(lists) {
            ground.fill(list, around, side);
        }
        let mut lengths = lists.iter().map(Vec::len);
        let lent = self.grounds.each_mut().map(|ground| ground.lend(lengths.next().expect("nine lists, nine grounds"), side));
        let [kinds, xs, ys, zs, codes, numbers, graph, form, work] = lent;
        let code = raw::session(kinds, xs, ys, zs, codes, numbers, graph, form, work);
        let mut after: Lists = Default::default();
        for (i, ground) in self.grounds.iter_mut().enumerate() {
            after[i] = ground.lend(lists[i].len(), side).to_vec();
            assert!(ground.kept_around(lists[i].len(), around, side), "list {i}: a cell beside what was lent was written");
        }
        (code, after)
    }
}

/// Is what a session left as it must be?
fn check(before: &Lists, code: u32, after: &Lists) -> Result<(), String> {
    let due = whole_answer(before);
    if code != due {
        return Err(format!("the session answers {code} instead of {due}"));
    }
    let calls = before[0].len();
    for (i, (was, is)) in before.iter().zip(after).enumerate() {
        let name = if i < 4 { "a call list" } else { TABLES[i - 4] };
        let kept_from = if i < 4 || code != raw::RUN { 0 } else { needs(calls)[i - 4] };
        if was[kept_from..] != is[kept_from..] {
            return Err(format!("{name} was changed where it must be kept"));
        }
    }
    if code == raw::RUN { check_answers(after) } else { Ok(()) }
}

fn check_answers(after: &Lists) -> Result<(), String> {
    let [kinds, _, _, _, codes, numbers, _, _, work] = after;
    for (i, kind) in kinds.iter().enumerate() {
        let unknown = Kind::from_number(*kind).is_none();
        let given = match codes[i] {
            0 | 3..=13 => true,
            17 => *kind == 15,
            18 => [15, 16].contains(kind),
            19 => *kind == 17,
            20 => [4, 5].contains(kind),
            _ => false,
        };
        if !given || unknown != (codes[i] == 3) || codes[i] != 0 && numbers[i] != 0 {
            return Err(format!("call {i} of kind {kind} gets code {} and number {}", codes[i], numbers[i]));
        }
    }
    let clean = work[..raw::WORK_NEED].iter().all(|&cell| cell == 0);
    if clean { Ok(()) } else { Err("a work cell is not 0".to_string()) }
}

/// One list of calls, lent at both sides and over different garbage: each answer as it must be, and both the same.
fn round(field: &mut Field, rng: &mut Rng, figures: &mut Figures) -> Result<(), String> {
    let calls = calls(rng);
    let before = lists(&calls, rng);
    let (code, after) = field.run(&before, Side::End, rng.any());
    check(&before, code, &after)?;
    let mut other = before.clone();
    other[4..].iter_mut().for_each(|table| *table = garbage(table.len(), rng));
    let (again, after_again) = field.run(&other, Side::Start, rng.any());
    check(&other, again, &after_again)?;
    if code == raw::RUN {
        let same = (0..5).all(|t| (after[4 + t][..needs(calls.len())[t]]) == after_again[4 + t][..needs(calls.len())[t]]);
        if !same {
            return Err("what the tables held before makes a difference".to_string());
        }
    }
    figures.rounds += 1;
    figures.calls += calls.len() as u64;
    figures.sessions[code as usize] += 2;
    Ok(())
}

/// What docs/RULES.md says of resolving, taken literally.
fn resolved(targets: &[u32], value: u32) -> (u32, u32) {
    if value as usize >= targets.len() {
        return (6, 0);
    }
    let mut at = value;
    for _ in 0..targets.len() {
        match targets.get(at as usize) {
            Some(&next) if next == at => return (0, at),
            Some(&next) => at = next,
            None => return (14, 0),
        }
    }
    (14, 0)
}

fn targets(rng: &mut Rng) -> Vec<u32> {
    let len = rng.pick(&[0, 1, 2, 3, 10, 60, 300]) + rng.below(3);
    let manner = rng.below(4);
    let target = |i: u32, rng: &mut Rng| match manner {
        0 => rng.any(),
        1 => rng.below(len + 1),
        2 => if rng.chance(1, 8) { i } else { rng.below(len) },
        _ => if i == 0 { rng.pick(&[0, 0, len - 1, len]) } else { i - 1 },
    };
    (0..len).map(|i| target(i, rng)).collect()
}

fn resolve_round(field: &mut Field, rng: &mut Rng, figures: &mut Figures) -> Result<(), String> {
    let targets = targets(rng);
    let len = targets.len();
    for value in [rng.below(len as u32 + 1), len.saturating_sub(1) as u32, len as u32, rng.any(), u32::MAX] {
        for side in [Side::Start, Side::End] {
            let ground = &mut field.grounds[0];
            ground.fill(&targets, value, side);
            let answer = raw::resolve(ground.lend(len, side), value);
            let due = resolved(&targets, value);
            if answer != due || ground.lend(len, side) != targets || !ground.kept_around(len, value, side) {
                return Err(format!("resolving {value} in {targets:?} answers {answer:?} instead of {due:?}, or changes something"));
            }
            figures.resolved[[0, 6, 14].iter().position(|&code| code == due.0).expect("one of three codes")] += 1;
        }
    }
    Ok(())
}

/// What docs/RULES.md says of recorded values, taken literally.
fn recorded_due(described: &[u32], value: u32) -> (u32, u32) {
    described.get(value as usize).map_or((6, 0), |cell| (0, cell >> 7 & 1))
}

/// Descriptions of any length that hold anything: each value by itself, and all recorded ones in order.
fn recorded_round(field: &mut Field, rng: &mut Rng, figures: &mut Figures) -> Result<(), String> {
    let long = rng.pick(&[0, 1, 2, 3, 10, 60, 300]) + rng.below(3) as usize;
    let described = garbage(long, rng);
    for side in [Side::Start, Side::End] {
        let (ground, around) = (&mut field.grounds[0], rng.any());
        ground.fill(&described, around, side);
        for value in [rng.below(long as u32 + 1), long.saturating_sub(1) as u32, long as u32, rng.any(), u32::MAX] {
            let (answer, due) = (raw::recorded(ground.lend(long, side), value), recorded_due(&described, value));
            if answer != due {
                return Err(format!("whether value {value} is recorded in {described:?} is answered {answer:?} instead of {due:?}"));
            }
            figures.recorded[if due.0 == 6 { 2 } else { 1 - due.1 as usize }] += 1;
            let from = value as usize;
            let next = (from..long).find(|&later| recorded_due(&described, later as u32).1 == 1);
            let found = raw::next_recorded(ground.lend(long, side), from);
            if next != Some(found).filter(|&found| found < long) {
                return Err(format!("the first recorded value from {from} on in {described:?} is answered {found} instead of {next:?}"));
            }
        }
        if ground.lend(long, side) != described || !ground.kept_around(long, around, side) {
            return Err("reading what is recorded changed something".to_string());
        }
    }
    Ok(())
}

/// What docs/RULES.md says of a row, taken literally: where its entries lie in its table, if it is there.
fn row_due(table: &[u32], asked: Asked) -> Option<Range<usize>> {
    let below = |number: u32, limit: usize| Some(number as usize).filter(|&number| number < limit);
    let number = match asked {
        Asked::Params(block) => below(block.0, raw::BLOCKS)?,
        Asked::Args(branch, place) => below(branch.0, raw::BLOCKS)? * raw::DESTS + below(place, raw::DESTS)?,
    };
    let row = table.chunks_exact(raw::PARAM_ROW).nth(number)?;
    let count = below(row[0], raw::PARAM_ROW)?;
    let start = number * raw::PARAM_ROW + 1;
    Some(start..start + count)
}

/// Cells for a table of rows: anything; where counts stand, mostly some that are right or just past the room.
fn rows(right: usize, rng: &mut Rng) -> Vec<u32> {
    let mut cells = garbage(length(right, rng), rng);
    if rng.chance(3, 4) {
        let room = raw::PARAM_ROOM as u32;
        cells.iter_mut().step_by(raw::PARAM_ROW).for_each(|count| *count = rng.pick(&[0, 1, 2, room - 1, room, room + 1, u32::MAX]));
    }
    cells
}

fn asked(rng: &mut Rng) -> Asked {
    let mut number = |limit: usize| match rng.below(16) {
        0 => limit as u32,
        1 => rng.any(),
        2 => u32::MAX,
        3..=5 => limit as u32 - 1,
        _ => rng.below(limit as u32),
    };
    let (block, place) = (number(raw::BLOCKS), number(raw::DESTS));
    if rng.chance(1, 2) { Asked::Params(Block(block)) } else { Asked::Args(Branch(block), place) }
}

/// The row is that part of the lent cells and no copy, and the code goes with it.
fn check_row(lent: [&[u32]; 2], asked: Asked, figures: &mut Figures) -> Result<(), String> {
    let [params, args] = lent;
    let table = if let Asked::Params(_) = asked { params } else { args };
    let due = row_due(table, asked);
    let part = &table[due.clone().unwrap_or(0..0)];
    let (row, code) = (raw::row(params, args, asked), raw::row_code(params, args, asked));
    if row.as_ptr_range() != part.as_ptr_range() || code != if due.is_some() { 0 } else { 6 } {
        return Err(format!("{asked:?} in a table of {} cells: code {code} and {} entries, due {due:?}", table.len(), row.len()));
    }
    figures.rows[if due.is_none() { 2 } else { row.is_empty() as usize }] += 1;
    Ok(())
}

fn row_round(field: &mut Field, rng: &mut Rng, figures: &mut Figures) -> Result<(), String> {
    let tables = [rows(raw::PARAM_CELLS, rng), rows(raw::ARG_CELLS, rng)];
    let [long, also_long] = tables.each_ref().map(Vec::len);
    let [params, .., args, _] = &mut field.grounds; // the second is the form's, which has room for all arguments
    for side in [Side::Start, Side::End] {
        let around = rng.any();
        params.fill(&tables[0], around, side);
        args.fill(&tables[1], around, side);
        for _ in 0..16 {
            check_row([params.lend(long, side), args.lend(also_long, side)], asked(rng), figures)?;
        }
        let kept = params.lend(long, side) == tables[0] && args.lend(also_long, side) == tables[1];
        if !kept || !params.kept_around(long, around, side) || !args.kept_around(also_long, around, side) {
            return Err("reading rows changed something".to_string());
        }
    }
    Ok(())
}

/// The command that a child runs to show that a step too far is noticed.
pub const OVERSTEP: &str = "overstep";

pub fn overstep(side: Option<&str>, heap: bool) -> ExitCode {
    let side = if side == Some("start") { Side::Start } else { Side::End };
    let mut ground: Ground = Ground::new(heap, 10);
    ground.fill(&[7; 10], 7, side);
    println!("a read past the end found {}", ground.overstep(side));
    ExitCode::SUCCESS
}

/// A read past either end must end the process that tries it.
fn fences_hold() -> bool {
    let stopped = |side: &str| {
        let own = std::env::current_exe().expect("this program has a path");
        let ended = Command::new(own).args([OVERSTEP, "--side", side]).status().expect("this program can be started");
        ended.signal() == Some(SIGSEGV)
    };
    stopped("start") && stopped("end")
}

pub fn run(rounds: u64, seed: u64, heap: bool) -> ExitCode {
    if !heap && !fences_hold() {
        println!("the closed pages stop nothing here");
        return ExitCode::FAILURE;
    }
    let mut field = Field::new(heap);
    let mut drawing = Drawing::new(heap);
    let mut figures = Figures::default();
    let mut progress = Progress::new(rounds);
    for number in 0..rounds {
        let mut rng = Rng::nth(seed, number);
        let held = round(&mut field, &mut rng, &mut figures)
            .and_then(|()| resolve_round(&mut field, &mut rng, &mut figures))
            .and_then(|()| row_round(&mut field, &mut rng, &mut figures))
            .and_then(|()| recorded_round(&mut field, &mut rng, &mut figures))
            .and_then(|()| drawing.round(&mut rng));
        if let Err(what) = held {
            println!("round {number} of seed {seed}: {what}");
            return ExitCode::FAILURE;
        }
        progress.show(figures.rounds, figures.calls);
    }
    progress.end(figures.rounds, figures.calls);
    summary(&figures, &drawing, field.heap);
    ExitCode::SUCCESS
}

fn summary(figures: &Figures, drawing: &Drawing, heap: bool) {
    let [ran, short, unfit] = figures.sessions;
    let [ended, past, lost] = figures.resolved;
    let [full, empty, none] = figures.rows;
    let ground = if heap { "from the heap, each list of exactly its length" } else { "between closed pages; a read past either end was shown to be stopped" };
    println!("lent {ground}");
    println!("{} rounds, {} calls; sessions that answered 0: {ran}, 1: {short}, 2: {unfit}", figures.rounds, figures.calls);
    println!("resolving answered 0: {ended}, 6: {past}, 14: {lost}");
    println!("rows with entries: {full}, empty: {empty}, not there: {none}");
    let [marked, unmarked, absent] = figures.recorded;
    println!("values recorded: {marked}, not recorded: {unmarked}, not there: {absent}");
    println!("{drawing}");
    println!("nothing outside what was lent was touched, and every answer is as it must be");
}
