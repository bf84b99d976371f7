//! Drawing anything at all: tables whose counts and numbers are of every size, tables and buffers of every length, lent between closed pages.
use crate::fence::{Ground, Side};
use crate::hostile::{SPARE, garbage, length};
use crate::lent::Lent;
use crate::rng::Rng;
use crate::shapes::SHAPES;
use crate::random;
use sangvireb::raw::{self, *};
use std::fmt;

/// More bytes than a picture has.
const MOST: usize = 1 << 20;
/// The codes that a drawing can get.
const CODES: [u32; 4] = [0, SHORT, NO_ROOM, NOT_DRAWABLE];

pub struct Drawing {
    graph: Ground,
    form: Ground,
    buffer: Ground<u8>,
    lent: Lent,
    /// drawings by their code, in the order of `CODES`
    answered: [u64; 4],
}

/// The row whose count is at `at`, if that is at most `room` and every entry is below `below`.
fn row(cells: &[u32], at: usize, room: usize, below: u32) -> Option<&[u32]> {
    let count = cells[at] as usize;
    let row = (count <= room).then(|| &cells[at + 1..at + 1 + count])?;
    row.iter().all(|&entry| entry < below).then_some(row)
}

fn values(row: &[u32]) -> String {
    row.iter().map(|value| format!("v{value}")).collect::<Vec<_>>().join(",")
}

/// What docs/RULES.md says of the text, taken literally; nothing if the tables can't be drawn.
pub fn due_text(graph: &[u32], form: &[u32]) -> Option<String> {
    let (blocks, count) = (graph[BLOCK_COUNT], form[VALUE_COUNT]);
    if blocks as usize > BLOCKS || count as usize > VALUE_ROOM {
        return None;
    }
    let (mut lines, mut edges) = (String::new(), String::new());
    for b in 0..blocks as usize {
        lines += &format!("b{b} [label=\"b{b}({})\"];\n", values(row(form, PARAM_ROWS + PARAM_ROW * b, PARAM_ROOM, count)?));
        if graph[BRANCHES + b] == 0 {
            continue;
        }
        for (i, to) in row(graph, DEST_ROWS + DEST_ROW * b, DESTS, blocks)?.iter().enumerate() {
            edges += &format!("b{b} -> b{to} [label=\"{}\"];\n", values(row(form, ARG_ROWS + PARAM_ROW * (DESTS * b + i), PARAM_ROOM, count)?));
        }
    }
    Some(format!("digraph f {{\n{lines}{edges}}}\n"))
}

/// The code, and the buffer afterwards.
fn due(graph: &[u32], form: &[u32], buffer: &[u8]) -> (u32, usize, Vec<u8>) {
    let refused = |code| (code, 0, buffer.to_vec());
    if graph.len() < GRAPH_NEED || form.len() < FORM_NEED {
        return refused(SHORT);
    }
    let Some(text) = due_text(graph, form) else { return refused(NOT_DRAWABLE) };
    if buffer.len() < text.len() {
        return refused(NO_ROOM);
    }
    let after = [text.as_bytes(), &buffer[text.len()..]].concat();
    (0, text.len(), after)
}

/// A number at or near a limit, or far from it.
fn near(limit: u32, rng: &mut Rng) -> u32 {
    match rng.below(8) {
        0 => limit,
        1 => limit.wrapping_sub(1),
        2 => limit + 1,
        3 => u32::MAX,
        4 => 0,
        5 => rng.any(),
        _ => rng.below(limit + 1),
    }
}

/// Changes a cell that the drawing may read: a count, a mark or an entry.
fn spoil(graph: &mut [u32], form: &mut [u32], rng: &mut Rng) {
    let block = rng.below(graph[BLOCK_COUNT].clamp(1, BLOCKS as u32)) as usize;
    let place = rng.below(DESTS as u32) as usize;
    let (blocks, values) = (graph[BLOCK_COUNT].min(BLOCKS as u32), form[VALUE_COUNT].min(VALUE_ROOM as u32));
    let (dests, params, args) = (DEST_ROWS + DEST_ROW * block, PARAM_ROWS + PARAM_ROW * block, ARG_ROWS + PARAM_ROW * (DESTS * block + place));
    let entry = rng.pick(&[1, 1, 2, 3, PARAM_ROOM]);
    match rng.below(9) {
        0 => graph[BLOCK_COUNT] = near(BLOCKS as u32, rng),
        1 => form[VALUE_COUNT] = near(VALUE_ROOM as u32, rng),
        2 => form[VALUE_COUNT] = near(values, rng),
        3 => graph[BRANCHES + block] = rng.pick(&[0, 1, 2, u32::MAX]),
        4 => graph[dests] = near(DESTS as u32, rng),
        5 => graph[dests + 1 + place] = near(blocks, rng),
        6 => form[rng.pick(&[params, args])] = near(PARAM_ROOM as u32, rng),
        7 => form[params + entry] = near(values, rng),
        _ => form[args + entry] = near(values, rng),
    }
}

impl Drawing {
    pub fn new(heap: bool) -> Drawing {
        let [graph, form] = [GRAPH_NEED, FORM_NEED].map(|need| Ground::new(heap, need + SPARE));
        Drawing { graph, form, buffer: Ground::new(heap, MOST + SPARE), lent: Lent::new(1), answered: [0; 4] }
    }

    /// A session's tables, spoiled in up to four cells, or garbage; of the right lengths or near them.
    fn tables(&mut self, rng: &mut Rng) -> [Vec<u32>; 2] {
        if rng.chance(1, 16) {
            return [GRAPH_NEED, FORM_NEED].map(|need| garbage(length(need, rng), rng));
        }
        let shape = rng.pick(&SHAPES);
        let calls = random(shape, &mut self.lent, rng);
        self.lent.run(&calls, rng);
        let (mut graph, mut form) = (self.lent.graph().to_vec(), self.lent.form().to_vec());
        if graph[BLOCK_COUNT] as usize <= BLOCKS && form[VALUE_COUNT] as usize <= VALUE_ROOM {
            (0..rng.below(5)).for_each(|_| spoil(&mut graph, &mut form, rng));
        }
        for (table, need) in [(&mut graph, GRAPH_NEED), (&mut form, FORM_NEED)] {
            table.resize(length(need, rng), rng.any());
        }
        [graph, form]
    }

    /// A buffer at or near the text's length.
    fn bytes(&self, graph: &[u32], form: &[u32], rng: &mut Rng) -> Vec<u8> {
        let (_, long, _) = due(graph, form, &[0; MOST]);
        let len = match rng.below(4) {
            0 => long,
            1 => long.saturating_sub(1),
            2 => long + 1,
            _ => length(long, rng),
        };
        (0..len).map(|_| rng.any() as u8).collect()
    }

    /// One drawing at each side of its pages: code, length and every byte as they must be, and nothing else changed.
    pub fn round(&mut self, rng: &mut Rng) -> Result<(), String> {
        let [graph, form] = self.tables(rng);
        let bytes = self.bytes(&graph, &form, rng);
        let (code, long, after) = due(&graph, &form, &bytes);
        for side in [Side::Start, Side::End] {
            let around = rng.any();
            self.graph.fill(&graph, around, side);
            self.form.fill(&form, around, side);
            self.buffer.fill(&bytes, around as u8, side);
            let lent = [self.graph.lend(graph.len(), side), self.form.lend(form.len(), side)];
            let buffer = self.buffer.lend(bytes.len(), side);
            let answer = raw::draw(lent[0], lent[1], buffer);
            if answer != (code, long) || buffer != after {
                return Err(format!("drawing answers {answer:?} instead of {:?}, or writes something else", (code, long)));
            }
            let tables = lent[0] == graph && lent[1] == form;
            let around_kept = self.graph.kept_around(graph.len(), around, side) && self.form.kept_around(form.len(), around, side);
            if !tables || !around_kept || !self.buffer.kept_around(bytes.len(), around as u8, side) {
                return Err("drawing changed something beside the buffer".to_string());
            }
            self.answered[CODES.iter().position(|&known| known == code).expect("one of four codes")] += 1;
        }
        Ok(())
    }
}

impl fmt::Display for Drawing {
    fn fmt(&self, f: &mut fmt::Formatter<'_>) -> fmt::Result {
        let [drawn, short, no_room, not] = self.answered;
        write!(f, "drawings that answered 0: {drawn}, 1: {short}, 15: {no_room}, 16: {not}")
    }
}
