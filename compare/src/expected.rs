//! The cells that a session must leave, from the oracle's dump: docs/LAYOUT.md read in the other direction.
use sangvireb::raw::*;
use sangvireb::{Block, Branch};
use std::collections::HashMap;

/// The sort of a caller's parameter.
const CALLERS: usize = 3;
/// What a recorded value has more in its description.
const RECORDED: u32 = 128;

/// What must be in the needed cells; the work cells must all be 0.
pub struct Expected {
    pub codes: Vec<u32>,
    pub numbers: Vec<u32>,
    pub graph: Vec<u32>,
    pub form: Vec<u32>,
    work: Vec<u32>,
    /// the lists of parameters and arguments that the oracle names
    pub rows: HashMap<Asked, Vec<u32>>,
    /// the zeros that the oracle names, with their bits
    pub bits: Vec<(usize, u128)>,
    /// the values that the oracle has recorded for stack maps
    pub recorded: Vec<usize>,
}

impl Expected {
    pub fn new() -> Expected {
        let (graph, form, work) = (vec![0; GRAPH_NEED], vec![0; FORM_NEED], vec![0; WORK_NEED]);
        Expected { codes: vec![], numbers: vec![], graph, form, work, rows: HashMap::new(), bits: vec![], recorded: vec![] }
    }

    /// In the order in which the tables are lent.
    pub fn tables(&self) -> [&[u32]; 5] {
        [&self.codes, &self.numbers, &self.graph, &self.form, &self.work]
    }

    pub fn read(&mut self, dump: &str, calls: usize) -> Result<(), String> {
        self.graph.fill(0);
        self.form.fill(0);
        self.rows.clear();
        self.bits.clear();
        self.recorded.clear();
        for answers in [&mut self.codes, &mut self.numbers] {
            answers.clear();
            answers.resize(calls, 0);
        }
        let mut numbers: Vec<usize> = Vec::new();
        for line in dump.lines() {
            let (letter, rest) = line.split_at(1);
            numbers.clear();
            numbers.extend(rest.split_ascii_whitespace().map(|word| word.parse().unwrap_or(usize::MAX)));
            let understood = if letter == "K" { self.bits_line(rest) } else { self.line(letter, &numbers) };
            understood.ok_or_else(|| format!("the oracle printed a line that is not understood: {line}"))?;
        }
        Ok(())
    }

    /// A zero and its bits in hexadecimal.
    fn bits_line(&mut self, rest: &str) -> Option<()> {
        let (value, bits) = rest.trim().split_once(' ')?;
        self.bits.push((value.parse().ok()?, u128::from_str_radix(bits, 16).ok()?));
        Some(())
    }

    fn line(&mut self, letter: &str, n: &[usize]) -> Option<()> {
        match (letter, n) {
            ("S", [0]) => {}
            ("C", &[blocks, vars, values, made, zeros]) => self.counts(blocks, vars, values, made, zeros),
            ("A", &[call, code, number]) => {
                self.codes[call] = code as u32;
                self.numbers[call] = number as u32;
            }
            ("V", &[value, sort, kind, block, target]) => {
                self.form[TARGET + value] = target as u32;
                // a caller's parameter stays one of its block
                self.form[OWNS + block] += u32::from(sort == CALLERS);
                self.form[DESCRIBED + value] = (kind + 32 * (sort + 4 * 2 * block)) as u32;
            }
            ("P", [block, params @ ..]) => {
                row(&mut self.form, PARAM_ROWS + PARAM_ROW * block, params);
                self.listed(Asked::Params(Block(*block as u32)), params);
            }
            ("B", &[block, dests]) => {
                self.graph[BRANCHES + block] = 1;
                self.graph[DEST_ROWS + DEST_ROW * block] = dests as u32;
            }
            ("D", [block, place, dest, args @ ..]) => {
                self.graph[DEST_ROWS + DEST_ROW * block + 1 + place] = *dest as u32;
                row(&mut self.form, ARG_ROWS + PARAM_ROW * (DESTS * block + place), args);
                self.listed(Asked::Args(Branch(*block as u32), *place as u32), args);
            }
            ("R", [block, preds @ ..]) => row(&mut self.graph, PRED_ROWS + PRED_ROW * block, preds),
            ("U", [block, pending @ ..]) => row(&mut self.form, PENDING_ROWS + PENDING_ROW * block, pending),
            ("E", &[block, sealed]) => self.graph[SEALED + block] = sealed as u32,
            ("L", &[block, var, value_plus_one]) => self.form[DEFS + BLOCKS * var + block] = value_plus_one as u32,
            ("Z", &[place, call, block]) => {
                self.form[ZERO_CALLS + 1 + place] = call as u32;
                self.form[ZERO_BLOCKS + 1 + place] = block as u32;
            }
            ("M", variables) => variables.iter().for_each(|variable| self.graph[MARKS + variable] = 1),
            ("W", values) => self.record(values),
            ("O", placed) => row(&mut self.form, PLACED, placed),
            _ => return None,
        }
        Some(())
    }

    /// They have a bit more in their descriptions, which came before.
    fn record(&mut self, values: &[usize]) {
        values.iter().for_each(|value| self.form[DESCRIBED + value] += RECORDED);
        self.recorded.extend_from_slice(values);
    }

    fn listed(&mut self, asked: Asked, entries: &[usize]) {
        self.rows.insert(asked, entries.iter().map(|&entry| entry as u32).collect());
    }

    fn counts(&mut self, blocks: usize, vars: usize, values: usize, made: usize, zeros: usize) {
        self.graph[BLOCK_COUNT] = blocks as u32;
        self.graph[TYPES] = vars as u32;
        self.form[VALUE_COUNT] = values as u32;
        self.form[MADE_COUNT] = made as u32;
        self.form[ZERO_CALLS] = zeros as u32;
        self.form[ZERO_BLOCKS] = zeros as u32;
    }

    /// The dump has no types of variables, nor which branches were ever declared: both follow from the calls that were accepted.
    pub fn accepted(&mut self, calls: &[lists::Call]) {
        for (call, _) in calls.iter().zip(&self.codes).filter(|(_, code)| **code == 0) {
            match *call {
                [2, variable, ty, _] => self.graph[TYPES + 1 + variable as usize] = ty,
                [9, _, branch, _] => self.graph[EVER_DECLARED + branch as usize] = 1,
                _ => {}
            }
        }
    }
}

fn row(cells: &mut [u32], start: usize, entries: &[usize]) {
    cells[start] = entries.len() as u32;
    for (cell, &entry) in cells[start + 1..].iter_mut().zip(entries) {
        *cell = entry as u32;
    }
}
