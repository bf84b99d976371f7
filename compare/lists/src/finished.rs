//! A finished session, read from the cells that it left.
use crate::Call;
use crate::lent::Lent;
use sangvireb::raw::{self, *};
use sangvireb::{Block, Branch};

pub struct Finished<'a> {
    pub calls: &'a [Call],
    codes: &'a [u32],
    numbers: &'a [u32],
    graph: &'a [u32],
    form: &'a [u32],
}

impl<'a> Finished<'a> {
    /// What the last run of these calls left.
    pub fn of(calls: &'a [Call], lent: &'a Lent) -> Finished<'a> {
        Finished { calls, codes: lent.codes(), numbers: lent.numbers(), graph: lent.graph(), form: lent.form() }
    }

    /// The accepted calls with their answers, in order.
    pub fn accepted(&self) -> impl Iterator<Item = (&'a Call, u32)> {
        let answered = self.calls.iter().zip(self.codes).zip(self.numbers);
        answered.filter(|((_, code), _)| **code == 0).map(|((call, _), number)| (call, *number))
    }

    pub fn blocks(&self) -> u32 {
        self.graph[BLOCK_COUNT]
    }

    pub fn values(&self) -> u32 {
        self.form[VALUE_COUNT]
    }

    pub fn is_sealed(&self, b: u32) -> bool {
        self.graph[SEALED + b as usize] == 1
    }

    pub fn dests(&self, b: u32) -> &'a [u32] {
        row(self.graph, DEST_ROWS + DEST_ROW * b as usize)
    }

    pub fn preds(&self, b: u32) -> &'a [u32] {
        row(self.graph, PRED_ROWS + PRED_ROW * b as usize)
    }

    pub fn params(&self, b: u32) -> &'a [u32] {
        self.listed(Asked::Params(Block(b)))
    }

    /// Those of its parameters that are the caller's.
    pub fn own_params(&self, b: u32) -> &'a [u32] {
        &self.params(b)[..self.form[OWNS + b as usize] as usize]
    }

    /// The arguments of the branch's destination at this place.
    pub fn args(&self, branch: u32, place: usize) -> &'a [u32] {
        self.listed(Asked::Args(Branch(branch), place as u32))
    }

    fn listed(&self, asked: Asked) -> &'a [u32] {
        raw::row(&self.form[PARAM_ROWS..][..PARAM_CELLS], &self.form[ARG_ROWS..][..ARG_CELLS], asked)
    }

    pub fn is_zero_of(&self, value: u32, block: u32) -> bool {
        let (_, sort, home) = self.described(value);
        sort == 2 && home == block
    }

    /// 0 made, 1 parameter, 2 zero, 3 caller's parameter.
    pub fn sort(&self, value: u32) -> u32 {
        self.described(value).1
    }

    pub fn type_of(&self, value: u32) -> u32 {
        self.described(value).0
    }

    pub fn variable_types(&self) -> &'a [u32] {
        row(self.graph, TYPES)
    }

    /// Its type, sort and block.
    fn described(&self, value: u32) -> (u32, u32, u32) {
        raw::described(self.form[DESCRIBED + value as usize])
    }

    /// Aliases as they stand at the list's end. Every value of a session has an end.
    pub fn resolve(&self, value: u32) -> u32 {
        let targets = &self.form[TARGET..TARGET + self.values() as usize];
        let (code, end) = raw::resolve(targets, value);
        assert_eq!(code, 0, "value {value} resolves to nothing");
        end
    }
}

fn row(cells: &[u32], start: usize) -> &[u32] {
    &cells[start + 1..start + 1 + cells[start] as usize]
}
