//! Turns a graph into a list of calls. The draft keeps book of what it has asked for, not of what will be answered.
use crate::lent::Lent;
use crate::manner::{Manner, Sealing};
use crate::odd;
use crate::rng::Rng;
use crate::shapes::Graph;
use crate::types;
use crate::{Call, MAX_CALLS};

/// A value that a call of this list brings: its number is known only after a run.
#[derive(Clone, Copy)]
struct Brought {
    call: usize,
    ty: u32,
    block: u32,
}

struct Use {
    call: u32,
    var: u32,
    block: u32,
}

/// A call that names, in its second number, the value that another brings, or the one so many before it.
struct Owed {
    call: usize,
    brought: usize,
    back: u32,
}

pub struct Draft<'r> {
    rng: &'r mut Rng,
    manner: Manner,
    graph: Graph,
    calls: Vec<Call>,
    blocks: u32,
    types: Vec<u32>,
    uses: Vec<Use>,
    makes: u32,
    /// values that were made, answered, or are parameters of the caller's
    brought: Vec<Brought>,
    /// by block, its parameters of the caller's, as far as they were asked for when it was declared
    owns: Vec<Vec<Brought>>,
    /// definitions and arguments, and the calls that bring their values
    owed: Vec<Owed>,
    /// edges (block, branch) that wait to be declared
    waiting: Vec<(u32, u32)>,
    declared: Vec<(u32, u32)>,
    /// how many edges into each block are not declared yet
    missing: Vec<u32>,
    sealed: Vec<bool>,
}

impl<'r> Draft<'r> {
    pub fn new(graph: Graph, manner: Manner, rng: &'r mut Rng) -> Draft<'r> {
        let mut missing = vec![0; graph.len()];
        for dests in &graph {
            for d in distinct(dests) {
                missing[d as usize] += 1;
            }
        }
        let types = (0..manner.vars).map(|_| rng.pick(&manner.types)).collect();
        let sealed = vec![false; graph.len()];
        let owns = vec![vec![]; graph.len()];
        Draft {
            rng,
            manner,
            graph,
            types,
            missing,
            sealed,
            owns,
            blocks: 0,
            makes: 0,
            calls: vec![],
            uses: vec![],
            brought: vec![],
            owed: vec![],
            waiting: vec![],
            declared: vec![],
        }
    }

    /// The whole list, where each definition takes the value that was made for it, as far as a few runs find its number.
    pub fn list(mut self, lent: &mut Lent) -> Vec<Call> {
        self.declarations();
        self.visit_all();
        self.flush(0);
        self.seal_rest();
        self.tail();
        self.calls.truncate(MAX_CALLS);
        let rounds = if self.manner.proper { 40 } else { 3 };
        for _ in 0..rounds {
            if !self.pay(lent) {
                break;
            }
        }
        self.calls
    }

    /// Puts the numbers of made values, as a run answers them, where they are owed. Was anything changed?
    fn pay(&mut self, lent: &mut Lent) -> bool {
        lent.run(&self.calls, self.rng);
        let mut changed = false;
        for &Owed { call, brought, back } in &self.owed {
            let value = lent.numbers().get(brought).map_or(0, |number| number.saturating_sub(back));
            if call < self.calls.len() && self.calls[call][2] != value {
                self.calls[call][2] = value;
                changed = true;
            }
        }
        changed
    }

    fn push(&mut self, call: Call) -> usize {
        if self.rng.chance(self.manner.bad, 1000) {
            let bad = odd::call(self.calls.len() as u32, self.blocks, self.rng);
            self.calls.push(bad);
        }
        self.calls.push(call);
        self.calls.len() - 1
    }

    fn declarations(&mut self) {
        self.need_block(0);
        if self.manner.declared_first {
            self.need_block(self.graph.len() as u32 - 1);
        }
        for v in 0..self.types.len() {
            self.push([2, v as u32, self.types[v], 0]);
            if self.rng.chance(self.manner.marked, 100) {
                self.mark(v as u32);
            }
        }
    }

    /// Now and then twice.
    fn mark(&mut self, v: u32) {
        for _ in 0..self.rng.pick(&[1, 1, 1, 2]) {
            self.push([17, v, 0, 0]);
        }
    }

    fn need_block(&mut self, b: u32) {
        while self.blocks <= b {
            let b = self.blocks;
            self.push([1, b, 0, 0]);
            self.blocks += 1;
            for _ in 0..self.rng.below(self.manner.own_params + 1) {
                let own = self.own_param(b);
                self.owns[b as usize].push(own);
            }
        }
    }

    fn bring(&mut self, call: Call, ty: u32, block: u32) -> Brought {
        let brought = Brought { call: self.push(call), ty, block };
        self.brought.push(brought);
        brought
    }

    fn own_param(&mut self, b: u32) -> Brought {
        let ty = self.any_type();
        self.bring([15, b, ty, 0], ty, b)
    }

    fn make(&mut self, b: u32, ty: u32) -> Brought {
        self.makes += 1;
        self.bring([3, b, ty, 0], ty, b)
    }

    /// A call that names the value in its second number.
    fn owe(&mut self, call: Call, brought: Brought) {
        self.owe_before(call, brought.call, 0);
    }

    /// A call that names the value so many before the one that is brought.
    fn owe_before(&mut self, call: Call, brought: usize, back: u32) {
        let call = self.push(call);
        self.owed.push(Owed { call, brought, back });
    }

    fn any_type(&mut self) -> u32 {
        self.rng.pick(&self.manner.types)
    }

    /// Each block acts a few times and then branches, one block after the other or in turns.
    fn visit_all(&mut self) {
        let mut turns: Vec<u32> = (0..self.graph.len() as u32).collect();
        if !self.manner.by_number {
            self.rng.shuffle(&mut turns[1..]);
        }
        let mut left: Vec<u32> = turns.iter().map(|_| self.rng.below(self.manner.acts + 1)).collect();
        while !turns.is_empty() {
            let i = if self.manner.in_turns { self.rng.below(turns.len() as u32) as usize } else { 0 };
            let b = turns[i];
            self.need_block(b);
            self.seal_on_visit(b);
            if left[i] > 0 {
                left[i] -= 1;
                self.act(b);
            } else {
                self.branch(b);
                turns.remove(i);
                left.remove(i);
            }
        }
    }

    fn seal_on_visit(&mut self, b: u32) {
        let now = match self.manner.sealing {
            Sealing::WhenComplete => self.missing[b as usize] == 0,
            Sealing::AtOnce => true,
            Sealing::AnyTime => self.rng.chance(1, 4),
            Sealing::AtEnd | Sealing::Never => false,
        };
        if now && !self.sealed[b as usize] {
            self.seal(b);
        }
    }

    fn seal(&mut self, b: u32) {
        self.sealed[b as usize] = true;
        self.push([11, b, 0, 0]);
    }

    fn any_block(&mut self) -> u32 {
        self.rng.below(self.blocks)
    }

    fn act(&mut self, b: u32) {
        let v = self.rng.below(self.types.len() as u32);
        match self.rng.below(15) {
            0..=3 => self.give_made(v, b),
            4..=7 => self.use_var(v, b),
            8 => {
                let elsewhere = self.any_block();
                self.use_var(v, elsewhere)
            }
            9 => self.give_answer(v, b),
            10 if !self.manner.proper => self.give_anything(v, b),
            11 => self.give_own(v, b),
            13 if !self.manner.proper => self.give_step(v, b),
            12 if !self.manner.proper => self.late_param(),
            13 if self.manner.marked > 0 => self.mark(v),
            _ => {
                let kind = self.rng.within(13, 14);
                let asked = self.any_block();
                self.push([kind, asked, 0, 0]);
            }
        }
    }

    fn use_var(&mut self, var: u32, block: u32) {
        let ty = self.types[var as usize];
        let call = self.bring([6, var, block, 0], ty, block).call as u32;
        self.uses.push(Use { call, var, block });
    }

    fn give_made(&mut self, v: u32, b: u32) {
        let made = self.make(b, self.types[v as usize]);
        self.owe([4, v, self.makes - 1, b], made);
    }

    /// A parameter of the caller's that the block itself has.
    fn give_own(&mut self, v: u32, b: u32) {
        let fitting: Vec<Brought> = self.owns[b as usize].iter().filter(|own| own.ty == self.types[v as usize]).copied().collect();
        if !fitting.is_empty() {
            let own = self.rng.pick(&fitting);
            self.owe([4, v, 0, b], own);
        }
    }

    /// The first of two steps, if a use of a variable whose zero has such a step answers one: it stands directly before.
    fn give_step(&mut self, v: u32, b: u32) {
        let ty = self.types[v as usize];
        let fits = |u: &&Use| types::step(self.types[u.var as usize]) == Some(ty);
        if let Some(call) = self.uses.iter().rev().find(fits).map(|u| u.call as usize) {
            self.owe_before([4, v, 0, b], call, 1);
        }
    }

    /// A parameter of the caller's on any block at any time: too late, or one that the destinations so far have no argument for.
    fn late_param(&mut self) {
        let b = self.any_block();
        self.own_param(b);
    }

    /// An argument at any time, of any value that was brought.
    fn late_argument(&mut self, b: u32) {
        if !self.brought.is_empty() {
            let (brought, place) = (self.rng.pick(&self.brought), self.rng.below(3));
            self.owe([16, b, 0, place], brought);
        }
    }

    /// A value of this type for a destination of block b's branch: one that the block has, or a new one; astray, one of any block.
    fn argument(&mut self, b: u32, ty: u32) -> Brought {
        let anywhere = self.rng.chance(self.manner.astray, 100);
        let fits = |brought: &&Brought| brought.ty == ty && (anywhere || brought.block == b);
        let fitting: Vec<Brought> = self.brought.iter().rev().filter(fits).take(8).copied().collect();
        if !fitting.is_empty() && self.rng.chance(2, 3) { self.rng.pick(&fitting) } else { self.make(b, ty) }
    }

    /// The arguments that block b's branch gives to block d. Unless the list is proper, some are left out, of another type, or too many.
    fn arguments(&mut self, b: u32, d: u32) -> Vec<Brought> {
        let mut types: Vec<u32> = self.owns[d as usize].iter().map(|own| own.ty).collect();
        if !self.manner.proper && self.rng.chance(self.manner.astray, 100) {
            match self.rng.below(3) {
                0 => drop(types.pop()),
                1 => types.reverse(),
                _ => types.push(self.any_type()),
            }
        }
        types.into_iter().map(|ty| self.argument(b, ty)).collect()
    }

    /// What an earlier use answered, which may have become an alias since.
    fn give_answer(&mut self, v: u32, b: u32) {
        let fits = |u: &&Use| self.types[u.var as usize] == self.types[v as usize] && (!self.manner.proper || u.block == b);
        let fitting: Vec<u32> = self.uses.iter().rev().filter(fits).take(8).map(|u| u.call).collect();
        if !fitting.is_empty() {
            let call = self.rng.pick(&fitting);
            self.push([5, v, call, b]);
        }
    }

    fn give_anything(&mut self, v: u32, b: u32) {
        let value = self.rng.below(self.makes + 2 * self.uses.len() as u32 + 1);
        self.push([4, v, value, b]);
    }

    fn branch(&mut self, b: u32) {
        let dests = self.graph[b as usize].clone();
        if dests.is_empty() && self.rng.chance(1, 2) {
            return;
        }
        dests.iter().for_each(|&d| self.need_block(d));
        let arguments: Vec<Vec<Brought>> = dests.iter().map(|&d| self.arguments(b, d)).collect();
        self.push([7, b, 0, 0]);
        for (&d, place) in dests.iter().zip(0..) {
            self.push([8, b, d, 0]);
            for &argument in &arguments[place as usize] {
                self.owe([16, b, 0, place], argument);
            }
        }
        self.waiting.extend(distinct(&dests).into_iter().map(|d| (d, b)));
        let leave = if self.manner.edges_wait { self.rng.below(self.waiting.len() as u32 + 1) } else { 0 };
        self.flush(leave as usize);
    }

    /// Declares edges until so many still wait.
    fn flush(&mut self, leave: usize) {
        if self.rng.chance(1, 2) {
            self.rng.shuffle(&mut self.waiting);
        }
        while self.waiting.len() > leave {
            let (d, b) = self.waiting.remove(0);
            self.push([9, d, b, 0]);
            self.declared.push((d, b));
            self.missing[d as usize] -= 1;
            if self.rng.chance(self.manner.removed, 400) {
                self.push([9, d, b, 0]);
            }
            if self.rng.chance(self.manner.removed, 100) {
                self.remove_an_edge();
            }
            if self.manner.sealing == Sealing::WhenComplete && self.missing[d as usize] == 0 && !self.sealed[d as usize] {
                self.seal(d);
            }
        }
    }

    /// Any edge into an unsealed block; mostly it is declared again later.
    fn remove_an_edge(&mut self) {
        let open: Vec<usize> = (0..self.declared.len()).filter(|&i| !self.sealed[self.declared[i].0 as usize]).collect();
        if open.is_empty() {
            return;
        }
        let (d, b) = self.declared.remove(self.rng.pick(&open));
        self.push([10, d, b, 0]);
        if !self.manner.proper && self.rng.chance(1, 3) {
            self.own_param(d);
            self.late_argument(b);
        }
        if self.manner.proper || self.rng.chance(2, 3) {
            self.waiting.push((d, b));
            self.missing[d as usize] += 1;
        }
    }

    fn seal_rest(&mut self) {
        if self.manner.sealing == Sealing::Never {
            return;
        }
        if self.rng.chance(1, 2) {
            let mut rest: Vec<u32> = (0..self.blocks).filter(|&b| !self.sealed[b as usize]).collect();
            self.rng.shuffle(&mut rest);
            rest.into_iter().for_each(|b| self.seal(b));
        } else {
            self.push([12, 0, 0, 0]);
        }
    }

    /// Uses of everything; and, unless the list is proper, late definitions and calls that come too late.
    fn tail(&mut self) {
        for _ in 0..self.rng.below(self.manner.tail + 1) {
            let (b, v) = (self.any_block(), self.rng.below(self.types.len() as u32));
            match self.rng.below(if self.manner.proper { 6 } else { 15 }) {
                0..=5 => self.use_var(v, b),
                6 => self.give_answer(v, b),
                7 => self.give_anything(v, b),
                8 => {
                    let other = self.any_block();
                    let kind = self.rng.within(8, 10);
                    self.push([kind, b, other, 0]);
                }
                9 => self.seal(b),
                10 => self.late_param(),
                11 => self.late_argument(b),
                12 if self.manner.marked > 0 => self.mark(v),
                _ => self.act(b),
            }
        }
    }
}

fn distinct(dests: &[u32]) -> Vec<u32> {
    let mut once: Vec<u32> = Vec::new();
    for &d in dests {
        if !once.contains(&d) {
            once.push(d);
        }
    }
    once
}
