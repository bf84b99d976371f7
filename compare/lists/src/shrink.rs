//! Makes a list that shows something as small as it can: no call can be left out, no name, and no number lowered.
use crate::Call;
use crate::fields::{Field, fields, merged, without_calls, without_name};

/// Lists up to this length are tried without each pair of calls.
const PAIRED: usize = 100;
/// With how many smaller names a name is tried to be one.
const MERGES: u32 = 64;

pub fn shrink(calls: &[Call], shows: impl FnMut(&[Call]) -> bool) -> Vec<Call> {
    let mut shrinking = Shrinking { best: calls.to_vec(), shows };
    loop {
        let before = shrinking.best.clone();
        shrinking.leave_out_calls();
        shrinking.leave_out_names();
        shrinking.leave_out_values();
        shrinking.lower_numbers();
        shrinking.leave_out_pairs();
        if shrinking.best == before {
            return before;
        }
    }
}

struct Shrinking<F> {
    best: Vec<Call>,
    shows: F,
}

impl<F: FnMut(&[Call]) -> bool> Shrinking<F> {
    fn take(&mut self, smaller: Vec<Call>) -> bool {
        let better = smaller != self.best && (self.shows)(&smaller);
        if better {
            self.best = smaller;
        }
        better
    }

    /// Runs of calls: half of the list first, single calls last.
    fn leave_out_calls(&mut self) {
        let mut count = self.best.len().div_ceil(2);
        while count > 0 {
            let mut from = self.best.len();
            while from > 0 {
                from = from.saturating_sub(count);
                self.take(without_calls(&self.best, from.min(self.best.len()), count));
            }
            count = if count == 1 { 0 } else { count.div_ceil(2) };
        }
    }

    /// Two calls that need each other, such as a destination and its declaration; tried where it costs little.
    fn leave_out_pairs(&mut self) {
        let mut later = if self.best.len() <= PAIRED { self.best.len() } else { 0 };
        while later > 1 {
            later -= 1;
            let without = without_calls(&self.best, later, 1);
            let gone = (0..later).any(|earlier| self.take(without_calls(&without, earlier, 1)));
            later = if gone { self.best.len() } else { later };
        }
    }

    fn numbers(&self, field: Field) -> Vec<u32> {
        let of = |call: &Call| fields(call[0]).into_iter().zip(call[1..].to_vec()).filter(|(f, _)| *f == field).map(|(_, n)| n).collect::<Vec<_>>();
        let mut all: Vec<u32> = self.best.iter().flat_map(of).collect();
        all.sort_unstable();
        all.dedup();
        all
    }

    /// A block or a variable with all calls that name it, or all of them said of a smaller one.
    fn leave_out_names(&mut self) {
        for field in [Field::Block, Field::Variable] {
            for name in self.numbers(field).into_iter().rev() {
                let gone = self.take(without_name(&self.best, field, name));
                let _ = gone || (0..name.min(MERGES)).any(|other| self.take(merged(&self.best, field, name, other)));
            }
        }
    }

    /// A call that makes a value, where all later values are one lower without it.
    fn leave_out_values(&mut self) {
        for i in (0..self.best.len()).rev() {
            if i < self.best.len() && matches!(self.best[i][0], 3 | 6 | 15) {
                for value in self.numbers(Field::Value) {
                    let without = without_calls(&self.best, i, 1);
                    if self.take(lowered(&without, value)) {
                        break;
                    }
                }
            }
        }
    }

    fn lower_numbers(&mut self) {
        for i in 0..self.best.len() {
            for place in 1..4 {
                let number = self.best[i][place];
                for lower in [0, number / 2, number.saturating_sub(1)] {
                    let mut smaller = self.best.clone();
                    smaller[i][place] = lower;
                    if self.take(smaller) {
                        break;
                    }
                }
            }
        }
    }
}

/// Values from `from` on, one lower.
fn lowered(calls: &[Call], from: u32) -> Vec<Call> {
    let mut lower = calls.to_vec();
    for call in &mut lower {
        for (field, number) in fields(call[0]).into_iter().zip(&mut call[1..]) {
            *number -= u32::from(field == Field::Value && *number >= from && *number > 0);
        }
    }
    lower
}
