//! A session in words, for people.
use crate::explain::words;
use crate::{Block, Refused, Session};
use std::fmt;

impl fmt::Display for Session {
    fn fmt(&self, f: &mut fmt::Formatter<'_>) -> fmt::Result {
        let (calls, blocks, values) = (self.call_count(), self.block_count(), self.value_count());
        writeln!(f, "calls: {calls}, blocks: {blocks}, variables: {}, values: {values}", self.variable_count())?;
        for refused in self.refusals() {
            writeln!(f, "refused: {refused}")?;
        }
        for variable in self.variables() {
            let marked = if known(self.is_marked(variable))? { ", marked for stack maps" } else { "" };
            writeln!(f, "{variable}: {}{marked}", known(self.type_of(variable))?)?;
        }
        self.blocks().try_for_each(|block| self.show(f, block))
    }
}

/// What is asked of a thing that the session itself named.
fn known<T>(answer: Result<T, Refused>) -> Result<T, fmt::Error> {
    answer.map_err(|_| fmt::Error)
}

impl Session {
    fn show(&self, f: &mut fmt::Formatter<'_>, block: Block) -> fmt::Result {
        let sealed = if known(self.is_sealed(block))? { "sealed" } else { "not sealed" };
        let [takes, after] = [words(", takes ", known(self.params(block))?), words(", entered by ", known(self.predecessors(block))?)];
        writeln!(f, "{block}: {sealed}{after}{takes}")?;
        for data in self.values().filter(|data| data.block == block) {
            let end = Some(self.end_of(data.value)).filter(|end| *end != data.value);
            let bits = data.unset_bits().map_or(String::new(), |bits| format!(" with bits {bits:#x}"));
            let recorded = if known(self.is_recorded(data.value))? { ", recorded for stack maps" } else { "" };
            writeln!(f, "  {}: {}, {}{bits}{}{recorded}", data.value, data.ty, data.sort, words(", now ", end.into_iter()))?;
        }
        for variable in self.variables() {
            if let Some(value) = known(self.def(variable, block))? {
                writeln!(f, "  {variable} is {value}")?;
            }
        }
        for variable in known(self.pending(block))? {
            writeln!(f, "  {variable} waits for the seal")?;
        }
        let Some(branch) = known(self.branch(block))? else { return Ok(()) };
        let mut ways = known(self.destinations(branch))?;
        ways.try_for_each(|way| writeln!(f, "  goes to {}{}", way.target, words(" with ", way.args)))
    }
}
