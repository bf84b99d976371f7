//! A session as a picture, for people.
use crate::{raw, Session};

/// Bytes for a first try; most pictures have fewer.
const FEW: usize = 4096;

impl Session {
    /// The blocks with their parameters and the branches with their arguments, as text in Graphviz's language DOT: `dot -Tsvg` draws it. Values
    /// stand as they are stored: an alias is not resolved.
    ///
    /// ```
    /// use sangvireb::{Block, SSABuilder, Type, Variable};
    ///
    /// # fn main() -> Result<(), sangvireb::Refused> {
    /// let mut ssa = SSABuilder::new();
    /// let [start, turn] = [ssa.declare_block(Block(0))?, ssa.declare_block(Block(1))?];
    /// let count = ssa.declare_var(Variable(0), Type::I32)?;
    /// let first = ssa.make_value(start, Type::I32)?;
    /// ssa.def_var(count, first, start)?;
    /// ssa.jump(start, turn)?;
    /// ssa.use_var(count, turn)?;
    /// let next = ssa.make_value(turn, Type::I32)?;
    /// ssa.def_var(count, next, turn)?;
    /// ssa.jump(turn, turn)?;
    /// ssa.seal_all_blocks()?;
    /// assert_eq!(ssa.session().draw(), r#"digraph f {
    /// b0 [label="b0()"];
    /// b1 [label="b1(v1)"];
    /// b0 -> b1 [label="v0"];
    /// b1 -> b1 [label="v2"];
    /// }
    /// "#);
    /// # Ok(())
    /// # }
    /// ```
    pub fn draw(&self) -> String {
        let mut buffer = vec![0; FEW];
        loop {
            match raw::draw(&self.graph, &self.form, &mut buffer) {
                (0, length) => {
                    buffer.truncate(length);
                    return String::from_utf8(buffer).expect("the text is ASCII");
                }
                (raw::NO_ROOM, _) => buffer.resize(2 * buffer.len(), 0),
                // Tables that a session left are long enough and can be drawn (`session_drawable` in crates/draw).
                (code, _) => unreachable!("proved: a session's tables are drawn, not refused with {code}"),
            }
        }
    }
}
