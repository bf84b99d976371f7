//! A builder that answers each call at once.
use crate::list::{once_each, without_arguments};
use crate::{Block, Branch, Call, List, Refused, Session, Type, Value, Variable};

/// The crate's builder by its method names, with an answer to each call.
///
/// A refused call leaves the builder as it was, and its [`Refused`] says why. A builder takes as many calls as a list;
/// the next is [`Full`](crate::Refusal::Full).
#[derive(Default, Debug)]
pub struct SSABuilder {
    session: Session,
}

impl SSABuilder {
    /// A builder without blocks, variables and values.
    pub fn new() -> SSABuilder {
        SSABuilder::default()
    }

    /// Makes the builder ready for another function: as [`new`](SSABuilder::new) has it, on the tables at hand.
    pub fn clear(&mut self) {
        self.session.clear();
    }

    /// The calls accepted so far.
    pub fn list(&self) -> &List {
        self.session.list()
    }

    /// What they left: parameters, arguments, aliases and the rest.
    pub fn session(&self) -> &Session {
        &self.session
    }

    fn ask<T, S>(&mut self, record: impl FnOnce(&mut List) -> Call<T, S>) -> Result<T, Refused> {
        self.session.go_on(record)
    }

    /// See [`List::declare_block`].
    pub fn declare_block(&mut self, block: Block) -> Result<Block, Refused> {
        self.ask(|list| list.declare_block(block))
    }

    /// See [`List::declare_var`].
    pub fn declare_var(&mut self, variable: Variable, ty: Type) -> Result<Variable, Refused> {
        self.ask(|list| list.declare_var(variable, ty))
    }

    /// Makes a value in a block that has no branch yet.
    pub fn make_value(&mut self, block: Block, ty: Type) -> Result<Value, Refused> {
        self.ask(|list| list.make_value(block, ty))
    }

    /// See [`List::def_var`].
    pub fn def_var(&mut self, variable: Variable, value: Value, block: Block) -> Result<Value, Refused> {
        self.ask(|list| list.def_var(variable, value, block))
    }

    /// The value that the variable holds in this block. It may be an alias, or become one: [`Session::resolve`] follows it at the end.
    pub fn use_var(&mut self, variable: Variable, block: Block) -> Result<Value, Refused> {
        self.ask(|list| list.use_var(variable, block))
    }

    /// See [`List::new_branch`].
    pub fn new_branch(&mut self, block: Block) -> Result<Branch, Refused> {
        self.ask(|list| list.new_branch(block))
    }

    /// See [`List::new_dest`].
    pub fn new_dest(&mut self, branch: Branch, target: Block) -> Result<u32, Refused> {
        self.ask(|list| list.new_dest(branch, target))
    }

    /// See [`List::declare_block_predecessor`].
    pub fn declare_block_predecessor(&mut self, block: Block, branch: Branch) -> Result<u32, Refused> {
        self.ask(|list| list.declare_block_predecessor(block, branch))
    }

    /// See [`List::remove_block_predecessor`].
    pub fn remove_block_predecessor(&mut self, block: Block, branch: Branch) -> Result<u32, Refused> {
        self.ask(|list| list.remove_block_predecessor(block, branch))
    }

    /// See [`List::seal_block`].
    pub fn seal_block(&mut self, block: Block) -> Result<u32, Refused> {
        self.ask(|list| list.seal_block(block))
    }

    /// See [`List::seal_all_blocks`].
    pub fn seal_all_blocks(&mut self) -> Result<u32, Refused> {
        self.ask(|list| list.seal_all_blocks())
    }

    /// Has the block a predecessor?
    pub fn has_any_predecessors(&self, block: Block) -> Result<bool, Refused> {
        Ok(self.session.predecessors(block)?.len() > 0)
    }

    /// Is the block sealed?
    pub fn is_sealed(&self, block: Block) -> Result<bool, Refused> {
        self.session.is_sealed(block)
    }

    /// See [`List::append_block_param`].
    pub fn append_block_param(&mut self, block: Block, ty: Type) -> Result<Value, Refused> {
        self.ask(|list| list.append_block_param(block, ty))
    }

    /// See [`List::append_argument`].
    pub fn append_argument(&mut self, branch: Branch, value: Value, place: u32) -> Result<u32, Refused> {
        self.ask(|list| list.append_argument(branch, value, place))
    }

    /// See [`List::mark_var_needs_stack_map`].
    pub fn mark_var_needs_stack_map(&mut self, variable: Variable) -> Result<Variable, Refused> {
        self.ask(|list| list.mark_var_needs_stack_map(variable))
    }

    /// See [`Session::stack_map_values`].
    pub fn stack_map_values(&self) -> impl Iterator<Item = Value> + '_ {
        self.session.stack_map_values()
    }

    /// Ends a block with a branch to one block, declared to it. See [`branch`](SSABuilder::branch).
    pub fn jump(&mut self, from: Block, to: Block) -> Result<Branch, Refused> {
        self.branch(from, &[to])
    }

    /// Ends a block with a branch to these, in this order, and declares it to each; a block named twice gets one predecessor.
    ///
    /// These are several calls. If one is refused, that is the answer, and those before it stand.
    pub fn branch(&mut self, from: Block, to: &[Block]) -> Result<Branch, Refused> {
        self.branch_with(from, &without_arguments(to))
    }

    /// The same with arguments for each destination's parameters of the caller's, one for each of them.
    ///
    /// ```
    /// use sangvireb::{Block, SSABuilder, Type};
    ///
    /// # fn main() -> Result<(), sangvireb::Refused> {
    /// let mut ssa = SSABuilder::new();
    /// let [start, turn] = [ssa.declare_block(Block(0))?, ssa.declare_block(Block(1))?];
    /// let minute = ssa.append_block_param(turn, Type::I32)?; // the loop's index
    /// let first = ssa.make_value(start, Type::I32)?;
    /// ssa.branch_with(start, &[(turn, &[first])])?;
    /// let next = ssa.make_value(turn, Type::I32)?; // computed from `minute`
    /// ssa.branch_with(turn, &[(turn, &[next])])?;
    /// ssa.seal_all_blocks()?;
    /// assert!(ssa.session().caller_params(turn)?.eq([minute]));
    /// # Ok(())
    /// # }
    /// ```
    pub fn branch_with(&mut self, from: Block, to: &[(Block, &[Value])]) -> Result<Branch, Refused> {
        let branch = self.new_branch(from)?;
        for (place, &(block, arguments)) in (0..).zip(to) {
            self.new_dest(branch, block)?;
            for &value in arguments {
                self.append_argument(branch, value, place)?;
            }
        }
        for block in once_each(to) {
            self.declare_block_predecessor(block, branch)?;
        }
        Ok(branch)
    }
}

/// A builder with the same calls, which goes its own way.
impl Clone for SSABuilder {
    fn clone(&self) -> SSABuilder {
        let mut session = self.session.clone();
        session.list = self.session.list.clone();
        SSABuilder { session }
    }
}
