//! A list of calls, recorded before it is run.
use crate::call::{Identity, NO_CALL};
use crate::{Block, Branch, Call, Kind, RefusedWhole, RunError, Session, Type, Use, Value, Variable};
use std::marker::PhantomData;

/// Calls to run in turn. Each method records one and hands out a [`Call`]; [`Session::answer`] has what came of it.
///
/// No refusal gets lost: [`run`](List::run) gives the first one, whether or not its call is asked for.
///
/// ```
/// use sangvireb::{Block, List, RunError, Type, Value, Variable};
///
/// let mut list = List::new();
/// let _ = list.declare_block(Block(0));
/// let _ = list.declare_var(Variable(0), Type::F64);
/// let _ = list.make_value(Block(0), Type::F64);
/// let _ = list.def_var(Variable(0), Value(0), Block(0));
/// let reading = list.use_var(Variable(0), Block(0));
/// let session = list.run()?;
/// assert_eq!(session.answer(reading)?, Value(0));
///
/// let _ = list.make_value(Block(9), Type::F64);
/// let refused = list.run().unwrap_err();
/// assert_eq!(refused.to_string(), "call 5, make_value of F64 in block 9: block 9 is not declared; 1 block is");
/// # Ok::<(), RunError>(())
/// ```
#[derive(Debug)]
pub struct List {
    identity: Identity,
    pub(crate) kinds: Vec<u32>,
    pub(crate) xs: Vec<u32>,
    pub(crate) ys: Vec<u32>,
    pub(crate) zs: Vec<u32>,
}

impl List {
    /// A list without calls.
    pub fn new() -> List {
        List { identity: Identity::new(), kinds: vec![], xs: vec![], ys: vec![], zs: vec![] }
    }

    /// How many calls are recorded.
    pub fn len(&self) -> usize {
        self.kinds.len()
    }

    /// Is no call recorded?
    pub fn is_empty(&self) -> bool {
        self.kinds.is_empty()
    }

    /// Drops all calls and keeps the room. What was handed out for them is then of another list.
    pub fn clear(&mut self) {
        self.cut(0);
        self.identity = Identity::new();
    }

    /// Drops the calls from this place on. Nothing may be handed out for them.
    pub(crate) fn cut(&mut self, place: usize) {
        for numbers in [&mut self.kinds, &mut self.xs, &mut self.ys, &mut self.zs] {
            numbers.truncate(place);
        }
    }

    /// Becomes the first so many calls of another list, as if it were that one.
    pub(crate) fn become_start_of(&mut self, other: &List, count: usize) {
        let rows = [(&mut self.kinds, &other.kinds), (&mut self.xs, &other.xs), (&mut self.ys, &other.ys), (&mut self.zs, &other.zs)];
        for (ours, theirs) in rows {
            ours.clear();
            ours.extend_from_slice(&theirs[..count]);
        }
        self.identity = other.identity;
    }

    /// Runs the list on tables of its own. If a call is refused, the first refusal is the answer, and there is no session.
    pub fn run(&self) -> Result<Session, RunError> {
        let mut session = Session::new();
        session.rerun(self)?;
        Ok(session)
    }

    /// Runs the list and goes on after refusals: each refused call changes nothing, and [`Session::answer`] and
    /// [`Session::refusals`] tell of it.
    pub fn run_all(&self) -> Result<Session, RefusedWhole> {
        let mut session = Session::new();
        session.rerun_all(self)?;
        Ok(session)
    }

    /// The recorded calls by their numbers `kind, x, y, z`.
    pub fn calls(&self) -> impl ExactSizeIterator<Item = [u32; 4]> + '_ {
        (0..self.len()).map(|place| self.numbers(place))
    }

    pub(crate) fn numbers(&self, place: usize) -> [u32; 4] {
        [self.kinds[place], self.xs[place], self.ys[place], self.zs[place]]
    }

    /// The recorded call at this place, to ask a session for its answer; nothing past the end.
    pub fn call(&self, place: usize) -> Option<Call<u32>> {
        (place < self.len()).then(|| self.recorded(place, |number| number))
    }

    /// Was this call recorded here?
    pub(crate) fn knows<T, S>(&self, call: &Call<T, S>) -> bool {
        call.list == self.identity
    }

    fn recorded<T, S>(&self, place: usize, read: fn(u32) -> T) -> Call<T, S> {
        Call { list: self.identity, place, read, source: PhantomData }
    }

    /// A call by its numbers `kind, x, y, z`, for lists that were written elsewhere. Numbers that the kind doesn't use are not read.
    pub fn push(&mut self, [kind, x, y, z]: [u32; 4]) -> Call<u32> {
        self.kinds.push(kind);
        self.xs.push(x);
        self.ys.push(y);
        self.zs.push(z);
        self.recorded(self.len() - 1, |number| number)
    }

    fn record<T, S>(&mut self, kind: Kind, x: u32, y: u32, z: u32, read: fn(u32) -> T) -> Call<T, S> {
        let place = self.push([kind.number(), x, y, z]).place();
        self.recorded(place, read)
    }

    /// Declares a block: the next one, or a known one, which changes nothing.
    pub fn declare_block(&mut self, block: Block) -> Call<Block> {
        self.record(Kind::DeclareBlock, block.0, 0, 0, Block)
    }

    /// Declares a variable: the next one, or a known one with the type it has.
    pub fn declare_var(&mut self, variable: Variable, ty: Type) -> Call<Variable> {
        self.record(Kind::DeclareVar, variable.0, ty.number(), 0, Variable)
    }

    /// Makes a value in a block that has no branch yet. Its number is the count of values so far, of every sort: to define a variable with it
    /// in the same list, foresee that, or let [`SSABuilder`](crate::SSABuilder) tell you.
    pub fn make_value(&mut self, block: Block, ty: Type) -> Call<Value> {
        self.record(Kind::MakeValue, block.0, ty.number(), 0, Value)
    }

    /// From here on the variable holds this value in this block, whose branch was never declared: after that it is refused as
    /// [`Late`](crate::Refusal::Late).
    pub fn def_var(&mut self, variable: Variable, value: Value, block: Block) -> Call<Value> {
        self.record(Kind::DefVar, variable.0, value.0, block.0, Value)
    }

    /// The same with the value that an earlier [`use_var`](List::use_var) of this list answers. That of another list is refused as
    /// [`Absent`](crate::Refusal::Absent).
    ///
    /// ```
    /// # use sangvireb::{Block, List, Type, Variable};
    /// # let mut list = List::new();
    /// let used = list.use_var(Variable(0), Block(0));
    /// let _ = list.def_var_answer(Variable(1), used, Block(0));
    /// ```
    ///
    /// The library takes the answer of a use and of no other call. A made value is another type, so the compiler refuses it:
    ///
    /// ```compile_fail,E0308
    /// # use sangvireb::{Block, List, Type, Variable};
    /// # let mut list = List::new();
    /// let made = list.make_value(Block(0), Type::F64);
    /// let _ = list.def_var_answer(Variable(1), made, Block(0)); // expected `Call<Value, Use>`, found `Call<Value>`
    /// ```
    pub fn def_var_answer(&mut self, variable: Variable, answer: Call<Value, Use>, block: Block) -> Call<Value> {
        let place = if self.knows(&answer) { u32::try_from(answer.place).unwrap_or(NO_CALL) } else { NO_CALL };
        self.record(Kind::DefVarAnswer, variable.0, place, block.0, Value)
    }

    /// The value that the variable holds in this block. It may be an alias: [`Session::resolved`] follows it.
    pub fn use_var(&mut self, variable: Variable, block: Block) -> Call<Value, Use> {
        self.record(Kind::UseVar, variable.0, block.0, 0, Value)
    }

    /// Ends a block with a branch, which bears the block's number.
    pub fn new_branch(&mut self, block: Block) -> Call<Branch> {
        self.record(Kind::NewBranch, block.0, 0, 0, Branch)
    }

    /// Adds a destination to a branch that isn't declared yet. Answers its place, from 0.
    pub fn new_dest(&mut self, branch: Branch, target: Block) -> Call<u32> {
        self.record(Kind::NewDest, branch.0, target.0, 0, |place| place)
    }

    /// Declares to a block that this branch leads to it. Answers how many predecessors the block then has.
    pub fn declare_block_predecessor(&mut self, block: Block, branch: Branch) -> Call<u32> {
        self.record(Kind::DeclareBlockPredecessor, block.0, branch.0, 0, |count| count)
    }

    /// Takes that back; the last predecessor moves into the free place, which is the answer.
    pub fn remove_block_predecessor(&mut self, block: Block, branch: Branch) -> Call<u32> {
        self.record(Kind::RemoveBlockPredecessor, block.0, branch.0, 0, |place| place)
    }

    /// The block gets no more predecessors. Answers how many zeros that added.
    pub fn seal_block(&mut self, block: Block) -> Call<u32> {
        self.record(Kind::SealBlock, block.0, 0, 0, |zeros| zeros)
    }

    /// Seals every block that isn't sealed, by number. Answers how many zeros that added.
    pub fn seal_all_blocks(&mut self) -> Call<u32> {
        self.record(Kind::SealAllBlocks, 0, 0, 0, |zeros| zeros)
    }

    /// Has the block a predecessor?
    pub fn has_any_predecessors(&mut self, block: Block) -> Call<bool> {
        self.record(Kind::HasAnyPredecessors, block.0, 0, 0, |any| any != 0)
    }

    /// Is the block sealed?
    pub fn is_sealed(&mut self, block: Block) -> Call<bool> {
        self.record(Kind::IsSealed, block.0, 0, 0, |sealed| sealed != 0)
    }

    /// Gives a block a parameter of the caller's own, behind those that it has. It counts as a made value, and may be given to variables and passed on
    /// in its block. The block isn't sealed, has no predecessor and no use waits in it: after that it is refused as
    /// [`ParamsFixed`](crate::Refusal::ParamsFixed).
    pub fn append_block_param(&mut self, block: Block, ty: Type) -> Call<Value> {
        self.record(Kind::AppendBlockParam, block.0, ty.number(), 0, Value)
    }

    /// Gives the branch's destination at this place the argument for the next parameter of the caller's that its block has, while the branch isn't
    /// declared. Answers which argument it is, from 0. The builder's parameters get theirs from the builder.
    pub fn append_argument(&mut self, branch: Branch, value: Value, place: u32) -> Call<u32> {
        self.record(Kind::AppendArgument, branch.0, value.0, place, |argument| argument)
    }

    /// Marks a variable that holds what a garbage collector must see: from here on each value that it is given and each parameter that the builder makes
    /// for it is recorded, and [`Session::stack_map_values`] has them. A variable is marked before it has any definition on record, else it is refused as
    /// [`Defined`](crate::Refusal::Defined); twice is once.
    pub fn mark_var_needs_stack_map(&mut self, variable: Variable) -> Call<Variable> {
        self.record(Kind::MarkVarNeedsStackMap, variable.0, 0, 0, Variable)
    }

    /// Ends a block with a branch to one block, declared to it.
    pub fn jump(&mut self, from: Block, to: Block) -> Call<Branch> {
        self.branch(from, &[to])
    }

    /// Ends a block with a branch to these, in this order, and declares it to each; a block named twice is one predecessor's.
    pub fn branch(&mut self, from: Block, to: &[Block]) -> Call<Branch> {
        self.branch_with(from, &without_arguments(to))
    }

    /// The same with arguments for each destination's parameters of the caller's, one for each of them.
    pub fn branch_with(&mut self, from: Block, to: &[(Block, &[Value])]) -> Call<Branch> {
        let (call, branch) = (self.new_branch(from), Branch(from.0));
        for (place, &(block, arguments)) in (0..).zip(to) {
            let _ = self.new_dest(branch, block);
            for &value in arguments {
                let _ = self.append_argument(branch, value, place);
            }
        }
        for block in once_each(to) {
            let _ = self.declare_block_predecessor(block, branch);
        }
        call
    }
}

/// The blocks as destinations that are given nothing.
pub(crate) fn without_arguments(blocks: &[Block]) -> Vec<(Block, &'static [Value])> {
    blocks.iter().map(|&block| (block, &[][..])).collect()
}

/// The destinations' blocks without those that were named before.
pub(crate) fn once_each<'a>(to: &'a [(Block, &[Value])]) -> impl Iterator<Item = Block> + 'a {
    to.iter().enumerate().filter(|(place, way)| !to[..*place].iter().any(|other| other.0 == way.0)).map(|(_, way)| way.0)
}

/// The same calls in a list of its own: what was handed out for the first list's calls doesn't count for it.
impl Clone for List {
    fn clone(&self) -> List {
        let mut copy = List::new();
        let identity = copy.identity;
        copy.become_start_of(self, self.len());
        copy.identity = identity;
        copy
    }
}

impl Default for List {
    fn default() -> List {
        List::new()
    }
}

/// The same calls in the same order.
impl PartialEq for List {
    fn eq(&self, other: &List) -> bool {
        self.calls().eq(other.calls())
    }
}

impl Eq for List {}
