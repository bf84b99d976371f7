//! A recorded call: which one of which list, how its answer reads, and its words.
use crate::{Block, Branch, Kind, Type, Value, Variable};
use std::fmt;
use std::marker::PhantomData;
use std::sync::atomic::{AtomicU64, Ordering};

/// What tells one list from another. A copy or a cleared list gets a new one, for its places may come to mean other calls.
#[derive(Clone, Copy, PartialEq, Eq, Debug)]
pub(crate) struct Identity(u64);

impl Identity {
    /// One that no list of this process had before.
    pub(crate) fn new() -> Identity {
        static NEXT: AtomicU64 = AtomicU64::new(0);
        Identity(NEXT.fetch_add(1, Ordering::Relaxed))
    }
}

/// What [`Call`] says of a call that is no [`use_var`](crate::List::use_var).
#[derive(Clone, Copy, Debug)]
pub enum Other {}

/// What [`Call`] says of a [`use_var`](crate::List::use_var): its answer can be given to
/// [`def_var_answer`](crate::List::def_var_answer).
#[derive(Clone, Copy, Debug)]
pub enum Use {}

/// A call of one list: its place there, and that its answer reads as `T`. [`Session::answer`](crate::Session::answer) has the answer.
///
/// A use is a type of its own, `Call<Value, Use>`, since only the answer of a use can be given on in a list.
///
/// A call that is dropped is warned of, since its answer is lost with it:
///
/// ```compile_fail
/// #![deny(unused_must_use)]
/// # use sangvireb::{Block, List};
/// # let mut list = List::new();
/// list.declare_block(Block(0)); // unused `Call` that must be used
/// ```
///
/// ```
/// #![deny(unused_must_use)]
/// # use sangvireb::{Block, List};
/// # let mut list = List::new();
/// let _ = list.declare_block(Block(0)); // meant: `run` will tell if it was refused
/// ```
#[must_use = "`run` tells if the call was refused; write `let _ =` if you don't need its answer"]
#[derive(Clone, Copy, Debug)]
pub struct Call<T, S = Other> {
    pub(crate) list: Identity,
    pub(crate) place: usize,
    pub(crate) read: fn(u32) -> T,
    pub(crate) source: PhantomData<S>,
}

impl<T, S> Call<T, S> {
    /// Its place in its list, counted from 0.
    pub fn place(&self) -> usize {
        self.place
    }
}

/// The place that a [`DefVarAnswer`](Kind::DefVarAnswer) names when it was given a call of another list. No list is that long, so it is refused.
pub(crate) const NO_CALL: u32 = u32::MAX;

/// A call's numbers in words, such as "make_value of type F64 in block 9".
pub(crate) struct Words(pub(crate) [u32; 4]);

impl fmt::Display for Words {
    fn fmt(&self, f: &mut fmt::Formatter<'_>) -> fmt::Result {
        let [kind, x, y, z] = self.0;
        let Some(kind) = Kind::from_number(kind) else {
            return write!(f, "kind {kind} with {x}, {y} and {z}");
        };
        match kind {
            Kind::DeclareBlock | Kind::SealBlock => write!(f, "{kind} of {}", Block(x)),
            Kind::DeclareVar => write!(f, "{kind} of {} as {}", Variable(x), type_word(y)),
            Kind::MakeValue => write!(f, "{kind} of {} in {}", type_word(y), Block(x)),
            Kind::DefVar => write!(f, "{kind} of {} as {} in {}", Variable(x), Value(y), Block(z)),
            Kind::DefVarAnswer if y == NO_CALL => {
                write!(f, "{kind} of {} as the answer of a call that isn't of this list, in {}", Variable(x), Block(z))
            }
            Kind::DefVarAnswer => write!(f, "{kind} of {} as the answer of call {y} in {}", Variable(x), Block(z)),
            Kind::UseVar => write!(f, "{kind} of {} in {}", Variable(x), Block(y)),
            Kind::NewBranch => write!(f, "{kind} in {}", Block(x)),
            Kind::NewDest => write!(f, "{kind} of {} to {}", Branch(x), Block(y)),
            Kind::DeclareBlockPredecessor | Kind::RemoveBlockPredecessor => write!(f, "{kind} of {} with {}", Block(x), Branch(y)),
            Kind::SealAllBlocks => write!(f, "{kind}"),
            Kind::HasAnyPredecessors | Kind::IsSealed => write!(f, "{kind} of {}", Block(x)),
            Kind::AppendBlockParam => write!(f, "{kind} of {} to {}", type_word(y), Block(x)),
            Kind::AppendArgument => write!(f, "{kind} of {} to destination {z} of {}", Value(y), Branch(x)),
            Kind::MarkVarNeedsStackMap => write!(f, "{kind} of {}", Variable(x)),
        }
    }
}

fn type_word(number: u32) -> String {
    Type::from_number(number).map_or_else(|| format!("type {number}"), |ty| ty.to_string())
}
