//! What a call or a whole session can be refused for.
use crate::raw;
use std::error::Error;
use std::fmt;

/// Why a call was refused. A refused call changes nothing.
#[derive(Clone, Copy, PartialEq, Eq, Hash, Debug)]
#[repr(u32)]
pub enum Refusal {
    /// There is no such kind. Only a call recorded by its numbers can get this.
    UnknownKind = 3,
    /// The limit of blocks, variables or made values is reached; in an [`SSABuilder`](crate::SSABuilder) also that of calls.
    Full,
    /// A block or variable number skips the next one.
    Skips,
    /// A named block, variable, type, value, branch, destination or call isn't there.
    Absent,
    /// Types differ.
    TypesDiffer,
    /// The block is sealed.
    IsSealed,
    /// The block already has a branch.
    HasBranch,
    /// The branch has eight destinations.
    DestsFull,
    /// The branch is at present declared somewhere, so its destinations and what the caller gives them are fixed.
    Declared,
    /// This branch is already declared to this block.
    DeclaredHere,
    /// The block is no destination of the branch, or, for removing, the branch isn't declared to it.
    NoEdge,
    /// Resolving an alias reaches no end.
    NoEnd,
    /// The block is sealed, has a predecessor or is waited in by a variable, so it gets no more parameters of the caller's: these stand before the
    /// builder's.
    ParamsFixed = 17,
    /// The block has as many parameters of the caller's as it can have; or, for an argument, none that the destination has no argument for.
    NoParamLeft = 18,
    /// A mark of a variable that has a definition on record in some block: one that it was given, a parameter, or a value copied there by a use.
    Defined = 19,
    /// A definition in a block whose branch was declared before, even if it was removed since.
    Late = 20,
}

impl Refusal {
    /// All refusals, by code.
    pub const ALL: [Refusal; 16] = [
        Refusal::UnknownKind,
        Refusal::Full,
        Refusal::Skips,
        Refusal::Absent,
        Refusal::TypesDiffer,
        Refusal::IsSealed,
        Refusal::HasBranch,
        Refusal::DestsFull,
        Refusal::Declared,
        Refusal::DeclaredHere,
        Refusal::NoEdge,
        Refusal::NoEnd,
        Refusal::ParamsFixed,
        Refusal::NoParamLeft,
        Refusal::Defined,
        Refusal::Late,
    ];

    /// The code that the library gives.
    pub fn code(self) -> u32 {
        self as u32
    }

    /// The refusal with this code.
    pub fn from_code(code: u32) -> Option<Refusal> {
        Refusal::ALL.into_iter().find(|refusal| refusal.code() == code)
    }
}

impl fmt::Display for Refusal {
    fn fmt(&self, f: &mut fmt::Formatter<'_>) -> fmt::Result {
        f.write_str(match self {
            Refusal::UnknownKind => "there is no such kind of call",
            Refusal::Full => "the limit is reached",
            Refusal::Skips => "the number skips the next one",
            Refusal::Absent => "something that the call names isn't there",
            Refusal::TypesDiffer => "the types differ",
            Refusal::IsSealed => "the block is sealed",
            Refusal::HasBranch => "the block already has a branch",
            Refusal::DestsFull => "the branch has no room for another destination",
            Refusal::Declared => "the branch is declared, so its destinations and their arguments are fixed",
            Refusal::DeclaredHere => "the branch is already declared to this block",
            Refusal::NoEdge => "the branch doesn't lead to this block, or isn't declared to it",
            Refusal::NoEnd => "the chain of aliases has no end",
            Refusal::ParamsFixed => "the block is sealed, entered or waited in, so the caller's parameters of it are fixed",
            Refusal::NoParamLeft => "the block has no more parameters of the caller's",
            Refusal::Defined => "the variable has a definition already, which stack maps would miss",
            Refusal::Late => "the block's branch was declared before, so the block takes no more definitions",
        })
    }
}

impl Error for Refusal {}

/// The number of an accepted answer, or why it was refused.
pub(crate) fn answer(code: u32, number: u32) -> Result<u32, Refusal> {
    match code {
        0 => Ok(number),
        // The contracts of `session` and `resolve` pin each code to one that docs/RULES.md names. Another would be a broken library, and
        // going on with it would be worse than stopping.
        _ => Err(Refusal::from_code(code).expect("proved: a code is 0 or one of Refusal::ALL")),
    }
}

/// Why a whole session was refused. Nothing was run, and everything lent is as it was.
#[derive(Clone, Copy, PartialEq, Eq, Hash, Debug)]
#[repr(u32)]
pub enum RefusedWhole {
    /// A lent table is shorter than its need. A [`Session`](crate::Session) owns tables that suffice, so only [`raw::session`] answers this.
    Short = raw::SHORT,
    /// The call lists differ in length or are too long. A [`List`](crate::List) can only be too long.
    Unfit = raw::UNFIT,
}

impl RefusedWhole {
    /// The code that the library gives.
    pub fn code(self) -> u32 {
        self as u32
    }

    /// What this answer of a session refuses; nothing if it was run.
    pub fn from_code(code: u32) -> Option<RefusedWhole> {
        [RefusedWhole::Short, RefusedWhole::Unfit].into_iter().find(|refused| refused.code() == code)
    }
}

impl fmt::Display for RefusedWhole {
    fn fmt(&self, f: &mut fmt::Formatter<'_>) -> fmt::Result {
        match self {
            RefusedWhole::Short => write!(f, "a lent table is too short"),
            RefusedWhole::Unfit => write!(f, "the call lists differ in length or have more than {} calls", raw::CALLS),
        }
    }
}

impl Error for RefusedWhole {}
