//! The numbers that name things, each kind a type of its own, so that one can't be taken for another.
use std::fmt;

macro_rules! number {
    ($(#[$text:meta])* $name:ident, $word:literal) => {
        $(#[$text])*
        #[derive(Clone, Copy, PartialEq, Eq, PartialOrd, Ord, Hash, Debug)]
        pub struct $name(
            /// The number itself.
            pub u32,
        );

        impl fmt::Display for $name {
            fn fmt(&self, f: &mut fmt::Formatter<'_>) -> fmt::Result {
                write!(f, concat!($word, " {}"), self.0)
            }
        }
    };
}

number!(
    /// A block. Block 0 is where every path begins. Blocks are declared in order, without a gap.
    Block,
    "block"
);
number!(
    /// A variable. Variables are declared in order, without a gap.
    Variable,
    "variable"
);
number!(
    /// A value: made by the caller, or a parameter or a zero that the session added. All are numbered together, in order of making.
    Value,
    "value"
);
number!(
    /// A branch. It bears the number of its block.
    Branch,
    "branch"
);
