//! The numbered sets of the calls and tables: kinds of call, types and sorts of value.
use crate::raw;
use std::fmt;

macro_rules! numbered {
    ($(#[$text:meta])* $name:ident from $first:literal, $words:literal: $($(#[$sentence:meta])* $case:ident $word:literal,)*) => {
        $(#[$text])*
        #[derive(Clone, Copy, PartialEq, Eq, Hash, Debug)]
        #[repr(u32)]
        pub enum $name {
            $($(#[$sentence])* $case,)*
        }

        impl $name {
            #[doc = concat!("All ", $words, ", by number.")]
            pub const ALL: [$name; [$($word),*].len()] = [$($name::$case),*];

            /// Its number in calls and tables.
            pub fn number(self) -> u32 {
                self as u32 + $first
            }

            /// The one with this number.
            pub fn from_number(number: u32) -> Option<$name> {
                $name::ALL.get(number.checked_sub($first)? as usize).copied()
            }

            /// Its name.
            pub fn name(self) -> &'static str {
                [$($word),*][self as usize]
            }
        }

        impl fmt::Display for $name {
            fn fmt(&self, f: &mut fmt::Formatter<'_>) -> fmt::Result {
                f.write_str(self.name())
            }
        }
    };
}

numbered!(
    /// A kind of call, as [`List`](crate::List) has a method for each.
    Kind from 1, "kinds":
    /// Declares a block.
    DeclareBlock "declare_block",
    /// Declares a variable.
    DeclareVar "declare_var",
    /// Makes a value.
    MakeValue "make_value",
    /// Gives a variable a value by its number.
    DefVar "def_var",
    /// Gives a variable the value that an earlier use answered.
    DefVarAnswer "def_var_answer",
    /// Reads a variable.
    UseVar "use_var",
    /// Ends a block with a branch.
    NewBranch "new_branch",
    /// Adds a destination to a branch.
    NewDest "new_dest",
    /// Declares a branch to a block that it leads to.
    DeclareBlockPredecessor "declare_block_predecessor",
    /// Takes that back.
    RemoveBlockPredecessor "remove_block_predecessor",
    /// Seals a block.
    SealBlock "seal_block",
    /// Seals all blocks.
    SealAllBlocks "seal_all_blocks",
    /// Asks whether a block has a predecessor.
    HasAnyPredecessors "has_any_predecessors",
    /// Asks whether a block is sealed.
    IsSealed "is_sealed",
    /// Gives a block a parameter of the caller's own.
    AppendBlockParam "append_block_param",
    /// Gives a destination an argument for such a parameter.
    AppendArgument "append_argument",
    /// Marks a variable: the values that it receives are recorded for stack maps.
    MarkVarNeedsStackMap "mark_var_needs_stack_map",
);

numbered!(
    /// The type of a variable or a value, by the crate's names. What there is to know of it the library tells.
    Type from 0, "types":
    /// An integer of a byte.
    I8 "I8",
    /// An integer of two bytes.
    I16 "I16",
    /// An integer of four bytes.
    I32 "I32",
    /// An integer of eight bytes.
    I64 "I64",
    /// A float of four bytes.
    F32 "F32",
    /// A float of eight bytes.
    F64 "F64",
    /// An integer of sixteen bytes. Its zero takes two steps: an I64, widened.
    I128 "I128",
    /// A float of two bytes.
    F16 "F16",
    /// A float of sixteen bytes.
    F128 "F128",
    /// Two integers of a byte.
    I8X2 "I8X2",
    /// Four integers of a byte.
    I8X4 "I8X4",
    /// Eight integers of a byte.
    I8X8 "I8X8",
    /// Sixteen integers of a byte.
    I8X16 "I8X16",
    /// Two integers of two bytes.
    I16X2 "I16X2",
    /// Four integers of two bytes.
    I16X4 "I16X4",
    /// Eight integers of two bytes.
    I16X8 "I16X8",
    /// Two integers of four bytes.
    I32X2 "I32X2",
    /// Four integers of four bytes.
    I32X4 "I32X4",
    /// Two integers of eight bytes.
    I64X2 "I64X2",
    /// Two floats of two bytes.
    F16X2 "F16X2",
    /// Four floats of two bytes.
    F16X4 "F16X4",
    /// Eight floats of two bytes.
    F16X8 "F16X8",
    /// Two floats of four bytes.
    F32X2 "F32X2",
    /// Four floats of four bytes.
    F32X4 "F32X4",
    /// Two floats of eight bytes.
    F64X2 "F64X2",
);

/// Each of these asks the library.
///
/// # Panics
///
/// If the library that is linked was built for other limits ([`check`](crate::check)).
impl Type {
    /// The type of each lane: its own, unless it is a vector.
    pub fn lane(self) -> Type {
        told(self.facts().lane)
    }

    /// How many lanes it has: one, unless it is a vector.
    pub fn lanes(self) -> u32 {
        self.facts().lanes
    }

    /// In bytes.
    pub fn width(self) -> u32 {
        self.facts().width
    }

    /// The type of the first of the two steps that a zero of this type takes; nothing if it takes one. An I128 is an I64, widened, and a vector of floats is a
    /// scalar, put in each lane. Both steps are values of sort [`Zero`](Sort::Zero).
    pub fn step(self) -> Option<Type> {
        self.facts().step.checked_sub(1).map(told)
    }

    /// The bits of the type's unset value, in the lowest bits of the answer: what a variable of this type holds where it has received nothing, and what a
    /// zero of it holds. No bit is set for an integer; in each lane of a float is a quiet NaN.
    pub fn unset_bits(self) -> u128 {
        self.facts().unset_bits()
    }

    fn facts(self) -> raw::TypeFacts {
        raw::type_facts(self.number())
    }
}

fn told(number: u32) -> Type {
    Type::from_number(number).expect("proved: a lane and a step are named by their types' numbers (lane_of, step_of)")
}

numbered!(
    /// Where a value comes from. It keeps its sort when it becomes an alias.
    Sort from 0, "sorts":
    /// Made by the caller.
    Made "made",
    /// A parameter of its block, made by the builder for a variable.
    Parameter "parameter",
    /// A zero added at the start of its block, where a variable was read that nothing had set. It holds its type's unset value, a NaN for a float.
    Zero "zero",
    /// A parameter that the caller gave its block.
    CallerParameter "caller's parameter",
);
