//! Numbers, and what can be done with them. Both interpreters compute by this file, so that they can differ in the order of things alone.
use sangvireb::Type;
use std::fmt;

/// What a variable or a value holds.
#[derive(Clone, Copy, Debug)]
pub enum Number {
    /// Of the library's type I64.
    Int(i64),
    /// Of the library's type F64.
    Float(f64),
}
use Number::{Float, Int};

impl Number {
    /// What a variable holds that nothing has set, by the library's bits: a NaN for a float, 0 for an int.
    pub fn unset(ty: Type) -> Number {
        match ty {
            Type::F64 => Float(f64::from_bits(ty.unset_bits() as u64)),
            _ => Int(ty.unset_bits() as i64),
        }
    }

    /// The number that a word stands for; one with a point is a float.
    pub fn read(word: &str) -> Option<Number> {
        if word.contains('.') {
            word.parse().ok().map(Float)
        } else {
            word.parse().ok().map(Int)
        }
    }

    /// Its type in the library.
    pub fn ty(self) -> Type {
        match self {
            Int(_) => Type::I64,
            Float(_) => Type::F64,
        }
    }

    /// Does a condition hold that has this value?
    pub fn holds(self) -> bool {
        !matches!(self, Int(0))
    }
}

/// Equal by bits, so that 0.0 and -0.0 differ, and an unset float, which is a NaN, is equal to itself and to no other.
impl PartialEq for Number {
    fn eq(&self, other: &Number) -> bool {
        match (self, other) {
            (Int(a), Int(b)) => a == b,
            (Float(a), Float(b)) => a.to_bits() == b.to_bits(),
            _ => false,
        }
    }
}

impl fmt::Display for Number {
    fn fmt(&self, f: &mut fmt::Formatter<'_>) -> fmt::Result {
        match self {
            Int(number) => write!(f, "{number}"),
            Float(number) => write!(f, "{number:?}"),
        }
    }
}

/// What is done with one number.
#[derive(Clone, Copy, Debug)]
pub enum Unary {
    /// Takes an int to the nearest float.
    ToFloat,
    /// Cuts a float to an int, within the range.
    ToInt,
    /// From Fahrenheit.
    Celsius,
    /// From Celsius.
    Fahrenheit,
}

impl Unary {
    /// The function of this name, the type that it takes and the type that it answers.
    pub fn named(name: &str) -> Option<(Unary, Type, Type)> {
        match name {
            "float" => Some((Unary::ToFloat, Type::I64, Type::F64)),
            "int" => Some((Unary::ToInt, Type::F64, Type::I64)),
            "celsius" => Some((Unary::Celsius, Type::F64, Type::F64)),
            "fahrenheit" => Some((Unary::Fahrenheit, Type::F64, Type::F64)),
            _ => None,
        }
    }

    /// Does it.
    pub fn apply(self, number: Number) -> Number {
        match (self, number) {
            (Unary::ToFloat, Int(a)) => Float(a as f64),
            (Unary::ToInt, Float(a)) => Int(a as i64),
            (Unary::Celsius, Float(a)) => Float((a - 32.0) * 5.0 / 9.0),
            (Unary::Fahrenheit, Float(a)) => Float(a * 9.0 / 5.0 + 32.0),
            _ => unreachable!("the compiler lets no other type through"),
        }
    }
}

/// What is done with two numbers of one type.
#[derive(Clone, Copy, Debug)]
pub enum Binary {
    /// 1 if it holds, else 0.
    Less,
    /// 1 if it holds, else 0.
    NotMore,
    /// 1 if it holds, else 0.
    Equal,
    /// The sum.
    Plus,
    /// The difference.
    Minus,
    /// The product.
    Times,
    /// The quotient.
    Over,
}

/// The operators by their marks, those that bind least first.
pub const LEVELS: [&[(&str, Binary)]; 3] = [
    &[("<", Binary::Less), ("<=", Binary::NotMore), ("==", Binary::Equal)],
    &[("+", Binary::Plus), ("-", Binary::Minus)],
    &[("*", Binary::Times), ("/", Binary::Over)],
];

impl Binary {
    /// What it answers for two numbers of this type.
    pub fn result(self, ty: Type) -> Type {
        if matches!(self, Binary::Less | Binary::NotMore | Binary::Equal) {
            Type::I64
        } else {
            ty
        }
    }

    /// Does it. Integers wrap, and one over zero is zero: a recipe never faults.
    pub fn apply(self, a: Number, b: Number) -> Number {
        match (self, a, b) {
            (Binary::Less, Int(a), Int(b)) => Int((a < b).into()),
            (Binary::Less, Float(a), Float(b)) => Int((a < b).into()),
            (Binary::NotMore, Int(a), Int(b)) => Int((a <= b).into()),
            (Binary::NotMore, Float(a), Float(b)) => Int((a <= b).into()),
            (Binary::Equal, Int(a), Int(b)) => Int((a == b).into()),
            (Binary::Equal, Float(a), Float(b)) => Int((a == b).into()),
            (Binary::Plus, Int(a), Int(b)) => Int(a.wrapping_add(b)),
            (Binary::Plus, Float(a), Float(b)) => Float(a + b),
            (Binary::Minus, Int(a), Int(b)) => Int(a.wrapping_sub(b)),
            (Binary::Minus, Float(a), Float(b)) => Float(a - b),
            (Binary::Times, Int(a), Int(b)) => Int(a.wrapping_mul(b)),
            (Binary::Times, Float(a), Float(b)) => Float(a * b),
            (Binary::Over, Int(a), Int(b)) => Int(if b == 0 { 0 } else { a.wrapping_div(b) }),
            (Binary::Over, Float(a), Float(b)) => Float(a / b),
            (_, Int(_), Float(_)) | (_, Float(_), Int(_)) => unreachable!("the compiler lets no two types through"),
        }
    }
}
