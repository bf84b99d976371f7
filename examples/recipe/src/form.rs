//! The SSA form of a recipe, and an interpreter of it. Nothing here calls the library: aliases are resolved already.
use crate::number::{Binary, Number, Unary};
use sangvireb::{Block, Type, Value};

/// What computes a value.
#[derive(Clone, Copy, Debug)]
pub enum Op {
    /// A number written in the script.
    Constant(Number),
    /// The input at this place.
    Input(usize),
    /// Of one value.
    Unary(Unary, Value),
    /// Of two.
    Binary(Binary, Value, Value),
}

/// How a block ends.
#[derive(Clone, Copy, Debug)]
pub enum End {
    /// Goes its one way.
    Jump,
    /// Goes the first way if the value isn't zero, else the second.
    Fork(Value),
    /// The recipe's result; there are no ways on.
    Return(Value),
}

/// A way to a block.
#[derive(Clone, Debug)]
pub struct Way {
    /// The block that it leads to.
    pub to: Block,
    /// What it passes: a value for each of that block's parameters.
    pub args: Vec<Value>,
}

/// A block.
#[derive(Clone, Debug)]
pub struct Body {
    /// Set by the way that was taken.
    pub params: Vec<Value>,
    /// Set where the block begins: what variables hold that nothing has set.
    pub unset: Vec<(Value, Number)>,
    /// Computed in turn.
    pub steps: Vec<(Value, Op)>,
    /// What comes then.
    pub end: End,
    /// The ways on.
    pub ways: Vec<Way>,
}

/// A recipe, ready to run.
#[derive(Clone, Debug)]
pub struct Form {
    /// The types of its inputs, in order.
    pub inputs: Vec<Type>,
    /// By number; every run begins with the first.
    pub blocks: Vec<Body>,
    /// How many values there are.
    pub values: usize,
}

/// A run: the inputs, and what the values hold that were set so far.
struct Run<'a> {
    inputs: &'a [Number],
    held: Vec<Option<Number>>,
}

impl Form {
    /// Runs the recipe. A run that visits more than so many blocks is given up.
    pub fn run(&self, inputs: &[Number], visits: usize) -> Result<Number, String> {
        if !inputs.iter().map(|number| number.ty()).eq(self.inputs.iter().copied()) {
            return Err(format!("the recipe takes inputs of types {:?}", self.inputs));
        }
        let mut run = Run { inputs, held: vec![None; self.values] };
        let mut body = &self.blocks[0];
        for _ in 0..visits {
            run.compute(body)?;
            let way = match body.end {
                End::Jump => &body.ways[0],
                End::Fork(test) => &body.ways[usize::from(!run.read(test)?.holds())],
                End::Return(value) => return run.read(value),
            };
            body = &self.blocks[way.to.0 as usize];
            run.pass(&way.args, &body.params)?;
        }
        Err(format!("no end after {visits} blocks"))
    }
}

impl Run<'_> {
    /// No number may stand for a value that isn't set. The proof says that none is read.
    fn read(&self, value: Value) -> Result<Number, String> {
        self.held[value.0 as usize].ok_or_else(|| format!("{value} is read before it is set"))
    }

    fn set(&mut self, value: Value, number: Number) {
        self.held[value.0 as usize] = Some(number);
    }

    fn compute(&mut self, body: &Body) -> Result<(), String> {
        for &(value, number) in &body.unset {
            self.set(value, number);
        }
        for &(value, op) in &body.steps {
            let number = match op {
                Op::Constant(number) => number,
                Op::Input(place) => self.inputs[place],
                Op::Unary(unary, a) => unary.apply(self.read(a)?),
                Op::Binary(binary, a, b) => binary.apply(self.read(a)?, self.read(b)?),
            };
            self.set(value, number);
        }
        Ok(())
    }

    /// All arguments are read before any parameter is set: a swap in a loop passes each parameter to the other.
    fn pass(&mut self, args: &[Value], params: &[Value]) -> Result<(), String> {
        let passed: Vec<Number> = args.iter().map(|arg| self.read(*arg)).collect::<Result<_, _>>()?;
        params.iter().zip(passed).for_each(|(param, number)| self.set(*param, number));
        Ok(())
    }
}
