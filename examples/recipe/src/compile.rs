//! Reads a recipe and builds its SSA form in one pass: each statement is built as soon as it is read, and each block is sealed as soon as
//! all ways to it are known.
use crate::form::{Body, End, Form, Op, Way};
use crate::lexer::{Fault, Words};
use crate::number::{Binary, Number, Unary, LEVELS};
use sangvireb::{Block, Refused, SSABuilder, Session, Type, Value, Variable};
use std::collections::HashMap;

/// What became of a script.
pub struct Recipe {
    /// Ready to run.
    pub form: Form,
    /// The calls that built it, and the tables that they left.
    pub ssa: SSABuilder,
}

/// A block that is being built: what it computes, and how it ends.
#[derive(Default)]
struct Draft {
    steps: Vec<(Value, Op)>,
    end: Option<End>,
}

/// A value with its type.
type Typed = (Value, Type);

/// Where the script goes on after a statement: nowhere after a `return`.
type Onward = Option<Block>;

struct Compiler<'a> {
    words: Words<'a>,
    ssa: SSABuilder,
    names: HashMap<&'a str, (Variable, Type)>,
    inputs: Vec<Type>,
    drafts: Vec<Draft>,
    /// The block that is being filled.
    here: Block,
}

/// Compiles a script, or says in which line it is no recipe, and why.
pub fn compile(script: &str) -> Result<Recipe, String> {
    let (words, ssa) = (Words::of(script)?, SSABuilder::new());
    let mut compiler = Compiler { words, ssa, names: HashMap::new(), inputs: vec![], drafts: vec![], here: Block(0) };
    match compiler.script().and_then(|()| Ok(compiler.finish()?)) {
        Ok(form) => Ok(Recipe { form, ssa: compiler.ssa }),
        Err(fault) => Err(format!("line {}: {fault}", compiler.words.line())),
    }
}

// Statements.
impl Compiler<'_> {
    fn script(&mut self) -> Result<(), Fault> {
        // Nothing ever leads to the first block, so it is sealed at once.
        self.here = self.new_block()?;
        self.ssa.seal_block(self.here)?;
        while matches!(self.words.peek(), "input" | "int" | "float") {
            self.declaration()?;
        }
        match self.statements("")? {
            Some(_) => Err("the script can end without a `return`".into()),
            None => Ok(()),
        }
    }

    /// `input float NAME;` or `float NAME;` or `float NAME = EXPRESSION;`, and the same with `int`.
    fn declaration(&mut self) -> Result<(), Fault> {
        let input = self.words.take_if("input");
        let ty = match self.words.take() {
            "int" => Type::I64,
            "float" => Type::F64,
            other => return Err(format!("`int` or `float` is wanted, not `{other}`").into()),
        };
        let name = self.words.take_name()?;
        if self.names.contains_key(name) || Unary::named(name).is_some() {
            return Err(format!("`{name}` is taken").into());
        }
        let variable = self.ssa.declare_var(Variable(self.names.len() as u32), ty)?;
        self.names.insert(name, (variable, ty));
        if input {
            let value = self.step(ty, Op::Input(self.inputs.len()))?;
            self.inputs.push(ty);
            self.assign(name, value)?;
        } else if self.words.take_if("=") {
            let value = self.expression(0)?;
            self.assign(name, value)?;
        }
        self.words.want(";")
    }

    /// Statements up to this word.
    fn statements(&mut self, end: &str) -> Result<Onward, Fault> {
        while self.words.peek() != end {
            match self.statement()? {
                Some(block) => self.here = block,
                None if self.words.peek() == end => return Ok(None),
                None => return Err(format!("`{}` is never reached: a `return` stands before it", self.words.take()).into()),
            }
        }
        Ok(Some(self.here))
    }

    fn statement(&mut self) -> Result<Onward, Fault> {
        match self.words.take() {
            "if" => return self.fork(),
            "while" => return self.cycle(),
            "repeat" => return self.count(),
            "return" => {
                let (result, _) = self.expression(0)?;
                self.draft().end = Some(End::Return(result));
                self.words.want(";")?;
                return Ok(None);
            }
            "input" | "int" | "float" => return Err("declarations come before the first statement".into()),
            "" => return Err("the script ends and `}` is missing".into()),
            name => {
                self.words.want("=")?;
                let value = self.expression(0)?;
                self.assign(name, value)?;
                self.words.want(";")?;
            }
        }
        Ok(Some(self.here))
    }

    /// `if EXPRESSION { .. }`, and perhaps `else { .. }`.
    fn fork(&mut self) -> Result<Onward, Fault> {
        let test = self.test()?;
        let [then, other] = [self.new_block()?, self.new_block()?];
        self.end(End::Fork(test), &[then, other])?;
        self.ssa.seal_block(then)?;
        let first = self.arm(then)?;
        if !self.words.take_if("else") {
            // Without a second arm the other way leads past the first, to where both go on.
            return self.join(first, None, other);
        }
        self.ssa.seal_block(other)?;
        let second = self.arm(other)?;
        if first.or(second).is_none() {
            return Ok(None);
        }
        let join = self.new_block()?;
        self.join(first, second, join)
    }

    /// `while EXPRESSION { .. }`
    fn cycle(&mut self) -> Result<Onward, Fault> {
        let head = self.new_block()?;
        self.end(End::Jump, &[head])?;
        // The head is not sealed before its body is read, since that may lead back to it.
        self.here = head;
        let test = self.test()?;
        let [body, after] = [self.new_block()?, self.new_block()?];
        self.end(End::Fork(test), &[body, after])?;
        self.ssa.seal_block(body)?;
        self.ssa.seal_block(after)?;
        let back = self.arm(body)?;
        self.join(back, None, head)?;
        Ok(Some(after))
    }

    /// `repeat NAME to EXPRESSION { .. }`: NAME is 0, then 1 and so on, as long as that is less. The head carries the index as a parameter of its own,
    /// which no assignment in the body disturbs.
    fn count(&mut self) -> Result<Onward, Fault> {
        let name = self.words.take_name()?;
        self.words.want("to")?;
        let (first, _) = self.step(Type::I64, Op::Constant(Number::Int(0)))?;
        let head = self.new_block()?;
        let index = self.ssa.append_block_param(head, Type::I64)?;
        self.end_with(End::Jump, &[(head, &[first])])?;
        self.here = head;
        self.assign(name, (index, Type::I64))?;
        let limit = self.test()?;
        let (test, _) = self.step(Type::I64, Op::Binary(Binary::Less, index, limit))?;
        let [body, after] = [self.new_block()?, self.new_block()?];
        self.end(End::Fork(test), &[body, after])?;
        self.ssa.seal_block(body)?;
        self.ssa.seal_block(after)?;
        if let Some(from) = self.arm(body)? {
            self.here = from;
            // Every way to here leads through the head, so its parameter still holds the index.
            let (one, _) = self.step(Type::I64, Op::Constant(Number::Int(1)))?;
            let (next, _) = self.step(Type::I64, Op::Binary(Binary::Plus, index, one))?;
            self.end_with(End::Jump, &[(head, &[next])])?;
        }
        self.ssa.seal_block(head)?;
        Ok(Some(after))
    }

    /// `{ .. }`, from this block on.
    fn arm(&mut self, block: Block) -> Result<Onward, Fault> {
        self.words.want("{")?;
        self.here = block;
        let onward = self.statements("}")?;
        self.words.want("}")?;
        Ok(onward)
    }

    fn test(&mut self) -> Result<Value, Fault> {
        let (value, ty) = self.expression(0)?;
        same(ty, Type::I64)?;
        Ok(value)
    }
}

// Expressions. All their values are made in the block that is being filled, or answered to a use there.
impl Compiler<'_> {
    fn expression(&mut self, level: usize) -> Result<Typed, Fault> {
        let Some(marks) = LEVELS.get(level) else { return self.atom() };
        let mut left = self.expression(level + 1)?;
        while let Some(&(mark, binary)) = marks.iter().find(|(mark, _)| *mark == self.words.peek()) {
            self.words.want(mark)?;
            let right = self.expression(level + 1)?;
            same(left.1, right.1)?;
            left = self.step(binary.result(left.1), Op::Binary(binary, left.0, right.0))?;
        }
        Ok(left)
    }

    /// `( .. )`, `celsius( .. )` and the like, a variable, or a number.
    fn atom(&mut self) -> Result<Typed, Fault> {
        let word = self.words.take();
        if word == "(" {
            let inner = self.expression(0)?;
            self.words.want(")")?;
            return Ok(inner);
        }
        if let Some((unary, takes, answers)) = Unary::named(word) {
            self.words.want("(")?;
            let (inner, ty) = self.expression(0)?;
            self.words.want(")")?;
            same(takes, ty)?;
            return self.step(answers, Op::Unary(unary, inner));
        }
        if let Some(&(variable, ty)) = self.names.get(word) {
            return Ok((self.ssa.use_var(variable, self.here)?, ty));
        }
        let number = Number::read(word).ok_or_else(|| format!("`{word}` is no number and no variable"))?;
        self.step(number.ty(), Op::Constant(number))
    }
}

fn same(one: Type, other: Type) -> Result<(), Fault> {
    match one == other {
        true => Ok(()),
        false => Err(format!("{one} is wanted, not {other}: say int(..) or float(..)").into()),
    }
}

// What statements and expressions build.
impl Compiler<'_> {
    fn new_block(&mut self) -> Result<Block, Fault> {
        self.drafts.push(Draft::default());
        Ok(self.ssa.declare_block(Block(self.drafts.len() as u32 - 1))?)
    }

    fn draft(&mut self) -> &mut Draft {
        &mut self.drafts[self.here.0 as usize]
    }

    fn step(&mut self, ty: Type, op: Op) -> Result<Typed, Fault> {
        let value = self.ssa.make_value(self.here, ty)?;
        self.draft().steps.push((value, op));
        Ok((value, ty))
    }

    fn assign(&mut self, name: &str, (value, ty): Typed) -> Result<(), Fault> {
        let (variable, wanted) = *self.names.get(name).ok_or_else(|| format!("`{name}` is no variable"))?;
        same(wanted, ty)?;
        self.ssa.def_var(variable, value, self.here)?;
        Ok(())
    }

    /// Ends the block that is being filled, with a branch that is declared to each of these.
    fn end(&mut self, end: End, to: &[Block]) -> Result<(), Fault> {
        self.draft().end = Some(end);
        self.ssa.branch(self.here, to)?;
        Ok(())
    }

    /// The same with an argument for each of a block's own parameters.
    fn end_with(&mut self, end: End, to: &[(Block, &[Value])]) -> Result<(), Fault> {
        self.draft().end = Some(end);
        self.ssa.branch_with(self.here, to)?;
        Ok(())
    }

    /// Leads what goes on to this block, which gets no further predecessor then.
    fn join(&mut self, first: Onward, second: Onward, to: Block) -> Result<Onward, Fault> {
        for from in first.into_iter().chain(second) {
            self.here = from;
            self.end(End::Jump, &[to])?;
        }
        self.ssa.seal_block(to)?;
        Ok(Some(to))
    }

    /// Reads the finished tables. Which value is an alias is known at the end, so all is resolved here and not before.
    fn finish(&self) -> Result<Form, Refused> {
        let session = self.ssa.session();
        // A certificate of this session would be checked here, before anything is read from it.
        let blocks: Result<_, _> = session.blocks().zip(&self.drafts).map(|(block, draft)| body(session, block, draft)).collect();
        Ok(Form { inputs: self.inputs.clone(), blocks: blocks?, values: session.value_count() as usize })
    }
}

fn body(session: &Session, block: Block, draft: &Draft) -> Result<Body, Refused> {
    let step = |&(value, op): &(Value, Op)| {
        let op = match op {
            Op::Unary(unary, a) => Op::Unary(unary, session.resolve(a)?),
            Op::Binary(binary, a, b) => Op::Binary(binary, session.resolve(a)?, session.resolve(b)?),
            Op::Constant(_) | Op::Input(_) => op,
        };
        Ok((value, op))
    };
    let ways = session.branch(block)?.map(|branch| session.destinations(branch)).transpose()?.into_iter().flatten();
    Ok(Body {
        params: session.params(block)?.collect(),
        unset: session.zeros(block)?.map(|zero| (zero.value, Number::unset(zero.ty))).collect(),
        steps: draft.steps.iter().map(step).collect::<Result<_, _>>()?,
        end: match draft.end.expect("the compiler ends every block") {
            End::Jump => End::Jump,
            End::Fork(test) => End::Fork(session.resolve(test)?),
            End::Return(value) => End::Return(session.resolve(value)?),
        },
        ways: ways.map(|way| Way { to: way.target, args: way.resolved().collect() }).collect(),
    })
}
