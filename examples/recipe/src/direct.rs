//! Runs a script word by word, without any form: variables are cells, a loop goes back in the text. It is what a script means.
//!
//! It takes scripts that [`compile`](crate::compile::compile) has accepted; with others it may panic.
use crate::lexer::Words;
use crate::number::{Binary, Number, Unary, LEVELS};
use sangvireb::Type;
use std::collections::HashMap;

struct Direct<'a> {
    words: Words<'a>,
    inputs: std::slice::Iter<'a, Number>,
    held: HashMap<&'a str, Number>,
    turns: usize,
}

/// Why a run stops: with a result, or because it took too many turns.
type Stop = Option<Number>;

/// The script's result. A run that takes more than so many turns of its loops is given up.
pub fn run(script: &str, inputs: &[Number], turns: usize) -> Option<Number> {
    let words = Words::of(script).expect("an accepted script");
    let mut direct = Direct { words, inputs: inputs.iter(), held: HashMap::new(), turns };
    while matches!(direct.words.peek(), "input" | "int" | "float") {
        direct.declaration();
    }
    loop {
        if let Err(stop) = direct.statement() {
            return stop;
        }
    }
}

impl Direct<'_> {
    fn declaration(&mut self) {
        let input = self.words.take_if("input");
        let ty = if self.words.take() == "int" { Type::I64 } else { Type::F64 };
        let name = self.words.take();
        let number = if input {
            *self.inputs.next().expect("as many inputs as the script declares")
        } else if self.words.take_if("=") {
            self.expression(0)
        } else {
            Number::unset(ty)
        };
        self.words.take();
        self.held.insert(name, number);
    }

    fn statement(&mut self) -> Result<(), Stop> {
        match self.words.take() {
            "if" => {
                let holds = self.expression(0).holds();
                self.arm(holds)?;
                if self.words.take_if("else") {
                    self.arm(!holds)?;
                }
            }
            "while" => {
                let test = self.words.at;
                while self.expression(0).holds() {
                    self.turns = self.turns.checked_sub(1).ok_or(None)?;
                    self.arm(true)?;
                    self.words.at = test;
                }
                self.arm(false)?;
            }
            "repeat" => {
                let name = self.words.take();
                self.words.take();
                let limit = self.words.at;
                for index in (0..).map(Number::Int) {
                    self.held.insert(name, index);
                    self.words.at = limit;
                    if !Binary::Less.apply(index, self.expression(0)).holds() {
                        break;
                    }
                    self.turns = self.turns.checked_sub(1).ok_or(None)?;
                    self.arm(true)?;
                }
                self.arm(false)?;
            }
            "return" => return Err(Some(self.expression(0))),
            name => {
                self.words.take();
                let number = self.expression(0);
                self.words.take();
                self.held.insert(name, number);
            }
        }
        Ok(())
    }

    /// Does what stands in braces, or leaps over it.
    fn arm(&mut self, taken: bool) -> Result<(), Stop> {
        self.words.take();
        let mut depth = 1;
        while depth > 0 {
            if taken && self.words.peek() != "}" {
                self.statement()?;
                continue;
            }
            match self.words.take() {
                "{" => depth += 1,
                "}" => depth -= 1,
                _ => {}
            }
        }
        Ok(())
    }

    fn expression(&mut self, level: usize) -> Number {
        let Some(marks) = LEVELS.get(level) else { return self.atom() };
        let mut left = self.expression(level + 1);
        while let Some((mark, binary)) = marks.iter().find(|(mark, _)| *mark == self.words.peek()) {
            self.words.want(mark).expect("it was seen");
            left = binary.apply(left, self.expression(level + 1));
        }
        left
    }

    fn atom(&mut self) -> Number {
        let word = self.words.take();
        if word == "(" {
            let inner = self.expression(0);
            self.words.take();
            inner
        } else if let Some((unary, _, _)) = Unary::named(word) {
            unary.apply(self.atom())
        } else {
            Number::read(word).unwrap_or_else(|| self.held[word])
        }
    }
}
