//! Writes random scripts. Each loop has a counter of its own that only it raises, or an index that it carries, so every script ends.
use std::fmt::Write;

/// Random numbers that a seed determines: a step of a Weyl sequence, mixed by two multiplications.
pub struct Rng(u64);

impl Rng {
    pub fn new(seed: u64) -> Rng {
        Rng(seed)
    }

    pub fn word(&mut self) -> u64 {
        self.0 = self.0.wrapping_add(0x9e37_79b9_7f4a_7c15);
        let a = (self.0 ^ (self.0 >> 30)).wrapping_mul(0xbf58_476d_1ce4_e5b9);
        let b = (a ^ (a >> 27)).wrapping_mul(0x94d0_49bb_1331_11eb);
        b ^ (b >> 31)
    }

    pub fn below(&mut self, n: u64) -> u64 {
        self.word() % n
    }

    pub fn one_in(&mut self, n: u64) -> bool {
        self.below(n) == 0
    }

    pub fn int(&mut self) -> i64 {
        self.below(7) as i64 - 2
    }

    pub fn float(&mut self) -> f64 {
        self.below(9) as f64 * 20.5 - 40.0
    }
}

pub const INPUTS: usize = 4;
/// Variables of each type, beside inputs and counters.
const OWN: u64 = 3;
const LOOPS: usize = 8;
/// A fork or a loop takes at most three blocks, and the first block is there already. Most scripts have fewer.
const FORKS: u64 = 20;

pub struct Writer<'a> {
    rng: &'a mut Rng,
    text: String,
    /// How many loops were begun, and how many forks and loops still may be.
    loops: usize,
    forks: u64,
}

impl Writer<'_> {
    pub fn script(rng: &mut Rng) -> String {
        let forks = if rng.one_in(12) { FORKS } else { 2 + rng.below(6) };
        let mut writer = Writer { rng, text: String::new(), loops: 0, forks };
        for place in 0..INPUTS {
            let ty = if place % 2 == 0 { "float f" } else { "int n" };
            writer.line(0, &format!("input {ty}in{place};"));
        }
        for own in 0..OWN {
            // often nothing sets a variable before it is read
            for float in [true, false] {
                let value = if writer.rng.one_in(3) { format!(" = {}", writer.constant(float)) } else { String::new() };
                let ty = if float { "float f" } else { "int n" };
                writer.line(0, &format!("{ty}{own}{value};"));
            }
        }
        (0..LOOPS).for_each(|counter| writer.line(0, &format!("int i{counter};")));
        if !writer.statements(0) {
            let float = !writer.rng.one_in(3);
            let result = writer.expression(float, 3);
            writer.line(0, &format!("return {result};"));
        }
        writer.text
    }

    fn line(&mut self, depth: usize, line: &str) {
        writeln!(self.text, "{}{line}", "    ".repeat(depth)).unwrap();
    }

    /// Some statements. Does every way through them return?
    fn statements(&mut self, depth: usize) -> bool {
        for _ in 0..1 + self.rng.below(if depth == 0 { 8 } else { 4 }) {
            let room = self.forks > 0 && depth < 4;
            match self.rng.below(8) {
                0..=1 if room => {
                    if self.fork(depth) {
                        return true;
                    }
                }
                2 if room && self.rng.one_in(2) => self.count(depth),
                2 if room && self.loops < LOOPS => self.cycle(depth),
                3 if depth > 0 && self.rng.one_in(4) => {
                    let result = self.expression(true, 2);
                    self.line(depth, &format!("return {result};"));
                    return true;
                }
                _ => self.assignment(depth),
            }
        }
        false
    }

    fn assignment(&mut self, depth: usize) {
        let float = self.rng.one_in(2);
        let (name, value) = (self.name(float, false), self.expression(float, 2));
        self.line(depth, &format!("{name} = {value};"));
    }

    fn fork(&mut self, depth: usize) -> bool {
        self.forks -= 1;
        let test = self.expression(false, 2);
        self.line(depth, &format!("if {test} {{"));
        let mut returns = self.statements(depth + 1);
        if self.rng.one_in(2) {
            self.line(depth, "} else {");
            returns &= self.statements(depth + 1);
        } else {
            returns = false;
        }
        self.line(depth, "}");
        returns
    }

    fn cycle(&mut self, depth: usize) {
        let counter = self.loops;
        (self.forks, self.loops) = (self.forks - 1, self.loops + 1);
        if !self.rng.one_in(3) {
            self.line(depth, &format!("i{counter} = 0;"));
        }
        let (turns, test) = (1 + self.rng.below(4), self.expression(false, 1));
        let also = if self.rng.one_in(2) { format!(" * (0 <= {test})") } else { String::new() };
        self.line(depth, &format!("while (i{counter} < {turns}){also} {{"));
        if !self.statements(depth + 1) {
            self.line(depth + 1, &format!("i{counter} = i{counter} + 1;"));
        }
        self.line(depth, "}");
    }

    /// A loop with an index, whose name may be given anything in the body.
    fn count(&mut self, depth: usize) {
        self.forks -= 1;
        let (name, turns, test) = (self.name(false, false), self.rng.below(4), self.expression(false, 1));
        let also = if self.rng.one_in(2) { format!(" * (0 <= {test})") } else { String::new() };
        self.line(depth, &format!("repeat {name} to {turns}{also} {{"));
        self.statements(depth + 1);
        self.line(depth, "}");
    }

    /// A variable; a counter only to be read.
    fn name(&mut self, float: bool, read: bool) -> String {
        let letter = if float { 'f' } else { 'n' };
        match self.rng.below(6) {
            0 if !float && read => format!("i{}", self.rng.below(LOOPS as u64)),
            1 => format!("{letter}in{}", self.rng.below(INPUTS as u64 / 2) * 2 + u64::from(!float)),
            _ => format!("{letter}{}", self.rng.below(OWN)),
        }
    }

    fn constant(&mut self, float: bool) -> String {
        if float {
            format!("{:?}", self.rng.float().abs())
        } else {
            self.rng.int().abs().to_string()
        }
    }

    fn expression(&mut self, float: bool, depth: usize) -> String {
        if depth == 0 || self.rng.one_in(4) {
            return if self.rng.one_in(4) { self.constant(float) } else { self.name(float, true) };
        }
        match (self.rng.below(6), float) {
            (0, true) => format!("celsius({})", self.expression(true, depth - 1)),
            (1, true) => format!("fahrenheit({})", self.expression(true, depth - 1)),
            (2, true) => format!("float({})", self.expression(false, depth - 1)),
            (2, false) => format!("int({})", self.expression(true, depth - 1)),
            (0..=1, false) => {
                let (mark, floats) = (["<", "<=", "=="][self.rng.below(3) as usize], self.rng.one_in(2));
                format!("({} {mark} {})", self.expression(floats, depth - 1), self.expression(floats, depth - 1))
            }
            _ => {
                let mark = ["+", "-", "*", "/"][self.rng.below(4) as usize];
                let both = format!("{} {mark} {}", self.expression(float, depth - 1), self.expression(float, depth - 1));
                if self.rng.one_in(2) {
                    format!("({both})")
                } else {
                    both
                }
            }
        }
    }
}
