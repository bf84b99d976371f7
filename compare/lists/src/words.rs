//! The words of a command line: a command, then names with values.
use std::{env, process};

pub struct Words(Vec<String>);

impl Words {
    pub fn of_command_line() -> Words {
        Words(env::args().skip(1).collect())
    }

    pub fn command(&self) -> &str {
        self.0.first().map_or("help", String::as_str)
    }

    /// Ends the program at a name that nobody reads, which would be a slip of the pen.
    pub fn only(&self, names: &[&str]) {
        if let Some(unknown) = self.0.iter().skip(1).find(|word| word.starts_with("--") && !names.contains(&word.as_str())) {
            eprintln!("{unknown} is not known here; known are {}", names.join(" "));
            process::exit(2)
        }
    }

    pub fn has(&self, name: &str) -> bool {
        self.0.iter().any(|word| word == name)
    }

    /// What follows the name.
    pub fn text(&self, name: &str) -> Option<&str> {
        let at = self.0.iter().position(|word| word == name)?;
        self.0.get(at + 1).map(String::as_str)
    }

    /// The words after the command that are neither names nor what follows one.
    pub fn others(&self) -> Vec<&str> {
        let named = |i: usize| self.0[i].starts_with("--") || self.0[i - 1].starts_with("--");
        (1..self.0.len()).filter(|&i| !named(i)).map(|i| self.0[i].as_str()).collect()
    }

    pub fn number(&self, name: &str, usual: u64) -> u64 {
        match self.text(name) {
            Some(text) => text.parse().unwrap_or_else(|_| self.wrong(name)),
            None if self.has(name) => self.wrong(name),
            None => usual,
        }
    }

    pub fn wrong(&self, name: &str) -> ! {
        eprintln!("{name} is followed by something that is not understood: {}", self.text(name).unwrap_or("nothing"));
        process::exit(2)
    }
}
