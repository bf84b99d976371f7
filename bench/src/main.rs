//! Times the crate and the library on the same lists. docs/SPEED.md has the commands and the figures.
mod agree;
mod draft;
mod given;
mod ladders;
mod library;
mod recipes;
mod tables;
mod times;

use lists::words::Words;
use std::process::ExitCode;

const PARTS: [(&str, fn(usize)); 3] = [("ladders", tables::ladders), ("growth", tables::growth), ("recipes", tables::recipes)];

fn main() -> ExitCode {
    let words = Words::of_command_line();
    let reps = words.number("--reps", 1001).max(1) as usize;
    let command = words.command();
    if command == "only" {
        words.only(&["--reps", "--list", "--side"]);
        only(&words, reps);
        return ExitCode::SUCCESS;
    }
    words.only(&["--reps"]);
    let parts: Vec<_> = PARTS.iter().filter(|(name, _)| command == "all" || command == *name).collect();
    if parts.is_empty() {
        eprintln!("{command} is not known; bench/run names the commands");
        return ExitCode::from(2);
    }
    tables::machine(reps);
    parts.iter().for_each(|(_, part)| part(reps));
    tables::load();
    ExitCode::SUCCESS
}

fn only(words: &Words, reps: usize) {
    let shape = ladders::SHAPES.iter().find(|shape| Some(shape.name) == words.text("--list")).unwrap_or_else(|| words.wrong("--list"));
    let calls = shape.calls(ladders::FULL);
    let mut given = given::Given::new(&calls);
    let mut library = library::Library::new(&calls);
    for _ in 0..reps {
        match words.text("--side") {
            Some("crate") => given.cleared(),
            Some("library") => library.session(),
            _ => words.wrong("--side"),
        };
    }
}
