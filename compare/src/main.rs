//! Compares the library with the oracle, cell by cell. README.md has the commands.
mod both;
mod cells;
mod expected;
mod figures;
mod needed;
mod random;
mod report;
mod small;
mod stored;

use lists::shapes::Shape;
use lists::words::Words;
use std::path::Path;
use std::process::ExitCode;

const USAGE: &str = "\
random --lists N --seed S [--shape NAME] [--first K]   random lists
emit, with the same words                              prints them instead, as the program sangvireb reads them
small [--part NAME]                                    all small lists
needed                                                 lists without one supposition of demand 3
stored [--seed S]                                      writes the lists and answers that the gate replays";

fn main() -> ExitCode {
    oracle::quiet_panics();
    let words = Words::of_command_line();
    words.only(&["--lists", "--seed", "--shape", "--first", "--part"]);
    match words.command() {
        command @ ("random" | "emit") => {
            let shape = words.text("--shape").map(|name| Shape::named(name).unwrap_or_else(|| words.wrong("--shape")));
            let run = if command == "random" { random::run } else { random::emit };
            run(words.number("--lists", 2000), words.number("--seed", 1), words.number("--first", 0), shape)
        }
        "needed" => needed::run(),
        "stored" => {
            let root = Path::new(env!("CARGO_MANIFEST_DIR")).parent().expect("compare stands in the repository");
            stored::run(root, words.number("--seed", 1))
        }
        "small" => small::run(words.text("--part")),
        _ => {
            eprintln!("{USAGE}");
            ExitCode::from(2)
        }
    }
}
