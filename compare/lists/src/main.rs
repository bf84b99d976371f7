//! The commands that need the library alone. The README beside `run` has them all.
use lists::words::Words;
use lists::{hostile, pictures, walks};
use std::process::ExitCode;

const USAGE: &str = "\
draw --lists N --seed S [FILE..]        pictures of the files' lists and of random ones, read back
walk --lists N --seed S                 lists that meet demand 3's suppositions, walked on random paths
hostile --rounds N --seed S [--heap]    anything at all, lent between closed pages";

fn main() -> ExitCode {
    let words = Words::of_command_line();
    words.only(&["--lists", "--rounds", "--seed", "--heap", "--side"]);
    let (lists, rounds, seed) = (words.number("--lists", 2000), words.number("--rounds", 2000), words.number("--seed", 1));
    match words.command() {
        "draw" => pictures::run(lists, seed, &words.others()),
        "walk" => walks::run(lists, seed),
        "hostile" => hostile::run(rounds, seed, words.has("--heap")),
        hostile::OVERSTEP => hostile::overstep(words.text("--side"), words.has("--heap")),
        _ => {
            eprintln!("{USAGE}");
            ExitCode::from(2)
        }
    }
}
