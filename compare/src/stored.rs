//! The lists that the gate replays, with the oracle's answers to them: the examples, a list for each limit, and some of every shape; and the pictures of
//! the examples.
use crate::both::Both;
use crate::figures::Figures;
use crate::report::report;
use lists::drawing::due_text;
use lists::rng::Rng;
use lists::shapes::{SHAPES, Shape};
use lists::{Call, MAX_CALLS, limits, text};
use std::path::{Path, PathBuf};
use std::process::ExitCode;
use std::{fs, io};

/// Of each shape.
const LISTS: u64 = 40;

/// Longer ones would fill the repository and tell a reader nothing.
const LONGEST: usize = 120;

/// Lists, and the file or the shape that they come from.
struct Group {
    name: String,
    lists: Vec<Vec<Call>>,
}

/// Writes the program's files `stdin` and `stdout`, and `names`: a line for each group, with its name and how many lists it has; and those of the
/// program that draws.
pub fn run(root: &Path, seed: u64) -> ExitCode {
    let into = root.join("crates/sangvireb");
    let mut both = Both::new(seed);
    let mut groups = examples(&root.join("examples")).expect("the examples can be read");
    pictures(&groups, &mut both, &root.join("crates/picture"));
    groups.push(Group { name: Shape::Limits.name(), lists: limits::fixed() });
    groups.extend(SHAPES.iter().filter(|&&shape| shape != Shape::Limits).map(|&shape| some(shape, seed, &mut both)));
    let (mut calls, mut answers, mut figures) = (String::new(), String::new(), Figures::default());
    for list in groups.iter().flat_map(|group| &group.lists) {
        if let Some(what) = both.difference(list) {
            report(list, &what, &mut both);
            return ExitCode::FAILURE;
        }
        figures.count(list, &both);
        calls += &text(list);
        answers += &told(list);
    }
    println!("{}\n{}", figures.brief(), figures.full());
    let names: String = groups.iter().map(|group| format!("{} {}\n", group.name, group.lists.len())).collect();
    for (name, content) in [("stdin", calls), ("stdout", answers), ("names", names)] {
        fs::write(into.join(name), content).expect("the file can be written");
    }
    ExitCode::SUCCESS
}

/// The examples, and the text that docs/RULES.md asks for the tables that the oracle has.
fn pictures(examples: &[Group], both: &mut Both, into: &Path) {
    let (mut calls, mut drawn) = (String::new(), String::new());
    for list in examples.iter().flat_map(|group| &group.lists) {
        if both.difference(list).is_none() {
            calls += &text(list);
            drawn += &due_text(&both.expected.graph, &both.expected.form).expect("the oracle's tables can be drawn");
        }
    }
    for (name, content) in [("stdin", calls), ("stdout", drawn)] {
        fs::write(into.join(name), content).expect("the file can be written");
    }
}

/// What the oracle prints of a list. A list that is refused whole never reaches the crate: docs/RULES.md alone says what it gets.
fn told(list: &[Call]) -> String {
    let dump = if list.len() > MAX_CALLS { "S 2\n".to_string() } else { oracle::run(list).expect("it was run before").dump };
    dump + "END\n"
}

/// By the files' names.
fn examples(folder: &Path) -> io::Result<Vec<Group>> {
    let mut files: Vec<_> = fs::read_dir(folder)?.map(|file| Ok(file?.path())).collect::<io::Result<_>>()?;
    files.retain(|file| file.extension().is_some_and(|end| end == "txt"));
    files.sort();
    let group = |file: &PathBuf| {
        let name = file.file_stem().unwrap_or_default().to_string_lossy().into_owned();
        Ok(Group { name, lists: lists::read(&fs::read_to_string(file)?).ok_or(io::ErrorKind::InvalidData)? })
    };
    files.iter().map(group).collect()
}

/// The first lists of this shape that are short enough.
fn some(shape: Shape, seed: u64, both: &mut Both) -> Group {
    let drawn = (0..).map(|number| lists::random(shape, &mut both.lent, &mut Rng::nth(seed, number)));
    Group { name: shape.name(), lists: drawn.filter(|list| list.len() <= LONGEST).take(LISTS as usize).collect() }
}
