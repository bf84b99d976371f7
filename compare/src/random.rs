//! Random lists of every shape.
use crate::both::Both;
use crate::figures::Figures;
use crate::report::report;
use lists::progress::Progress;
use lists::rng::Rng;
use lists::shapes::{SHAPES, Shape};
use std::process::ExitCode;

/// The lists that fill the limits are long: they come seldom, unless asked for.
fn any_shape(rng: &mut Rng) -> Shape {
    if rng.chance(1, 1000) { Shape::Limits } else { rng.pick(&SHAPES[..SHAPES.len() - 1]) }
}

/// The list with this number, which does not depend on the others.
fn list(seed: u64, number: u64, only: Option<Shape>, both: &mut Both) -> (Shape, Vec<lists::Call>) {
    let mut rng = Rng::nth(seed, number);
    let shape = only.unwrap_or_else(|| any_shape(&mut rng));
    (shape, lists::random(shape, &mut both.lent, &mut rng))
}

pub fn run(lists: u64, seed: u64, first: u64, only: Option<Shape>) -> ExitCode {
    let mut both = Both::new(seed);
    let mut by_shape = vec![Figures::default(); SHAPES.len()];
    let mut all = Figures::default();
    let mut progress = Progress::new(lists);
    for number in first..first + lists {
        let (shape, calls) = list(seed, number, only, &mut both);
        if let Some(what) = both.difference(&calls) {
            println!("list {number} of seed {seed}, shape {}:", shape.name());
            report(&calls, &what, &mut both);
            return ExitCode::FAILURE;
        }
        let place = SHAPES.iter().position(|&s| s == shape).expect("every shape is listed");
        by_shape[place].count(&calls, &both);
        all.lists += 1;
        all.calls += calls.len() as u64;
        progress.show(all.lists, all.calls);
    }
    progress.end(all.lists, all.calls);
    summary(&by_shape);
    println!("no difference");
    ExitCode::SUCCESS
}

/// Prints the lists instead of running them, for the program `sangvireb` and for the oracle's own driver.
pub fn emit(lists: u64, seed: u64, first: u64, only: Option<Shape>) -> ExitCode {
    let mut both = Both::new(seed);
    for number in first..first + lists {
        print!("{}", lists::text(&list(seed, number, only, &mut both).1));
    }
    ExitCode::SUCCESS
}

fn summary(by_shape: &[Figures]) {
    let mut all = Figures::default();
    for (shape, figures) in SHAPES.iter().zip(by_shape).filter(|(_, figures)| figures.lists > 0) {
        println!("{:<12} {}", shape.name(), figures.brief());
        all.add(figures);
    }
    println!("{:<12} {}", "all", all.brief());
    println!("{}", all.full());
}
