//! All small lists, part by part.
use crate::both::Both;
use crate::figures::Figures;
use crate::report::report;
use lists::progress::Progress;
use lists::small::{PARTS, Part};
use std::process::ExitCode;

pub fn run(only: Option<&str>) -> ExitCode {
    let parts = || PARTS.iter().filter(|part| only.map_or(!part.long, |name| name == part.name));
    if parts().next().is_none() {
        let names: Vec<&str> = PARTS.iter().map(|part| part.name).collect();
        eprintln!("the parts are {}", names.join(", "));
        return ExitCode::from(2);
    }
    let mut sum = 0;
    parts().for_each(|part| {
        (part.each)(&mut |_| {
            sum += 1;
            true
        });
    });
    let mut progress = Progress::new(sum);
    let mut both = Both::new(1);
    let mut all = Figures::default();
    for part in parts() {
        let Some(figures) = compare(part, &mut both, &mut progress, &all) else { return ExitCode::FAILURE };
        println!("{:<16} {}", part.name, figures.brief());
        all.add(&figures);
    }
    progress.end(all.lists, all.calls);
    println!("{:<16} {}\n{}\nno difference", "all", all.brief(), all.full());
    ExitCode::SUCCESS
}

/// The part's figures, or nothing if a list differs.
fn compare(part: &Part, both: &mut Both, progress: &mut Progress, before: &Figures) -> Option<Figures> {
    let mut figures = Figures::default();
    let same = (part.each)(&mut |calls| {
        if let Some(what) = both.difference(calls) {
            println!("part {}, list {}:", part.name, figures.lists);
            report(calls, &what, both);
            return false;
        }
        figures.count(calls, both);
        progress.show(before.lists + figures.lists, before.calls + figures.calls);
        true
    });
    same.then_some(figures)
}
