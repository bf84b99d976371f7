//! The figures, as tables for docs/SPEED.md.
use crate::ladders::{FULL, SHAPES, Size, with_uses};
use crate::recipes::recipe;
use crate::times::{Spread, Times, of_nothing};
use std::fs;

const SIZES: [u32; 4] = [8, 16, 32, 64];
/// The last has 16,383 calls.
const USES: [usize; 5] = [0, 2048, 4096, 8192, 15008];
const CONVERSIONS: [u32; 5] = [0, 1, 7, 15, 31];

fn first_line(file: &str, start: &str) -> String {
    let text = fs::read_to_string(file).unwrap_or_default();
    text.lines().find(|line| line.starts_with(start)).unwrap_or("unknown").to_string()
}

pub fn machine(reps: usize) {
    println!("{}", first_line("/proc/cpuinfo", "model name"));
    println!("{reps} repetitions; a measurement of nothing takes {:.0} ns", of_nothing());
    load();
}

pub fn load() {
    println!("load averages: {}", first_line("/proc/loadavg", ""));
}

/// Three digits or a little more.
fn digits(micros: f64) -> String {
    let places = if micros < 10.0 { 2 } else { usize::from(micros < 100.0) };
    format!("{micros:.places$}")
}

fn shown(spread: Spread) -> String {
    format!("{} ({} to {})", digits(spread.median), digits(spread.low), digits(spread.high))
}

const COLUMNS: [&str; 10] = [
    "calls",
    "crate, new",
    "crate, cleared",
    "library",
    "without clearing",
    "to new",
    "to cleared",
    "least",
    "ns a call: crate",
    "library",
];

/// Lists with their times, one a line; the worst of them in the last.
fn whole(what: &str, lists: impl Iterator<Item = (String, Times)>) {
    println!("\n| {what} | {} |", COLUMNS.join(" | "));
    println!("|---{}|", "|---".repeat(COLUMNS.len()));
    let (mut worst, mut noise) = ([0.0; 3], 0.0);
    for (name, times) in lists {
        let ratios = times.ratios();
        let each = |spread: Spread| spread.median * 1000.0 / times.calls as f64;
        print!("| {name} | {} | {} | {} | {} ", times.calls, shown(times.fresh), shown(times.cleared), shown(times.session));
        print!("| {} | {} ", digits(times.work(|spread| spread.median)), ratios.map(|ratio| format!("{ratio:.2}")).join(" | "));
        println!("| {:.0} | {:.0} |", each(times.cleared), each(times.session));
        (0..3).for_each(|i| worst[i] = f64::max(worst[i], ratios[i]));
        noise = f64::max(noise, times.noise());
    }
    let [new, cleared, least] = worst;
    println!(
        "\nworst: {new:.2} to new, {cleared:.2} to cleared, {least:.2} least; quartiles apart at most {:.0} % of the median",
        noise * 100.0
    );
}

pub fn ladders(reps: usize) {
    whole("ladder", SHAPES.iter().map(|shape| (format!("`{}`", shape.name), Times::of(shape.name, &shape.calls(FULL), reps))));
}

pub fn recipes(reps: usize) {
    whole("conversions", CONVERSIONS.iter().map(|&n| (n.to_string(), Times::of("recipe", &recipe(n), reps))));
}

pub fn growth(reps: usize) {
    by("blocks", |blocks| Size { blocks, ..FULL }, reps);
    by("variables", |vars| Size { vars, ..FULL }, reps);
    whole("uses", USES.iter().map(|&n| (n.to_string(), Times::of("uses", &with_uses(n), reps))));
}

/// The library without clearing, and the crate cleared, as one of the two sizes grows: the least of each, lest noise hide the growth.
fn by(what: &str, size: fn(u32) -> Size, reps: usize) {
    println!("\n| ladder | {} |", SIZES.map(|n| format!("{n} {what}")).join(" | "));
    println!("|---{}|", "|---".repeat(SIZES.len()));
    for shape in SHAPES {
        let cell = |n| {
            let times = Times::of(shape.name, &shape.calls(size(n)), reps);
            format!("{} / {}", digits(times.work(|spread| spread.least)), digits(times.cleared.least))
        };
        println!("| `{}` | {} |", shape.name, SIZES.map(cell).join(" | "));
    }
}
