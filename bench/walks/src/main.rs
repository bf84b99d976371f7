//! Times walks along alias targets. docs/SPEED.md has the command and the figures.
mod cases;
mod walk;

use cases::Case;
use lists::words::Words;
use std::fs;
use std::hint::black_box;
use std::time::Instant;

const WARM_UP: usize = 20;

/// Of one walk, in nanoseconds: the quickest sample's, and the median's.
#[derive(Clone, Copy)]
struct Nanos {
    least: f64,
    median: f64,
}

/// A sample is all walks of the case, one after the other.
fn sample(case: &Case, walk: impl Fn(&[u32], u32, u32) -> u32) -> f64 {
    let (targets, walks) = (black_box(&case.targets[..]), black_box(&case.walks[..]));
    let start = Instant::now();
    let sum = walks.iter().fold(0u32, |sum, &(value, links)| sum.wrapping_add(walk(targets, value, links)));
    let took = start.elapsed();
    black_box(sum);
    took.as_nanos() as f64 / walks.len() as f64
}

#[inline(never)]
fn before(case: &Case) -> f64 {
    sample(case, |targets, value, _| walk::resolve(targets, value))
}

#[inline(never)]
fn now(case: &Case) -> f64 {
    sample(case, |targets, value, _| walk::follow(targets, value))
}

#[inline(never)]
fn loads(case: &Case) -> f64 {
    sample(case, walk::loads)
}

#[inline(never)]
fn public(case: &Case) -> f64 {
    sample(case, |targets, value, _| walk::public(targets, value))
}

/// The measurements in turn, so that what slows the machine slows all of them.
fn measured<const N: usize>(case: &Case, reps: usize, all: [fn(&Case) -> f64; N]) -> [Nanos; N] {
    let mut samples = [(); N].map(|_| Vec::new());
    for rep in 0..WARM_UP + reps {
        for (kept, measure) in samples.iter_mut().zip(all) {
            let took = measure(case);
            if rep >= WARM_UP {
                kept.push(took);
            }
        }
    }
    samples.map(|mut kept| {
        kept.sort_by(f64::total_cmp);
        Nanos { least: kept[0], median: kept[kept.len() / 2] }
    })
}

/// Each walk does what it is timed for.
fn check(case: &Case, ends: bool) {
    for &(value, links) in &case.walks {
        let (code, number) = sangvireb::raw::resolve(&case.targets, value);
        assert_eq!(code, case.code, "{}", case.name);
        if ends {
            assert_eq!([walk::resolve(&case.targets, value), walk::follow(&case.targets, value)], [number; 2], "{}", case.name);
            assert_eq!(walk::loads(&case.targets, value, links), number, "{}", case.name);
        }
    }
}

fn table<const N: usize>(what: &str, columns: [&str; N], cases: &[Case], reps: usize, all: [fn(&Case) -> f64; N]) {
    println!("\n| {what} | {} |", columns.join(" | "));
    println!("|---{}|", "|---".repeat(N));
    for case in cases {
        check(case, case.code == 0);
        let shown = measured(case, reps, all).map(|nanos| format!("{:.2} ({:.2})", nanos.least, nanos.median));
        println!("| {} | {} |", case.name, shown.join(" | "));
    }
}

fn load() {
    println!("load averages: {}", fs::read_to_string("/proc/loadavg").unwrap_or_default().trim());
}

fn main() {
    let words = Words::of_command_line();
    words.only(&["--reps"]);
    let reps = words.number("--reps", 1001).max(1) as usize;
    load();
    println!("{reps} repetitions; nanoseconds a walk, the quickest sample's and the median's");
    let (hits, misses) = cases::all();
    table("links", ["settling, before", "settling, now", "public call", "loads alone"], &hits, reps, [before, now, public, loads]);
    table("refused", ["public call"], &misses, reps, [public]);
    load();
}
