//! The walks: the library's public call, the loops of crates/alias as settling has them compiled into itself, and the loads alone.
use sangvireb::raw;

/// A cell that lies in the list. The library tests no index either: its indices are proved to be inside.
fn cell(targets: &[u32], at: usize) -> u32 {
    debug_assert!(at < targets.len());
    // Safety: every walk here starts in the list, and is asked only of lists whose targets lie inside
    unsafe { *targets.get_unchecked(at) }
}

/// `resolve`, which settling followed before: for each link a load and three tests.
#[inline(always)]
pub fn resolve(targets: &[u32], value: u32) -> u32 {
    let mut at = value;
    if targets.len() <= at as usize {
        return 0;
    }
    let mut steps = 0;
    while steps < targets.len() {
        let next = cell(targets, at as usize);
        if next == at {
            return at;
        }
        if targets.len() <= next as usize {
            break;
        }
        at = next;
        steps += 1;
    }
    0
}

/// `follow`, which settling follows now: for each link a load and a test.
#[inline(always)]
pub fn follow(targets: &[u32], value: u32) -> u32 {
    let mut at = value as usize;
    loop {
        let target = cell(targets, at);
        let place = target as usize;
        if place == at {
            return target;
        }
        at = place;
    }
}

/// The least that a walk can do: the loads that its links need, each waiting for the one before, and nothing looked at.
#[inline(always)]
pub fn loads(targets: &[u32], value: u32, links: u32) -> u32 {
    (0..links).fold(value as usize, |at, _| cell(targets, at) as usize) as u32
}

/// The public call.
#[inline(always)]
pub fn public(targets: &[u32], value: u32) -> u32 {
    let (code, number) = raw::resolve(targets, value);
    code + number
}
