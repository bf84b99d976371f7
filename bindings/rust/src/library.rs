//! Is the linked library the one that this package was built for? With other limits every table would lie elsewhere.
use crate::raw;
use std::error::Error;
use std::fmt;
use std::sync::OnceLock;

/// How the library that is linked differs from what this package was built for.
#[derive(Clone, Copy, PartialEq, Eq, Debug)]
pub struct Misfit {
    what: &'static str,
    here: u32,
    there: u32,
}

impl fmt::Display for Misfit {
    fn fmt(&self, f: &mut fmt::Formatter<'_>) -> fmt::Result {
        let Misfit { what, here, there } = self;
        write!(
            f,
            "the sangvireb library that is linked tells {there} as its {what}, and this package was built for {here}: \
             take both from one revision and build them again"
        )
    }
}

impl Error for Misfit {}

/// The first thing that a library which tells this of itself has otherwise.
fn misfit(tells: impl Fn(u32) -> u32) -> Option<Misfit> {
    let told = raw::TOLD.into_iter().zip(0..);
    let mut asked = told.map(|((what, here), which)| Misfit { what, here, there: tells(which) });
    asked.find(|row| row.here != row.there)
}

/// What was found out, by asking once.
fn asked() -> &'static Option<Misfit> {
    static ASKED: OnceLock<Option<Misfit>> = OnceLock::new();
    ASKED.get_or_init(|| misfit(raw::limit))
}

/// Was the linked library built for the same limits as this package?
///
/// Everything here asks that before its first call and panics if it doesn't hold. A host that would rather tell its user asks first.
pub fn check() -> Result<(), Misfit> {
    asked().map_or(Ok(()), Err)
}

/// Stops here rather than read wrong tables.
pub(crate) fn must_fit() {
    if let Some(misfit) = asked() {
        panic!("{misfit}");
    }
}

#[cfg(test)]
mod tests {
    use super::*;

    /// A library that tells what this package has, but for one row.
    fn other(row: u32, told: u32) -> Option<Misfit> {
        misfit(|which| if which == row { told } else { raw::TOLD[which as usize].1 })
    }

    #[test]
    fn a_library_for_other_limits_is_noticed() {
        assert_eq!(other(0, raw::VERSION), None);
        for (which, (what, here)) in (0..).zip(raw::TOLD) {
            assert_eq!(other(which, here + 1), Some(Misfit { what, here, there: here + 1 }));
        }
        let words = other(1, 256).unwrap().to_string();
        assert!(words.contains("tells 256 as its limit of blocks, and this package was built for 64"), "{words}");
    }

    #[test]
    fn the_linked_library_fits_and_tells_no_more() {
        assert_eq!(check(), Ok(()));
        assert_eq!(raw::limit(raw::TOLD.len() as u32), 0);
        assert_eq!(raw::limit(u32::MAX), 0);
    }
}
