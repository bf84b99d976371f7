//! The crate's own ssa.rs over the real cranelift, called as a function: a list of calls in, the oracle's dump out.
extern crate alloc;

// the oracle's modules, and under the names that they expect at the crate's root: `Variable`, `hook`, `no12`, `big`
include!(concat!(env!("OUT_DIR"), "/given.rs"));
pub mod hook;
pub use cranelift_codegen;
pub use variable::Variable;

use std::cell::Cell;
use std::panic::{AssertUnwindSafe, catch_unwind};

/// A branch declared twice gets code 12 here, as docs/RULES.md says.
pub fn no12() -> bool {
    false
}

/// The limits are those of docs/RULES.md.
pub fn big() -> bool {
    false
}

/// What the oracle said of a list.
pub struct Told {
    /// the lines that the oracle's README describes, but for `H`
    pub dump: String,
    /// the `H` line's bounds
    pub heights: hook::Heights,
}

macro_rules! dump_of {
    ($side:ident, $mode:ident, $calls:expr, $homes:expr) => {{
        // the requests whose rules docs/RULES.md has; `program` in compare/run names them too. 4: the caller's parameters and arguments (kinds 15 and
        // 16); 5: a float's unset value is a quiet NaN (lines `K`); 6: types 6 to 24; 7: marks for stack maps (kind 17, lines `M` and `W`); 9: no late
        // definitions
        let rules = $side::session::Rules {
            own_params: true,
            unset_nan: true,
            wide: true,
            stack_maps: true,
            no_late: true,
            ..$side::session::Rules::base()
        };
        let mut session = $side::session::Session::with_rules($side::session::Mode::$mode, rules);
        for c in $calls {
            session.call(c[0].into(), c[1].into(), c[2].into(), c[3].into());
        }
        let mut text = String::new();
        session.dump(&$homes, &mut text);
        text
    }};
}

thread_local!(static QUIET: Cell<bool> = const { Cell::new(false) });

/// Panics of the crate are answers here; all others are printed as ever.
pub fn quiet_panics() {
    let usual = std::panic::take_hook();
    std::panic::set_hook(Box::new(move |info| {
        if !QUIET.get() {
            usual(info)
        }
    }));
}

/// Runs a list twice, with tables only and with every form of branch; an error if the two part or if the crate panics.
pub fn run(calls: &[[u32; 4]]) -> Result<Told, String> {
    QUIET.set(true);
    let told = catch_unwind(AssertUnwindSafe(|| {
        hook::start();
        let dump = dump_of!(hooked, Table, calls, hook::homes());
        let mixed = dump_of!(plain, Mixed, calls, hook::homes());
        if dump == mixed { Ok(Told { dump, heights: hook::heights() }) } else { Err("the oracle's two forms of branch disagree".to_string()) }
    }));
    QUIET.set(false);
    told.unwrap_or_else(|cause| {
        let words = cause.downcast_ref::<String>().map(String::as_str).or(cause.downcast_ref::<&str>().copied());
        Err(format!("the crate panicked: {}", words.unwrap_or("without words")))
    })
}
