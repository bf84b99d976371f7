//! Both sides timed on one list, in turn.
use crate::agree;
use crate::given::Given;
use crate::library::Library;
use lists::Call;
use std::time::{Duration, Instant};

const WARM_UP: usize = 20;

/// Of many repetitions, in microseconds: the least, which comes nearest to a machine at rest; the median; half of them lie from low to high.
#[derive(Clone, Copy)]
pub struct Spread {
    pub least: f64,
    pub low: f64,
    pub median: f64,
    pub high: f64,
}

impl Spread {
    fn of(mut samples: Vec<Duration>) -> Spread {
        samples.sort();
        let at = |quarter: usize| samples[(samples.len() - 1) * quarter / 4].as_nanos() as f64 / 1000.0;
        Spread { least: at(0), low: at(1), median: at(2), high: at(3) }
    }

    /// The quartiles' distance, as a part of the median.
    pub fn noise(&self) -> f64 {
        (self.high - self.low) / self.median
    }
}

pub struct Times {
    pub calls: usize,
    pub fresh: Spread,
    pub cleared: Spread,
    pub session: Spread,
    pub clearing: Spread,
}

impl Times {
    /// One repetition runs each in turn, the crate and the library alternately, so that what slows the machine slows both.
    pub fn of(name: &str, calls: &[Call], reps: usize) -> Times {
        let (mut given, mut library) = (Given::new(calls), Library::new(calls));
        given.cleared();
        library.session();
        agree::check(name, calls, &given, &library);
        let mut samples: [Vec<Duration>; 4] = Default::default();
        for rep in 0..WARM_UP + reps {
            let took = [given.fresh(), library.session(), given.cleared(), library.clearing()];
            if rep >= WARM_UP {
                samples.iter_mut().zip(took).for_each(|(all, one)| all.push(one));
            }
        }
        let [fresh, session, cleared, clearing] = samples.map(Spread::of);
        Times { calls: calls.len(), fresh, cleared, session, clearing }
    }

    /// The session without the time that clearing takes by itself: of the medians, or of the least.
    pub fn work(&self, of: fn(Spread) -> f64) -> f64 {
        of(self.session) - of(self.clearing)
    }

    /// The whole session's time to the crate's: new, cleared, and the least of it to the least of the crate's, cleared.
    pub fn ratios(&self) -> [f64; 3] {
        let session = self.session;
        [session.median / self.fresh.median, session.median / self.cleared.median, session.least / self.cleared.least]
    }

    pub fn noise(&self) -> f64 {
        [self.fresh, self.cleared, self.session].map(|spread| spread.noise()).into_iter().fold(0.0, f64::max)
    }
}

/// What a measurement of nothing takes, in nanoseconds.
pub fn of_nothing() -> f64 {
    Spread::of((0..10_001).map(|_| Instant::now().elapsed()).collect()).median * 1000.0
}
