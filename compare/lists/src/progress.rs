//! A line each second, so that a person sees that it runs and how fast.
use std::io::{IsTerminal, Write, stderr};
use std::time::{Duration, Instant};

pub struct Progress {
    began: Instant,
    shown: Instant,
    of: u64,
}

impl Progress {
    pub fn new(of: u64) -> Progress {
        Progress { began: Instant::now(), shown: Instant::now(), of }
    }

    pub fn show(&mut self, lists: u64, calls: u64) {
        if self.shown.elapsed() >= Duration::from_secs(1) {
            self.shown = Instant::now();
            self.line(lists, calls, if stderr().is_terminal() { "\r" } else { "\n" });
        }
    }

    fn line(&self, lists: u64, calls: u64, end: &str) {
        let seconds = self.began.elapsed().as_secs_f64();
        let rate = lists as f64 / seconds;
        eprint!("{lists} of {} lists, {calls} calls, {seconds:.0} s, {rate:.0} lists/s   {end}", self.of);
        let _ = stderr().flush();
    }

    pub fn end(&self, lists: u64, calls: u64) {
        self.line(lists, calls, "\n");
    }
}
