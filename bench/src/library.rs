//! The library's side: a list and its tables, lent again and again.
use lists::Call;
use sangvireb::raw;
use std::time::{Duration, Instant};

pub struct Library {
    calls: [Vec<u32>; 4],
    codes: Vec<u32>,
    pub numbers: Vec<u32>,
    graph: Vec<u32>,
    pub form: Vec<u32>,
    work: Vec<u32>,
}

impl Library {
    pub fn new(calls: &[Call]) -> Library {
        Library {
            calls: [0, 1, 2, 3].map(|column| calls.iter().map(|call| call[column]).collect()),
            codes: vec![0; calls.len()],
            numbers: vec![0; calls.len()],
            graph: vec![0; raw::GRAPH_NEED],
            form: vec![0; raw::FORM_NEED],
            work: vec![0; raw::WORK_NEED],
        }
    }

    /// The whole list: the session clears its tables first.
    pub fn session(&mut self) -> Duration {
        self.first(self.codes.len())
    }

    /// No call at all, so that clearing is what takes the time.
    pub fn clearing(&mut self) -> Duration {
        self.first(0)
    }

    fn first(&mut self, n: usize) -> Duration {
        let [kinds, xs, ys, zs] = &self.calls;
        let (codes, numbers) = (&mut self.codes[..n], &mut self.numbers[..n]);
        let start = Instant::now();
        let answer =
            raw::session(&kinds[..n], &xs[..n], &ys[..n], &zs[..n], codes, numbers, &mut self.graph, &mut self.form, &mut self.work);
        let took = start.elapsed();
        assert_eq!(answer, raw::RUN);
        took
    }

    pub fn all_accepted(&self) -> bool {
        self.codes.iter().all(|&code| code == 0)
    }

    /// The entries of a row of `form`.
    pub fn row(&self, at: usize) -> &[u32] {
        let count = self.form[at] as usize;
        &self.form[at + 1..at + 1 + count]
    }
}
