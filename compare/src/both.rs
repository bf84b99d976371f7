//! One list, run by the library and by the oracle, and every cell compared.
use crate::cells;
use crate::expected::Expected;
use lists::finished::Finished;
use lists::lent::Lent;
use lists::rng::Rng;
use lists::{Call, MAX_CALLS};
use oracle::hook::Heights;
use sangvireb::raw::{self, Asked, RUN, UNFIT};
use sangvireb::{Block, Branch};

/// Room for scheduled calls and results: the bounds of docs/RULES.md, which the layout of `work` also gives.
const HIGHEST: Heights = Heights { scheduled: 576, results: 513 };

pub struct Both {
    pub lent: Lent,
    pub expected: Expected,
    pub heights: Heights,
    rng: Rng,
    /// changes what the library left, so that a test can see a difference found and shrunk
    #[cfg(test)]
    pub planted: Option<Box<dyn Fn(&[Call], &mut Lent)>>,
}

impl Both {
    pub fn new(seed: u64) -> Both {
        Both {
            lent: Lent::new(seed),
            expected: Expected::new(),
            heights: Heights::default(),
            rng: Rng::new(seed),
            #[cfg(test)]
            planted: None,
        }
    }

    /// What differs first, if anything does.
    pub fn difference(&mut self, calls: &[Call]) -> Option<String> {
        let session = self.lent.run(calls, &mut self.rng);
        #[cfg(test)]
        if let Some(plant) = &self.planted {
            plant(calls, &mut self.lent);
        }
        if calls.len() > MAX_CALLS {
            return self.refused_whole(session);
        }
        if session != RUN {
            return Some(format!("the session answers {session} instead of {RUN}"));
        }
        let told = match oracle::run(calls) {
            Ok(told) => told,
            Err(why) => return Some(why),
        };
        self.heights = told.heights;
        if told.heights.scheduled > HIGHEST.scheduled || told.heights.results > HIGHEST.results {
            return Some(format!("{} calls scheduled, {} results: past the bounds", told.heights.scheduled, told.heights.results));
        }
        if let Err(why) = self.expected.read(&told.dump, calls.len()) {
            return Some(why);
        }
        self.expected.accepted(calls);
        self.differing_cell().or_else(|| self.differing_row()).or_else(|| self.differing_bits(calls)).or_else(|| self.differing_recorded())
    }

    /// Too many calls: answer 2, and everything as it was.
    fn refused_whole(&mut self, session: u32) -> Option<String> {
        self.heights = Heights::default();
        if session != UNFIT {
            return Some(format!("the session answers {session} instead of {UNFIT}"));
        }
        (0..5).find_map(|t| self.lent.first_changed(t, 0).map(|cell| format!("{}: changed although the session was refused", cells::name(t, cell))))
    }

    /// Every row below the limits, read through the library's own call: the oracle's list, or empty where the oracle names none.
    fn differing_row(&self) -> Option<String> {
        let form = self.lent.form();
        let (params, args) = (&form[raw::PARAM_ROWS..][..raw::PARAM_CELLS], &form[raw::ARG_ROWS..][..raw::ARG_CELLS]);
        let destinations = |block| (0..raw::DESTS as u32).map(move |place| Asked::Args(Branch(block), place));
        let mut all = (0..raw::BLOCKS as u32).flat_map(|block| destinations(block).chain([Asked::Params(Block(block))]));
        all.find_map(|asked| {
            let (row, code) = (raw::row(params, args, asked), raw::row_code(params, args, asked));
            let due: &[u32] = self.expected.rows.get(&asked).map_or(&[], |list| list);
            (row != due || code != 0).then(|| format!("{asked:?}: the oracle has {due:?}, the library {row:?} with code {code}"))
        })
    }

    /// The zeros in the library's tables and what it tells of their types, beside the oracle's zeros with the bits that the rules give them.
    fn differing_bits(&self, calls: &[Call]) -> Option<String> {
        let session = Finished::of(calls, &self.lent);
        let zeros = (0..session.values()).filter(|&value| session.sort(value) == 2);
        let bits: Vec<(usize, u128)> = zeros.map(|value| (value as usize, raw::type_facts(session.type_of(value)).unset_bits())).collect();
        (bits != self.expected.bits).then(|| format!("bits of zeros: the oracle has {:x?}, the library {bits:x?}", self.expected.bits))
    }

    /// The recorded values in order and each value by itself, read through the library's own calls.
    fn differing_recorded(&self) -> Option<String> {
        let form = self.lent.form();
        let described = &form[raw::DESCRIBED..][..form[raw::VALUE_COUNT] as usize];
        let from = |place| Some(raw::next_recorded(described, place)).filter(|&found| found < described.len());
        let walked: Vec<usize> = std::iter::successors(from(0), |&found| from(found + 1)).collect();
        let single: Vec<usize> = (0..described.len()).filter(|&value| raw::recorded(described, value as u32) == (0, 1)).collect();
        let due = &self.expected.recorded;
        (walked != *due || single != *due).then(|| format!("recorded values: the oracle has {due:?}, the library {walked:?} in order and {single:?} one by one"))
    }

    fn differing_cell(&self) -> Option<String> {
        for (t, expected) in self.expected.tables().into_iter().enumerate() {
            let found = &self.lent.tables[t];
            if found[..expected.len()] != *expected {
                let cell = (0..expected.len()).find(|&i| found[i] != expected[i]).expect("they differ");
                return Some(format!("{}: the oracle has {}, the library {}", cells::name(t, cell), expected[cell], found[cell]));
            }
            if let Some(cell) = self.lent.first_changed(t, expected.len()) {
                let (before, now) = (self.lent.before(t, cell), found[cell]);
                return Some(format!("{}: past the need, held {before} and now {now}", cells::name(t, cell)));
            }
        }
        None
    }
}

#[cfg(test)]
mod tests {
    use super::*;
    use lists::lent::TABLES;
    use sangvireb::raw::{ARG_ROWS, DEFS, PARAM_ROW};

    /// The difference when this cell of this table is changed after a session.
    fn changed(table: usize, cell: impl Fn(usize) -> usize + 'static) -> Option<String> {
        let mut both = Both::new(8);
        both.planted = Some(Box::new(move |_, lent| {
            let cells = &mut lent.tables[table];
            let at = cell(cells.len());
            cells[at] ^= 1 << 9;
        }));
        both.difference(&[[1, 0, 0, 0], [2, 0, 2, 0], [11, 0, 0, 0], [6, 0, 0, 0]])
    }

    #[test]
    fn a_change_of_any_cell_is_a_difference() {
        for table in 0..TABLES.len() {
            assert!(changed(table, |_| 0).is_some());
            assert!(changed(table, |len| len - 1).is_some());
            for part in 1..100 {
                assert!(changed(table, move |len| len * part / 100).is_some());
            }
        }
    }

    #[test]
    fn a_difference_names_its_cell() {
        let named = changed(3, |_| DEFS).expect("it differs");
        assert_eq!(named, format!("form cell {DEFS}: last definitions of variable 0, block 0: the oracle has 1, the library 513"));
        let argument = ARG_ROWS + PARAM_ROW * 13 + 2;
        assert_eq!(cells::name(3, argument), format!("form cell {argument}: arguments of branch 1, destination 5, entry 1"));
    }

    #[test]
    fn a_row_that_the_oracle_has_otherwise_is_a_difference() {
        let mut both = Both::new(8);
        assert_eq!(both.difference(&[[1, 0, 0, 0], [2, 0, 2, 0], [6, 0, 0, 0]]), None);
        both.expected.rows.insert(Asked::Params(Block(0)), vec![]);
        assert_eq!(both.differing_row().expect("it differs"), "Params(Block(0)): the oracle has [], the library [0] with code 0");
    }

    #[test]
    fn a_value_that_the_oracle_has_not_recorded_is_a_difference() {
        let mut both = Both::new(8);
        let calls = [[1, 0, 0, 0], [2, 0, 2, 0], [17, 0, 0, 0], [3, 0, 2, 0], [4, 0, 0, 0], [3, 0, 2, 0]];
        assert_eq!(both.difference(&calls), None);
        assert_eq!(both.expected.recorded, [0]);
        both.expected.recorded = vec![];
        assert_eq!(both.differing_recorded().expect("it differs"), "recorded values: the oracle has [], the library [0] in order and [0] one by one");
        both.planted = Some(Box::new(|_, lent| lent.tables[3][raw::DESCRIBED + 1] += 128));
        let named = both.difference(&calls).expect("it differs");
        assert_eq!(named, format!("form cell {}: description of value 1: the oracle has 2, the library 130", raw::DESCRIBED + 1));
        both.planted = Some(Box::new(|_, lent| lent.tables[2][raw::MARKS] = 0));
        assert_eq!(both.difference(&calls).expect("it differs"), "graph cell 258: stack map marks of variable 0: the oracle has 1, the library 0");
    }

    #[test]
    fn a_zero_with_other_bits_is_a_difference() {
        let mut both = Both::new(8);
        let calls = [[1, 0, 0, 0], [2, 0, 4, 0], [11, 0, 0, 0], [6, 0, 0, 0]];
        assert_eq!(both.difference(&calls), None);
        assert_eq!(both.expected.bits, [(1, 0x7fc0_0000)]);
        both.expected.bits[0].1 = 0;
        assert_eq!(both.differing_bits(&calls).expect("it differs"), "bits of zeros: the oracle has [(1, 0)], the library [(1, 7fc00000)]");
    }

    #[test]
    fn a_zero_in_two_steps_is_compared_step_by_step() {
        let mut both = Both::new(8);
        let calls = [[1, 0, 0, 0], [2, 0, 23, 0], [11, 0, 0, 0], [6, 0, 0, 0]];
        assert_eq!(both.difference(&calls), None);
        assert_eq!(both.expected.bits, [(1, 0x7fc0_0000), (2, 0x7fc0_0000_7fc0_0000_7fc0_0000_7fc0_0000)]);
        both.expected.bits.remove(0);
        assert!(both.differing_bits(&calls).is_some());
    }
}
