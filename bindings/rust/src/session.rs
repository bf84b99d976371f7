//! A session: the tables, and the answers to the calls of the list that was run on them.
use crate::refusal::answer;
use crate::{library, raw, Call, List, Refusal, Refused, RefusedWhole, RunError, Value};
use std::{fmt, mem};

/// What a list of calls left: every answer and every table. The readers hand out parts of the tables; nothing is copied.
///
/// `{}` shows it in words.
pub struct Session {
    pub(crate) list: List,
    codes: Box<[u32]>,
    numbers: Box<[u32]>,
    pub(crate) graph: Box<[u32]>,
    pub(crate) form: Box<[u32]>,
    work: Box<[u32]>,
}

fn cells(count: usize) -> Box<[u32]> {
    vec![0; count].into_boxed_slice()
}

impl Session {
    /// The empty session, whose cells are all 0, with room for a list of any length.
    ///
    /// # Panics
    ///
    /// If the library that is linked was built for other limits ([`check`](crate::check)).
    pub fn new() -> Session {
        library::must_fit();
        Session {
            list: List::new(),
            codes: cells(raw::CALLS),
            numbers: cells(raw::CALLS),
            graph: cells(raw::GRAPH_NEED),
            form: cells(raw::FORM_NEED),
            work: cells(raw::WORK_NEED),
        }
    }

    /// Runs a list from the empty session, on the tables at hand. If a call is refused, the first refusal is the answer; what the list left
    /// is then that of [`rerun_all`](Session::rerun_all).
    pub fn rerun(&mut self, list: &List) -> Result<(), RunError> {
        self.rerun_all(list)?;
        self.refusals().next().map_or(Ok(()), |first| Err(first.into()))
    }

    /// Runs a list and goes on after refusals. A list that is refused whole leaves the last one's answers and tables.
    pub fn rerun_all(&mut self, list: &List) -> Result<(), RefusedWhole> {
        self.run(list, list.len())?;
        self.list.become_start_of(list, list.len());
        Ok(())
    }

    /// Lends the tables to the first so many calls.
    fn run(&mut self, list: &List, count: usize) -> Result<(), RefusedWhole> {
        let code = raw::session(
            &list.kinds[..count],
            &list.xs[..count],
            &list.ys[..count],
            &list.zs[..count],
            &mut self.codes,
            &mut self.numbers,
            &mut self.graph,
            &mut self.form,
            &mut self.work,
        );
        if code == raw::RUN {
            return Ok(());
        }
        // The contract of `session` pins its answer to 0, 1 or 2.
        Err(RefusedWhole::from_code(code).expect("proved: a session answers 0, 1 or 2"))
    }

    /// Back to the empty session, on the tables at hand.
    pub fn clear(&mut self) {
        self.rerun_all(&List::new()).expect("proved: a list without calls is run");
    }

    /// The calls that were run.
    pub fn list(&self) -> &List {
        &self.list
    }

    /// How many calls the list had.
    pub fn call_count(&self) -> usize {
        self.list.len()
    }

    /// What a call of the list answered, or why it was refused. A call of another list, or one recorded after the run, is
    /// [`Absent`](Refusal::Absent).
    pub fn answer<T, S>(&self, call: Call<T, S>) -> Result<T, Refused> {
        if !self.list.knows(&call) {
            return Err(Refused::absent(format!("call {} is of another list than the one that was run", call.place)));
        }
        if call.place >= self.call_count() {
            let words = format!("call {} was recorded after the run; {} calls were run", call.place, self.call_count());
            return Err(Refused::absent(words));
        }
        match answer(self.codes[call.place], self.numbers[call.place]) {
            Ok(number) => Ok((call.read)(number)),
            Err(refusal) => Err(self.refused(call.place, refusal)),
        }
    }

    /// What a call answered, aliases resolved: the value that its answer stands for.
    pub fn resolved<S>(&self, call: Call<Value, S>) -> Result<Value, Refused> {
        self.answer(call).and_then(|value| self.resolve(value))
    }

    /// The answers by place: numbers as the library gave them, or refusals by their code alone.
    pub fn answers(&self) -> impl ExactSizeIterator<Item = Result<u32, Refusal>> + '_ {
        (0..self.call_count()).map(|place| answer(self.codes[place], self.numbers[place]))
    }

    /// The refused calls in order, each in words.
    pub fn refusals(&self) -> impl Iterator<Item = Refused> + '_ {
        let refused = self.answers().enumerate().filter_map(|(place, answer)| answer.err().map(|refusal| (place, refusal)));
        refused.map(|(place, refusal)| self.refused(place, refusal))
    }

    /// The refusal of the call at this place in words. The calls before it are run once more, to see the tables as it found them.
    fn refused(&self, place: usize, refusal: Refusal) -> Refused {
        let mut before = Session::new();
        before.run(&self.list, place).expect("a start of a list that was run can be run");
        before.list.become_start_of(&self.list, place);
        Refused::after(&before, self.list.numbers(place), refusal)
    }

    /// One call more, recorded in the session's own list. A refused one leaves all as it was.
    pub(crate) fn go_on<T, S>(&mut self, record: impl FnOnce(&mut List) -> Call<T, S>) -> Result<T, Refused> {
        let call = record(&mut self.list);
        let numbers = self.list.numbers(call.place);
        // The library's only way so far is to run the list again. Its tables suffice, so it is refused whole only for its length.
        let list = mem::take(&mut self.list);
        let run = self.run(&list, list.len());
        self.list = list;
        let answered = run.map_err(|_| Refusal::Full).and_then(|()| answer(self.codes[call.place], self.numbers[call.place]));
        // A refused call changes nothing but its own answer, so the tables need no mending: they are those that it found.
        answered.map(call.read).map_err(|refusal| {
            self.list.cut(call.place);
            Refused::after(self, numbers, refusal)
        })
    }
}

/// A copy answers the same calls.
impl Clone for Session {
    fn clone(&self) -> Session {
        let mut copy = Session {
            list: List::new(),
            codes: self.codes.clone(),
            numbers: self.numbers.clone(),
            graph: self.graph.clone(),
            form: self.form.clone(),
            work: self.work.clone(),
        };
        copy.list.become_start_of(&self.list, self.list.len());
        copy
    }
}

impl Default for Session {
    fn default() -> Session {
        Session::new()
    }
}

impl fmt::Debug for Session {
    fn fmt(&self, f: &mut fmt::Formatter<'_>) -> fmt::Result {
        let mut text = f.debug_struct("Session");
        text.field("calls", &self.call_count()).field("blocks", &self.block_count()).field("values", &self.value_count());
        text.finish_non_exhaustive()
    }
}
