//! Lists as text, as the program `sangvireb` reads them: a line with the number of calls, then a line `kind x y z` for each.
use crate::List;
use std::error::Error;
use std::fmt;
use std::str::FromStr;

impl fmt::Display for List {
    fn fmt(&self, f: &mut fmt::Formatter<'_>) -> fmt::Result {
        writeln!(f, "{}", self.len())?;
        self.calls().try_for_each(|[kind, x, y, z]| writeln!(f, "{kind} {x} {y} {z}"))
    }
}

/// Why a text is no list, and in which line. Lines count from 1.
#[derive(Clone, Copy, PartialEq, Eq, Debug)]
pub enum ParseError {
    /// The line must tell how many calls follow.
    NoCount {
        /// The line.
        line: usize,
    },
    /// The line must be a call.
    NoCall {
        /// The line.
        line: usize,
    },
    /// The text ends before the list does.
    Ends {
        /// The line where the list begins.
        line: usize,
        /// How many of its calls are missing.
        missing: u32,
        /// How many it should have.
        calls: u32,
    },
    /// One list was wanted, and another begins.
    Second {
        /// The line where it begins.
        line: usize,
    },
}

impl fmt::Display for ParseError {
    fn fmt(&self, f: &mut fmt::Formatter<'_>) -> fmt::Result {
        match self {
            ParseError::NoCount { line } => write!(f, "line {line}: one number below 4294967296 is wanted, the count of calls"),
            ParseError::NoCall { line } => write!(f, "line {line}: four numbers below 4294967296 are wanted, `kind x y z`"),
            ParseError::Ends { line, missing, calls } => {
                write!(f, "the text ends, {missing} of {calls} calls are missing in the list that begins in line {line}")
            }
            ParseError::Second { line } => write!(f, "line {line}: one list is wanted, and it ended before"),
        }
    }
}

impl Error for ParseError {}

/// The line's numbers, if it has just so many and nothing else.
fn numbers<const N: usize>(line: &str) -> Option<[u32; N]> {
    let words = line.split([' ', '\t', '\r']).filter(|word| !word.is_empty());
    // parse() would take a sign
    let read = words.map(|word| if word.bytes().all(|byte| byte.is_ascii_digit()) { word.parse().ok() } else { None });
    read.collect::<Option<Vec<u32>>>()?.try_into().ok()
}

/// The text's lines with their places. Blanks after the last line's end are no line.
fn lines(text: &str) -> impl Iterator<Item = (&str, usize)> {
    text.trim_end_matches([' ', '\t', '\r']).lines().zip(1..)
}

/// The list that begins in this line.
fn list<'a>(first: (&str, usize), rest: &mut impl Iterator<Item = (&'a str, usize)>) -> Result<List, ParseError> {
    let (line, begins) = first;
    let [calls] = numbers(line).ok_or(ParseError::NoCount { line: begins })?;
    let mut list = List::new();
    for done in 0..calls {
        let (line, place) = rest.next().ok_or(ParseError::Ends { line: begins, missing: calls - done, calls })?;
        let _ = list.push(numbers(line).ok_or(ParseError::NoCall { line: place })?);
    }
    Ok(list)
}

impl List {
    /// Reads all lists of a text that has one after the other, as the program's input may.
    pub fn read_all(text: &str) -> Result<Vec<List>, ParseError> {
        let (mut lines, mut lists) = (lines(text), vec![]);
        while let Some(first) = lines.next() {
            lists.push(list(first, &mut lines)?);
        }
        Ok(lists)
    }
}

/// Reads a text that has one list.
impl FromStr for List {
    type Err = ParseError;

    fn from_str(text: &str) -> Result<List, ParseError> {
        let mut lines = lines(text);
        let list = list(lines.next().unwrap_or(("", 1)), &mut lines)?;
        match lines.next() {
            Some((_, line)) => Err(ParseError::Second { line }),
            None => Ok(list),
        }
    }
}
