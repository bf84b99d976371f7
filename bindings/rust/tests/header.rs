//! The constants of `raw`, the refusals, kinds, types and sorts are those of the C header, none left out.
use sangvireb::{raw, Kind, Refusal, Sort, Type};
use std::collections::BTreeMap;
use std::fmt::Debug;
use std::fs;

fn without_comments(text: &str) -> String {
    let mut parts = text.split("/*");
    let first = parts.next().unwrap().to_string();
    parts.fold(first, |code, part| code + part.split_once("*/").unwrap().1)
}

/// Every `SANGVIREB_NAME = number` of the header.
fn header() -> BTreeMap<String, usize> {
    let text = fs::read_to_string(concat!(env!("CARGO_MANIFEST_DIR"), "/../c/sangvireb.h")).unwrap();
    without_comments(&text)
        .split(['{', '}', ',', ';'])
        .filter_map(|part| {
            let (name, number) = part.trim().strip_prefix("SANGVIREB_")?.split_once(" = ")?;
            Some((name.to_string(), number.parse().unwrap()))
        })
        .collect()
}

macro_rules! of_raw {
    ($($name:ident)*) => { [$((stringify!($name).to_string(), raw::$name as usize)),*] };
}

/// `NoEdge` is `NO_EDGE` in C.
fn in_c(named: impl Debug) -> String {
    let mut name = String::new();
    for letter in format!("{named:?}").chars() {
        if letter.is_uppercase() && !name.is_empty() {
            name.push('_');
        }
        name.push(letter.to_ascii_uppercase());
    }
    name
}

/// The sets that are numbered without a gap, with the names that the header's end in.
fn numbered() -> [Vec<(String, usize)>; 4] {
    let told = "VERSION BLOCKS VARIABLES DESTS MADE CALLS GRAPH_NEED FORM_NEED WORK_NEED KINDS TYPES SORTS OWN_PARAMS";
    let set = |names: Vec<String>, first: usize| names.into_iter().zip(first..).collect();
    [
        set(Kind::ALL.iter().map(|kind| kind.name().to_uppercase()).collect(), 1),
        set(Type::ALL.iter().map(|ty| ty.name().to_uppercase()).collect(), 0),
        set(Sort::ALL.iter().map(in_c).collect(), 0),
        set(told.split(' ').map(str::to_string).collect(), 0),
    ]
}

fn ending_in(header: &BTreeMap<String, usize>, end: &str, number: usize) -> Option<String> {
    header.iter().find(|(name, value)| name.ends_with(end) && **value == number).map(|(name, _)| name.clone())
}

#[test]
fn the_constants_are_the_headers() {
    let mut expected = header();
    let ours = of_raw!(
        VERSION BLOCKS VARIABLES DESTS MADE OWN_PARAMS CALLS GRAPH_NEED FORM_NEED WORK_NEED
        BLOCK_COUNT TYPES BRANCHES SEALED EVER_DECLARED MARKS DEST_ROWS DEST_ROW PRED_ROWS PRED_ROW
        VALUE_COUNT MADE_COUNT TARGET DESCRIBED PLACED ZERO_CALLS ZERO_BLOCKS PARAM_ROWS OWNS PENDING_ROWS DEFS ARG_ROWS
        PARAM_ROOM PARAM_ROW PARAM_CELLS ARG_CELLS PENDING_ROW
        RUN SHORT UNFIT NO_ROOM NOT_DRAWABLE
    );
    let refusals = Refusal::ALL.map(|refusal| (in_c(refusal), refusal.code() as usize));
    for (name, number) in ours.into_iter().chain(refusals) {
        assert_eq!(expected.remove(&name), Some(number), "{name}");
    }
    for set in numbered() {
        let found: Vec<String> = set.iter().filter_map(|(name, number)| ending_in(&expected, name, *number)).collect();
        assert_eq!(found.len(), set.len(), "only {found:?}");
        expected.retain(|name, _| !found.contains(name));
    }
    assert!(expected.is_empty(), "not here: {expected:?}");
}

#[test]
fn what_the_library_tells_is_what_stands_here() {
    for ((what, here), which) in raw::TOLD.into_iter().zip(0..) {
        assert_eq!(raw::limit(which), here, "{what}");
    }
}
