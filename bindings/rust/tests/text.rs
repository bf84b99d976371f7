//! Lists in the program's format and back, and a session in words.
use sangvireb::{List, ParseError, Session};
use std::fs;

fn example(name: &str) -> String {
    fs::read_to_string(format!("{}/../../examples/{name}.txt", env!("CARGO_MANIFEST_DIR"))).unwrap()
}

#[test]
fn examples_come_out_as_they_went_in() {
    for name in ["press", "loop", "index", "swap", "unset", "bad", "record"] {
        let list: List = example(name).parse().unwrap();
        assert_eq!(list.to_string(), example(name));
    }
    let lists = List::read_all(&example("starred")).unwrap();
    assert_eq!(lists.len(), 12);
    assert_eq!(lists.iter().map(List::to_string).collect::<String>(), example("starred"));
    assert_eq!(List::read_all(&example("carried")).unwrap().len(), 6);
    assert_eq!(List::read_all(&example("marked")).unwrap().len(), 2);
}

#[test]
fn blanks_and_a_missing_last_end() {
    let list: List = "2\t\r\n 1 0\t0  00\r\n12 0 0 4294967295".parse().unwrap();
    assert!(list.calls().eq([[1, 0, 0, 0], [12, 0, 0, u32::MAX]]));
    assert_eq!("0".parse::<List>(), Ok(List::new()));
    assert_eq!(List::read_all("0\n0\n ").unwrap().len(), 2);
    assert_eq!(List::read_all(" \t"), Ok(vec![]));
}

#[test]
fn errors_name_the_line() {
    let said = |text: &str| text.parse::<List>().unwrap_err().to_string();
    assert_eq!(said(""), "line 1: one number below 4294967296 is wanted, the count of calls");
    assert_eq!(said("1 2\n"), "line 1: one number below 4294967296 is wanted, the count of calls");
    assert_eq!(said("2\n1 0 0 0\n1 1 0\n"), "line 3: four numbers below 4294967296 are wanted, `kind x y z`");
    for bad in ["1 0 0 0 0", "1 0 0 +0", "1 0 0 -1", "1 0 0 x", "1 0 0 4294967296", ""] {
        assert_eq!(format!("2\n{bad}\n").parse::<List>(), Err(ParseError::NoCall { line: 2 }), "{bad}");
    }
    assert_eq!(said("3\n1 0 0 0\n"), "the text ends, 2 of 3 calls are missing in the list that begins in line 1");
    assert_eq!(said("1\n1 0 0 0\n0\n"), "line 3: one list is wanted, and it ended before");
    assert_eq!(List::read_all("1\n1 0 0 0\n\n"), Err(ParseError::NoCount { line: 3 }));
    assert_eq!(List::read_all("0\n4\n"), Err(ParseError::Ends { line: 2, missing: 4, calls: 4 }));
}

#[test]
fn a_session_in_words() {
    let list: List = example("press").parse().unwrap();
    assert_eq!(
        list.run().unwrap().to_string(),
        "\
calls: 29, blocks: 4, variables: 1, values: 4
variable 0: F64
block 0: sealed
  value 0: F64, made
  variable 0 is value 0
  goes to block 1
  goes to block 2
block 1: sealed, entered by branch 0
  value 1: F64, made
  variable 0 is value 1
  goes to block 3 with value 1
block 2: sealed, entered by branch 0
  value 2: F64, made
  variable 0 is value 2
  goes to block 3 with value 2
block 3: sealed, entered by branch 1, branch 2, takes value 3
  value 3: F64, parameter
  variable 0 is value 3
"
    );
    assert_eq!(Session::new().to_string(), "calls: 0, blocks: 0, variables: 0, values: 0\n");
}

#[test]
fn aliases_zeros_and_waiting_variables_in_words() {
    let list: List = "8\n1 0 0 0\n1 1 0 0\n1 5 0 0\n2 0 2 0\n11 0 0 0\n6 0 0 0\n6 0 1 0\n7 0 0 0\n".parse().unwrap();
    assert_eq!(
        list.run_all().unwrap().to_string(),
        "\
calls: 8, blocks: 2, variables: 1, values: 3
refused: call 2, declare_block of block 5: the next is block 2
variable 0: I32
block 0: sealed
  value 0: I32, parameter, now value 1
  value 1: I32, zero with bits 0x0
  variable 0 is value 0
block 1: not sealed, takes value 2
  value 2: I32, parameter
  variable 0 is value 2
  variable 0 waits for the seal
"
    );
}
