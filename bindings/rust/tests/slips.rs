//! Slips that a host made with an earlier binding: each is now a clear message. (That a made value's answer can't be given on is
//! a compile error; the doc test of `List` shows it.)
use sangvireb::{Block, List, Refusal, RunError, Type, Value, Variable};

const READING: Variable = Variable(0);
const START: Block = Block(0);

/// A reading is stored and read; the second value is made in a block that was forgotten.
fn forgetful() -> List {
    let mut list = List::new();
    let _ = list.declare_block(START);
    let _ = list.declare_var(READING, Type::F64);
    let _ = list.make_value(START, Type::F64);
    let _ = list.def_var(READING, Value(0), START);
    let _ = list.make_value(Block(9), Type::F64);
    let _ = list.def_var(READING, Value(1), START);
    let _ = list.use_var(READING, START);
    list
}

#[test]
fn run_gives_the_first_refusal() {
    let refused = forgetful().run().unwrap_err();
    assert_eq!(refused.to_string(), "call 4, make_value of F64 in block 9: block 9 is not declared; 1 block is");
    let RunError::Call(refused) = refused else { panic!("the list is not too long") };
    assert_eq!((refused.call(), refused.refusal()), (Some(4), Refusal::Absent));
    assert_eq!(format!("{refused:?}"), format!("Absent ({refused})"));
}

#[test]
fn run_all_goes_on_and_keeps_every_refusal() {
    let list = forgetful();
    let session = list.run_all().unwrap();
    let refusals: Vec<String> = session.refusals().map(|refused| refused.to_string()).collect();
    assert_eq!(
        refusals,
        [
            "call 4, make_value of F64 in block 9: block 9 is not declared; 1 block is",
            "call 5, def_var of variable 0 as value 1 in block 0: value 1 is not there; 1 value is",
        ]
    );
    assert!(session.answers().eq([Ok(0), Ok(0), Ok(0), Ok(0), Err(Refusal::Absent), Err(Refusal::Absent), Ok(0)]));
    let made = list.call(4).unwrap();
    assert_eq!(session.answer(made).unwrap_err().to_string(), refusals[0]);
    assert_eq!(list.call(7).map(|call| call.place()), None);
}

#[test]
fn a_call_of_another_list_gets_no_answer() {
    let (mut list, mut other) = (forgetful(), forgetful());
    let used = list.use_var(READING, START);
    let of_other = other.use_var(READING, START);
    let session = list.run_all().unwrap();
    assert_eq!(session.answer(used), Ok(Value(0)));
    let refused = session.answer(of_other).unwrap_err();
    assert_eq!((refused.call(), refused.refusal()), (None, Refusal::Absent));
    assert_eq!(refused.to_string(), "call 7 is of another list than the one that was run");
    assert_eq!(session.resolved(of_other), Err(refused.clone()));
    assert_eq!(list.clone().run_all().unwrap().answer(used), Err(refused));
    assert_eq!(session.clone().answer(used), Ok(Value(0)));
}

#[test]
fn a_call_of_another_list_is_not_given_on() {
    let (mut list, mut other) = (forgetful(), List::new());
    let used = list.use_var(READING, START);
    let _ = other.declare_block(START);
    let _ = other.declare_var(READING, Type::F64);
    let _ = other.use_var(READING, START);
    let _ = other.def_var_answer(READING, used, START);
    assert_eq!(
        other.run().unwrap_err().to_string(),
        "call 3, def_var_answer of variable 0 as the answer of a call that isn't of this list, in block 0: \
         a list takes the answers of its own uses alone"
    );
}

#[test]
fn a_cleared_lists_calls_are_those_of_another() {
    let mut list = forgetful();
    let before = list.call(0).unwrap();
    list.clear();
    assert!(list.is_empty());
    let _ = list.declare_block(START);
    let session = list.run().unwrap();
    assert_eq!(session.answer(before).unwrap_err().to_string(), "call 0 is of another list than the one that was run");
}

#[test]
fn a_call_recorded_after_the_run_has_no_answer_yet() {
    let mut list = forgetful();
    let mut session = list.run_all().unwrap();
    let late = list.use_var(READING, START);
    assert_eq!(session.answer(late).unwrap_err().to_string(), "call 7 was recorded after the run; 7 calls were run");
    assert_eq!(session.rerun_all(&list), Ok(()));
    assert_eq!(session.answer(late), Ok(Value(0)));
}
