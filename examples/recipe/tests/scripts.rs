//! The shop's scripts, and scripts that are none.
use recipe::compile::compile;
use recipe::form::{End, Op};
use recipe::number::Number::{self, Float, Int};
use std::fs;

fn script(name: &str) -> String {
    fs::read_to_string(format!("{}/scripts/{name}.recipe", env!("CARGO_MANIFEST_DIR"))).unwrap()
}

fn run(script: &str, inputs: &[Number]) -> Result<Number, String> {
    compile(script).unwrap().form.run(inputs, 1000)
}

#[test]
fn the_press_converts_on_both_ways() {
    assert_eq!(run(&script("press"), &[Float(2282.0), Int(1)]), Ok(Float(109.0)));
    assert_eq!(run(&script("press"), &[Float(1090.0), Int(0)]), Ok(Float(109.0)));
}

#[test]
fn the_raw_reading_comes_through_by_neither_way() {
    let form = compile(&script("press")).unwrap().form;
    let (raw, _) = form.blocks[0].steps.iter().find(|(_, op)| matches!(op, Op::Input(0))).unwrap();
    let join = form.blocks.iter().find(|body| matches!(body.end, End::Return(_))).unwrap();
    assert!(matches!(join.end, End::Return(value) if join.params == [value]));
    let into = form.blocks.iter().flat_map(|body| &body.ways).filter(|way| !way.args.is_empty());
    let passed: Vec<_> = into.flat_map(|way| &way.args).collect();
    assert_eq!(passed.len(), 2);
    assert!(!passed.contains(&raw));
}

#[test]
fn a_set_point_that_nothing_has_set_shows() {
    assert_eq!(run(&script("setpoint"), &[Int(1)]), Ok(Float(180.0)));
    let form = compile(&script("setpoint")).unwrap().form;
    let [(_, unset)] = form.blocks[0].unset[..] else { panic!("one zero, where every path begins") };
    for number in [unset, run(&script("setpoint"), &[Int(0)]).unwrap()] {
        assert!(matches!(number, Float(held) if held.to_bits() == 0x7FF8_0000_0000_0000), "{number}");
    }
}

#[test]
fn no_range_takes_an_unset_float_and_an_unset_int_is_zero() {
    assert_eq!(run("float t; if 0.0 - 1.0 < t { return 1; } if t <= 1.0 { return 2; } return 3;", &[]), Ok(Int(3)));
    assert_eq!(run("int n; return n;", &[]), Ok(Int(0)));
}

#[test]
fn the_cure_counts_its_minutes() {
    assert_eq!(run(&script("cure"), &[Float(68.0), Float(180.0)]), Ok(Int(22)));
    assert_eq!(run(&script("cure"), &[Float(400.0), Float(180.0)]), Ok(Int(0)));
    assert_eq!(run(&script("cure"), &[Float(68.0), Float(9000.0)]), Ok(Int(-1)));
}

#[test]
fn the_soak_carries_its_minute() {
    assert_eq!(run(&script("soak"), &[Float(338.0), Float(180.0), Int(5)]), Ok(Float(15.0)));
    assert_eq!(run(&script("soak"), &[Float(338.0), Float(180.0), Int(0)]), Ok(Float(0.0)));
    let ssa = compile(&script("soak")).unwrap().ssa;
    let session = ssa.session();
    let heads: Vec<_> = session.blocks().filter(|&block| session.caller_params(block).unwrap().len() == 1).collect();
    let [head] = heads[..] else { panic!("one loop has an index") };
    // behind the index: heat and temperature, which are variables
    assert_eq!(session.params(head).unwrap().len(), 3);
}

#[test]
fn an_assignment_to_its_name_does_not_disturb_an_index() {
    let script = "int n; int sum = 0; repeat n to 4 { sum = sum + n; n = 100; } return sum * 1000 + n;";
    assert_eq!(run(script, &[]), Ok(Int(6004)));
}

#[test]
fn a_swap_in_a_loop_loses_nothing() {
    let swap = "input int turns; float a = 1.0; float b = 2.0; float kept;
        while 0 < turns { kept = a; a = b; b = kept; turns = turns - 1; }
        return a * 10.0 + b;";
    assert_eq!(run(swap, &[Int(4)]), Ok(Float(12.0)));
    assert_eq!(run(swap, &[Int(5)]), Ok(Float(21.0)));
}

#[test]
fn what_is_no_recipe_is_told_with_its_line() {
    let said = |script: &str| compile(script).err().expect("no recipe");
    assert_eq!(said("float a;\nreturn a ? 2;"), "line 2: `? 2;` begins no word");
    assert_eq!(said("float a\nreturn a;"), "line 1: `;` is wanted, not `return`");
    assert_eq!(said("float a;\nfloat a;"), "line 2: `a` is taken");
    assert_eq!(said("int celsius;"), "line 1: `celsius` is taken");
    assert_eq!(said("int while;"), "line 1: `while` is no name");
    assert_eq!(said("input celsius;"), "line 1: `int` or `float` is wanted, not `celsius`");
    assert_eq!(said("a = 1;"), "line 1: `a` is no variable");
    assert_eq!(said("return 1.2.3;"), "line 1: `1.2.3` is no number and no variable");
    assert_eq!(said("float a;\na = 1;"), "line 2: F64 is wanted, not I64: say int(..) or float(..)");
    assert_eq!(said("return 1 + 1.0;"), "line 1: I64 is wanted, not F64: say int(..) or float(..)");
    assert_eq!(said("if 1.0 { return 1; }"), "line 1: F64 is wanted, not I64: say int(..) or float(..)");
    assert_eq!(said("return celsius(1);"), "line 1: F64 is wanted, not I64: say int(..) or float(..)");
    assert_eq!(said("int a;\nreturn 1;\na = 2;"), "line 3: `a` is never reached: a `return` stands before it");
    assert_eq!(
        said("int a;\nif a { return 1; } else { return 2; }\nreturn 3;"),
        "line 3: `return` is never reached: a `return` stands before it"
    );
    assert_eq!(said("int a;\nif a { return 1; }\n"), "line 2: the script can end without a `return`");
    assert_eq!(said(""), "line 1: the script can end without a `return`");
    assert_eq!(said("int a;\nif a {\na = 1;"), "line 3: the script ends and `}` is missing");
    assert_eq!(said("int a;\na = 1;\nint b;"), "line 3: declarations come before the first statement");
}

#[test]
fn a_recipe_that_is_too_large_is_told_with_the_limit() {
    let fork = "if a { a = 1; }\n";
    assert!(compile(&format!("int a;\n{}return a;", fork.repeat(31))).is_ok());
    let said = compile(&format!("int a;\n{}return a;", fork.repeat(32))).err().unwrap();
    assert!(said.starts_with("line 33: call "), "{said}");
    assert!(said.ends_with("declare_block of block 64: the limit is 64 blocks, 0 to 63"), "{said}");
    let names: String = (0..65).map(|name| format!("int a{name};\n")).collect();
    let said = compile(&format!("{names}return 0;")).err().unwrap();
    assert!(said.starts_with("line 65: call "), "{said}");
    assert!(said.ends_with("declare_var of variable 64 as I64: the limit is 64 variables, 0 to 63"), "{said}");
}

#[test]
fn a_run_without_end_is_given_up_and_inputs_are_tested() {
    assert_eq!(run("while 1 { } return 1;", &[]), Err("no end after 1000 blocks".into()));
    assert_eq!(run("input float a; return a;", &[Int(1)]), Err("the recipe takes inputs of types [F64]".into()));
    assert_eq!(run("input float a; return a;", &[]), Err("the recipe takes inputs of types [F64]".into()));
}
