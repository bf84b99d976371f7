//! What a refusal says: which call, which of its numbers, and the limit.
use sangvireb::{raw, Block, Branch, List, Refusal, SSABuilder, Session, Type, Value, Variable};

/// Three blocks, where block 0 goes to blocks 1 and 2 and block 1 is sealed; an I32 variable and an F64 one; value 0 is I32, value 1 F64.
const START: [[u32; 4]; 15] = [
    [1, 0, 0, 0],
    [1, 1, 0, 0],
    [1, 2, 0, 0],
    [2, 0, 2, 0],
    [2, 1, 5, 0],
    [3, 0, 2, 0],
    [4, 0, 0, 0],
    [6, 0, 0, 0],
    [3, 0, 5, 0],
    [7, 0, 0, 0],
    [8, 0, 1, 0],
    [8, 0, 2, 0],
    [9, 1, 0, 0],
    [11, 1, 0, 0],
    [7, 2, 0, 0],
];

/// What the last of the calls after the start is refused with.
fn said(calls: &[[u32; 4]]) -> String {
    let mut list = List::new();
    for &call in START.iter().chain(calls) {
        let _ = list.push(call);
    }
    let refused: Vec<_> = list.run_all().unwrap().refusals().collect();
    assert_eq!(refused.len(), 1, "{refused:?}");
    assert_eq!(refused[0].call(), Some(list.len() - 1));
    refused[0].to_string()
}

#[test]
fn every_refusal_of_every_kind() {
    let expected = [
        ([0, 7, 8, 9], "kind 0 with 7, 8 and 9: kinds are 1 to 17"),
        ([1, 64, 0, 0], "declare_block of block 64: the limit is 64 blocks, 0 to 63"),
        ([1, 4, 0, 0], "declare_block of block 4: the next is block 3"),
        ([2, 64, 2, 0], "declare_var of variable 64 as I32: the limit is 64 variables, 0 to 63"),
        ([2, 3, 2, 0], "declare_var of variable 3 as I32: the next is variable 2"),
        ([2, 2, 25, 0], "declare_var of variable 2 as type 25: type 25 is unknown; types are 0 to 24"),
        ([2, 0, 5, 0], "declare_var of variable 0 as F64: variable 0 is declared as I32"),
        ([3, 9, 2, 0], "make_value of I32 in block 9: block 9 is not declared; 3 blocks are"),
        ([3, 1, 26, 0], "make_value of type 26 in block 1: type 26 is unknown; types are 0 to 24"),
        ([3, 0, 2, 0], "make_value of I32 in block 0: block 0 has its branch already"),
        ([4, 2, 0, 0], "def_var of variable 2 as value 0 in block 0: variable 2 is not declared; 2 variables are"),
        ([4, 0, 5, 0], "def_var of variable 0 as value 5 in block 0: value 5 is not there; 2 values are"),
        ([4, 0, 0, 3], "def_var of variable 0 as value 0 in block 3: block 3 is not declared; 3 blocks are"),
        ([4, 0, 1, 0], "def_var of variable 0 as value 1 in block 0: variable 0 is I32 and value 1 is F64"),
        ([4, 0, 0, 0], "def_var of variable 0 as value 0 in block 0: branch 0 was declared before, so block 0 takes no more definitions"),
        ([5, 0, 5, 0], "def_var_answer of variable 0 as the answer of call 5 in block 0: call 5 is no use_var"),
        ([5, 0, 15, 0], "def_var_answer of variable 0 as the answer of call 15 in block 0: call 15 doesn't come before it"),
        ([5, 1, 7, 0], "def_var_answer of variable 1 as the answer of call 7 in block 0: variable 1 is F64 and value 0 is I32"),
        (
            [5, 0, 7, 0],
            "def_var_answer of variable 0 as the answer of call 7 in block 0: branch 0 was declared before, so block 0 takes no more definitions",
        ),
        ([6, 2, 0, 0], "use_var of variable 2 in block 0: variable 2 is not declared; 2 variables are"),
        ([6, 0, 3, 0], "use_var of variable 0 in block 3: block 3 is not declared; 3 blocks are"),
        ([7, 3, 0, 0], "new_branch in block 3: block 3 is not declared; 3 blocks are"),
        ([7, 0, 0, 0], "new_branch in block 0: block 0 has its branch already"),
        ([8, 1, 2, 0], "new_dest of branch 1 to block 2: block 1 has no branch"),
        ([8, 7, 2, 0], "new_dest of branch 7 to block 2: block 7 is not declared; 3 blocks are"),
        ([8, 2, 3, 0], "new_dest of branch 2 to block 3: block 3 is not declared; 3 blocks are"),
        ([8, 0, 2, 0], "new_dest of branch 0 to block 2: branch 0 is declared to block 1, so its destinations are fixed"),
        ([9, 3, 0, 0], "declare_block_predecessor of block 3 with branch 0: block 3 is not declared; 3 blocks are"),
        ([9, 2, 1, 0], "declare_block_predecessor of block 2 with branch 1: block 1 has no branch"),
        ([9, 1, 2, 0], "declare_block_predecessor of block 1 with branch 2: block 1 is sealed"),
        ([9, 0, 0, 0], "declare_block_predecessor of block 0 with branch 0: branch 0 leads to block 1, block 2"),
        ([9, 2, 2, 0], "declare_block_predecessor of block 2 with branch 2: branch 2 leads to nothing yet"),
        ([10, 1, 0, 0], "remove_block_predecessor of block 1 with branch 0: block 1 is sealed"),
        ([10, 2, 0, 0], "remove_block_predecessor of block 2 with branch 0: branch 0 is not declared to block 2"),
        ([11, 3, 0, 0], "seal_block of block 3: block 3 is not declared; 3 blocks are"),
        ([11, 1, 0, 0], "seal_block of block 1: block 1 is sealed"),
        ([13, 3, 0, 0], "has_any_predecessors of block 3: block 3 is not declared; 3 blocks are"),
        ([14, 4, 0, 0], "is_sealed of block 4: block 4 is not declared; 3 blocks are"),
        ([15, 3, 2, 0], "append_block_param of I32 to block 3: block 3 is not declared; 3 blocks are"),
        ([15, 2, 25, 0], "append_block_param of type 25 to block 2: type 25 is unknown; types are 0 to 24"),
        ([15, 1, 2, 0], "append_block_param of I32 to block 1: block 1 is sealed, and the caller's parameters stand before the builder's"),
        ([16, 1, 0, 0], "append_argument of value 0 to destination 0 of branch 1: block 1 has no branch"),
        ([16, 0, 9, 0], "append_argument of value 9 to destination 0 of branch 0: value 9 is not there; 2 values are"),
        ([16, 0, 0, 2], "append_argument of value 0 to destination 2 of branch 0: branch 0 has no destination 2; it has 2"),
        (
            [16, 0, 0, 0],
            "append_argument of value 0 to destination 0 of branch 0: branch 0 is declared to block 1, so its caller's arguments are fixed",
        ),
        ([17, 2, 0, 0], "mark_var_needs_stack_map of variable 2: variable 2 is not declared; 2 variables are"),
        (
            [17, 0, 0, 0],
            "mark_var_needs_stack_map of variable 0: variable 0 is value 0 in block 0 already, and a variable is marked before it has any definition",
        ),
    ];
    for (call, words) in expected {
        assert_eq!(said(&[call]), format!("call 15, {words}"));
    }
    assert_eq!(
        said(&[[9, 2, 0, 0], [9, 2, 0, 0]]),
        "call 16, declare_block_predecessor of block 2 with branch 0: branch 0 is declared to block 2 already"
    );
    assert_eq!(
        said(&[[8, 2, 1, 0]; 1 + raw::DESTS]),
        "call 23, new_dest of branch 2 to block 1: branch 2 has 8 destinations, which is the limit"
    );
    assert_eq!(said(&[[3, 1, 0, 0]; raw::MADE - 1]), "call 4109, make_value of I8 in block 1: 4096 values are made, which is the limit");
}

#[test]
fn refusals_of_a_callers_parameters_and_arguments() {
    let expected: [(&[[u32; 4]], &str); 8] = [
        (
            &[[9, 2, 0, 0], [15, 2, 5, 0]],
            "call 16, append_block_param of F64 to block 2: branch 0 is declared to block 2, and the caller's parameters stand before the builder's",
        ),
        (
            &[[6, 1, 2, 0], [15, 2, 5, 0]],
            "call 16, append_block_param of F64 to block 2: variable 1 waits in block 2, and the caller's parameters stand before the builder's",
        ),
        (
            &[[15, 2, 5, 0]; 1 + raw::OWN_PARAMS],
            "call 79, append_block_param of F64 to block 2: block 2 has 64 parameters of the caller's, which is the limit",
        ),
        (
            &[[8, 2, 1, 0], [16, 2, 0, 0]],
            "call 16, append_argument of value 0 to destination 0 of branch 2: block 1 has no parameter of the caller's",
        ),
        (
            &[[15, 2, 2, 0], [8, 2, 2, 0], [16, 2, 0, 0], [16, 2, 0, 0]],
            "call 18, append_argument of value 0 to destination 0 of branch 2: \
             block 2 has 1 parameter of the caller's, and destination 0 has its argument",
        ),
        (
            &[[15, 2, 2, 0], [15, 2, 2, 0], [8, 2, 2, 0], [16, 2, 0, 0], [16, 2, 3, 0], [16, 2, 0, 0]],
            "call 20, append_argument of value 0 to destination 0 of branch 2: \
             block 2 has 2 parameters of the caller's, and destination 0 has an argument for each",
        ),
        (
            &[[15, 2, 0, 0], [8, 2, 2, 0], [16, 2, 0, 0]],
            "call 17, append_argument of value 0 to destination 0 of branch 2: the parameter value 2 of block 2 is I8 and value 0 is I32",
        ),
        (
            &[[15, 2, 2, 0], [15, 2, 5, 0], [8, 2, 2, 0], [16, 2, 2, 0], [16, 2, 2, 0]],
            "call 19, append_argument of value 2 to destination 0 of branch 2: the parameter value 3 of block 2 is F64 and value 2 is I32",
        ),
    ];
    for (calls, words) in expected {
        assert_eq!(said(calls), words);
    }
    let full = [&[[3, 1, 0, 0]; raw::MADE - 2][..], &[[15, 2, 2, 0]]].concat();
    assert_eq!(said(&full), "call 4109, append_block_param of I32 to block 2: 4096 values are made, which is the limit");
}

#[test]
fn an_answer_of_a_refused_use() {
    let mut list = List::new();
    let _ = list.declare_block(Block(0));
    let _ = list.declare_var(Variable(0), Type::I8);
    let used = list.use_var(Variable(0), Block(1));
    let given = list.def_var_answer(Variable(0), used, Block(0));
    let session = list.run_all().unwrap();
    assert_eq!(
        session.answer(given).unwrap_err().to_string(),
        "call 3, def_var_answer of variable 0 as the answer of call 2 in block 0: call 2 was refused"
    );
}

#[test]
fn the_builder_says_the_same() {
    let mut ssa = SSABuilder::new();
    ssa.declare_block(Block(0)).unwrap();
    let refused = ssa.make_value(Block(9), Type::F64).unwrap_err();
    assert_eq!(refused.to_string(), "call 1, make_value of F64 in block 9: block 9 is not declared; 1 block is");
    assert_eq!((refused.call(), refused.refusal()), (Some(1), Refusal::Absent));
    let again = ssa.make_value(Block(9), Type::F64).unwrap_err();
    assert_eq!(again, refused);
}

#[test]
fn a_question_about_what_is_not_there() {
    let session = Session::new();
    let said = |answer: Result<(), sangvireb::Refused>| answer.unwrap_err().to_string();
    assert_eq!(said(session.params(Block(0)).map(drop)), "block 0 is not declared; no block is");
    assert_eq!(said(session.type_of(Variable(3)).map(drop)), "variable 3 is not declared; no variable is");
    assert_eq!(said(session.resolve(Value(3)).map(drop)), "value 3 is not there; no value is");
    assert_eq!(said(session.zeros(Block(2)).map(drop)), "block 2 is not declared; no block is");
    let mut ssa = SSABuilder::new();
    ssa.declare_block(Block(0)).unwrap();
    assert_eq!(said(ssa.session().destinations(Branch(0)).map(drop)), "block 0 has no branch");
    assert_eq!(said(ssa.session().destinations(Branch(1)).map(drop)), "block 1 is not declared; 1 block is");
}
