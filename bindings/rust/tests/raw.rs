//! The library's own calls: whole refusals leave all as it was, garbage in the tables counts for nothing, cells past the need are kept.
use sangvireb::raw::{self, Asked};
use sangvireb::{Block, Branch};

const GARBAGE: u32 = 0xa5a5_a5a5;
/// Case B of docs/RULES.md: declare block 0 and the I32 variable 0, use it there, seal.
const KINDS: [u32; 4] = [1, 2, 6, 11];
const XS: [u32; 4] = [0; 4];
const YS: [u32; 4] = [GARBAGE, 2, 0, GARBAGE];
const ZS: [u32; 4] = [GARBAGE; 4];
const NEEDS: [usize; 5] = [4, 4, raw::GRAPH_NEED, raw::FORM_NEED, raw::WORK_NEED];

/// Five lent lists full of garbage.
fn lent(lengths: [usize; 5]) -> [Vec<u32>; 5] {
    lengths.map(|cells| vec![GARBAGE; cells])
}

fn run(lists: [&[u32]; 4], lent: &mut [Vec<u32>; 5]) -> u32 {
    let [kinds, xs, ys, zs] = lists;
    let [codes, numbers, graph, form, work] = lent;
    raw::session(kinds, xs, ys, zs, codes, numbers, graph, form, work)
}

fn untouched(lent: &[Vec<u32>; 5]) -> bool {
    lent.iter().flatten().all(|&cell| cell == GARBAGE)
}

#[test]
fn a_table_one_cell_short_gets_1() {
    for short in 0..NEEDS.len() {
        let mut lengths = NEEDS;
        lengths[short] -= 1;
        let mut lent = lent(lengths);
        assert_eq!(run([&KINDS, &XS, &YS, &ZS], &mut lent), raw::SHORT);
        assert!(untouched(&lent));
    }
}

#[test]
fn lists_that_differ_in_length_get_2_even_if_a_table_is_short() {
    for shorter in 0..4 {
        let mut lists: [&[u32]; 4] = [&KINDS, &XS, &YS, &ZS];
        lists[shorter] = &lists[shorter][..3];
        let mut lent = lent([0; 5]);
        assert_eq!(run(lists, &mut lent), raw::UNFIT);
        assert!(untouched(&lent));
    }
}

#[test]
fn a_list_past_the_limit_gets_2_and_one_at_the_limit_is_run() {
    let kinds = vec![12; raw::CALLS + 1];
    let rest = vec![GARBAGE; raw::CALLS + 1];
    let mut lent = lent([raw::CALLS + 1, raw::CALLS + 1, raw::GRAPH_NEED, raw::FORM_NEED, raw::WORK_NEED]);
    assert_eq!(run([&kinds, &rest, &rest, &rest], &mut lent), raw::UNFIT);
    assert!(untouched(&lent));
    let (kinds, rest) = (&kinds[1..], &rest[1..]);
    assert_eq!(run([kinds, rest, rest, rest], &mut lent), raw::RUN);
    assert!(lent[0][..raw::CALLS].iter().all(|&code| code == 0));
    assert_eq!(lent[0][raw::CALLS], GARBAGE);
}

#[test]
fn garbage_counts_for_nothing_and_cells_past_the_need_are_kept() {
    let mut garbage = lent(NEEDS.map(|need| need + 1));
    let mut zeros = NEEDS.map(|need| vec![0; need]);
    assert_eq!(run([&KINDS, &XS, &YS, &ZS], &mut garbage), raw::RUN);
    assert_eq!(run([&KINDS, &XS, &YS, &ZS], &mut zeros), raw::RUN);
    for (cells, clean) in garbage.iter().zip(&zeros) {
        let (past, needed) = cells.split_last().unwrap();
        assert_eq!(needed, clean);
        assert_eq!(*past, GARBAGE);
    }
    let [codes, numbers, _, form, work] = &zeros;
    assert_eq!((&codes[..], &numbers[..]), (&[0; 4][..], &[0, 0, 0, 1][..]));
    assert_eq!(form[raw::TARGET..raw::TARGET + 2], [1, 1]);
    assert!(work.iter().all(|&cell| cell == 0));
}

#[test]
fn an_empty_list_needs_no_answers() {
    let mut lent = lent([0, 0, raw::GRAPH_NEED, raw::FORM_NEED, raw::WORK_NEED]);
    assert_eq!(run([&[]; 4], &mut lent), raw::RUN);
    assert!(lent.iter().flatten().all(|&cell| cell == 0));
}

#[test]
fn resolving_over_any_list() {
    let targets = [1, 2, 2, 4, 3, 9];
    assert_eq!(raw::resolve(&targets, 0), (0, 2));
    assert_eq!(raw::resolve(&targets, 2), (0, 2));
    assert_eq!(raw::resolve(&targets, 3), (14, 0));
    assert_eq!(raw::resolve(&targets, 5), (14, 0));
    assert_eq!(raw::resolve(&targets, 6), (6, 0));
    assert_eq!(raw::resolve(&[], 0), (6, 0));
}

#[test]
fn a_row_is_a_part_of_the_lent_table() {
    let params = vec![2; raw::PARAM_CELLS];
    let args = vec![raw::PARAM_ROOM as u32; raw::ARG_CELLS];
    let row = raw::row(&params, &args, Asked::Params(Block(3)));
    assert_eq!(row.as_ptr_range(), params[3 * raw::PARAM_ROW + 1..][..2].as_ptr_range());
    let row = raw::row(&params, &args, Asked::Args(Branch(63), 7));
    assert_eq!(row.as_ptr_range(), args[511 * raw::PARAM_ROW + 1..].as_ptr_range());
}

#[test]
fn recorded_values_of_any_descriptions() {
    let described = [0, 128, 127, 255, 256, u32::MAX];
    let recorded = [(0, 0), (0, 1), (0, 0), (0, 1), (0, 0), (0, 1), (6, 0)];
    assert!((0..7).map(|value| raw::recorded(&described, value)).eq(recorded));
    assert_eq!(raw::recorded(&[], 0), (6, 0));
    assert_eq!([0, 1, 2, 3, 4, 5].map(|from| raw::next_recorded(&described, from)), [1, 1, 3, 3, 5, 5]);
    assert!(raw::next_recorded(&described, 6) >= 6 && raw::next_recorded(&described[..5], 4) >= 5);
    assert_eq!(raw::next_recorded(&[], usize::MAX), usize::MAX);
}

fn told<'a>(params: &'a [u32], args: &'a [u32], asked: Asked) -> (u32, &'a [u32]) {
    (raw::row_code(params, args, asked), raw::row(params, args, asked))
}

#[test]
fn a_row_that_is_not_there_is_told_from_an_empty_one() {
    let empty = vec![0; raw::ARG_CELLS + 1];
    let params = &empty[..raw::PARAM_CELLS];
    assert_eq!(told(params, &empty, Asked::Params(Block(63))), (0, &[][..]));
    assert_eq!(told(&params[1..], &empty, Asked::Params(Block(63))), (6, &[][..]));
    let past = [Asked::Params(Block(64)), Asked::Args(Branch(64), 0), Asked::Args(Branch(0), 8), Asked::Args(Branch(u32::MAX), u32::MAX)];
    for asked in past {
        assert_eq!(told(&empty, &empty, asked), (6, &[][..]));
    }
    for count in [raw::PARAM_ROOM as u32 + 1, u32::MAX] {
        assert_eq!(told(&[], &[count; raw::ARG_CELLS], Asked::Args(Branch(0), 0)), (6, &[][..]));
    }
}
