//! What the three numbers of each kind of call name.
use crate::Call;

#[derive(Clone, Copy, PartialEq, Debug)]
pub enum Field {
    Block,
    Variable,
    Value,
    Type,
    Call,
    /// of a destination
    Place,
    Unread,
}

/// A branch bears its block's number, so it counts as a block.
pub fn fields(kind: u32) -> [Field; 3] {
    use Field::*;
    match kind {
        1 | 7 | 11 | 13 | 14 => [Block, Unread, Unread],
        2 => [Variable, Type, Unread],
        3 | 15 => [Block, Type, Unread],
        4 => [Variable, Value, Block],
        5 => [Variable, Call, Block],
        6 => [Variable, Block, Unread],
        8..=10 => [Block, Block, Unread],
        16 => [Block, Value, Place],
        17 => [Variable, Unread, Unread],
        _ => [Unread; 3],
    }
}

/// The list without the calls that name `gone`, larger numbers of that field one lower.
pub fn without_name(calls: &[Call], field: Field, gone: u32) -> Vec<Call> {
    let mut kept = calls.to_vec();
    for i in (0..calls.len()).rev() {
        let named = |number: u32| fields(calls[i][0]).iter().zip(&calls[i][1..]).any(|(f, n)| *f == field && *n == number);
        if named(gone) {
            kept = without_calls(&kept, i, 1);
        }
    }
    for call in &mut kept {
        for (f, number) in fields(call[0]).into_iter().zip(&mut call[1..]) {
            *number -= u32::from(f == field && *number > gone);
        }
    }
    kept
}

/// The list without some calls in a row; definitions that name the answer of a later call name it still.
pub fn without_calls(calls: &[Call], from: usize, count: usize) -> Vec<Call> {
    let end = (from + count).min(calls.len());
    let mut kept = [&calls[..from], &calls[end..]].concat();
    for call in &mut kept {
        if call[0] == 5 && call[2] as usize >= end {
            call[2] -= (end - from) as u32;
        }
    }
    kept
}

/// The list with every name `gone` read as the smaller `other`, larger numbers of that field one lower.
pub fn merged(calls: &[Call], field: Field, gone: u32, other: u32) -> Vec<Call> {
    let mut kept = calls.to_vec();
    for call in &mut kept {
        for (f, number) in fields(call[0]).into_iter().zip(&mut call[1..]) {
            if f == field && *number >= gone {
                *number = if *number == gone { other } else { *number - 1 };
            }
        }
    }
    kept
}
