//! Ladders in the shapes of the oracle's bench: block b goes to b + 1 and, on a skip ladder, also to b + 2.
use crate::draft::Draft;
use lists::Call;

/// How many blocks and variables.
#[derive(Clone, Copy)]
pub struct Size {
    pub blocks: u32,
    pub vars: u32,
}

pub const FULL: Size = Size { blocks: 64, vars: 64 };

/// A name, and what the list does.
pub struct Shape {
    pub name: &'static str,
    pub list: fn(Size) -> Draft,
}

pub const SHAPES: [Shape; 8] = [
    Shape { name: "straight/foot", list: |size| foot(straight, first, size) },
    Shape { name: "skip/foot", list: |size| foot(skip, first, size) },
    Shape { name: "skip/redef/foot", list: |size| foot(skip, redefined, size) },
    Shape { name: "skip/redef/all", list: redef_all },
    Shape { name: "skip/frontend", list: frontend },
    Shape { name: "skip/pending/seal_all", list: pending },
    Shape { name: "skip/undefined/foot", list: |size| foot(skip, |_, _| false, size) },
    Shape { name: "skip/loop/foot", list: closed },
];

impl Shape {
    pub fn calls(&self, size: Size) -> Vec<Call> {
        (self.list)(size).finish()
    }
}

fn straight(b: u32, blocks: u32) -> Vec<u32> {
    (b + 1..blocks).take(1).collect()
}

fn skip(b: u32, blocks: u32) -> Vec<u32> {
    (b + 1..blocks).take(2).collect()
}

/// Is the variable defined in the block? In the first one only; or again in every tenth.
fn first(b: u32, _: u32) -> bool {
    b == 0
}

fn redefined(b: u32, v: u32) -> bool {
    b == 0 || (b + v).is_multiple_of(10)
}

/// Definitions, then branches.
fn body(dests: fn(u32, u32) -> Vec<u32>, defined: impl Fn(u32, u32) -> bool, size: Size) -> Draft {
    let mut draft = Draft::new(size.blocks, size.vars);
    for b in 0..size.blocks {
        for v in (0..size.vars).filter(|&v| defined(b, v)) {
            draft.define(v, b);
        }
    }
    for b in 0..size.blocks {
        draft.branch(b, &dests(b, size.blocks));
    }
    draft
}

fn read_at(draft: &mut Draft, blocks: impl Iterator<Item = u32>, size: Size) {
    for b in blocks {
        for v in 0..size.vars {
            draft.read(v, b);
        }
    }
}

/// All blocks sealed, then every variable used once in the last one.
fn foot(dests: fn(u32, u32) -> Vec<u32>, defined: fn(u32, u32) -> bool, size: Size) -> Draft {
    let mut draft = body(dests, defined, size);
    draft.seal_all();
    read_at(&mut draft, size.blocks - 1..size.blocks, size);
    draft
}

fn redef_all(size: Size) -> Draft {
    let mut draft = body(skip, redefined, size);
    draft.seal_all();
    read_at(&mut draft, 0..size.blocks, size);
    draft
}

/// As a front end goes: block by block, each sealed as soon as its predecessors are declared.
fn frontend(size: Size) -> Draft {
    let mut draft = Draft::new(size.blocks, size.vars);
    for b in 0..size.blocks {
        draft.seal(b);
        let makers: Vec<_> = (0..size.vars).map(|v| redefined(b, v).then(|| draft.make(v, b))).collect();
        for (v, maker) in (0..).zip(makers) {
            match maker {
                Some(maker) => draft.give(v, maker, b),
                None if (b + v) % 10 == 5 => draft.read(v, b),
                None => {}
            }
        }
        draft.branch(b, &skip(b, size.blocks));
    }
    draft
}

/// Every variable used in every block but the first before any is sealed.
fn pending(size: Size) -> Draft {
    let mut draft = body(skip, first, size);
    read_at(&mut draft, 1..size.blocks, size);
    draft.seal_all();
    draft
}

/// The last block goes back to the second; odd variables are defined again half-way.
fn closed(size: Size) -> Draft {
    let again = size.blocks / 2;
    let dests = |b, blocks| if b + 1 < blocks { skip(b, blocks) } else { vec![1] };
    let mut draft = body(dests, |b, v| b == 0 || (b == again && v % 2 == 1), size);
    draft.seal_all();
    read_at(&mut draft, size.blocks - 1..size.blocks, size);
    draft
}

/// skip/redef with so many uses, block after block, and from the first block again.
pub fn with_uses(uses: usize) -> Vec<Call> {
    let mut draft = body(skip, redefined, FULL);
    draft.seal_all();
    let every = (0..FULL.blocks).flat_map(|b| (0..FULL.vars).map(move |v| (v, b)));
    for (v, b) in every.cycle().take(uses) {
        draft.read(v, b);
    }
    draft.finish()
}
