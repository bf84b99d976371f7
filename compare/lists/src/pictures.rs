//! Pictures of finished sessions, read back by a reader of DOT: they show the blocks, parameters, destinations and arguments that the tables hold.
use crate::dot::{self, Attribute, Statement};
use crate::finished::Finished;
use crate::lent::Lent;
use crate::progress::Progress;
use crate::rng::Rng;
use crate::shapes::SHAPES;
use crate::{Call, random, read, text};
use sangvireb::raw;
use std::fs;
use std::process::ExitCode;

/// What a picture shows: each block's parameters, and each edge's ends and arguments, in its order.
#[derive(PartialEq, Debug)]
pub struct Shown {
    pub params: Vec<Vec<u32>>,
    pub edges: Vec<(u32, u32, Vec<u32>)>,
}

/// The number after the letter.
fn number(letter: char, name: &str) -> Result<u32, String> {
    let digits = name.strip_prefix(letter).ok_or(format!("{name} does not begin with {letter}"))?;
    let number: u32 = digits.parse().map_err(|_| format!("{name} has no number"))?;
    if number.to_string() == digits { Ok(number) } else { Err(format!("{name} is written another way")) }
}

fn values(text: &str) -> Result<Vec<u32>, String> {
    if text.is_empty() { Ok(vec![]) } else { text.split(',').map(|name| number('v', name)).collect() }
}

fn label(attributes: &[Attribute]) -> Result<&str, String> {
    match attributes {
        [one] if one.name == "label" => Ok(&one.value),
        other => Err(format!("one label is wanted, and here is {other:?}")),
    }
}

/// The picture in a text that holds no other.
pub fn shown(text: &str) -> Result<Shown, String> {
    let graphs = dot::read(text)?;
    let [graph] = graphs.as_slice() else { return Err(format!("{} graphs instead of one", graphs.len())) };
    let mut shown = Shown { params: vec![], edges: vec![] };
    for statement in &graph.statements {
        match statement {
            Statement::Node { id, attributes } => {
                let block = shown.params.len() as u32;
                let inner = label(attributes)?.strip_prefix(id).and_then(|rest| rest.strip_prefix('(')?.strip_suffix(')'));
                if number('b', id)? != block || !shown.edges.is_empty() {
                    return Err(format!("{id} stands in block {block}'s place"));
                }
                shown.params.push(values(inner.ok_or(format!("{id} has another label"))?)?);
            }
            Statement::Edge { from, to, attributes } => shown.edges.push((number('b', from)?, number('b', to)?, values(label(attributes)?)?)),
        }
    }
    Ok(shown)
}

/// What the tables hold.
fn held(session: &Finished) -> Shown {
    let blocks = 0..session.blocks();
    let params = blocks.clone().map(|b| session.params(b).to_vec()).collect();
    let edges = blocks.flat_map(|b| session.dests(b).iter().enumerate().map(move |(i, &to)| (b, to, session.args(b, i).to_vec())));
    Shown { params, edges: edges.collect() }
}

/// Draws into a buffer of just the text's length, one byte less and some more, which hold `fill`; answers the text.
fn drawn(graph: &[u32], form: &[u32], fill: u8) -> Result<String, String> {
    let mut wide = vec![fill; 1 << 20];
    let (code, length) = raw::draw(graph, form, &mut wide);
    if code != 0 || wide[length..].iter().any(|&byte| byte != fill) {
        return Err(format!("code {code}, or a byte past the text was changed"));
    }
    let mut exact = vec![fill; length];
    if raw::draw(graph, form, &mut exact) != (0, length) || exact != wide[..length] {
        return Err("a buffer of just the text's length gets something else".to_string());
    }
    let mut short = vec![fill; length - 1];
    if raw::draw(graph, form, &mut short) != (raw::NO_ROOM, 0) || short.iter().any(|&byte| byte != fill) {
        return Err("a buffer one byte short is not refused with 15, or is changed".to_string());
    }
    String::from_utf8(exact).map_err(|_| "the text is not UTF-8".to_string())
}

/// Runs the list over garbage, draws what it left and reads that back; answers the text's length.
fn round_trip(calls: &[Call], lent: &mut Lent, rng: &mut Rng) -> Result<usize, String> {
    if lent.run(calls, rng) != raw::RUN {
        return Ok(0);
    }
    let text = drawn(lent.graph(), lent.form(), rng.any() as u8)?;
    let (found, due) = (shown(&text)?, held(&Finished::of(calls, lent)));
    if found == due { Ok(text.len()) } else { Err(format!("the picture shows {found:?}, and the tables hold {due:?}")) }
}

pub fn run(lists: u64, seed: u64, files: &[&str]) -> ExitCode {
    let mut lent = Lent::new(seed);
    let (mut all, mut bytes, mut longest) = (0, 0, 0);
    let mut one = |what: String, calls: &[Call], rng: &mut Rng| match round_trip(calls, &mut lent, rng) {
        Ok(length) => {
            (all, bytes, longest) = (all + 1, bytes + length, longest.max(length));
            true
        }
        Err(why) => {
            println!("{what}: {why}\n{}", text(calls));
            false
        }
    };
    for name in files {
        let content = fs::read_to_string(name).unwrap_or_else(|why| panic!("{name}: {why}"));
        for (place, calls) in read(&content).unwrap_or_else(|| panic!("{name} has no lists")).iter().enumerate() {
            if !one(format!("{name}, list {place}"), calls, &mut Rng::nth(seed, place as u64)) {
                return ExitCode::FAILURE;
            }
        }
    }
    let mut maker = Lent::new(seed);
    let mut progress = Progress::new(lists);
    for number in 0..lists {
        let mut rng = Rng::nth(seed, number);
        let shape = SHAPES[number as usize % SHAPES.len()];
        let calls = random(shape, &mut maker, &mut rng);
        if !one(format!("list {number} of seed {seed}"), &calls, &mut rng) {
            return ExitCode::FAILURE;
        }
        progress.show(number, 0);
    }
    println!("{all} pictures, {bytes} bytes, the longest {longest}: read back, each shows what its tables hold");
    ExitCode::SUCCESS
}

#[cfg(test)]
mod tests {
    use super::*;

    const LOOP: &str = "digraph f {\nb0 [label=\"b0()\"];\nb1 [label=\"b1(v1)\"];\nb0 -> b1 [label=\"v0\"];\nb1 -> b1 [label=\"v2\"];\n}\n";

    #[test]
    fn the_loop_is_read() {
        let due = Shown { params: vec![vec![], vec![1]], edges: vec![(0, 1, vec![0]), (1, 1, vec![2])] };
        assert_eq!(shown(LOOP), Ok(due));
    }

    #[test]
    fn slips_are_noticed() {
        let slips = [("(v1)", "(v1,)"), ("(v1)", "(,v1)"), ("(v1)", "(v01)"), ("b1(v1)", "(v1)b1"), ("b1 [", "b2 ["), ("\"v0\"", "\"v0 \""), ("}", "")];
        for (old, new) in slips {
            assert!(shown(&LOOP.replacen(old, new, 1)).is_err(), "{new} for {old}");
        }
    }

    #[test]
    fn a_spoiled_table_shows() {
        let mut lent = Lent::new(3);
        let mut rng = Rng::new(4);
        let calls = [[1, 0, 0, 0], [1, 1, 0, 0], [7, 0, 0, 0], [8, 0, 1, 0]];
        assert!(round_trip(&calls, &mut lent, &mut rng).is_ok());
        let before = shown(&drawn(lent.graph(), lent.form(), 7).unwrap()).unwrap();
        lent.tables[2][raw::DEST_ROWS + 1] = 0;
        assert_ne!(shown(&drawn(lent.graph(), lent.form(), 7).unwrap()).unwrap(), before);
    }
}
