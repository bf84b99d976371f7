//! Lists of calls: made at random, run by the library, shrunk, walked on paths. Needs nothing but the library.
pub mod dot;
pub mod draft;
pub mod drawing;
pub mod fence;
pub mod fields;
pub mod finished;
pub mod hostile;
pub mod lent;
pub mod limits;
pub mod manner;
pub mod odd;
pub mod path;
pub mod pictures;
pub mod progress;
pub mod rng;
pub mod shapes;
pub mod shrink;
pub mod small;
pub mod types;
pub mod walks;
pub mod words;

use draft::Draft;
use lent::Lent;
use manner::Manner;
use rng::Rng;
use shapes::Shape;

/// A kind and three numbers.
pub type Call = [u32; 4];

pub const MAX_CALLS: usize = sangvireb::raw::CALLS;

/// A list of this shape.
pub fn random(shape: Shape, lent: &mut Lent, rng: &mut Rng) -> Vec<Call> {
    let manner = Manner::any(rng);
    match shape {
        Shape::Limits => limits::list(rng),
        Shape::Wild => wild(&manner, rng),
        _ => Draft::new(shape.graph(manner.blocks, rng), manner, rng).list(lent),
    }
}

/// Calls without a plan; a few blocks and variables are declared first, so that more is accepted.
fn wild(manner: &Manner, rng: &mut Rng) -> Vec<Call> {
    let mut calls: Vec<Call> = (0..manner.blocks).map(|b| [1, b, 0, 0]).collect();
    calls.extend((0..manner.vars).map(|v| [2, v, rng.pick(&manner.types), 0]));
    for _ in 0..rng.within(5, 8 * (manner.blocks + manner.tail)) {
        let n = calls.len() as u32;
        let odd = rng.chance(manner.bad, 1000);
        calls.push(if odd { odd::call(n, manner.blocks, rng) } else { odd::likely(n, manner.blocks, manner.vars, &manner.types, rng) });
    }
    calls.truncate(MAX_CALLS);
    calls
}

/// The list as the program `sangvireb` reads it.
pub fn text(calls: &[Call]) -> String {
    let mut text = format!("{}\n", calls.len());
    for [kind, x, y, z] in calls {
        text += &format!("{kind} {x} {y} {z}\n");
    }
    text
}

/// The lists of such a text; nothing if it is none.
pub fn read(text: &str) -> Option<Vec<Vec<Call>>> {
    let mut numbers = text.split_ascii_whitespace().map(|word| word.parse::<u32>().ok());
    let mut lists = Vec::new();
    while let Some(length) = numbers.next() {
        let call = |_| Some([numbers.next()??, numbers.next()??, numbers.next()??, numbers.next()??]);
        lists.push((0..length?).map(call).collect::<Option<Vec<Call>>>()?);
    }
    Some(lists)
}

#[cfg(test)]
mod tests {
    use super::*;

    #[test]
    fn seed_and_number_determine_a_list() {
        let (mut one, mut other) = (Lent::new(1), Lent::new(2));
        for number in 0..200 {
            let shape = shapes::SHAPES[number as usize % shapes::SHAPES.len()];
            let list = |lent| random(shape, lent, &mut Rng::nth(5, number));
            assert_eq!(list(&mut one), list(&mut other));
        }
    }
}
