//! A press reports Fahrenheit on one branch and Celsius on the other, and each branch stores a converted reading. Which one is it after the join?
use sangvireb::{Block, Refused, SSABuilder, Type, Value, Variable};
use std::process::ExitCode;

const READING: Variable = Variable(0);
const START: Block = Block(0);
const FAHRENHEIT: Block = Block(1);
const CELSIUS: Block = Block(2);
const JOIN: Block = Block(3);

/// A new value for the reading.
fn store(ssa: &mut SSABuilder, block: Block) -> Result<Value, Refused> {
    let value = ssa.make_value(block, Type::F64)?;
    ssa.def_var(READING, value, block)
}

/// The recipe up to the join. Hands back what each value is in people's words; the raw reading comes first.
fn recipe(ssa: &mut SSABuilder) -> Result<Vec<(Value, &'static str)>, Refused> {
    for block in [START, FAHRENHEIT, CELSIUS, JOIN] {
        ssa.declare_block(block)?;
    }
    ssa.declare_var(READING, Type::F64)?;
    let mut words = vec![(store(ssa, START)?, "the raw reading")];
    ssa.branch(START, &[FAHRENHEIT, CELSIUS])?;
    ssa.seal_block(START)?;
    for (block, word) in [(FAHRENHEIT, "the reading converted from Fahrenheit"), (CELSIUS, "the reading converted from Celsius")] {
        ssa.seal_block(block)?;
        let raw = ssa.use_var(READING, block)?;
        let converted = store(ssa, block)?;
        println!("In {block} {raw} is converted to {converted}.");
        words.push((converted, word));
        ssa.jump(block, JOIN)?;
    }
    ssa.seal_block(JOIN)?;
    Ok(words)
}

/// Prints what the join gets. Did nothing raw come through?
fn press() -> Result<bool, Refused> {
    let mut ssa = SSABuilder::new();
    let words = recipe(&mut ssa)?;
    let merged = ssa.use_var(READING, JOIN)?;
    let session = ssa.session();
    println!("In {JOIN}, where they meet, the reading is {merged}.");
    let mut converted = true;
    for branch in session.predecessors(JOIN)? {
        for held in session.destinations(branch)?.filter(|way| way.target == JOIN).flat_map(|way| way.resolved()) {
            let word = words.iter().find(|(value, _)| *value == held).map_or("something else", |(_, word)| word);
            println!("  Coming from block {} it is {held}: {word}.", branch.0);
            converted &= held != words[0].0;
        }
    }
    Ok(converted)
}

fn main() -> Result<ExitCode, Refused> {
    if press()? {
        println!("The raw reading comes through by neither way.");
        Ok(ExitCode::SUCCESS)
    } else {
        println!("A raw reading comes through!");
        Ok(ExitCode::FAILURE)
    }
}
