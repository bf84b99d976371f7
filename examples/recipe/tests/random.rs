//! Random scripts: the SSA form gives what the script itself gives, and every script is built by the rules under which the library is
//! proved right.
mod writer;
use recipe::compile::{compile, Recipe};
use recipe::direct;
use recipe::form::{Form, Op};
use recipe::number::Number;
use sangvireb::{Block, Kind, SSABuilder, Sort, Type, Value};
use writer::{Rng, Writer, INPUTS};

const SCRIPTS: u64 = 3000;
const SEED: u64 = 11;
/// More than any of these scripts needs: their loops count.
const ENOUGH: usize = 100_000;

fn script(number: u64) -> (String, Rng) {
    let mut rng = Rng::new(SEED * 1_000_003 + number);
    (Writer::script(&mut rng), rng)
}

fn inputs(rng: &mut Rng) -> Vec<Number> {
    (0..INPUTS).map(|place| if place % 2 == 0 { Number::Float(rng.float()) } else { Number::Int(rng.int()) }).collect()
}

/// The five suppositions, read from the calls and the tables.
fn supposed(ssa: &SSABuilder) -> [bool; 5] {
    let session = ssa.session();
    let ways = || {
        let branches = session.blocks().filter_map(|block| session.branch(block).unwrap());
        branches.flat_map(|branch| session.destinations(branch).unwrap().zip(0..).map(move |(way, place)| (branch, place, way.target)))
    };
    let (mut foreign, mut astray) = (false, false);
    let (mut own, mut given) = (vec![], vec![]);
    for ([kind, x, y, z], answer) in ssa.list().calls().zip(session.answers()) {
        let answer = answer.expect("a builder keeps accepted calls");
        match Kind::from_number(kind).unwrap() {
            Kind::MakeValue | Kind::AppendBlockParam => own.push((x, answer)),
            Kind::UseVar => own.push((y, answer)),
            Kind::DefVar => foreign |= !own.contains(&(z, y)),
            Kind::AppendArgument => {
                given.push((x, z));
                astray |= !own.contains(&(x, y));
            }
            _ => {}
        }
    }
    [
        session.blocks().all(|block| session.is_sealed(block).unwrap()),
        ways().all(|(_, _, to)| to != Block(0)),
        ways().all(|(branch, _, to)| session.predecessors(to).unwrap().any(|other| other == branch)),
        !foreign,
        !astray && ways().all(|(branch, place, to)| count(&given, (branch.0, place)) == session.caller_params(to).unwrap().len()),
    ]
}

fn count(given: &[(u32, u32)], way: (u32, u32)) -> usize {
    given.iter().filter(|other| **other == way).count()
}

#[test]
fn the_form_gives_what_the_script_gives() {
    let (mut merges, mut zeros, mut aliases, mut indices) = (0, 0, 0, 0);
    for number in 0..SCRIPTS {
        let (script, mut rng) = script(number);
        let Recipe { form, ssa } = compile(&script).unwrap_or_else(|said| panic!("{said}\n{script}"));
        assert_eq!(supposed(&ssa), [true; 5], "{script}");
        assert!(fed(&form), "{script}");
        for _ in 0..4 {
            let inputs = inputs(&mut rng);
            let expected = direct::run(&script, &inputs, ENOUGH).expect("its loops count");
            assert_eq!(form.run(&inputs, ENOUGH), Ok(expected), "script {number} with {inputs:?}:\n{script}");
        }
        merges += usize::from(form.blocks.iter().any(|body| !body.params.is_empty()));
        zeros += usize::from(form.blocks.iter().any(|body| !body.unset.is_empty()));
        indices += usize::from(ssa.session().values().any(|data| data.sort == Sort::CallerParameter));
        aliases += usize::from(ssa.session().values().any(|data| data.sort == Sort::Parameter && data.target != data.value));
    }
    // most scripts show what matters
    assert!([merges, zeros, aliases].iter().all(|&count| count > SCRIPTS as usize / 2), "{merges} {zeros} {aliases}");
    assert!(indices > SCRIPTS as usize / 4, "{indices}");
}

/// Has each way an argument for each parameter?
fn fed(form: &Form) -> bool {
    let mut ways = form.blocks.iter().flat_map(|body| &body.ways);
    ways.all(|way| way.args.len() == form.blocks[way.to.0 as usize].params.len())
}

#[test]
fn a_wrong_merge_is_seen() {
    let (mut tried, mut seen) = (0, 0);
    for number in 0..300 {
        let (script, mut rng) = script(number);
        let Recipe { mut form, ssa } = compile(&script).unwrap();
        // one way passes a number of its own in place of its first argument
        let mut ways = form.blocks.iter_mut().flat_map(|body| &mut body.ways);
        let Some(arg) = ways.find_map(|way| way.args.first_mut()) else { continue };
        let wrong = Value(form.values as u32);
        let old = std::mem::replace(arg, wrong);
        form.values += 1;
        let number = match ssa.session().value(old).unwrap().ty {
            Type::F64 => Number::Float(12345.5),
            _ => Number::Int(54321),
        };
        form.blocks[0].steps.insert(0, (wrong, Op::Constant(number)));
        tried += 1;
        let differs = (0..4).any(|_| {
            let inputs = inputs(&mut rng);
            form.run(&inputs, ENOUGH) != Ok(direct::run(&script, &inputs, ENOUGH).unwrap())
        });
        seen += usize::from(differs);
    }
    assert!(tried > 200 && seen > tried / 10, "{seen} of {tried}");
}
