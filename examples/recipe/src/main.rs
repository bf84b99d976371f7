//! `recipe SCRIPT INPUT..` runs a recipe; `recipe --form SCRIPT` shows its SSA form.
use recipe::compile::compile;
use recipe::number::Number;
use std::error::Error;
use std::{env, fs, process};

/// How many blocks a run may visit before it is given up.
const VISITS: usize = 1_000_000;

fn run(words: &[String]) -> Result<String, Box<dyn Error>> {
    sangvireb::check()?;
    match words {
        [flag, script] if flag == "--form" => Ok(compile(&fs::read_to_string(script)?)?.ssa.session().to_string()),
        [script, inputs @ ..] => {
            let form = compile(&fs::read_to_string(script)?)?.form;
            let numbers: Option<Vec<Number>> = inputs.iter().map(|input| Number::read(input)).collect();
            Ok(form.run(&numbers.ok_or("inputs are numbers, such as 1 or 1.0")?, VISITS)?.to_string())
        }
        [] => Err("recipe SCRIPT INPUT.. runs a recipe, recipe --form SCRIPT shows its form".into()),
    }
}

fn main() {
    let words: Vec<String> = env::args().skip(1).collect();
    match run(&words) {
        Ok(text) => println!("{}", text.trim_end()),
        Err(error) => {
            eprintln!("recipe: {error}");
            process::exit(1);
        }
    }
}
