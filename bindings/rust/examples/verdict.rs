//! From a grammar's text to the verdict: reads the file that is named and prints what the library says of it.

use std::error::Error;

use ambiguity::{Grammar, Searched};

fn main() -> Result<(), Box<dyn Error>> {
    let path = std::env::args_os().nth(1).ok_or("usage: verdict FILE")?;
    let grammar = Grammar::read(&std::fs::read(path)?).map_err(|refusal| format!("{refusal:#}"))?;
    println!("states={}", grammar.states());
    match grammar.search(0)? {
        Searched::Unambiguous { certificate, size, .. } => {
            grammar.check(0, &certificate)?;
            println!("verdict=unambiguous\nreached={size}");
        }
        Searched::Potential { witness, .. } => {
            let strings = grammar.strings(0, &witness).ok_or("the witness is none of this grammar")?;
            print!("verdict=potential\n{}", grammar.lines(&strings).ok_or("a letter is none of this grammar")?);
        }
    }
    Ok(())
}
