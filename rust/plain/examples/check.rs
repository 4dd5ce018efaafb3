//! Checks the text on standard input and prints what the verified program prints: the
//! outcome, and for a refusal a line for a person as an error.

use std::io::Read;

fn main() -> std::io::Result<()> {
    let mut text = Vec::new();
    std::io::stdin().read_to_end(&mut text)?;
    let checked = plain::check(&text);
    print!("{}", checked.outcome.listing());
    eprint!("{}", checked.said());
    Ok(())
}
