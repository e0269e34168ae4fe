//! The independent program. Without an argument it is a report: an upstream stream file and, directly after it, a downstream one
//! from standard input; the lost flows, what is left and the ending to standard output. With the argument `script` it does
//! the commands of a script from standard input and prints what they answer.
//!
//! It is written from the scope and the requests that are done, and shares nothing with the proved library, so that the two
//! can be compared. Where these can be read in two ways it takes the readings of docs/DECISIONS.md. It is plain rather than
//! lean: it holds the whole input, copies a sketch for each call, and looks at every bucket before every pop.

mod input;
mod library;
mod memory;
mod print;
mod records;
mod script;
mod sketch;
mod walk;

use std::env;
use std::io::{self, Read, Write};

fn main() -> io::Result<()> {
    let mut bytes = Vec::new();
    io::stdin().read_to_end(&mut bytes)?;
    let is_script = env::args().nth(1).is_some_and(|word| word == "script");
    let printed = if is_script { script::run(&bytes) } else { report(&bytes) };
    io::stdout().write_all(printed.as_bytes())
}

fn report(bytes: &[u8]) -> String {
    match input::read(bytes) {
        Err(refusal) => print::refused(&refusal),
        Ok((mut difference, downstream)) => {
            let subtracted = difference.combine(-1, &downstream);
            assert!(subtracted.is_ok(), "both sketches have counts of 0 or more, so no difference leaves the range");
            let size = difference.buckets.len();
            let walked = walk::walk(&mut difference, size, 8 * size);
            print::walked(&walked, &difference)
        }
    }
}
