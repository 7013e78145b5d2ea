//! Judges one sheet of raw bytes from standard input and prints the lines of
//! document 01's evening program.

use std::io::{self, Read};

use reference::{judge, read, Refusal};

const WORDS: usize = 4096;
const MOST_BYTES: u64 = 766;

fn main() -> io::Result<()> {
    let mut sheet = Vec::new();
    io::stdin().take(MOST_BYTES).read_to_end(&mut sheet)?;
    match lines(&sheet) {
        Ok(lines) => println!("{lines}"),
        Err(refusal) => println!("refused {} at {}", refusal.number, refusal.place),
    }
    Ok(())
}

fn lines(sheet: &[u8]) -> Result<String, Refusal> {
    let counts = read(sheet)?;
    let judgement = judge(sheet, &mut vec![0; WORDS])?;
    Ok(format!(
        "traits {} fresh {} some {} only {} links {}\nopening {} survivors {}\n{}",
        counts.traits,
        counts.fresh,
        counts.some,
        counts.only,
        counts.links,
        judgement.opening,
        judgement.survivors,
        if judgement.met {
            "can be met"
        } else {
            "cannot be met"
        }
    ))
}
