//! Reads a sheet given as hex bytes and prints its counts and its parts:
//! `cargo run --release --example read -- 01 10 00 03 00 07 01 02 20 00 03`.

use std::env;
use std::process::ExitCode;

const KINDS: [&str; 4] = ["name", "fresh", "some", "only"];

fn main() -> ExitCode {
    let bytes: Result<Vec<u8>, _> = env::args()
        .skip(1)
        .map(|word| u8::from_str_radix(&word, 16))
        .collect();
    let Ok(sheet) = bytes else {
        eprintln!("each argument is a byte as two hex digits");
        return ExitCode::FAILURE;
    };
    match print(&sheet) {
        Ok(()) => ExitCode::SUCCESS,
        Err(refusal) => {
            println!("refused {} at {}", refusal.number, refusal.place);
            eprintln!("{}", refusal.explain(&sheet));
            ExitCode::FAILURE
        }
    }
}

fn print(sheet: &[u8]) -> Result<(), lodhrussi::Refusal> {
    let counts = lodhrussi::read(sheet)?;
    println!(
        "traits {} fresh {} some {} only {} links {}",
        counts.traits, counts.fresh, counts.some, counts.only, counts.links
    );
    let mut list = vec![0; 3 * counts.marks() as usize];
    lodhrussi::list_marks(sheet, &mut list)?;
    for (number, part) in list.chunks_exact(3).enumerate() {
        let source = if part[0] == 0 { "trait" } else { "record" };
        let parity = if part[2] == 0 {
            ""
        } else {
            ", under an odd number of nots"
        };
        println!(
            "mark {number}: {} of {source} {}{parity}",
            KINDS[part[0] as usize], part[1]
        );
    }
    Ok(())
}
