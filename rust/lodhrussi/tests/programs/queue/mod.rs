//! The queue program.

mod fixed;
mod limits;
mod lines;
mod made_up;
mod streams;

use comparison::program::Program;
use comparison::suites;

const QUEUE: Program = Program("queue");

/// Prints how many lines were compared, none of which differed.
fn report(what: &str, comparisons: u64) {
    let name = format!("queue, {what}");
    suites::report(&name, &format!("{comparisons} comparisons"));
}
