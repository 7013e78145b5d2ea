//! What the evening program prints for one file and the queue program for
//! several.

use super::progress;
use crate::answer::{status, Answer, Totals, Words};
use crate::lines;
use crate::pool::in_order;
use crate::say::{say, say_all};
use crate::source::Source;
use crate::status::Status;
use std::ffi::OsString;
use std::io::{self, Write};

/// Nothing is printed unless all files can be read.
pub fn run(files: &[OsString], jobs: usize, out: &mut dyn Write) -> io::Result<Status> {
    let Some(sources) = sources(files) else {
        return Ok(Status::Trouble);
    };
    match &sources[..] {
        [source] => evening(source, out),
        _ => queue(&sources, jobs, out),
    }
}

/// All the sheets; what cannot be read is said.
fn sources(files: &[OsString]) -> Option<Vec<Source>> {
    let read = files.iter().map(|file| {
        let source = Source::read(file).map_err(|sentence| say(&sentence)).ok()?;
        say_all(&source.notes);
        Some(source)
    });
    // all are read, so that everything that is wrong is said
    read.collect::<Vec<_>>().into_iter().collect()
}

fn evening(source: &Source, out: &mut dyn Write) -> io::Result<Status> {
    let answer = lines::alone(source, &mut Words::default());
    out.write_all(lines::evening(&answer).as_bytes())?;
    Ok(status(&answer))
}

fn queue(sources: &[Source], jobs: usize, out: &mut dyn Write) -> io::Result<Status> {
    let slots = &sources[..sources.len().min(lines::MOST_SLOTS)];
    let mut totals = Totals::default();
    let mut worst = Status::Answered;
    let tell = |answer: Answer| {
        let line = lines::slot(totals.sheets(), &answer);
        totals.add(&answer);
        worst = worst.max(status(&answer));
        out.write_all(line.as_bytes())
    };
    let mut progress = progress(slots.len());
    in_order(slots, jobs, lines::in_slot, &mut progress, tell)?;
    if slots.len() < sources.len() {
        out.write_all(lines::QUEUE_REFUSED.as_bytes())?;
        return Ok(Status::Refused);
    }
    out.write_all(lines::totals(&totals).as_bytes())?;
    Ok(worst)
}
