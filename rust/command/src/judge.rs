//! Judges sheets: for people, for programs, and as the evening program and the
//! queue program do.

mod programs;
mod text;

use crate::answer::{judged, status, Answer, Found, Totals, Words};
use crate::arguments::{Form, Judge};
use crate::json::Object;
use crate::names::Names;
use crate::picture::picture;
use crate::pool::in_order;
use crate::progress::Progress;
use crate::say::{say, say_all};
use crate::sheet::{about, refused};
use crate::source::{name, Source};
use crate::status::Status;
use crate::summary;
use std::ffi::{OsStr, OsString};
use std::io::{self, IsTerminal, Stderr, Write};
use std::num::NonZeroUsize;
use std::thread;

pub fn run(options: &Judge, out: &mut dyn Write) -> io::Result<Status> {
    // names that cannot be read are trouble, whether a picture needs them or not
    let names = match options.names.as_deref().map(given_names).transpose() {
        Ok(names) => names,
        Err(trouble) => {
            let (status, line) = told_trouble(options.form, &trouble);
            out.write_all(line.as_bytes())?;
            return Ok(status);
        }
    };
    match (options.form, &options.files[..]) {
        (Form::Lines, files) => programs::run(files, jobs(options), out),
        (Form::Text, [file]) => for_people(file, names, out),
        (form, files) => each(form, files, jobs(options), out),
    }
}

/// Says what is the trouble.
fn trouble(sentence: &str) -> Status {
    say(sentence);
    Status::Trouble
}

/// The threads asked for, or one for each core.
fn jobs(options: &Judge) -> usize {
    let cores = || thread::available_parallelism();
    let jobs = options.jobs.map_or_else(cores, Ok);
    jobs.map_or(1, NonZeroUsize::get)
}

/// The progress of judging several files, on standard error.
fn progress(files: usize) -> Progress<Stderr> {
    let stderr = io::stderr();
    let seen = files > 1 && stderr.is_terminal();
    Progress::new(stderr, seen, files)
}

/// Judges the only file, for people. Names that were not given may stand beside
/// it.
fn for_people(file: &OsStr, names: Option<Names>, out: &mut dyn Write) -> io::Result<Status> {
    let source = match Source::read(file) {
        Ok(source) => source,
        Err(sentence) => return Ok(trouble(&sentence)),
    };
    say_all(&source.notes);
    let answer = answer(&source, &mut Words::default());
    let mut status = status(&answer);
    let text = match &answer {
        Ok(found) => text::whole(found),
        Err(refusal) => {
            let names = names.map_or_else(|| Names::for_sheet(None, file), Ok);
            let names = names.unwrap_or_else(|sentence| {
                status = trouble(&sentence);
                Names::default()
            });
            picture(&source.name, &source.bytes, refusal, &names)
        }
    };
    out.write_all(text.as_bytes())?;
    Ok(status)
}

/// A file that was read, and its answer.
struct Judged {
    source: Source,
    answer: Answer,
}

/// A file that cannot be read, and why.
struct Trouble {
    name: String,
    sentence: String,
}

impl Trouble {
    fn with(file: &OsStr, sentence: String) -> Self {
        let name = name(file);
        Trouble { name, sentence }
    }
}

fn given_names(file: &OsStr) -> Result<Names, Trouble> {
    Names::for_sheet(Some(file), file).map_err(|sentence| Trouble::with(file, sentence))
}

fn judged_file(file: &OsString, words: &mut Words) -> Result<Judged, Trouble> {
    let source = Source::read(file).map_err(|sentence| Trouble::with(file, sentence))?;
    let answer = answer(&source, words);
    Ok(Judged { source, answer })
}

fn answer(source: &Source, words: &mut Words) -> Answer {
    judged(source.sheet()?, words)
}

/// Judges files, a line each, and prints the totals of several.
fn each(form: Form, files: &[OsString], jobs: usize, out: &mut dyn Write) -> io::Result<Status> {
    let mut totals = Totals::default();
    let mut worst = Status::Answered;
    let tell = |judged: Result<Judged, Trouble>| {
        let (status, line) = match judged {
            Ok(judged) => told(form, &judged, &mut totals),
            Err(trouble) => told_trouble(form, &trouble),
        };
        worst = worst.max(status);
        out.write_all(line.as_bytes())
    };
    in_order(files, jobs, judged_file, &mut progress(files.len()), tell)?;
    match form {
        Form::Json if files.len() > 1 => writeln!(out, "{}", totals_object(&totals))?,
        Form::Json => {}
        _ => writeln!(out, "{}", text::totals(&totals))?,
    }
    Ok(worst)
}

/// A file's status and line; its notes are said, and it counts.
fn told(form: Form, judged: &Judged, totals: &mut Totals) -> (Status, String) {
    let Judged { source, answer } = judged;
    say_all(&source.notes);
    totals.add(answer);
    let line = match form {
        Form::Json => object(source, answer).to_string(),
        _ => text::line(source, answer),
    };
    (status(answer), line + "\n")
}

/// The status and line of a file that cannot be read, which is said.
fn told_trouble(form: Form, unread: &Trouble) -> (Status, String) {
    let Trouble { name, sentence } = unread;
    let line = match form {
        Form::Json => format!("{}\n", about(name, "trouble").text("sentence", sentence)),
        _ => String::new(),
    };
    (trouble(sentence), line)
}

/// A file's answer for programs.
fn object(source: &Source, answer: &Answer) -> Object {
    let Found { counts, judgement } = match answer {
        Ok(found) => found,
        Err(refusal) => return refused(&source.name, &source.bytes, refusal),
    };
    let object = about(&source.name, if judgement.met { "met" } else { "unmet" });
    summary::put(*counts, object)
        .number("opening", judgement.opening)
        .number("survivors", judgement.survivors)
}

fn totals_object(totals: &Totals) -> Object {
    Object::default()
        .number("sheets", totals.sheets())
        .number("met", totals.met)
        .number("unmet", totals.unmet)
        .number("refused", totals.refused)
        .number("survivors", totals.survivors)
}
