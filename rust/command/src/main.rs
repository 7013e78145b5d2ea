//! The command `lodhrussi`: judges and shows sheets, strikes pairings, checks and
//! draws plants, and takes sheets from and to OWL text.

mod answer;
mod arguments;
mod check;
mod count;
mod draw;
mod evaluation;
mod export;
mod help;
mod hex;
mod import;
mod json;
mod judge;
mod lines;
mod members;
mod names;
mod owl;
mod parts;
mod picture;
mod plant;
mod pool;
mod progress;
mod say;
mod sheet;
mod show;
mod source;
mod status;
mod strike;
mod summary;
mod tree;

use arguments::Question;
use say::say;
use status::Status;
use std::env;
use std::io::{self, Write};
use std::process::ExitCode;

fn main() -> ExitCode {
    let status = match arguments::parse(env::args_os().skip(1)) {
        Ok(question) => answer(&question),
        Err(sentence) => {
            say(&sentence);
            Status::Trouble
        }
    };
    ExitCode::from(status as u8)
}

/// The command and its version.
const VERSION: &str = concat!("lodhrussi ", env!("CARGO_PKG_VERSION"), "\n");

/// Answers on standard output.
fn answer(question: &Question) -> Status {
    let mut out = io::stdout().lock();
    let answered = match question {
        Question::Help(topic) => told(&topic.text(), &mut out),
        Question::Version => told(VERSION, &mut out),
        Question::Judge(options) => judge::run(options, &mut out),
        Question::Show(options) => show::run(options, &mut out),
        Question::Strike(options) => strike::run(options, &mut out),
        Question::Check(options) => check::run(options, &mut out),
        Question::Draw(options) => draw::run(options, &mut out),
        Question::Import(options) => import::run(options, &mut out),
        Question::Export(options) => export::run(options, &mut out),
    };
    match answered.and_then(|status| out.flush().map(|()| status)) {
        Ok(status) => status,
        Err(error) => {
            say(&format!("the answer cannot be written: {error}"));
            Status::Trouble
        }
    }
}

/// Answers with a text.
fn told(text: &str, out: &mut dyn Write) -> io::Result<Status> {
    out.write_all(text.as_bytes())?;
    Ok(Status::Answered)
}
