//! The picture of a plant, as Graphviz's program `dot` draws it.

use crate::source::name;
use std::ffi::{OsStr, OsString};
use std::fs::{self, File, Permissions};
use std::io::{self, ErrorKind, Write};
use std::path::{Path, PathBuf};
use std::process::{self, Command, Output, Stdio};
use std::thread;

/// The SVG of a DOT text. The error is a clause.
pub fn drawn(dot: &str) -> Result<Vec<u8>, String> {
    let output = run(dot).map_err(|error| match error.kind() {
        ErrorKind::NotFound => {
            "a picture is drawn by Graphviz, and there is no program dot on the PATH; \
             --dot prints the text that dot takes"
                .into()
        }
        _ => format!("Graphviz's program dot cannot be run: {error}"),
    })?;
    match (output.status.success(), output.stdout) {
        (true, picture) if !picture.is_empty() => Ok(picture),
        _ => Err(format!(
            "Graphviz's program dot drew no picture ({})",
            output.status
        )),
    }
}

/// Runs `dot` on a text. What it has to say goes to standard error.
fn run(dot: &str) -> io::Result<Output> {
    let mut child = Command::new("dot")
        .arg("-Tsvg")
        .stdin(Stdio::piped())
        .stdout(Stdio::piped())
        .spawn()?;
    let input = child.stdin.take();
    thread::scope(|scope| {
        scope.spawn(move || {
            // one that reads no more tells why by its exit status
            let _ = input.map(|mut input| input.write_all(dot.as_bytes()));
        });
        child.wait_with_output()
    })
}

/// Puts a picture into a file, whole or not at all. The error is a clause.
pub fn save(file: &OsStr, picture: &[u8]) -> Result<(), String> {
    let written = write(Path::new(file), picture);
    written.map_err(|error| format!("{} cannot be written: {error}", name(file)))
}

fn write(file: &Path, bytes: &[u8]) -> io::Result<()> {
    match File::options().write(true).open(file) {
        Ok(mut there) => {
            let known = there.metadata()?;
            if !known.is_file() {
                // a device or a pipe
                return there.write_all(bytes);
            }
            replace(&fs::canonicalize(file)?, Some(known.permissions()), bytes)
        }
        Err(error) if error.kind() == ErrorKind::NotFound => match fs::read_link(file) {
            // what the link leads to is not there yet
            Ok(to) => write(&file.with_file_name(to), bytes),
            Err(_) => replace(file, None, bytes),
        },
        Err(error) => Err(error),
    }
}

/// Writes a file beside it, with these rights if any are given, which then takes its
/// place.
fn replace(file: &Path, rights: Option<Permissions>, bytes: &[u8]) -> io::Result<()> {
    let part = beside(file);
    let replaced = fill(&part, rights, bytes).and_then(|()| fs::rename(&part, file));
    if replaced.is_err() {
        let _ = fs::remove_file(&part);
    }
    replaced
}

fn fill(part: &Path, rights: Option<Permissions>, bytes: &[u8]) -> io::Result<()> {
    let mut part = File::create(part)?;
    if let Some(rights) = rights {
        part.set_permissions(rights)?;
    }
    part.write_all(bytes)
}

/// A name beside a file that no other run takes.
fn beside(file: &Path) -> PathBuf {
    let mut part = OsString::from(file);
    part.push(format!(".{}.part", process::id()));
    part.into()
}
