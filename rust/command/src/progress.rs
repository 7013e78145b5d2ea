//! How far judging is, on a terminal.

use std::io::Write;
use std::time::{Duration, Instant};

/// Work that takes no longer has no progress line.
const PATIENCE: Duration = Duration::from_secs(1);

/// A line that says how many of all things are judged, and goes away.
pub struct Progress<W: Write> {
    out: W,
    /// Whether anybody sees it.
    seen: bool,
    start: Instant,
    done: usize,
    all: usize,
    /// The length of the line as it stands there.
    drawn: usize,
}

impl<W: Write> Progress<W> {
    /// Begins with none of `all` done.
    pub fn new(out: W, seen: bool, all: usize) -> Self {
        Progress {
            out,
            seen,
            start: Instant::now(),
            done: 0,
            all,
            drawn: 0,
        }
    }

    /// One more is done.
    pub fn advance(&mut self) {
        self.done += 1;
    }

    /// Draws the line, after a while.
    pub fn draw(&mut self) {
        if self.seen && self.start.elapsed() >= PATIENCE {
            let line = format!("{} of {} judged", self.done, self.all);
            self.write(&format!("\r{line}"));
            self.drawn = line.len();
        }
    }

    /// Takes the line away.
    pub fn erase(&mut self) {
        if self.drawn > 0 {
            self.write(&format!("\r{:width$}\r", "", width = self.drawn));
            self.drawn = 0;
        }
    }

    /// Nothing depends on the line, so an error in writing it is no trouble.
    fn write(&mut self, text: &str) {
        let _ = self.out.write_all(text.as_bytes());
        let _ = self.out.flush();
    }
}

#[cfg(test)]
mod tests {
    use super::*;

    /// What is written for two of twelve, erased twice.
    fn written(seen: bool, since: Duration) -> String {
        let mut out = Vec::new();
        let mut progress = Progress::new(&mut out, seen, 12);
        progress.start -= since;
        progress.erase();
        progress.draw();
        progress.advance();
        progress.advance();
        progress.draw();
        progress.erase();
        progress.erase();
        String::from_utf8(out).expect("text")
    }

    #[test]
    fn after_a_second_the_line_is_drawn_and_goes_away() {
        let expected = "\r0 of 12 judged\r2 of 12 judged\r              \r";
        assert_eq!(written(true, PATIENCE), expected);
    }

    #[test]
    fn before_that_or_unseen_nothing_is_written() {
        assert_eq!(written(true, Duration::ZERO), "");
        assert_eq!(written(false, PATIENCE), "");
    }
}
