//! Strikes dominoes (document 01: pairings) one after another.

#[cfg(test)]
mod tests;

use crate::arguments::Strike;
use crate::json::Object;
use crate::members::{list, member_object, members, role_object, roles, Member};
use crate::names::Names;
use crate::parts::{parts, Part};
use crate::picture::told;
use crate::sheet::{trouble, Sheet};
use crate::status::Status;
use lodhrussi::{words_needed, Counts, Refusal, Verdict};
use std::io::{self, Write};

/// Opens a sheet's set and strikes the numbers in turn, each on the set as the
/// last one left it.
///
/// # Errors
///
/// Standard output cannot be written.
pub fn run(options: &Strike, out: &mut dyn Write) -> io::Result<Status> {
    let file = &options.file;
    match Sheet::read(file, options.names.as_deref(), options.json) {
        Ok(sheet) => strike(&sheet, &options.numbers, out),
        Err(sentence) => trouble(file, &sentence, options.json, out),
    }
}

fn strike(sheet: &Sheet, numbers: &[u64], out: &mut dyn Write) -> io::Result<Status> {
    match Opened::of(sheet) {
        Ok(mut opened) => opened.strike_all(numbers, out),
        Err(refusal) => sheet.tell_refused(&refusal, out),
    }
}

/// A sheet and its set, as the strikes so far left it.
struct Opened<'a> {
    sheet: &'a Sheet,
    counts: Counts,
    parts: Vec<Part>,
    set: Vec<u64>,
}

impl<'a> Opened<'a> {
    fn of(sheet: &'a Sheet) -> Result<Self, Refusal> {
        let bytes = sheet.sheet()?;
        let counts = lodhrussi::read(bytes)?;
        let mut set = vec![0; words_needed(counts)];
        lodhrussi::open(bytes, &mut set)?;
        Ok(Opened {
            sheet,
            counts,
            parts: parts(bytes, counts)?,
            set,
        })
    }

    fn strike_all(&mut self, numbers: &[u64], out: &mut dyn Write) -> io::Result<Status> {
        let mut status = Status::Answered;
        for &number in numbers {
            match lodhrussi::strike(&self.sheet.bytes, &mut self.set, number) {
                Ok(strike) => self.tell(number, strike.verdict, out)?,
                Err(refusal) => {
                    self.tell_refused(number, &refusal, out)?;
                    status = Status::Refused;
                }
            }
        }
        Ok(status)
    }

    fn tell(&self, number: u64, verdict: Verdict, out: &mut dyn Write) -> io::Result<()> {
        let domino = Domino::of(number, self.counts);
        let words = Words::of(domino, &self.parts, &self.sheet.names);
        if self.sheet.json {
            let object = self.sheet.object(answer(verdict)).number("pairing", number);
            return writeln!(out, "{}", words.put(with_condition(object, verdict)));
        }
        match verdict {
            Verdict::Struck { condition } => writeln!(
                out,
                "{number}: struck by condition {}, {}: {condition}",
                condition.number(),
                condition.name()
            )?,
            verdict => writeln!(out, "{number}: {}", answer(verdict))?,
        }
        write!(out, "{}", words.text())
    }

    fn tell_refused(&self, number: u64, refusal: &Refusal, out: &mut dyn Write) -> io::Result<()> {
        if self.sheet.json {
            let object = self.sheet.refused(refusal).number("pairing", number);
            return writeln!(out, "{object}");
        }
        let sentence = refusal.explain(&self.sheet.bytes);
        writeln!(out, "{number}: {}: {sentence}", told(refusal))
    }
}

fn answer(verdict: Verdict) -> &'static str {
    match verdict {
        Verdict::Absent => "absent",
        Verdict::Struck { .. } => "struck",
        Verdict::Kept => "kept",
    }
}

fn with_condition(object: Object, verdict: Verdict) -> Object {
    match verdict {
        Verdict::Struck { condition } => object
            .number("condition", condition.number())
            .text("name", condition.name())
            .text("sentence", &condition.to_string()),
        Verdict::Absent | Verdict::Kept => object,
    }
}

/// A domino taken apart; sets as bits.
#[derive(Clone, Copy, Debug, PartialEq, Eq)]
struct Domino {
    left: u64,
    roles: u64,
    right: u64,
}

impl Domino {
    fn of(number: u64, counts: Counts) -> Self {
        let low = |bits: u64, number: u64| number & ((1 << bits) - 1);
        let (label, roles) = (counts.marks(), 2 * counts.links);
        Domino {
            left: low(label, number >> (roles + label)),
            roles: low(roles, number >> label),
            right: low(label, number),
        }
    }
}

/// A domino in words.
struct Words {
    left: Vec<Member>,
    roles: Vec<Member>,
    right: Vec<Member>,
}

impl Words {
    fn of(domino: Domino, parts: &[Part], names: &Names) -> Self {
        let part = |bit: u8| parts[usize::from(bit)].tree.text(names);
        Words {
            left: members(domino.left, &part),
            roles: roles(domino.roles, names),
            right: members(domino.right, &part),
        }
    }

    fn text(&self) -> String {
        format!(
            "  left marks {}\n  links {}\n  right marks {}\n",
            list(&self.left),
            list(&self.roles),
            list(&self.right)
        )
    }

    /// Puts them into an object.
    fn put(&self, object: Object) -> Object {
        let part = |member| member_object("mark", member);
        object
            .objects("left", self.left.iter().map(part))
            .objects("links", self.roles.iter().map(role_object))
            .objects("right", self.right.iter().map(part))
    }
}
