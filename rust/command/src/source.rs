//! A sheet from a file: OWL text, hex text, or else raw bytes; and a plant, which is
//! no OWL text.

use crate::hex::{is_blank, Fault, Reader};
use crate::owl::{is_text, LIMIT};
use crate::plant::ITEM;
use lodhrussi::Refusal;
use std::ffi::OsStr;
use std::fs::File;
use std::io::{self, ErrorKind, Read};

/// So many bytes of a sheet are kept. They decide every answer: a sheet has at
/// most 255 records of at most three bytes, so a longer one is refused, and its
/// first fault starts among these.
pub const MOST: usize = 766;

/// The bytes that a plant has at most: more than one takes of 1,024 items with all
/// connections, each once.
pub const MOST_OF_PLANT: usize = 1 << 25;

/// The bytes of a sheet or a plant and where they come from.
#[derive(Clone, Debug, PartialEq, Eq)]
pub struct Source {
    /// The file as it is told to people.
    pub name: String,
    /// The sheet's first bytes, at most [`MOST`]; or a whole OWL text that is
    /// refused; or a whole plant.
    pub bytes: Vec<u8>,
    /// Why an OWL text is no sheet.
    pub refusal: Option<Refusal>,
    /// What to say of the file on standard error, a clause each.
    pub notes: Vec<String>,
}

impl Source {
    /// Reads the sheet in a file, or in standard input for `-`. The error is a
    /// clause.
    pub fn read(file: &OsStr) -> Result<Source, String> {
        Self::read_by(Self::take, file)
    }

    /// Reads the sheet of the OWL text in a file, or in standard input for `-`,
    /// whatever it begins with. The error is a clause.
    pub fn read_text(file: &OsStr) -> Result<Source, String> {
        Self::read_by(Self::take_text, file)
    }

    /// Reads the plant in a file, or in standard input for `-`. The error is a
    /// clause.
    pub fn read_plant(file: &OsStr) -> Result<Source, String> {
        Self::read_by(Self::take_plant, file)
    }

    fn read_by(take: Take, file: &OsStr) -> Result<Source, String> {
        let name = name(file);
        let read = match file.to_str() {
            Some("-") => take(&name, &mut io::stdin().lock()),
            _ => File::open(file).and_then(|mut file| take(&name, &mut file)),
        };
        read.map_err(|error| unreadable(&name, &error))
    }

    /// Reads as much of the input as decides.
    fn take(name: &str, input: &mut dyn Read) -> io::Result<Source> {
        let mut input = Chunks::of(input);
        let mut front = Vec::new();
        if input.is_text(&mut front)? {
            return Ok(Self::of_text(name, input.whole(front)?));
        }
        let mut content = Content::of_at_most(MOST);
        content.take_all(&front);
        input.fill(&mut content)?;
        Ok(content.source(name))
    }

    /// Reads a plant to its end, or until it is too long.
    fn take_plant(name: &str, input: &mut dyn Read) -> io::Result<Source> {
        let mut content = Content::of_at_most(MOST_OF_PLANT + 1);
        content.full_text_decides = true;
        Chunks::of(input).fill(&mut content)?;
        // what begins with an item was not meant as text either
        content.control |= content.raw.first() == Some(&ITEM);
        let source = content.source(name);
        match source.bytes.len() > MOST_OF_PLANT {
            true => Err(io::Error::other("longer than 32 MB")),
            false => Ok(source),
        }
    }

    /// Reads an OWL text to its end.
    fn take_text(name: &str, input: &mut dyn Read) -> io::Result<Source> {
        let text = Chunks::of(input).whole(Vec::new())?;
        Ok(Self::of_text(name, text))
    }

    fn of_text(name: &str, text: Vec<u8>) -> Source {
        let (bytes, refusal) = match lodhrussi::imported(&text) {
            Ok(sheet) => (sheet, None),
            Err(refusal) => (text, Some(refusal)),
        };
        Source {
            name: name.into(),
            bytes,
            refusal,
            notes: vec![],
        }
    }

    /// The sheet's bytes.
    ///
    /// # Errors
    ///
    /// The refusal of an OWL text.
    pub fn sheet(&self) -> Result<&[u8], Refusal> {
        self.refusal.map_or(Ok(&self.bytes), Err)
    }
}

/// How a source is made of a name and an input.
type Take = fn(&str, &mut dyn Read) -> io::Result<Source>;

/// An input, chunk by chunk.
struct Chunks<'a> {
    input: &'a mut dyn Read,
    chunk: Box<[u8]>,
    ended: bool,
}

impl<'a> Chunks<'a> {
    fn of(input: &'a mut dyn Read) -> Self {
        Chunks {
            input,
            chunk: vec![0; 1 << 14].into(),
            ended: false,
        }
    }

    /// The next bytes; none at the end.
    fn next(&mut self) -> io::Result<&[u8]> {
        while !self.ended {
            match self.input.read(&mut self.chunk) {
                Ok(0) => self.ended = true,
                Ok(n) => return Ok(&self.chunk[..n]),
                Err(error) if error.kind() == ErrorKind::Interrupted => {}
                Err(error) => return Err(error),
            }
        }
        Ok(&[])
    }

    /// Reads into a content until more would change nothing.
    fn fill(&mut self, content: &mut Content) -> io::Result<()> {
        while !content.decided() {
            match self.next()? {
                [] => break,
                bytes => content.take_all(bytes),
            }
        }
        Ok(())
    }

    /// Reads until it is decided whether this is OWL text.
    fn is_text(&mut self, front: &mut Vec<u8>) -> io::Result<bool> {
        while front.len() <= LIMIT {
            let more = self.next()?;
            front.extend(more);
            // at the end the first word ends too
            let decided = match more {
                [] => Some(is_text(&[front, &b" "[..]].concat()) == Some(true)),
                _ => is_text(front),
            };
            if let Some(is_text) = decided {
                return Ok(is_text);
            }
        }
        Ok(false)
    }

    /// The front of an OWL text and the rest.
    fn whole(&mut self, mut front: Vec<u8>) -> io::Result<Vec<u8>> {
        while front.len() <= LIMIT {
            match self.next()? {
                [] => return Ok(front),
                more => front.extend(more),
            }
        }
        Err(io::Error::other("longer than 4 MB"))
    }
}

/// A clause about a file that cannot be read.
pub fn unreadable(name: &str, error: &io::Error) -> String {
    match error.kind() {
        ErrorKind::NotFound => format!("there is no file {name}"),
        ErrorKind::IsADirectory => format!("{name} is a folder"),
        _ => format!("{name} cannot be read: {error}"),
    }
}

/// A file as it is told to people.
pub fn name(file: &OsStr) -> String {
    match file.to_str() {
        Some("-") => "standard input".into(),
        Some("") => "''".into(),
        _ => file.to_string_lossy().into_owned(),
    }
}

/// A file's content, so far: as raw bytes and as hex text.
struct Content {
    /// So many bytes are kept of each.
    most: usize,
    /// Whether text that fills what is kept decides, since a fault behind it would
    /// change nothing.
    full_text_decides: bool,
    raw: Vec<u8>,
    text: Vec<u8>,
    reader: Reader,
    /// Why it is no hex text.
    fault: Option<Fault>,
    /// A control character that is no blank was among the bytes.
    control: bool,
}

impl Content {
    fn of_at_most(most: usize) -> Self {
        Content {
            most,
            full_text_decides: false,
            raw: Vec::new(),
            text: Vec::new(),
            reader: Reader::new(),
            fault: None,
            control: false,
        }
    }

    /// Whether more would change nothing.
    fn decided(&self) -> bool {
        let is_full = |bytes: &[u8]| bytes.len() == self.most;
        self.fault.is_some() && is_full(&self.raw) || self.full_text_decides && is_full(&self.text)
    }

    fn take_all(&mut self, bytes: &[u8]) {
        for &byte in bytes {
            if self.decided() {
                return;
            }
            self.take(byte);
        }
    }

    fn take(&mut self, byte: u8) {
        self.control |= byte < b' ' && !is_blank(byte);
        keep(&mut self.raw, byte, self.most);
        if self.fault.is_some() {
            return;
        }
        match self.reader.take(byte) {
            Ok(Some(pair)) => keep(&mut self.text, pair, self.most),
            Ok(None) => {}
            Err(fault) => self.fault = Some(fault),
        }
    }

    /// The sheet or plant, after the last byte that decides.
    fn source(self, name: &str) -> Source {
        let fault = self.fault.or_else(|| self.reader.end().err());
        let bytes = if fault.is_some() { self.raw } else { self.text };
        // what has no control characters was almost surely meant as hex text
        let notes = fault.filter(|_| !self.control).map(|fault| {
            let file = if name == "standard input" {
                "it"
            } else {
                "the file"
            };
            format!("{name}: {fault}; taking {file} as raw bytes")
        });
        Source {
            name: name.into(),
            bytes,
            refusal: None,
            notes: notes.into_iter().collect(),
        }
    }
}

/// Puts a byte at the end, if there is room.
fn keep(bytes: &mut Vec<u8>, byte: u8, most: usize) {
    if bytes.len() < most {
        bytes.push(byte);
    }
}

#[cfg(test)]
mod tests {
    use super::*;
    use comparison::random::Random;
    use comparison::{damage, made_up, owl, worked};

    fn source(mut content: &[u8]) -> Source {
        Source::take("f", &mut content).expect("bytes in memory are read")
    }

    /// Asserts that a content is the sheet itself, with these notes.
    #[track_caller]
    fn assert_raw(content: &[u8], notes: &[&str]) {
        let Source {
            bytes, notes: said, ..
        } = source(content);
        assert_eq!(bytes, content[..content.len().min(MOST)]);
        assert_eq!(said, notes);
    }

    /// Asserts that a content is hex text of a sheet.
    #[track_caller]
    fn assert_text(content: &[u8], sheet: &[u8]) {
        let Source { bytes, notes, .. } = source(content);
        assert_eq!(bytes, sheet[..sheet.len().min(MOST)]);
        assert_eq!(notes, [""; 0]);
    }

    fn hex(sheet: &[u8]) -> String {
        sheet.iter().map(|byte| format!("{byte:02x} ")).collect()
    }

    #[test]
    fn sheets_without_a_fault_go_round_raw_and_as_text() {
        let mut random = Random::seeded(90);
        let made_up = (0..2_000).map(|_| made_up::sheet(&mut random).bytes);
        let mut raw = 0;
        for sheet in worked::all().chain(made_up) {
            assert_text(hex(&sheet).as_bytes(), &sheet);
            if lodhrussi::read(&sheet).is_ok() {
                assert_raw(&sheet, &[]);
                raw += 1;
            }
        }
        assert!(raw > 1_000, "{raw} sheets without a fault");
    }

    /// Bytes of noise go round as text, and are themselves where they are no
    /// hex text.
    #[test]
    fn noise() {
        let mut random = Random::seeded(91);
        for _ in 0..2_000 {
            let noise = damage::noise(&mut random);
            assert_text(hex(&noise).as_bytes(), &noise);
            let fault = "\u{1}G".as_bytes();
            assert_raw(&[&noise[..], b"\n", fault].concat(), &[]);
        }
    }

    #[test]
    fn text_with_a_fault_is_raw_with_a_note() {
        let note = "f: line 2, column 4: 'G' is no hex digit; taking the file as raw bytes";
        assert_raw(b"01 # \xC3\xA9\n10 G", &[note]);
        let note = "f: line 1, column 4: the hex digit '1' stands alone, and a byte takes two; \
                    taking the file as raw bytes";
        assert_raw(b"01 1", &[note]);
        assert_raw(b"01 1\x01", &[]);
        assert_raw(b"\x0001 1", &[]);
    }

    #[test]
    fn so_much_is_kept_and_no_more() {
        assert_raw(&[1; MOST - 1], &[]);
        assert_raw(&[1; MOST], &[]);
        assert_raw(&[1; MOST + 1], &[]);
        assert_text(&b"01".repeat(MOST + 1), &[1; MOST + 1]);
        // a fault after what is kept of the text
        let content = [b"01".repeat(MOST + 1), b"G".to_vec()].concat();
        let note = "f: line 1, column 1535: 'G' is no hex digit; taking the file as raw bytes";
        assert_raw(&content, &[note]);
    }

    /// An input that gives its bytes one at a time, and panics if more are asked
    /// for than it has.
    struct Sparing(Vec<u8>);

    impl Read for Sparing {
        fn read(&mut self, buffer: &mut [u8]) -> io::Result<usize> {
            buffer[0] = self.0.remove(0);
            Ok(1)
        }
    }

    #[test]
    fn no_more_is_read_than_decides() {
        for content in [vec![0; MOST], [vec![b'0'; MOST], vec![b'0', b'G']].concat()] {
            let expected = source(&content);
            let spared = Source::take("f", &mut Sparing(content));
            assert_eq!(spared.expect("bytes in memory are read"), expected);
        }
    }

    /// An input that gives its bytes one at a time.
    struct Slow<'a>(&'a [u8]);

    impl Read for Slow<'_> {
        fn read(&mut self, buffer: &mut [u8]) -> io::Result<usize> {
            self.0.read(&mut buffer[..1])
        }
    }

    #[test]
    fn owl_texts_are_imported() {
        let mut random = Random::seeded(93);
        let mut refused = 0;
        for turn in 0..300 {
            let text = match turn % 2 {
                0 => owl::text(&mut random),
                _ => owl::damaged(&mut random),
            };
            let text = [b"SubClassOf(:t0 :t1)\n", &text[..]].concat();
            let found = source(&text);
            assert_eq!(
                found.sheet(),
                found.refusal.map_or(Ok(&found.bytes[..]), Err)
            );
            match lodhrussi::imported(&text) {
                Ok(sheet) => assert_eq!((found.bytes, found.refusal), (sheet, None)),
                Err(refusal) => {
                    assert_eq!((&found.bytes, found.refusal), (&text, Some(refusal)));
                    refused += 1;
                }
            }
            let slow = Source::take("f", &mut Slow(&text));
            assert_eq!(slow.expect("bytes in memory are read"), source(&text));
        }
        assert!((60..=240).contains(&refused), "{refused} texts");
    }

    /// The end of a file ends its first word.
    #[test]
    fn beginnings_of_owl_texts() {
        let text = b"\n SubClassOf(";
        for end in 0..=text.len() {
            let found = source(&text[..end]);
            let is_text = found.refusal.is_some();
            assert_eq!(is_text, end >= text.len() - 1, "{end} bytes");
        }
        assert_eq!(source(b"SubClassOf").bytes, b"SubClassOf");
        assert_eq!(source(b"Prefix\n").refusal.map(|r| r.number), Some(18));
    }

    fn plant(mut content: &[u8]) -> Source {
        Source::take_plant("f", &mut content).expect("bytes in memory are read")
    }

    /// Plants go round, longer than a sheet too; what begins with an item is raw
    /// without a note, and what has a fault is raw with one.
    #[test]
    fn plants_go_round_raw_and_as_text() {
        let mut random = Random::seeded(97);
        for _ in 0..300 {
            let count = random.below(2 * MOST);
            let bytes = [&[ITEM][..], &random.bytes(count)].concat();
            for content in [&bytes, &hex(&bytes).into_bytes()] {
                let Source {
                    bytes: taken,
                    notes,
                    ..
                } = plant(content);
                assert_eq!((&taken, &notes[..]), (&bytes, &[][..]));
            }
        }
        let raw = plant(b"@!\n");
        assert_eq!((&raw.bytes[..], &raw.notes[..]), (&b"@!\n"[..], &[][..]));
        let note = "f: line 1, column 4: 'x' is no hex digit; taking the file as raw bytes";
        let raw = plant(b"40 x");
        assert_eq!(
            (&raw.bytes[..], &raw.notes[..]),
            (&b"40 x"[..], &[note.to_string()][..])
        );
        assert_eq!(plant(b"").bytes, []);
        // no plant is OWL text
        assert_eq!(plant(b"SubClassOf(:t0 :t1)").refusal, None);
    }

    #[test]
    fn a_plant_that_is_too_long() {
        let take = |bytes: &[u8]| Source::take_plant("f", &mut &bytes[..]);
        let longest = vec![ITEM; MOST_OF_PLANT];
        let taken = take(&longest).expect("bytes in memory are read");
        assert_eq!(taken.bytes, longest);
        let text = b"40".repeat(MOST_OF_PLANT);
        let taken = take(&text).expect("bytes in memory are read");
        assert!(taken.bytes == longest);
        for longer in [
            vec![ITEM; MOST_OF_PLANT + 1],
            b"40".repeat(MOST_OF_PLANT + 1),
        ] {
            let error = take(&longer).expect_err("too long");
            assert_eq!(error.to_string(), "longer than 32 MB");
        }
        // endless raw bytes, and endless hex text
        for byte in [ITEM, b'0'] {
            let error = Source::take_plant("f", &mut io::repeat(byte)).expect_err("too long");
            assert_eq!(error.to_string(), "longer than 32 MB");
        }
    }

    #[test]
    fn files_that_cannot_be_read() {
        let read = |file: &str| Source::read(OsStr::new(file)).expect_err("no file");
        assert_eq!(read("/nowhere/at all"), "there is no file /nowhere/at all");
        assert_eq!(read(""), "there is no file ''");
        assert_eq!(read("/"), "/ is a folder");
        let below = concat!(env!("CARGO_MANIFEST_DIR"), "/Cargo.toml/x");
        assert_eq!(
            read(below),
            format!("{below} cannot be read: Not a directory (os error 20)")
        );
    }
}
