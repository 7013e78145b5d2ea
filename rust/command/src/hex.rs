//! Hex text: pairs of hex digits parted by blanks or not at all, and comments
//! that go from `#` to the end of the line. A byte order mark may stand at the
//! front.

use std::fmt;

/// UTF-8's byte order mark.
pub const MARK: [u8; 3] = [0xEF, 0xBB, 0xBF];

/// Whether a byte parts pairs: space, tab, line feed, vertical tab, form feed
/// and carriage return.
pub fn is_blank(byte: u8) -> bool {
    matches!(byte, b' ' | 9..=13)
}

/// Bytes in hex, parted by spaces.
pub fn pairs(bytes: impl Iterator<Item = u8>) -> String {
    let pairs = bytes.map(|byte| format!("{byte:02X}"));
    pairs.collect::<Vec<_>>().join(" ")
}

/// Why a text is no hex text, and where. Displayed as a clause.
#[derive(Clone, Copy, Debug, PartialEq, Eq)]
pub struct Fault {
    /// Counted from 1.
    pub line: u64,
    /// In bytes, counted from 1.
    pub column: u64,
    pub what: What,
}

/// What is wrong with a text.
#[derive(Clone, Copy, Debug, PartialEq, Eq)]
pub enum What {
    /// A byte that is no digit, no blank and no comment.
    NoDigit(u8),
    /// A digit without a second one right after it.
    Alone(u8),
}

impl fmt::Display for Fault {
    fn fmt(&self, f: &mut fmt::Formatter<'_>) -> fmt::Result {
        let Fault { line, column, .. } = self;
        write!(f, "line {line}, column {column}: ")?;
        match self.what {
            What::NoDigit(byte @ b'!'..=b'~') => write!(f, "'{}' is no hex digit", byte as char),
            What::NoDigit(byte) => write!(f, "the byte {byte:02X} is no hex digit"),
            What::Alone(digit) => {
                let digit = digit as char;
                write!(
                    f,
                    "the hex digit '{digit}' stands alone, and a byte takes two"
                )
            }
        }
    }
}

/// Where in the text the reader is.
#[derive(Clone, Copy, Debug, PartialEq, Eq)]
enum State {
    /// At the front, after so many bytes of the byte order mark.
    Front(usize),
    Between,
    /// After the first digit of a pair.
    Half(u8),
    Comment,
}

/// Reads hex text byte by byte, up to its first fault.
#[derive(Clone, Debug)]
pub struct Reader {
    line: u64,
    /// Of the next byte.
    column: u64,
    state: State,
}

impl Reader {
    pub fn new() -> Self {
        Reader {
            line: 1,
            column: 1,
            state: State::Front(0),
        }
    }

    /// Takes the next byte of the text; answers the byte of the pair that it
    /// ends.
    pub fn take(&mut self, byte: u8) -> Result<Option<u8>, Fault> {
        match self.state {
            State::Front(passed) if byte == MARK[passed] => {
                let passed = passed + 1;
                let whole = passed == MARK.len();
                self.state = if whole {
                    State::Between
                } else {
                    State::Front(passed)
                };
                return Ok(None);
            }
            State::Front(0) => self.state = State::Between,
            _ => self.check_mark()?,
        }
        let pair = self.step(byte)?;
        (self.line, self.column) = match byte {
            b'\n' => (self.line + 1, 1),
            _ => (self.line, self.column + 1),
        };
        Ok(pair)
    }

    /// Takes the end of the text.
    pub fn end(self) -> Result<(), Fault> {
        self.check_mark()?;
        self.check_pair()
    }

    /// Takes a byte after the front.
    fn step(&mut self, byte: u8) -> Result<Option<u8>, Fault> {
        let digit = char::from(byte).is_ascii_hexdigit();
        let (state, pair) = match self.state {
            State::Comment if byte == b'\n' => (State::Between, None),
            State::Comment => (State::Comment, None),
            State::Half(first) if digit => (State::Between, Some(value(first) << 4 | value(byte))),
            _ if digit => (State::Half(byte), None),
            _ if byte == b'#' => (State::Comment, None),
            _ if is_blank(byte) => (State::Between, None),
            _ => return Err(self.fault(self.column, What::NoDigit(byte))),
        };
        if pair.is_none() {
            self.check_pair()?;
        }
        self.state = state;
        Ok(pair)
    }

    /// A byte order mark that was begun must have gone on.
    fn check_mark(&self) -> Result<(), Fault> {
        match self.state {
            State::Front(1..) => Err(self.fault(1, What::NoDigit(MARK[0]))),
            _ => Ok(()),
        }
    }

    /// A pair that was begun must have gone on.
    fn check_pair(&self) -> Result<(), Fault> {
        match self.state {
            State::Half(first) => Err(self.fault(self.column - 1, What::Alone(first))),
            _ => Ok(()),
        }
    }

    fn fault(&self, column: u64, what: What) -> Fault {
        Fault {
            line: self.line,
            column,
            what,
        }
    }
}

/// The value of a hex digit.
fn value(digit: u8) -> u8 {
    match digit {
        b'0'..=b'9' => digit - b'0',
        _ => (digit | 0x20) - b'a' + 10,
    }
}

#[cfg(test)]
mod tests {
    use super::*;

    /// The bytes of a hex text.
    fn read(text: &[u8]) -> Result<Vec<u8>, Fault> {
        let mut reader = Reader::new();
        let mut bytes = Vec::new();
        for &byte in text {
            bytes.extend(reader.take(byte)?);
        }
        reader.end().map(|()| bytes)
    }

    fn alone(line: u64, column: u64, digit: u8) -> Result<Vec<u8>, Fault> {
        let what = What::Alone(digit);
        Err(Fault { line, column, what })
    }

    fn no_digit(line: u64, column: u64, byte: u8) -> Result<Vec<u8>, Fault> {
        let what = What::NoDigit(byte);
        Err(Fault { line, column, what })
    }

    #[test]
    fn every_byte_goes_round_in_both_cases() {
        for byte in 0..=u8::MAX {
            for text in [format!("{byte:02x}"), format!("{byte:02X}")] {
                assert_eq!(read(text.as_bytes()), Ok(vec![byte]));
            }
        }
    }

    #[test]
    fn bytes_go_round_with_every_part_between_them() {
        let bytes: Vec<u8> = (0..=u8::MAX).collect();
        let comment = " # 0g #\u{e9}\u{1}\r\n";
        for part in [
            "",
            " ",
            "\t",
            "\n",
            "\r\n",
            "\u{b}",
            "\u{c}",
            "  \t\r\n ",
            comment,
            "#\n",
        ] {
            let pairs = bytes.iter().map(|byte| format!("{byte:02x}{part}"));
            let text = pairs.collect::<String>();
            assert_eq!(read(text.as_bytes()), Ok(bytes.clone()), "{part:?}");
            let marked = [&MARK, part.as_bytes(), text.as_bytes()].concat();
            assert_eq!(read(&marked), Ok(bytes.clone()), "{part:?} after a mark");
        }
    }

    /// Of the beginnings of a text those that cut a pair, and those that cut the
    /// byte order mark, are at fault; the others have the bytes so far.
    #[test]
    fn every_beginning_of_a_text() {
        let text = [
            &MARK,
            &b"# S1\r\n01 10\t00#c 1\r\n\n0300\x0B0701 02\x0C20 00 03"[..],
        ]
        .concat();
        let whole = [1, 0x10, 0, 3, 0, 7, 1, 2, 0x20, 0, 3];
        assert_eq!(read(&text), Ok(whole.to_vec()));
        let (mut good, mut cut) = (0, 0);
        for end in 0..=text.len() {
            match read(&text[..end]) {
                Ok(bytes) => {
                    assert_eq!(bytes, whole[..bytes.len()], "the first {end} bytes");
                    good += 1;
                }
                Err(fault) if end < 3 => {
                    assert_eq!(Err(fault), no_digit(1, 1, 0xEF));
                    cut += 1;
                }
                Err(fault) => {
                    assert_eq!(
                        fault.what,
                        What::Alone(text[end - 1]),
                        "the first {end} bytes"
                    );
                    cut += 1;
                }
            }
        }
        assert_eq!(
            (good, cut),
            (text.len() + 1 - 2 - whole.len(), 2 + whole.len())
        );
    }

    #[test]
    fn texts_without_a_byte() {
        for text in [
            "",
            " ",
            "\r\n\t\u{b}\u{c}",
            "#",
            "# 01 02",
            "#\u{0}\u{7f}\u{e9}",
            "\n# G\n",
        ] {
            assert_eq!(read(text.as_bytes()), Ok(vec![]), "{text:?}");
        }
        assert_eq!(read(&MARK), Ok(vec![]));
    }

    #[test]
    fn a_digit_alone_has_its_line_and_column() {
        let rows: [(&[u8], _); 9] = [
            (b"0", alone(1, 1, b'0')),
            (b"01 1", alone(1, 4, b'1')),
            (b"011", alone(1, 3, b'1')),
            (b"01 1 0", alone(1, 4, b'1')),
            (b"01\n\n a\n", alone(3, 2, b'a')),
            (b"01\r\n1\r\n", alone(2, 1, b'1')),
            (b"\t\t1\t0", alone(1, 3, b'1')),
            (b"# 1\n01 F# 1", alone(2, 4, b'F')),
            (b"\xEF\xBB\xBF0\n0", alone(1, 1, b'0')),
        ];
        for (text, fault) in rows {
            assert_eq!(read(text), fault, "{}", text.escape_ascii());
        }
    }

    #[test]
    fn what_is_no_digit_has_its_line_and_column() {
        let rows: [(&[u8], _); 9] = [
            (b"G", no_digit(1, 1, b'G')),
            (b"01 0G", no_digit(1, 5, b'G')),
            (b"01 # g\n02\n\t0x03", no_digit(3, 3, b'x')),
            (b"01,02", no_digit(1, 3, b',')),
            (b"01\r\n\r\n-", no_digit(3, 1, b'-')),
            (b"\x01", no_digit(1, 1, 1)),
            (b"01 \xC2\xA002", no_digit(1, 4, 0xC2)),
            (b"\xEF\xBB\xBF\xEF\xBB\xBF", no_digit(1, 1, 0xEF)),
            (b"\xEF\xBB01", no_digit(1, 1, 0xEF)),
        ];
        for (text, fault) in rows {
            assert_eq!(read(text), fault, "{}", text.escape_ascii());
        }
    }

    /// One byte alone is hex text precisely if it is a blank or begins a
    /// comment.
    #[test]
    fn every_single_byte() {
        for byte in 0..=u8::MAX {
            let expected = match byte {
                b'#' | b' ' | b'\t' | b'\n' | 0x0B | 0x0C | b'\r' => Ok(vec![]),
                b'0'..=b'9' | b'a'..=b'f' | b'A'..=b'F' => alone(1, 1, byte),
                _ => no_digit(1, 1, byte),
            };
            assert_eq!(read(&[byte]), expected, "{byte:02X}");
        }
    }

    #[test]
    fn faults_are_told() {
        let told = |text: &[u8]| read(text).expect_err("a fault").to_string();
        assert_eq!(told(b"\n\n01 0G"), "line 3, column 5: 'G' is no hex digit");
        assert_eq!(
            told(b"\x7F"),
            "line 1, column 1: the byte 7F is no hex digit"
        );
        assert_eq!(
            told(b"01 1"),
            "line 1, column 4: the hex digit '1' stands alone, and a byte takes two"
        );
    }
}
