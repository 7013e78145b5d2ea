//! Sheets as files: raw bytes and hex text.

use comparison::random::Random;

/// Whether a file of these bytes is hex text: blanks, comments, and pairs of
/// hex digits, after a byte order mark or not.
pub fn is_hex_text(bytes: &[u8]) -> bool {
    let bytes = bytes.strip_prefix("\u{FEFF}".as_bytes()).unwrap_or(bytes);
    bytes.split(|&byte| byte == b'\n').all(|line| {
        let written = line.split(|&byte| byte == b'#').next().unwrap_or_default();
        let mut words = written.split(|&byte| byte == b' ' || (9..=13).contains(&byte));
        words.all(|word| word.len() % 2 == 0 && word.iter().all(u8::is_ascii_hexdigit))
    })
}

/// A sheet as hex text, laid out in any way.
pub fn hex_text(sheet: &[u8], random: &mut Random) -> Vec<u8> {
    const BLANKS: [&str; 10] = [
        "", "", " ", " ", "  ", "\t", "\r\n", "\n", "\x0B\x0C", " # 0G\n",
    ];
    let mark = if random.one_in(8) { "\u{FEFF}" } else { "" };
    let mut text = String::from(mark);
    for byte in sheet {
        text += random.pick(&BLANKS);
        text += &if random.one_in(2) {
            format!("{byte:02X}")
        } else {
            format!("{byte:02x}")
        };
    }
    text += random.pick(&["", "\n", "\r\n", "#", " # the end"]);
    text.into_bytes()
}

/// Whether there is a control character other than the blanks of hex text.
pub fn has_control(bytes: &[u8]) -> bool {
    bytes.iter().any(|byte| matches!(byte, 0..=8 | 14..=31))
}

/// A file with this sheet: hex text, or raw bytes if these are not taken for
/// text.
pub fn file(sheet: &[u8], random: &mut Random) -> Vec<u8> {
    if is_hex_text(sheet) || !has_control(sheet) || random.one_in(2) {
        return hex_text(sheet, random);
    }
    sheet.to_vec()
}

#[test]
fn texts_are_told_from_raw_bytes() {
    for text in ["", " \t\r\n\x0B\x0C", "0aF0 # g\n#\n 1b", "\u{FEFF}00"] {
        assert!(is_hex_text(text.as_bytes()), "{text:?}");
    }
    for text in ["0", "0 0", "0#\n0", "0g", "\u{1}", " \u{FEFF}", "00\n1"] {
        assert!(!is_hex_text(text.as_bytes()), "{text:?}");
    }
}
