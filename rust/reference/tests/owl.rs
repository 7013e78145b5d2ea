//! Document 02's texts and sheets, and sheets that are exported and imported
//! again.

use comparison::owl::{suites, text, with_text};
use comparison::random::Random;
use comparison::Reference;
use reference::owl::{axioms, export, import};
use reference::written::Written;

#[test]
fn fixed_texts_and_sheets() {
    suites::fixed(&Reference);
}

#[test]
fn limits() {
    suites::most_records(&Reference);
    suites::nesting(&Reference);
}

/// The axioms of a sheet, of its text, and of the sheet of its text are the same
/// trees.
#[test]
fn axioms_stay_as_they_are() {
    let mut random = Random::seeded(35);
    let (mut sheets, mut out) = (0, [0; 1 << 14]);
    for _ in 0..1_000 {
        let sheet = with_text(&mut random);
        let written = Written::read(&sheet).expect("a sheet without faults");
        let length = export(&sheet, &mut out).expect("no Boolean role");
        let text = out[..length].to_vec();
        assert_eq!(
            text.iter().filter(|&&byte| byte == b'\n').count(),
            written.axioms.len()
        );
        let Ok(read) = axioms(&text) else {
            continue;
        };
        assert_eq!(read, written.axioms);
        let length = import(&text, &mut out).expect("at most 255 records");
        let again = Written::read(&out[..length]).expect("a sheet without faults");
        assert_eq!(again.axioms, written.axioms);
        sheets += 1;
    }
    assert!(sheets > 900, "{sheets} sheets");
}

/// So are those of a made-up text, however it is laid out.
#[test]
fn texts_are_read_as_they_are_written() {
    let mut random = Random::seeded(36);
    let (mut texts, mut out) = (0, [0; 1 << 14]);
    for _ in 0..2_000 {
        let text = text(&mut random);
        let Ok(length) = import(&text, &mut out) else {
            continue;
        };
        let written = Written::read(&out[..length]).expect("a sheet without faults");
        assert_eq!(axioms(&text), Ok(written.axioms));
        texts += 1;
    }
    assert!(texts > 1_000, "{texts} texts");
}
