//! Times import and export of full sheets, and import of long texts that are
//! none, by the product and by the reference.

use bench::sheets;
use bench::timing::{calls_in, medians};
use std::hint::black_box;
use std::time::Duration;

const BATCHES: usize = 101;
const BATCH: Duration = Duration::from_millis(2);

/// The longest sheet and the longest text.
const SHEET: usize = 765;
const TEXT: usize = 1 << 14;

fn main() {
    println!(
        "{:<34} {:>8} {:>6} {:>11} {:>13} {:>6}",
        "call", "text", "sheet", "product us", "reference us", "ratio"
    );
    for (name, text) in texts() {
        import(name, text.as_bytes());
    }
    for (name, sheet) in exported() {
        export(&name, &sheet);
    }
    for (name, text) in long_texts() {
        import(name, &text);
    }
}

/// Texts that take 255 records.
fn texts() -> [(&'static str, String); 4] {
    let claim = "ObjectSomeValuesFrom(ObjectInverseOf(:k0) owl:Nothing)";
    let (open, close) = ("ObjectComplementOf(".repeat(252), ")".repeat(252));
    let (ands, end) = ("ObjectIntersectionOf(:t0 ".repeat(126), ")".repeat(126));
    [
        ("import 85 axioms", "SubClassOf(:t10 :t11)\n".repeat(85)),
        (
            "import 252 nots",
            format!("SubClassOf({open}:t0{close} :t1)\n"),
        ),
        (
            "import 126 ands",
            format!("SubClassOf({ands}:t1{end} :t2)\n"),
        ),
        (
            "import 72 restrictions",
            format!("SubClassOf({claim} {claim})\n").repeat(36) + "SubClassOf(:t0 :t0)\n",
        ),
    ]
}

/// The sheets of those texts, and full sheets whose leaves are named often.
fn exported() -> Vec<(String, Vec<u8>)> {
    let of_text = |(name, text): (&str, String)| {
        let name = name.replace("import", "export");
        let sheet = lodhrussi::imported(text.as_bytes()).expect("a sheet");
        (name, sheet)
    };
    let texts = texts().into_iter().map(of_text);
    let named_often = sheets::all().into_iter().filter_map(|(name, sheet)| {
        let sheet = sheet.bytes().to_vec();
        let has_text = lodhrussi::exported(&sheet).is_ok();
        has_text.then(|| (format!("export {name}"), sheet))
    });
    let longest = ("export 84 axioms on 168 claims".to_string(), longest());
    texts.chain(named_often).chain([longest]).collect()
}

/// The sheet of about the longest text: axioms on two restrictions each, which
/// name the same leaves.
fn longest() -> Vec<u8> {
    let mut sheet = vec![0x11, 0, 0x02];
    for axiom in 0..84 {
        let claim = 2 + 3 * axiom;
        sheet.extend([0x07, 0, 1, 0x07, 0, 1, 0x20, claim, claim + 1]);
    }
    sheet
}

/// Texts of 1 MB that are refused.
fn long_texts() -> [(&'static str, Vec<u8>); 4] {
    const LONG: usize = 1 << 20;
    let blanks = [vec![b' '; LONG - 1], vec![b'x']].concat();
    let words = b"SubClassOf(:t0 :t0)\n".repeat(85);
    let blanks_after = [words, vec![b'\n'; LONG], vec![b'x']].concat();
    [
        ("refuse a word of 1 MB", vec![b'x'; LONG]),
        ("refuse zeros of 1 MB", vec![0; LONG]),
        ("refuse after blanks of 1 MB", blanks),
        ("refuse after a full sheet and 1 MB", blanks_after),
    ]
}

fn import(name: &str, text: &[u8]) {
    let (mut out, mut expected) = ([0; SHEET], [0; SHEET]);
    let outcome = reference::owl::import(text, &mut expected);
    let length = lodhrussi::import(text, &mut out);
    let length = length.map_err(|refusal| (refusal.number, refusal.place));
    assert_eq!(
        length,
        outcome.map_err(|refusal| (refusal.number, refusal.place))
    );
    assert_eq!(out, expected, "{name}");
    let mut product = || {
        let _ = black_box(lodhrussi::import(black_box(text), &mut out));
    };
    let mut reference = || {
        let _ = black_box(reference::owl::import(black_box(text), &mut expected));
    };
    let sheet = outcome.unwrap_or_default();
    measure(name, [text.len(), sheet], [&mut product, &mut reference]);
}

fn export(name: &str, sheet: &[u8]) {
    let (mut out, mut expected) = ([0; TEXT], [0; TEXT]);
    let length = reference::owl::export(sheet, &mut expected).expect("a text");
    assert_eq!(lodhrussi::export(sheet, &mut out), Ok(length), "{name}");
    assert_eq!(out, expected, "{name}");
    let mut product = || {
        let _ = black_box(lodhrussi::export(black_box(sheet), &mut out));
    };
    let mut reference = || {
        let _ = black_box(reference::owl::export(black_box(sheet), &mut expected));
    };
    measure(name, [length, sheet.len()], [&mut product, &mut reference]);
}

/// Times both, for a text and a sheet of these lengths.
fn measure(name: &str, [text, sheet]: [usize; 2], [product, reference]: [&mut dyn FnMut(); 2]) {
    let calls = calls_in(BATCH, product);
    let [product, reference] = medians(BATCHES, calls, [product, reference]);
    println!(
        "{name:<34} {text:>8} {sheet:>6} {:>11.1} {:>13.1} {:>6.2}",
        product / 1e3,
        reference / 1e3,
        product / reference
    );
}
