//! What texts show.

use crate::refusal::tests::assert_shown;
use crate::{Call, Refusal};

/// A text that is refused: number, place, and what it shows.
const SHOWN_OF_TEXT: &[(&str, u64, u64, &str)] = &[
    (
        "SubClassOf(:t0 :t12)",
        18,
        15,
        "Line 1, column 16: found ':t12'; wanted a class \
         (:t0 to :t11, owl:Thing, owl:Nothing or a form of classes).",
    ),
    (
        "Prefix(:=<x#>)",
        18,
        0,
        "Line 1, column 1: found 'Prefix'; wanted SubClassOf.",
    ),
    (
        "SubClassOf(:t0 :t1)\n\n SubClassOf :t0",
        19,
        33,
        "Line 3, column 13: found ':t0'; wanted '('.",
    ),
    (
        "SubClassOf(:t0\n:t1 :t2)",
        19,
        19,
        "Line 2, column 5: found ':t2'; wanted ')'.",
    ),
    (
        "SubClassOf(ObjectSomeValuesFrom(\n:t0",
        19,
        33,
        "Line 2, column 1: found ':t0'; wanted a link (:k0 to :k3 or ObjectInverseOf).",
    ),
    (
        "SubClassOf(ObjectSomeValuesFrom(ObjectInverseOf(ObjectInverseOf",
        19,
        48,
        "Line 1, column 49: found 'ObjectInverseOf'; wanted the name of a link (:k0 to :k3).",
    ),
    (
        ")",
        19,
        0,
        "Line 1, column 1: found ')'; wanted SubClassOf.",
    ),
    (
        "SubClassOf \n",
        19,
        12,
        "Line 2, column 1: found the end of the text; wanted '('.",
    ),
    (
        "SubClassOf(\t:t0 K\u{fc}hler)",
        18,
        11,
        "Line 1, column 12: found '\\t:t0'; wanted a class \
         (:t0 to :t11, owl:Thing, owl:Nothing or a form of classes).",
    ),
];

/// The refusal of a text by that number and place.
fn of_text(number: u64, place: u64) -> Refusal {
    Refusal {
        call: Call::Import,
        number,
        place,
    }
}

#[test]
fn what_a_text_shows() {
    for &(text, number, place, shown) in SHOWN_OF_TEXT {
        let text = text.as_bytes();
        let refusal = of_text(number, place);
        assert_eq!(crate::imported(text), Err(refusal));
        assert_shown(refusal, text, shown);
    }
}

#[test]
fn what_a_text_does_not_show() {
    for &(text, number, place, _) in SHOWN_OF_TEXT {
        let others = [(number, place + 1), (37 - number, place), (3, 0), (9, 0)];
        for refusal in others.map(|(number, place)| of_text(number, place)) {
            let said = refusal.explain(text.as_bytes());
            assert_eq!(said, refusal.to_string(), "{text}");
        }
        let refusal = of_text(number, place);
        assert_eq!(refusal.explain(b"SubClassOf(:t0 :t1)"), refusal.to_string());
    }
}

#[test]
fn a_long_word_is_cut() {
    let text = ["\u{e9}".repeat(60), "\u{1}".into()].concat();
    let shown = format!(
        "Line 1, column 1: found '{}..'; wanted SubClassOf.",
        "\u{e9}".repeat(40)
    );
    assert_shown(of_text(18, 0), text.as_bytes(), &shown);
    let text = b"SubClassOf(:t0 \xFF\n)";
    let shown = "Line 1, column 16: found '\u{fffd}'; wanted a class \
                 (:t0 to :t11, owl:Thing, owl:Nothing or a form of classes).";
    assert_shown(of_text(18, 15), text, shown);
}

#[test]
fn where_a_text_takes_a_256th_record() {
    // 85 axioms take 255 records
    for (next, at, word) in [
        ("SubClassOf(:t0 :t0)", "line 86, column 1", "SubClassOf"),
        ("\n SubClassOf x", "line 87, column 2", "SubClassOf"),
    ] {
        let text = "SubClassOf(:t0 :t11)\n".repeat(85) + next;
        let shown = format!("The 256th record begins at {at}: '{word}'.");
        assert_shown(of_text(3, 0), text.as_bytes(), &shown);
    }
    let text = "SubClassOf(:t0 :t11)\n".repeat(84)
        + "SubClassOf(ObjectComplementOf(ObjectComplementOf(:t11)) :t0)";
    let shown = "The 256th record begins at line 85, column 50: ':t11'.";
    assert_shown(of_text(3, 0), text.as_bytes(), shown);
}

#[test]
fn what_an_output_needs() {
    let text = b"SubClassOf(:t0 :t1)";
    let refusal = crate::import(text, &mut [0; 6]).unwrap_err();
    assert_shown(refusal, text, "The text's sheet takes 7 bytes.");
}
