//! First words and drawings.

use super::*;

#[test]
fn the_first_word_decides() {
    for first in FIRST {
        let rows = [
            "",
            " ",
            "\n\n",
            "\t\r\n",
            "\u{b}\u{c}",
            "\u{feff}",
            "\u{feff} \n",
        ];
        for blanks in rows {
            for end in ["(", ")", " ", "\n", "\t", "\r", "(01", " x"] {
                let text = [blanks, first, end].concat();
                assert_eq!(is_text(text.as_bytes()), Some(true), "{text:?}");
            }
        }
    }
    let others = [
        "01",
        "#",
        "every ",
        "subClassOf ",
        "SubClassOfx ",
        "Subclass",
        "SubClassO(",
        "Prefixes",
        ":t0",
        "(SubClassOf ",
        "\u{1}",
        "\u{feff}\u{feff}SubClassOf ",
    ];
    for text in others {
        assert_eq!(is_text(text.as_bytes()), Some(false), "{text:?}");
    }
}

/// Every beginning of a front is undecided up to the end of the first word.
#[test]
fn a_word_that_may_go_on() {
    for front in [
        "\u{feff} SubClassOf",
        "Ontology",
        "\n \n",
        "Prefix",
        "\u{feff}",
    ] {
        let front = front.as_bytes();
        for end in 0..=front.len() {
            assert_eq!(is_text(&front[..end]), None, "{front:?}, {end} bytes");
        }
    }
}

#[track_caller]
fn assert_drawn(text: &[u8], place: usize, expected: &str) {
    assert_eq!(drawing(text, place).as_deref(), Some(expected));
}

#[test]
fn a_word_is_underlined() {
    let text = b"SubClassOf(:t0 :t1)\n  SubClassOf(:t0 :t12)\n)";
    assert_drawn(
        text,
        37,
        "  line 2:    SubClassOf(:t0 :t12)\n                            ^^^^\n",
    );
    assert_drawn(
        text,
        0,
        "  line 1:  SubClassOf(:t0 :t1)\n           ^^^^^^^^^^\n",
    );
    assert_drawn(
        text,
        10,
        "  line 1:  SubClassOf(:t0 :t1)\n                     ^\n",
    );
    assert_drawn(text, 43, "  line 3:  )\n           ^\n");
    assert_drawn(text, 44, "  line 3:  )\n            ^\n");
    assert_drawn(b"\n", 1, "  line 2:  \n           ^\n");
    assert_eq!(drawing(text, 45), None);
}

#[test]
fn what_is_no_letter_is_one_mark() {
    let text = "(K\u{fc}hler\t)".as_bytes();
    assert_drawn(
        text,
        1,
        "  line 1:  (K\u{fc}hler\u{fffd})\n            ^^^^^^^\n",
    );
    assert_drawn(
        b"\xFF \0",
        2,
        "  line 1:  \u{fffd} \u{fffd}\n             ^\n",
    );
}

#[test]
fn long_lines_are_cut() {
    let [a, b, c] = ["a", "b", "c"].map(|letter| letter.repeat(60));
    let text = format!("{a}a {b}b({c}c");
    let drawn = format!(
        "  line 1:  ..{} {b}..\n{:73}{}\n",
        &a[1..],
        "",
        "^".repeat(60)
    );
    assert_drawn(text.as_bytes(), 62, &drawn);
    let drawn = format!("  line 1:  ..{b}({c}..\n{:73}^\n", "");
    let text = text.replace("b(", "(");
    assert_drawn(text.as_bytes(), 122, &drawn);
}
