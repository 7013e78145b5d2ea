//! Every refusal that a sheet can lead to, with its picture.
//!
//! 13 is withdrawn. 14 and 15 are about queues; `--lines` alone gives them, as it
//! alone gives 10. 11 is strike's. 12, a list of marks too short, cannot come:
//! the command has room for all of them.

use crate::folder::Folder;
use crate::json::{objects, Json};
use crate::run::run;
use comparison::worked::from_hex;
use std::collections::BTreeSet;

/// A sheet that is refused.
#[derive(Clone, Copy)]
struct Refused {
    hex: &'static str,
    number: u64,
    place: u64,
    sentence: &'static str,
    /// The lines that draw it.
    drawn: &'static [&'static str],
}

const REFUSED: &[Refused] = &[
    Refused {
        hex: "01 10 00 09 01",
        number: 1,
        place: 3,
        sentence:
            "The record at byte 3 is of no known kind. Byte 3 is 09 and begins record 2; the \
            kinds are 01 to 08, 10 to 14, 20 and 21.",
        drawn: &[
            "  record 2 at byte 3:  09  no known kind",
            "                       ^^  kind: found 09; wanted 01 to 08, 10 to 14, 20 and 21",
        ],
    },
    Refused {
        hex: "01 10 00 03 00 07 01",
        number: 2,
        place: 5,
        sentence:
            "The record at byte 5 is cut off by the end of the sheet. Byte 5 is 07 (some) and \
            begins record 3: its body takes 2 bytes, and the sheet ends 1 byte too soon.",
        drawn: &[
            "  record 3 at byte 5:  07 01 ..  some",
            "                             ^^  found the end of the sheet; wanted a class",
        ],
    },
    Refused {
        hex: "01 20",
        number: 2,
        place: 1,
        sentence:
            "The record at byte 1 is cut off by the end of the sheet. Byte 1 is 20 (rule) and \
            begins record 1: its body takes 2 bytes, and the sheet ends 2 bytes too soon.",
        drawn: &[
            "  record 1 at byte 1:  20 .. ..  rule",
            "                          ^^^^^  found the end of the sheet; wanted two classes",
        ],
    },
    Refused {
        hex: "01 03 0C",
        number: 4,
        place: 1,
        sentence: "The record at byte 1 has a number that is too large: traits go up to 11, links \
            up to 3. Byte 1 is 03 (trait) and begins record 1: its number, at byte 2, is 12 \
            (0C), and traits go up to 11.",
        drawn: &[
            "  record 1 at byte 1:  03 0C  trait",
            "                          ^^  number: found 12; wanted 0 to 11",
        ],
    },
    Refused {
        hex: "11 04",
        number: 4,
        place: 0,
        sentence: "The record at byte 0 has a number that is too large: traits go up to 11, links \
            up to 3. Byte 0 is 11 (link reversed) and begins record 0: its number, at byte \
            1, is 4 (04), and links go up to 3.",
        drawn: &[
            "  record 0 at byte 0:  11 04  link reversed",
            "                          ^^  number: found 4; wanted 0 to 3",
        ],
    },
    Refused {
        hex: "04 00",
        number: 5,
        place: 1,
        sentence: "The reference at byte 1 names no earlier record. Byte 1 is 00, the only \
            reference of record 0 (04, not of a class, at byte 0): it names record 0, and no \
            record comes before.",
        drawn: &[
            "  record 0 at byte 0:  04 00  not of a class",
            "                          ^^  only reference: found record 0; wanted an \
             earlier class",
        ],
    },
    Refused {
        hex: "10 00 13 00 FF",
        number: 5,
        place: 4,
        sentence: "The reference at byte 4 names no earlier record. Byte 4 is FF, the second \
            reference of record 1 (13, and of links, at byte 2): it names record 255, and \
            only record 0 comes before.",
        drawn: &[
            "  record 1 at byte 2:  13 00 FF  and of links",
            "                             ^^  second reference: found record 255; wanted \
             an earlier link",
        ],
    },
    Refused {
        hex: "10 00 07 00 00",
        number: 6,
        place: 4,
        sentence:
            "The reference at byte 4 names a link where a class is wanted. Byte 4 is 00, the \
            second reference of record 1 (07, some, at byte 2): it names record 0 (10, link \
            as named, at byte 0), and a class is wanted.",
        drawn: &[
            "  record 1 at byte 2:  07 00 00  some",
            "                             ^^  second reference: found record 0, a link; \
             wanted a class",
        ],
    },
    Refused {
        hex: "03 00 04 00 05 01 01",
        number: 7,
        place: 6,
        sentence: "The reference at byte 6 names a record that was named before and may be named \
            only once. Byte 6 is 01, the second reference of record 2 (05, and of classes, \
            at byte 4): it names record 1 (04, not of a class, at byte 2), which the \
            reference at byte 5 named before.",
        drawn: &[
            "  record 2 at byte 4:  05 01 01  and of classes",
            "                             ^^  second reference: found record 1, named \
             before; wanted a class not named before",
            "  record 2 at byte 4:  05 01 01  and of classes",
            "                          ^^     first reference: names record 1 before",
        ],
    },
    Refused {
        hex: "10 00 12 00 12 01 01 08 01 03",
        number: 7,
        place: 8,
        sentence: "The reference at byte 8 names a record that was named before and may be named \
            only once. Byte 8 is 01, the first reference of record 4 (08, only, at byte 7): \
            it names record 1 (12, not of a link, at byte 2), which the reference at byte 5 \
            named before.",
        drawn: &[
            "  record 4 at byte 7:  08 01 03  only",
            "                          ^^     first reference: found record 1, named \
             before; wanted a link not named before",
            "  record 2 at byte 4:  12 01  not of a link",
            "                          ^^  only reference: names record 1 before",
        ],
    },
    Refused {
        hex: "10 00 12 00 01 07 01 02",
        number: 8,
        place: 5,
        sentence: "The record at byte 5 is a some, only or link rule whose (first) link holds on \
            the empty set of links. Byte 5 is 07 (some) and begins record 3: its link, \
            named at byte 6, is record 1 (12, not of a link, at byte 2).",
        drawn: &[
            "  record 3 at byte 5:  07 01 02  some",
            "                       ^^^^^^^^  found the link not k0, which holds on the \
             empty set of links; wanted a link that fails there",
        ],
    },
    Refused {
        hex: "10 00 12 00 21 01 00",
        number: 8,
        place: 4,
        sentence: "The record at byte 4 is a some, only or link rule whose (first) link holds on \
            the empty set of links. Byte 4 is 21 (link rule) and begins record 2: its first \
            link, named at byte 5, is record 1 (12, not of a link, at byte 2).",
        drawn: &[
            "  record 2 at byte 4:  21 01 00  link rule",
            "                       ^^^^^^^^  found the first link not k0, which holds on \
             the empty set of links; wanted a link that fails there",
        ],
    },
    Refused {
        hex: "10 00 21 00 00 12 01",
        number: 17,
        place: 6,
        sentence: "The reference at byte 6 names a rule; rules are never named. Byte 6 is 01, the \
            only reference of record 2 (12, not of a link, at byte 5): it names record 1 \
            (21, link rule, at byte 2), and a link is wanted.",
        drawn: &[
            "  record 2 at byte 5:  12 01  not of a link",
            "                          ^^  only reference: found record 1, a rule; wanted a link",
        ],
    },
    Refused {
        hex: "03 0B 10 00",
        number: 9,
        place: 0,
        sentence: "The sheet has more than 12 marks and links together. It has 12 traits and 1 \
            link, counted by their largest numbers; the other marks come from the some and \
            only claims of its rules.",
        drawn: &[],
    },
    Refused {
        hex: "01 10 00 07 00 01",
        number: 16,
        place: 4,
        sentence:
            "The reference at byte 4 names a class where a link is wanted. Byte 4 is 00, the \
            first reference of record 2 (07, some, at byte 3): it names record 0 (01, \
            everything, at byte 0), and a link is wanted.",
        drawn: &[
            "  record 2 at byte 3:  07 00 01  some",
            "                          ^^     first reference: found record 0, a class; \
             wanted a link",
        ],
    },
    Refused {
        hex: "01 20 00 00 04 01",
        number: 17,
        place: 5,
        sentence: "The reference at byte 5 names a rule; rules are never named. Byte 5 is 01, the \
            only reference of record 2 (04, not of a class, at byte 4): it names record 1 \
            (20, rule, at byte 1), and a class is wanted.",
        drawn: &[
            "  record 2 at byte 4:  04 01  not of a class",
            "                          ^^  only reference: found record 1, a rule; wanted \
             a class",
        ],
    },
    Refused {
        hex: "01 20 00 00 12 01",
        number: 17,
        place: 5,
        sentence: "The reference at byte 5 names a rule; rules are never named. Byte 5 is 01, the \
            only reference of record 2 (12, not of a link, at byte 4): it names record 1 \
            (20, rule, at byte 1), and a link is wanted.",
        drawn: &[
            "  record 2 at byte 4:  12 01  not of a link",
            "                          ^^  only reference: found record 1, a rule; wanted \
             a link",
        ],
    },
];

impl Refused {
    /// Number and place; none where no byte is at fault.
    fn told(&self) -> String {
        match self.number {
            9 => "refused 9".into(),
            number => format!("refused {number} at byte {}", self.place),
        }
    }

    fn picture(&self, file: &str) -> String {
        let mut picture = format!("{file}: {}\n{}\n", self.told(), self.sentence);
        for line in self.drawn {
            picture += line;
            picture.push('\n');
        }
        picture
    }

    fn line(&self, file: &str) -> String {
        format!("{file}: {}: {}\n", self.told(), self.sentence)
    }

    fn object(&self, file: &str) -> Json {
        let members = [
            ("file", file.into()),
            ("answer", "refused".into()),
            ("number", self.number.into()),
            ("place", self.place.into()),
            ("sentence", self.sentence.into()),
        ];
        Json::Object(members.map(|(key, value)| (key.into(), value)).to_vec())
    }
}

/// A 256th record begins, with bytes of a known kind or not.
const TOO_MANY: [(&str, &str, &[&str]); 2] = [
    (
        "03",
        " (trait)",
        &[
            "  record 255 at byte 255:  03 ..  trait",
            "                           ^^     found a 256th record; wanted the end of the sheet",
        ],
    ),
    (
        "FF",
        "",
        &[
            "  record 255 at byte 255:  FF  no known kind",
            "                           ^^  found a 256th record; wanted the end of the sheet",
        ],
    ),
];

#[test]
fn every_refusal_is_there() {
    let numbers: BTreeSet<u64> = REFUSED.iter().map(|refused| refused.number).collect();
    let all = (1..=9).filter(|&number| number != 3).chain([16, 17]);
    assert!(numbers.into_iter().eq(all));
    for Refused {
        hex, number, place, ..
    } in REFUSED
    {
        let refusal = reference::read(&from_hex(hex)).expect_err("a refusal");
        assert_eq!((refusal.number, refusal.place), (*number, *place), "{hex}");
    }
}

#[test]
fn judging_one() {
    for refused in REFUSED {
        let sheet = from_hex(refused.hex);
        let folder = Folder::with(&[("bad.hex", refused.hex.as_bytes()), ("bad", &sheet)]);
        let lines = format!("refused {} at {}\n", refused.number, refused.place);
        for file in ["bad.hex", "bad"] {
            run(&folder, &["judge", file]).is(2, &refused.picture(file), "");
            run(&folder, &["judge", "--lines", file]).is(2, &lines, "");
            let ran = run(&folder, &["judge", "--json", file]);
            assert_eq!(objects(&ran.out), [refused.object(file)]);
            ran.is(2, &ran.out, "");
        }
    }
}

#[test]
fn judging_all() {
    let folder = Folder::new();
    let mut arguments = vec!["judge".to_string()];
    let mut expected = String::new();
    for (number, refused) in REFUSED.iter().enumerate() {
        let file = format!("bad{number}.hex");
        folder.write(&file, refused.hex);
        expected += &refused.line(&file);
        arguments.push(file);
    }
    let sheets = REFUSED.len();
    expected +=
        &format!("{sheets} sheets: 0 can be met, 0 cannot be met, {sheets} refused; 0 survivors\n");
    run(&folder, &arguments).is(2, &expected, "");
}

#[test]
fn striking() {
    for refused in REFUSED {
        let folder = Folder::with(&[("bad.hex", refused.hex)]);
        let arguments = ["strike", "bad.hex", "0", "1"];
        run(&folder, &arguments).is(2, &refused.picture("bad.hex"), "");
        let ran = run(&folder, &["strike", "--json", "bad.hex", "0"]);
        assert_eq!(objects(&ran.out), [refused.object("bad.hex")]);
        ran.is(2, &ran.out, "");
    }
}

#[test]
fn a_256th_record() {
    for (next, kind, drawn) in TOO_MANY {
        let folder = Folder::with(&[("bad.hex", "01 ".repeat(255) + next)]);
        let mut expected = format!(
            "bad.hex: refused 3 at byte 255\n\
             The record at byte 255 is one too many: a sheet has at most 255. \
             Byte 255 is {next}{kind} and begins record 255: records are numbered 0 to 254.\n"
        );
        for line in drawn {
            expected += &format!("{line}\n");
        }
        run(&folder, &["judge", "bad.hex"]).is(2, &expected, "");
        run(&folder, &["judge", "--lines", "bad.hex"]).is(2, "refused 3 at 255\n", "");
    }
}
