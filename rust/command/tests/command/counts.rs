//! The counts of a sheet by kind, in each form.

use crate::folder::Folder;
use crate::json::{objects, Json};
use crate::run::run;

/// A sheet and what is said of its counts.
struct Counted {
    hex: &'static str,
    status: i32,
    /// What is said to people, also when it is shown.
    phrase: &'static str,
    /// What follows that.
    rest: &'static str,
    lines: &'static str,
    /// Traits, fresh, some, only, links, marks.
    numbers: [u64; 6],
    object: &'static str,
}

/// No two of the five numbers are alike, which takes marks and links of 10 at
/// least, and so is refused by the programs. Everything is some k0 . everything,
/// some k0 reversed . everything, some k0 . (everything and everything), only
/// k0 . everything, only k0 reversed . everything, only (k0 and k0 reversed) .
/// nothing, and only k0 . (everything and everything). So an A has all claims,
/// and with the two fresh traits it is one of 4. The set of links is not k0 with
/// k0 reversed (3), and if it has k0, B has the last claim's fresh trait, F:
/// 4 × (2 × 512 + 256) pairings open. A partner by k0 reversed needs the mirror
/// image, and so an A with F; 2 are left, and between any two of them are none,
/// k0 or k0 reversed.
const ALL_DIFFER: Counted = Counted {
    hex: "01 10 00 11 00 02 07 01 00 20 00 04 07 02 00 20 00 06 05 00 00 07 01 08 20 00 09 \
          08 01 00 20 00 0B 08 02 00 20 00 0D 13 01 02 08 0F 03 20 00 10 05 00 00 08 01 12 \
          20 00 13",
    status: 0,
    phrase: "marks 9 (traits 0, fresh 2, some 3, only 4), links 1",
    rest: "opening 5120, survivors 12\n\
           Some finite plant of at least one item keeps all rules of this sheet: \
           of the 5120 pairings that break no rule by themselves 12 can stand together.\n",
    lines: "refused 10 at 0\n",
    numbers: [0, 2, 3, 4, 1, 9],
    object: "{\"file\":\"s.hex\",\"answer\":\"met\",\"traits\":0,\"fresh\":2,\"some\":3,\
             \"only\":4,\"links\":1,\"marks\":9,\"opening\":5120,\"survivors\":12}\n",
};

/// Its twin, with only for some and some for only. Only k0 . (everything and
/// everything) asks for its fresh trait in B if k0 is there: 4 × (2 × 512 +
/// 2 × 256) pairings open. Nothing is a partner for a some with nothing.
const ALL_DIFFER_TWIN: Counted = Counted {
    hex: "01 10 00 11 00 02 08 01 00 20 00 04 08 02 00 20 00 06 05 00 00 08 01 08 20 00 09 \
          07 01 00 20 00 0B 07 02 00 20 00 0D 13 01 02 07 0F 03 20 00 10 05 00 00 07 01 12 \
          20 00 13",
    status: 1,
    phrase: "marks 9 (traits 0, fresh 2, some 4, only 3), links 1",
    rest: "opening 6144, survivors 0\n\
           No finite plant of at least one item keeps all rules of this sheet: \
           of the 6144 pairings that break no rule by themselves none can stand together.\n",
    lines: "refused 10 at 0\n",
    numbers: [0, 2, 4, 3, 1, 9],
    object: "{\"file\":\"s.hex\",\"answer\":\"unmet\",\"traits\":0,\"fresh\":2,\"some\":4,\
             \"only\":3,\"links\":1,\"marks\":9,\"opening\":6144,\"survivors\":0}\n",
};

/// As many marks and links as the programs take. With its twin no two of the
/// five numbers are alike in both. Everything is some k0 . t0, only k0 . t0, some
/// k1 . everything, only k1 . everything, and only k2 . nothing. So an A is one
/// of 2, with t0 or without. The set of links is without k2, and if it has k0, B
/// has t0: 2 × (16 × 64 + 16 × 32) pairings open. What is left has no k2
/// reversed either, k1 and k1 reversed as one likes, k0 if B has t0, and k0
/// reversed if A has: 4 × (2 + 1) × (2 + 1).
const OF_PROGRAMS: Counted = Counted {
    hex: "01 02 03 00 10 00 10 01 10 02 07 03 02 20 00 06 08 03 02 20 00 08 07 04 00 20 00 0A \
          08 04 00 20 00 0C 08 05 01 20 00 0E",
    status: 0,
    phrase: "marks 6 (traits 1, fresh 0, some 2, only 3), links 3",
    rest: "opening 3072, survivors 36\n\
           Some finite plant of at least one item keeps all rules of this sheet: \
           of the 3072 pairings that break no rule by themselves 36 can stand together.\n",
    lines: "traits 1 fresh 0 some 2 only 3 links 3\nopening 3072 survivors 36\ncan be met\n",
    numbers: [1, 0, 2, 3, 3, 6],
    object: "{\"file\":\"s.hex\",\"answer\":\"met\",\"traits\":1,\"fresh\":0,\"some\":2,\
             \"only\":3,\"links\":3,\"marks\":6,\"opening\":3072,\"survivors\":36}\n",
};

/// Its twin, with only for some and some for only: k2 may be there, which opens
/// twice as many, and nothing is a partner for a some with nothing.
const OF_PROGRAMS_TWIN: Counted = Counted {
    hex: "01 02 03 00 10 00 10 01 10 02 08 03 02 20 00 06 07 03 02 20 00 08 08 04 00 20 00 0A \
          07 04 00 20 00 0C 07 05 01 20 00 0E",
    status: 1,
    phrase: "marks 6 (traits 1, fresh 0, some 3, only 2), links 3",
    rest: "opening 6144, survivors 0\n\
           No finite plant of at least one item keeps all rules of this sheet: \
           of the 6144 pairings that break no rule by themselves none can stand together.\n",
    lines: "traits 1 fresh 0 some 3 only 2 links 3\nopening 6144 survivors 0\ncannot be met\n",
    numbers: [1, 0, 3, 2, 3, 6],
    object: "{\"file\":\"s.hex\",\"answer\":\"unmet\",\"traits\":1,\"fresh\":0,\"some\":3,\
             \"only\":2,\"links\":3,\"marks\":6,\"opening\":6144,\"survivors\":0}\n",
};

const COUNTED: [Counted; 4] = [ALL_DIFFER, ALL_DIFFER_TWIN, OF_PROGRAMS, OF_PROGRAMS_TWIN];

#[test]
fn judged_in_each_form() {
    for counted in COUNTED {
        let folder = Folder::with(&[("s.hex", counted.hex)]);
        let verdict = ["can be met", "cannot be met"][usize::from(counted.status == 1)];
        let text = format!("{verdict}\n{}; {}", counted.phrase, counted.rest);
        run(&folder, &["judge", "s.hex"]).is(counted.status, &text, "");
        run(&folder, &["judge", "--json", "s.hex"]).is(counted.status, counted.object, "");
        let refused = counted.lines.starts_with("refused ");
        let status = if refused { 2 } else { counted.status };
        run(&folder, &["judge", "--lines", "s.hex"]).is(status, counted.lines, "");
    }
}

/// The counts are those of the marks that are listed below them.
#[test]
fn shown_in_each_form() {
    const KEYS: [&str; 6] = ["traits", "fresh", "some", "only", "links", "marks"];
    for counted in COUNTED {
        let folder = Folder::with(&[("s.hex", counted.hex)]);
        let ran = run(&folder, &["show", "s.hex"]);
        let with_counts = format!(
            "\n\n{}\nmark  kind   record  nots  stands for\n",
            counted.phrase
        );
        let Some((_, listed)) = ran.out.split_once(&with_counts) else {
            panic!("{} in {}", counted.phrase, ran.out);
        };
        let [traits, fresh, some, only, _, marks] = counted.numbers;
        for (kind, number) in [
            ("trait", traits),
            ("fresh", fresh),
            ("some", some),
            ("only", only),
        ] {
            let of_kind = |line: &&str| line.split_whitespace().nth(1) == Some(kind);
            assert_eq!(
                listed.lines().filter(of_kind).count() as u64,
                number,
                "{listed}"
            );
        }
        assert_eq!(listed.lines().count() as u64, marks, "{listed}");
        ran.is(0, &ran.out, "");
        let ran = run(&folder, &["show", "--json", "s.hex"]);
        let [object] = &objects(&ran.out)[..] else {
            panic!("one object, and not {}", ran.out);
        };
        for (key, number) in KEYS.into_iter().zip(counted.numbers) {
            assert_eq!(object.of(key), &Json::from(number), "{key}");
        }
        ran.is(0, &ran.out, "");
    }
}
