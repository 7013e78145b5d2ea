//! The trade's own words, by `--names` or by a file beside the sheet.

use crate::folder::Folder;
use crate::run::{run, run_on};
use comparison::worked::{from_hex, S1, S6};

const TRADE: &str = "\
# the words of the trade
t0 = reheat coil   # trait 0

k0 = feeds
";

/// S6 with those words.
const IN_TRADE: &str = "\
s6.hex: 12 bytes, 5 records
record  byte  bytes     kind            stands for
     0     0  03 00     trait           'reheat coil'
     1     2  10 00     link as named   feeds
     2     4  04 00     not of a class  not 'reheat coil'
     3     6  07 01 02  some            some feeds . not 'reheat coil'
     4     9  20 00 03  rule            every 'reheat coil' is some feeds . not 'reheat coil'

rules
  every 'reheat coil' is some feeds . not 'reheat coil'

marks 3 (traits 1, fresh 1, some 1, only 0), links 1
mark  kind   record  nots  stands for
   0  trait       -  -     'reheat coil'
   1  some        3  even  some feeds . not 'reheat coil'
   2  fresh       2  even  not 'reheat coil'
";

/// A strike on S1, by the words of its mark and of the mark's link.
fn struck(trait_word: &str, link: &str) -> String {
    let mark = format!("some {link} . {trait_word}");
    format!(
        "46: kept\n  left marks {mark}\n  links {link}, {link} reversed\n  right marks {mark}\n"
    )
}

#[test]
fn a_file_beside_the_sheet() {
    let folder = Folder::with(&[("s6.hex", S6), ("s6.names", TRADE)]);
    run(&folder, &["show", "s6.hex"]).is(0, IN_TRADE, "");
    // A sheet without an extension, in a folder with a dot.
    folder.write("v1.0/s6", from_hex(S6));
    folder.write("v1.0/s6.names", TRADE);
    let expected = IN_TRADE.replacen("s6.hex", "v1.0/s6", 1);
    run(&folder, &["show", "v1.0/s6"]).is(0, &expected, "");
}

#[test]
fn a_file_that_is_named() {
    let folder = Folder::with(&[("s6.hex", S6), ("trade", TRADE), ("s6.names", "t0 = x")]);
    for arguments in [
        &["show", "--names", "trade", "s6.hex"][..],
        &["show", "s6.hex", "--names=trade"],
        &["show", "--names", "s6.names", "--names", "trade", "s6.hex"],
    ] {
        run(&folder, arguments).is(0, IN_TRADE, "");
    }
    let expected = IN_TRADE.replacen("s6.hex", "standard input", 1);
    let arguments = ["show", "--names", "trade", "-"];
    run_on(&folder, &arguments, S6.as_bytes()).is(0, &expected, "");
    // The names themselves on standard input.
    let arguments = ["show", "--names", "-", "s6.hex"];
    run_on(&folder, &arguments, TRADE.as_bytes()).is(0, IN_TRADE, "");
}

#[test]
fn names_of_strikes() {
    let folder = Folder::with(&[("s1.hex", S1), ("trade", TRADE), ("s1.names", "k0 = feeds")]);
    let by_file = ["strike", "--names", "trade", "s1.hex", "46"];
    run(&folder, &by_file).is(0, &struck("'reheat coil'", "feeds"), "");
    run(&folder, &["strike", "s1.hex", "46"]).is(0, &struck("t0", "feeds"), "");
    let arguments = ["strike", "-", "46"];
    run_on(&folder, &arguments, S1.as_bytes()).is(0, &struck("t0", "k0"), "");
    let object = "{\"file\":\"s1.hex\",\"answer\":\"kept\",\"pairing\":34,\
        \"left\":[{\"mark\":1,\"text\":\"some feeds . 'reheat coil'\"}],\"links\":[],\
        \"right\":[{\"mark\":1,\"text\":\"some feeds . 'reheat coil'\"}]}\n";
    let arguments = ["strike", "--json", "--names", "trade", "s1.hex", "34"];
    run(&folder, &arguments).is(0, object, "");
}

/// The picture of a refusal names a link.
#[test]
fn names_in_a_picture() {
    let folder = Folder::with(&[
        ("bad.hex", "10 00 12 00 01 07 01 02"),
        ("bad.names", "k0 = feeds"),
        ("other", "k0 = is fed by"),
    ]);
    let picture = |link: &str| {
        format!(
            "bad.hex: refused 8 at byte 5\n\
             The record at byte 5 is a some, only or link rule whose (first) link holds on the \
             empty set of links. Byte 5 is 07 (some) and begins record 3: \
             its link, named at byte 6, is record 1 (12, not of a link, at byte 2).\n\
             \x20 record 3 at byte 5:  07 01 02  some\n\
             \x20                      ^^^^^^^^  found the link {link}, which holds on the \
             empty set of links; wanted a link that fails there\n"
        )
    };
    run(&folder, &["judge", "bad.hex"]).is(2, &picture("not feeds"), "");
    let arguments = ["judge", "--names", "other", "bad.hex"];
    run(&folder, &arguments).is(2, &picture("not 'is fed by'"), "");
}

/// Names that would read as something else are quoted.
#[test]
fn quoted_names() {
    let rows = [
        ("coil", "coil"),
        ("Kühler_2-a", "Kühler_2-a"),
        ("reheat  coil", "'reheat  coil'"),
        ("a = b", "'a = b'"),
        ("coil's", "'coil''s'"),
        ("not", "'not'"),
        ("t1", "'t1'"),
        ("k0", "'k0'"),
        ("(a)", "'(a)'"),
    ];
    let folder = Folder::with(&[("s1.hex", S1)]);
    for (name, quoted) in rows {
        folder.write("s1.names", format!("\u{FEFF}\tt0={name}\r\nk0 = feeds\r\n"));
        run(&folder, &["strike", "s1.hex", "46"]).is(0, &struck(quoted, "feeds"), "");
    }
}

const WANTED: &str = "wanted is a line such as 't0 = reheat coil' or 'k0 = feeds'";

#[test]
fn wrong_names_files() {
    let rows = [
        ("t0", format!("line 1: {WANTED}")),
        (
            "t0 = coil\n\n# comment\nfeeds k0\n",
            format!("line 4: {WANTED}"),
        ),
        (
            "t12 = coil",
            "line 1: 't12' is neither a trait (t0 to t11) nor a link (k0 to k3)".into(),
        ),
        (
            "k4 = feeds",
            "line 1: 'k4' is neither a trait (t0 to t11) nor a link (k0 to k3)".into(),
        ),
        ("t0 = # coil", "line 1: no name for t0 after the '='".into()),
        ("t0 = a\nt0 = b", "line 2: t0 has a name already".into()),
        (
            "t0 = a\nt1 = a",
            "line 2: 'a' is the name of t0 already".into(),
        ),
        (
            "t0 = a\u{1}",
            "line 1: a control character in the name of t0".into(),
        ),
    ];
    let folder = Folder::with(&[("s1.hex", S1), ("s6.hex", S6)]);
    for (text, fault) in rows {
        folder.write("s1.names", text);
        let err = format!("lodhrussi: s1.names: {fault}\n");
        run(&folder, &["show", "s1.hex"]).is(3, "", &err);
        run(&folder, &["show", "--names", "s1.names", "s6.hex"]).is(3, "", &err);
        run(&folder, &["strike", "s1.hex", "46"]).is(3, "", &err);
    }
}

#[test]
fn names_files_that_are_no_text() {
    let folder = Folder::with(&[("s1.hex", S1)]);
    folder.write("s1.names", b"t0 = K\xFChler");
    let err = "lodhrussi: s1.names: no UTF-8 text\n";
    run(&folder, &["show", "s1.hex"]).is(3, "", err);
    folder.write("s1.names", "#".repeat(2 << 20));
    let err = "lodhrussi: s1.names: too long for a file of names\n";
    run(&folder, &["show", "s1.hex"]).is(3, "", err);
}

#[test]
fn names_files_that_cannot_be_read() {
    let folder = Folder::with(&[("s6.hex", S6), ("inner/x", "")]);
    for (file, sentence) in [
        ("none", "there is no file none"),
        ("inner", "inner is a folder"),
    ] {
        let err = format!("lodhrussi: {sentence}\n");
        run(&folder, &["show", "--names", file, "s6.hex"]).is(3, "", &err);
        run(&folder, &["strike", "--names", file, "s6.hex", "0"]).is(3, "", &err);
        let object =
            format!("{{\"file\":\"s6.hex\",\"answer\":\"trouble\",\"sentence\":\"{sentence}\"}}\n");
        run(&folder, &["show", "--json", "--names", file, "s6.hex"]).is(3, &object, &err);
    }
    // What is beside a sheet and is no file has no names.
    folder.write("s6.names/x", "");
    let expected = IN_TRADE
        .replace("'reheat coil'", "t0")
        .replace("feeds", "k0");
    run(&folder, &["show", "s6.hex"]).is(0, &expected, "");
}

/// Judging uses names for the picture of a refusal alone. A file that was asked
/// for is read in any case; one beside a sheet where it is used.
#[test]
fn wrong_names_where_sheets_are_judged() {
    let folder = Folder::with(&[
        ("s1.hex", S1),
        ("s1.names", "coil"),
        ("bad.hex", "04 00"),
        ("bad.names", "coil"),
    ]);
    let lines = "traits 1 fresh 0 some 1 only 0 links 1\nopening 32 survivors 16\ncan be met\n";
    run(&folder, &["judge", "--lines", "s1.hex"]).is(0, lines, "");
    let several = "s1.hex: can be met, 16 of 32 pairings left\n".repeat(2)
        + "2 sheets: 2 can be met, 0 cannot be met, 0 refused; 32 survivors\n";
    run(&folder, &["judge", "s1.hex", "s1.hex"]).is(0, &several, "");
    let picture = "bad.hex: refused 5 at byte 1\n\
        The reference at byte 1 names no earlier record. Byte 1 is 00, the only reference of \
        record 0 (04, not of a class, at byte 0): it names record 0, and no record comes before.\n\
        \x20 record 0 at byte 0:  04 00  not of a class\n\
        \x20                         ^^  only reference: found record 0; wanted an earlier class\n";
    let err = |file: &str| format!("lodhrussi: {file}: line 1: {WANTED}\n");
    run(&folder, &["judge", "bad.hex"]).is(3, picture, &err("bad.names"));
    for form in ["--jobs=1", "--lines"] {
        let arguments = ["judge", form, "--names", "s1.names", "s1.hex"];
        run(&folder, &arguments).is(3, "", &err("s1.names"));
    }
    let object = format!(
        "{{\"file\":\"s1.names\",\"answer\":\"trouble\",\
         \"sentence\":\"s1.names: line 1: {WANTED}\"}}\n"
    );
    let arguments = ["judge", "--json", "--names", "s1.names", "s1.hex"];
    run(&folder, &arguments).is(3, &object, &err("s1.names"));
}
