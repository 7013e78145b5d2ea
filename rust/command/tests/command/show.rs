//! `lodhrussi show`.

use crate::folder::Folder;
use crate::json::{objects, Json};
use crate::run::{run, run_on};
use comparison::worked::{from_hex, N8, S6};

const OF_S6: &str = "\
s6.hex: 12 bytes, 5 records
record  byte  bytes     kind            stands for
     0     0  03 00     trait           t0
     1     2  10 00     link as named   k0
     2     4  04 00     not of a class  not t0
     3     6  07 01 02  some            some k0 . not t0
     4     9  20 00 03  rule            every t0 is some k0 . not t0

rules
  every t0 is some k0 . not t0

marks 3 (traits 1, fresh 1, some 1, only 0), links 1
mark  kind   record  nots  stands for
   0  trait       -  -     t0
   1  some        3  even  some k0 . not t0
   2  fresh       2  even  not t0
";

#[test]
fn a_worked_sheet() {
    let folder = Folder::with(&[("s6.hex", S6)]);
    run(&folder, &["show", "s6.hex"]).is(0, OF_S6, "");
    let of_input = OF_S6.replacen("s6.hex", "standard input", 1);
    run_on(&folder, &["show", "-"], &from_hex(S6)).is(0, &of_input, "");
}

const OF_EVERY_KIND: &str = "\
s.hex: 46 bytes, 19 records
record  byte  bytes     kind            stands for
     0     0  01        everything      everything
     1     1  02        nothing         nothing
     2     2  03 00     trait           t0
     3     4  03 01     trait           t1
     4     6  10 00     link as named   k0
     5     8  11 00     link reversed   k0 reversed
     6    10  12 04     not of a link   not k0
     7    12  13 05 06  and of links    k0 reversed and not k0
     8    15  14 04 05  or of links     k0 or k0 reversed
     9    18  04 03     not of a class  not t1
    10    20  05 02 09  and of classes  t0 and not t1
    11    23  06 00 03  or of classes   everything or t1
    12    26  07 07 0A  some            some (k0 reversed and not k0) . (t0 and not t1)
    13    29  08 08 01  only            only (k0 or k0 reversed) . nothing
    14    32  20 0C 0D  rule            every some (k0 reversed and not k0) . (t0 and not t1) \
is only (k0 or k0 reversed) . nothing
    15    35  20 02 0B  rule            every t0 is everything or t1
    16    38  12 04     not of a link   not k0 (unused)
    17    40  14 05 04  or of links     k0 reversed or k0
    18    43  21 04 11  link rule       k0 within (k0 reversed or k0)

rules
  every some (k0 reversed and not k0) . (t0 and not t1) is only (k0 or k0 reversed) . nothing
  every t0 is everything or t1
  k0 within (k0 reversed or k0)

marks 5 (traits 2, fresh 1, some 0, only 2), links 1
mark  kind   record  nots  stands for
   0  trait       -  -     t0
   1  trait       -  -     t1
   2  only       12  odd   only (k0 reversed and not k0) . (not t0 or t1)
   3  fresh      10  odd   not t0 or t1
   4  only       13  even  only (k0 or k0 reversed) . nothing
";

/// Both sorts of every operator, a claim under a not, an unused record.
#[test]
fn a_sheet_of_every_kind() {
    let hex = "01 02 03 00 03 01 10 00 11 00 12 04 13 05 06 14 04 05 \
               04 03 05 02 09 06 00 03 07 07 0A 08 08 01 20 0C 0D 20 02 0B 12 04 \
               14 05 04 21 04 11";
    let folder = Folder::with(&[("s.hex", hex)]);
    run(&folder, &["show", "s.hex"]).is(0, OF_EVERY_KIND, "");
}

const OF_N8: &str = "\
n8.hex: 21 bytes, 9 records
record  byte  bytes     kind            stands for
     0     0  01        everything      everything
     1     1  10 00     link as named   feeds
     2     3  10 01     link as named   'within'
     3     5  02        nothing         nothing
     4     6  07 01 00  some            some feeds . everything
     5     9  20 00 04  rule            every everything is some feeds . everything
     6    12  08 02 03  only            only 'within' . nothing
     7    15  20 00 06  rule            every everything is only 'within' . nothing
     8    18  21 01 02  link rule       feeds within 'within'

rules
  every everything is some feeds . everything
  every everything is only 'within' . nothing
  feeds within 'within'

marks 2 (traits 0, fresh 0, some 1, only 1), links 2
mark  kind   record  nots  stands for
   0  some        4  even  some feeds . everything
   1  only        6  even  only 'within' . nothing
";

/// Document 02's sheet (N8); a name that is a word of the rules stands in quotes.
#[test]
fn a_sheet_with_a_link_rule() {
    let names = "k0 = feeds\nk1 = within\n";
    let folder = Folder::with(&[("n8.hex", N8), ("n8.names", names)]);
    run(&folder, &["show", "n8.hex"]).is(0, OF_N8, "");
    let ran = run(&folder, &["show", "--json", "n8.hex"]);
    let [object] = &objects(&ran.out)[..] else {
        panic!("one object, and not {}", ran.out);
    };
    let rules = [
        "every everything is some feeds . everything",
        "every everything is only 'within' . nothing",
        "feeds within 'within'",
    ];
    let rules = rules.map(Json::from).to_vec();
    assert_eq!(object.of("rules"), &Json::List(rules));
    ran.is(0, &ran.out, "");
}

#[test]
fn sheets_without_a_rule() {
    let folder = Folder::with(&[("s0.hex", ""), ("t0.hex", "03 00")]);
    let of_nothing = "s0.hex: 0 bytes, 0 records\n\nno rules\n\n\
        marks 0 (traits 0, fresh 0, some 0, only 0), links 0\n";
    run(&folder, &["show", "s0.hex"]).is(0, of_nothing, "");
    let of_one = "\
t0.hex: 2 bytes, 1 record
record  byte  bytes     kind            stands for
     0     0  03 00     trait           t0 (unused)

no rules

marks 1 (traits 1, fresh 0, some 0, only 0), links 0
mark  kind   record  nots  stands for
   0  trait       -  -     t0
";
    run(&folder, &["show", "t0.hex"]).is(0, of_one, "");
}

const TWICE: &str = "\
The reference at byte 6 names a record that was named before and may be named only once. \
Byte 6 is 01, the second reference of record 2 (05, and of classes, at byte 4): \
it names record 1 (04, not of a class, at byte 2), which the reference at byte 5 named before.";

/// What comes before a fault is shown, and then the fault.
#[test]
fn a_faulty_record() {
    let folder = Folder::with(&[("bad.hex", "03 00 04 00 05 01 01 20 00 02")]);
    let expected = format!(
        "\
bad.hex: 10 bytes, 2 records before the fault
record  byte  bytes     kind            stands for
     0     0  03 00     trait           t0
     1     2  04 00     not of a class  not t0
     2     4  05 01 01  and of classes  (at fault)

bad.hex: refused 7 at byte 6
{TWICE}
  record 2 at byte 4:  05 01 01  and of classes
                             ^^  second reference: found record 1, named before; \
wanted a class not named before
  record 2 at byte 4:  05 01 01  and of classes
                          ^^     first reference: names record 1 before
"
    );
    run(&folder, &["show", "bad.hex"]).is(2, &expected, "");
}

/// Too many marks and links are the fault of no record: all are shown.
#[test]
fn a_sheet_of_too_many_marks() {
    let folder = Folder::with(&[("many.hex", "03 0B 10 00")]);
    let expected = "\
many.hex: 4 bytes, 2 records
record  byte  bytes     kind            stands for
     0     0  03 0B     trait           t11 (unused)
     1     2  10 00     link as named   k0 (unused)

many.hex: refused 9
The sheet has more than 12 marks and links together. \
It has 12 traits and 1 link, counted by their largest numbers; \
the other marks come from the some and only claims of its rules.
";
    run(&folder, &["show", "many.hex"]).is(2, expected, "");
}

#[test]
fn a_sheet_that_begins_with_a_fault() {
    let folder = Folder::with(&[("bad.hex", "09"), ("cut.hex", "10")]);
    let unknown = "\
bad.hex: 1 byte, 0 records before the fault
record  byte  bytes     kind            stands for
     0     0  09        no known kind   (at fault)

bad.hex: refused 1 at byte 0
The record at byte 0 is of no known kind. \
Byte 0 is 09 and begins record 0; the kinds are 01 to 08, 10 to 14, 20 and 21.
  record 0 at byte 0:  09  no known kind
                       ^^  kind: found 09; wanted 01 to 08, 10 to 14, 20 and 21
";
    run(&folder, &["show", "bad.hex"]).is(2, unknown, "");
    let cut = "\
cut.hex: 1 byte, 0 records before the fault
record  byte  bytes     kind            stands for
     0     0  10        link as named   (at fault)

cut.hex: refused 2 at byte 0
The record at byte 0 is cut off by the end of the sheet. \
Byte 0 is 10 (link as named) and begins record 0: \
its body takes 1 byte, and the sheet ends 1 byte too soon.
  record 0 at byte 0:  10 ..  link as named
                          ^^  found the end of the sheet; wanted the number of a link
";
    run(&folder, &["show", "cut.hex"]).is(2, cut, "");
}

/// S6 as an object, with line ends put in.
const S6_OBJECT: &str = r#"{"file":"s6.hex","answer":"shown","bytes":12,"records":[
{"record":0,"byte":0,"bytes":"03 00","kind":"trait","text":"t0","used":true},
{"record":1,"byte":2,"bytes":"10 00","kind":"link as named","text":"k0","used":true},
{"record":2,"byte":4,"bytes":"04 00","kind":"not of a class","text":"not t0","used":true},
{"record":3,"byte":6,"bytes":"07 01 02","kind":"some","text":"some k0 . not t0","used":true},
{"record":4,"byte":9,"bytes":"20 00 03","kind":"rule","text":"every t0 is some k0 . not t0","used":true}],
"rules":["every t0 is some k0 . not t0"],"traits":1,"fresh":1,"some":1,"only":0,"links":1,"marks":3,"mark_list":[
{"mark":0,"kind":"trait","trait":0,"text":"t0"},
{"mark":1,"kind":"some","record":3,"nots":"even","text":"some k0 . not t0"},
{"mark":2,"kind":"fresh","record":2,"nots":"even","text":"not t0"}]}"#;

/// A refused sheet as an object, with line ends put in.
const BAD_OBJECT: &str = r#"{"file":"bad.hex","answer":"refused","number":5,"place":2,"sentence":
"The reference at byte 2 names no earlier record. Byte 2 is 01, the only reference of record 1 
(04, not of a class, at byte 1): it names record 1, and only record 0 comes before.",
"bytes":3,"records":[
{"record":0,"byte":0,"bytes":"01","kind":"everything","text":"everything"},
{"record":1,"byte":1,"bytes":"04 01","kind":"not of a class"}]}"#;

#[test]
fn json() {
    let folder = Folder::with(&[("s6.hex", S6), ("bad.hex", "01 04 01")]);
    for (file, status, object) in [("s6.hex", 0, S6_OBJECT), ("bad.hex", 2, BAD_OBJECT)] {
        let line = object.replace('\n', "") + "\n";
        assert_eq!(objects(&line).len(), 1);
        run(&folder, &["show", "--json", file]).is(status, &line, "");
    }
}

/// How long an overlong sheet is, nobody knows: no more than decides is read.
#[test]
fn an_overlong_sheet() {
    let folder = Folder::with(&[("long.hex", "01".repeat(800))]);
    let ran = run(&folder, &["show", "long.hex"]);
    let first = "long.hex: more than 765 bytes, 255 records before the fault";
    assert_eq!(ran.out.lines().next(), Some(first));
    let ran = run(&folder, &["show", "--json", "long.hex"]);
    let [object] = &objects(&ran.out)[..] else {
        panic!("one object, and not {}", ran.out);
    };
    assert_eq!(object.of("place"), &Json::from(255));
    assert_eq!(object.get("bytes"), None);
}
