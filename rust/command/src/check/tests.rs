use super::*;
use comparison::worked::{from_hex, S1, S6};

fn plant(hex: &str) -> Source {
    Source {
        name: "plant".into(),
        bytes: from_hex(hex),
        refusal: None,
        notes: vec![],
    }
}

/// What is told of a plant.
fn told(sheet: &Sheet, hex: &str) -> (String, Status) {
    let mut out = Vec::new();
    let status = check(sheet, &plant(hex), &mut out).expect("a list can be written");
    (String::from_utf8(out).expect("text"), status)
}

/// A sheet with two fresh names: every t0 is some k0 . not t0, every t0 is only k0
/// reversed . not t0. Marks 2 and 4 are fresh.
const TWO_FRESH: &str = "03 00 10 00 11 00 04 00 07 01 03 20 00 04 04 00 08 02 06 20 00 07";

#[test]
fn an_item_that_is_drawn_wrongly() {
    let sheet = Sheet::of_hex(TWO_FRESH, "t0 = reheat coil", false);
    let plant = "40 15 00 40 00 00 41 00 00 01 00 00 41 01 00 00 00 00";
    let expected = "breaks a rule
items 2, connections 2; pairings 4
Item 0 is the first whose marks break a rule.
  traits of item 0: 'reheat coil'
Item 0 breaks no rule as written; the fresh marks drawn do not agree with their fillers \
(worked out by this command, not by the proved library):
  mark 2, not 'reheat coil': drawn of item 0, of which it does not hold
  mark 2, not 'reheat coil': not drawn of item 1, of which it holds
  mark 4, not 'reheat coil': drawn of item 0, of which it does not hold
  mark 4, not 'reheat coil': not drawn of item 1, of which it holds
";
    assert_eq!(told(&sheet, plant), (expected.into(), Status::Unmet));
    let drawn = "40 01 00 40 14 00 41 00 00 01 00 00 41 01 00 00 00 00";
    let (text, status) = told(&sheet, drawn);
    assert_eq!(
        (text.lines().next(), status),
        (Some("keeps the sheet"), Status::Answered)
    );
}

#[test]
fn an_object_of_an_item_that_is_drawn_wrongly() {
    let sheet = Sheet::of_hex(TWO_FRESH, "t0 = coil", true);
    let expected = concat!(
        r#"{"file":"sheet.hex","answer":"breaks","plant":"plant","items":1,"connections":0,"#,
        r#""pairings":1,"item":0,"traits":[],"worked_out_by_the_command":{"rules":[],"#,
        r#""fresh":[{"mark":2,"text":"not coil","drawn":false,"items":[0]}]}}"#,
        "\n",
    );
    // without t0 nothing breaks, and with it the rules as written do
    let (text, status) = told(&sheet, "40 00 00");
    assert!(text.contains(r#""answer":"keeps""#), "{text}");
    assert_eq!(status, Status::Answered);
    let (text, status) = told(&sheet, "40 01 00");
    assert!(text.contains(r#""rules":[{"record":5,"#), "{text}");
    assert_eq!(status, Status::Unmet);
    // the fresh mark 2 that is drawn of it too is told where no rule is
    let (text, _) = told(&sheet, "40 05 00");
    assert!(text.contains(r#""rules":[{"record":5,"#), "{text}");
    assert!(text.ends_with("\"fresh\":[]}}\n"), "{text}");
    // a sheet on which an item joined to itself wants its own fresh name
    let own = Sheet {
        bytes: from_hex("03 00 10 00 01 04 00 07 01 03 20 02 04"),
        ..sheet
    };
    let joined = "40 00 00 41 00 00 00 00 00";
    let expected = expected.replace(r#""connections":0"#, r#""connections":1"#);
    assert_eq!(told(&own, joined), (expected, Status::Unmet));
}

#[test]
fn refusals_say_what_is_refused() {
    let of = |sheet: &Sheet, plant: &str| {
        let (text, status) = told(sheet, plant);
        assert_eq!(status, Status::Refused);
        text
    };
    let text = of(&Sheet::of_hex(S1, "", false), "");
    assert!(text.starts_with("plant plant: refused 25\n"), "{text}");
    let text = of(&Sheet::of_hex("04 00", "", false), "");
    assert!(
        text.starts_with("sheet sheet.hex: refused 5 at byte 1\n"),
        "{text}"
    );
    let text = of(&Sheet::of_hex(S1, "", true), "");
    assert!(
        text.ends_with("\"plant\":\"plant\",\"refused\":\"plant\"}\n"),
        "{text}"
    );
    let text = of(&Sheet::of_hex("04 00", "", true), "");
    assert!(
        text.ends_with("\"plant\":\"plant\",\"refused\":\"sheet\"}\n"),
        "{text}"
    );
}

#[test]
fn a_standard_output_that_cannot_be_written() {
    for json in [false, true] {
        let sheet = Sheet::of_hex(S6, "", json);
        for hex in ["40 01 00", "40 04 00", "42"] {
            let mut full: &mut [u8] = &mut [0; 10];
            let error = check(&sheet, &plant(hex), &mut full).expect_err("no room");
            assert_eq!(error.kind(), io::ErrorKind::WriteZero);
        }
    }
}
