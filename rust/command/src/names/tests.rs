use super::*;
use std::path::PathBuf;
use std::{env, fs, process};

#[test]
fn numbers_without_a_name() {
    let names = Names::default();
    assert_eq!((names.name(0), names.name(11)), ("t0".into(), "t11".into()));
    assert_eq!(names.role(3), "k3");
    assert_eq!(names.inverse(0), "k0 reversed");
    assert_eq!(Names::parse(""), Ok(names));
}

#[test]
fn names_are_put_in() {
    let text = "\u{feff}# the trade's words\r\n\r\n  t0 = reheat coil  # on the roof\r\n\
                t11=Kühler_2\n\tk0\t=\tfeeds\nk3 = a = b\n";
    let names = Names::parse(text).expect("names");
    assert_eq!(names.name(0), "'reheat coil'");
    assert_eq!(names.name(1), "t1");
    assert_eq!(names.name(11), "Kühler_2");
    assert_eq!(names.role(0), "feeds");
    assert_eq!(names.inverse(0), "feeds reversed");
    assert_eq!(names.role(1), "k1");
    assert_eq!(names.inverse(3), "'a = b' reversed");
}

#[test]
fn a_name_that_reads_as_something_else_is_quoted() {
    let quoted = |word: &str| {
        let names = Names::parse(&format!("t0 = {word}")).expect("a name");
        names.name(0)
    };
    for word in RESERVED
        .into_iter()
        .chain(["t0", "t11", "k3", "a b", "(", "."])
    {
        assert_eq!(quoted(word), format!("'{word}'"));
    }
    for word in ["a", "Not", "t12", "t-0", "k4", "2nd", "-", "x_y", "t00"] {
        assert_eq!(quoted(word), word);
    }
    assert_eq!(quoted("pump's"), "'pump''s'");
}

#[test]
fn a_trait_and_a_link_may_have_one_name() {
    let names = Names::parse("t0 = feed\nk0 = feed").expect("names");
    assert_eq!(
        (names.name(0), names.role(0)),
        ("feed".into(), "feed".into())
    );
}

#[test]
fn a_line_at_fault() {
    let wanted = "wanted is a line such as 't0 = reheat coil' or 'k0 = feeds'";
    let neither = |key| format!("'{key}' is neither a trait (t0 to t11) nor a link (k0 to k3)");
    let rows = [
        ("coil", wanted.into()),
        ("t0: coil", wanted.into()),
        ("= coil", neither("")),
        ("t12 = coil", neither("t12")),
        ("t00 = coil", neither("t00")),
        ("t+1 = coil", neither("t+1")),
        ("k4 = coil", neither("k4")),
        ("T0 = coil", neither("T0")),
        ("t\u{1b}0 = coil", neither("t\\u{1b}0")),
        ("t0 =", "no name for t0 after the '='".into()),
        ("t0 = # coil", "no name for t0 after the '='".into()),
        ("t0 = a\tb", "a control character in the name of t0".into()),
        ("k1 = coil", "k1 has a name already".into()),
        ("t9 = pump", "'pump' is the name of t8 already".into()),
    ];
    for (line, sentence) in rows {
        let text = format!("t8 = pump\n# k1\nk1 = feeds\n\n{line}\nnonsense");
        assert_eq!(Names::parse(&text), Err(format!("line 5: {sentence}")));
    }
}

/// A folder of its own, which goes away with it.
struct Folder(PathBuf);

impl Folder {
    fn new(name: &str) -> Self {
        let folder = env::temp_dir().join(format!("lodhrussi-{name}-{}", process::id()));
        fs::create_dir_all(&folder).expect("a folder");
        Folder(folder)
    }

    fn write(&self, name: &str, bytes: impl AsRef<[u8]>) -> PathBuf {
        let file = self.0.join(name);
        fs::write(&file, bytes).expect("a file");
        file
    }
}

impl Drop for Folder {
    fn drop(&mut self) {
        let _ = fs::remove_dir_all(&self.0);
    }
}

#[test]
fn the_file_beside_a_sheet() {
    let folder = Folder::new("beside");
    folder.write("coil.names", "t0 = coil");
    folder.write("bad.names", "t0\n");
    fs::create_dir(folder.0.join("folder.names")).expect("a folder");
    let other = folder.write("other", "t0 = pump");
    let of = |sheet: &str| Names::for_sheet(None, folder.0.join(sheet).as_os_str());
    let coil = Names::parse("t0 = coil").expect("a name");
    assert_eq!(of("coil.hex"), Ok(coil.clone()));
    assert_eq!(of("coil"), Ok(coil));
    for without in ["pump.hex", "folder.hex", "coil.names", "bad.x.hex"] {
        assert_eq!(of(without), Ok(Names::default()), "{without}");
    }
    assert_eq!(Names::for_sheet(None, "-".as_ref()), Ok(Names::default()));
    let bad = folder.0.join("bad.names");
    let sentence = "line 1: wanted is a line such as 't0 = reheat coil' or 'k0 = feeds'";
    assert_eq!(of("bad.bin"), Err(format!("{}: {sentence}", bad.display())));
    let named = Names::for_sheet(
        Some(other.as_os_str()),
        folder.0.join("bad.bin").as_os_str(),
    );
    assert_eq!(named, Names::parse("t0 = pump"));
}

#[test]
fn a_file_that_holds_no_names() {
    let folder = Folder::new("no-names");
    let of = |file: &PathBuf| Names::for_sheet(Some(file.as_os_str()), "s1.hex".as_ref());
    let latin = folder.write("latin", b"t0 = K\xfchler");
    let long = folder.write("long", vec![b'\n'; (1 << 20) + 1]);
    let longest = folder.write("longest", vec![b'\n'; 1 << 20]);
    assert_eq!(
        of(&latin),
        Err(format!("{}: no UTF-8 text", latin.display()))
    );
    let too_long = format!("{}: too long for a file of names", long.display());
    assert_eq!(of(&long), Err(too_long));
    assert_eq!(of(&longest), Ok(Names::default()));
    let folder_read = format!("{} is a folder", folder.0.display());
    assert_eq!(of(&folder.0), Err(folder_read));
    let missing = folder.0.join("missing");
    let sentence = format!("there is no file {}", missing.display());
    assert_eq!(of(&missing), Err(sentence));
}
