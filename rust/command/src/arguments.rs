//! What is asked on the command line.

use crate::help::Topic;
use std::collections::VecDeque;
use std::ffi::{OsStr, OsString};
use std::num::NonZeroUsize;
use std::os::unix::ffi::{OsStrExt, OsStringExt};

/// A question to the command.
#[derive(Clone, Debug, PartialEq, Eq)]
pub enum Question {
    Help(Topic),
    Version,
    Judge(Judge),
    Show(Show),
    Strike(Strike),
    Check(Check),
    Draw(Draw),
    Import(Import),
    Export(Export),
}

/// How answers are printed.
#[derive(Clone, Copy, Debug, PartialEq, Eq)]
pub enum Form {
    /// For people.
    Text,
    /// As the evening program and the queue program print them.
    Lines,
    /// A JSON object a line.
    Json,
}

/// `lodhrussi judge`
#[derive(Clone, Debug, PartialEq, Eq)]
pub struct Judge {
    /// At least one.
    pub files: Vec<OsString>,
    pub form: Form,
    /// The threads asked for.
    pub jobs: Option<NonZeroUsize>,
    pub names: Option<OsString>,
}

/// `lodhrussi show`
#[derive(Clone, Debug, PartialEq, Eq)]
pub struct Show {
    pub file: OsString,
    pub json: bool,
    pub names: Option<OsString>,
}

/// `lodhrussi strike`
#[derive(Clone, Debug, PartialEq, Eq)]
pub struct Strike {
    pub file: OsString,
    /// At least one.
    pub numbers: Vec<u64>,
    pub json: bool,
    pub names: Option<OsString>,
}

/// `lodhrussi check`
#[derive(Clone, Debug, PartialEq, Eq)]
pub struct Check {
    pub sheet: OsString,
    pub plant: OsString,
    pub json: bool,
    pub names: Option<OsString>,
}

/// `lodhrussi draw`
#[derive(Clone, Debug, PartialEq, Eq)]
pub struct Draw {
    pub file: OsString,
    pub form: Drawing,
    pub names: Option<OsString>,
}

/// How a plant is drawn.
#[derive(Clone, Debug, PartialEq, Eq)]
pub enum Drawing {
    /// For people.
    Table,
    /// As hex text.
    Records,
    /// As DOT text.
    Dot,
    /// As SVG, in that file.
    Svg(OsString),
    /// As a JSON object.
    Json,
}

/// `lodhrussi import`
#[derive(Clone, Debug, PartialEq, Eq)]
pub struct Import {
    pub file: OsString,
    pub json: bool,
    pub names: Option<OsString>,
}

/// `lodhrussi export`
#[derive(Clone, Debug, PartialEq, Eq)]
pub struct Export {
    pub file: OsString,
    /// The IRI of an ontology that is asked for.
    pub ontology: Option<String>,
    pub json: bool,
    pub names: Option<OsString>,
}

/// What the arguments after the command's own name ask. The error is a clause
/// that says what is wrong and where help is.
pub fn parse(arguments: impl IntoIterator<Item = OsString>) -> Result<Question, String> {
    let mut arguments = arguments.into_iter();
    let wrong = |what: String| Err(format!("{what}; lodhrussi --help tells how to ask"));
    let Some(first) = arguments.next() else {
        return wrong(
            "name a subcommand: judge, show, strike, check, draw, import or export".into(),
        );
    };
    let rest = arguments.collect();
    match first.to_str() {
        Some("--help" | "-h") => Ok(Question::Help(Topic::Whole)),
        Some("--version" | "-V") => Ok(Question::Version),
        Some("help") => help(&rest).or_else(wrong),
        Some("judge") => of(Topic::Judge, rest, judge),
        Some("show") => of(Topic::Show, rest, show),
        Some("strike") => of(Topic::Strike, rest, strike),
        Some("check") => of(Topic::Check, rest, check),
        Some("draw") => of(Topic::Draw, rest, draw),
        Some("import") => of(Topic::Import, rest, import),
        Some("export") => of(Topic::Export, rest, export),
        _ if is_option(&first) => wrong(format!("there is no option {}", first.display())),
        _ => wrong(format!("there is no subcommand '{}'", first.display())),
    }
}

/// The help that `lodhrussi help` asks for.
fn help(rest: &VecDeque<OsString>) -> Result<Question, String> {
    let Some(first) = rest.front() else {
        return Ok(Question::Help(Topic::Whole));
    };
    match Topic::SUBCOMMANDS
        .iter()
        .find(|topic| first == topic.word())
    {
        Some(&topic) => Ok(Question::Help(topic)),
        None => Err(format!("there is no subcommand '{}'", first.display())),
    }
}

/// The question of a subcommand.
fn of(
    topic: Topic,
    rest: VecDeque<OsString>,
    question: fn(Given) -> Result<Question, String>,
) -> Result<Question, String> {
    let word = topic.word();
    let asked = Given::parse(topic, rest).and_then(|given| {
        if given.help {
            return Ok(Question::Help(topic));
        }
        given.check_standard_input()?;
        question(given)
    });
    asked.map_err(|what| format!("{word}: {what}; lodhrussi {word} --help tells how to ask"))
}

fn judge(given: Given) -> Result<Question, String> {
    let form = match (given.lines, given.json) {
        (true, true) => return Err(two_forms("--lines", "--json")),
        (true, false) => Form::Lines,
        (false, true) => Form::Json,
        (false, false) => Form::Text,
    };
    if given.operands.is_empty() {
        return Err("name a FILE or several, or - for standard input".into());
    }
    Ok(Question::Judge(Judge {
        files: given.operands.into(),
        form,
        jobs: given.jobs,
        names: given.names,
    }))
}

fn show(mut given: Given) -> Result<Question, String> {
    Ok(Question::Show(Show {
        file: given.only_file()?,
        json: given.json,
        names: given.names,
    }))
}

fn import(mut given: Given) -> Result<Question, String> {
    Ok(Question::Import(Import {
        file: given.only_file()?,
        json: given.json,
        names: given.names,
    }))
}

fn export(mut given: Given) -> Result<Question, String> {
    Ok(Question::Export(Export {
        file: given.only_file()?,
        ontology: given.ontology,
        json: given.json,
        names: given.names,
    }))
}

fn strike(mut given: Given) -> Result<Question, String> {
    let file = given.file()?;
    if given.operands.is_empty() {
        return Err("name the NUMBER of a pairing or several".into());
    }
    let numbers = given.operands.iter().map(|operand| number(operand));
    Ok(Question::Strike(Strike {
        file,
        numbers: numbers.collect::<Result<_, _>>()?,
        json: given.json,
        names: given.names,
    }))
}

fn check(mut given: Given) -> Result<Question, String> {
    let (sheet, plant) = (given.operand("SHEET")?, given.operand("PLANT")?);
    if !given.operands.is_empty() {
        return Err("name one SHEET, one PLANT and no more".into());
    }
    Ok(Question::Check(Check {
        sheet,
        plant,
        json: given.json,
        names: given.names,
    }))
}

fn draw(mut given: Given) -> Result<Question, String> {
    let file = given.only_file()?;
    let forms = [
        ("--records", given.records.then_some(Drawing::Records)),
        ("--dot", given.dot.then_some(Drawing::Dot)),
        ("--svg", given.svg.map(Drawing::Svg)),
        ("--json", given.json.then_some(Drawing::Json)),
    ];
    let mut asked = forms
        .into_iter()
        .filter_map(|(option, form)| Some((option, form?)));
    let form = match (asked.next(), asked.next()) {
        (Some((first, _)), Some((second, _))) => return Err(two_forms(first, second)),
        (Some((_, form)), None) => form,
        (None, _) => Drawing::Table,
    };
    Ok(Question::Draw(Draw {
        file,
        form,
        names: given.names,
    }))
}

fn two_forms(first: &str, second: &str) -> String {
    format!("{first} and {second} are two forms; ask for one")
}

/// The number of a domino (document 01: pairing).
fn number(operand: &OsStr) -> Result<u64, String> {
    let shown = operand.display();
    match digits(operand) {
        None => Err(format!("'{shown}' is no number of a pairing")),
        Some(digits) => digits
            .parse()
            .map_err(|_| format!("{shown} is too large for a number of a pairing")),
    }
}

/// A text of digits and nothing else.
fn digits(text: &OsStr) -> Option<&str> {
    let text = text.to_str()?;
    let digits = !text.is_empty() && text.bytes().all(|byte| byte.is_ascii_digit());
    digits.then_some(text)
}

/// An argument that is no operand: - is a file.
fn is_option(argument: &OsStr) -> bool {
    argument.as_bytes().starts_with(b"-") && argument != "-"
}

/// The arguments of a subcommand, sorted.
#[derive(Default)]
struct Given {
    help: bool,
    lines: bool,
    json: bool,
    records: bool,
    dot: bool,
    svg: Option<OsString>,
    jobs: Option<NonZeroUsize>,
    names: Option<OsString>,
    ontology: Option<String>,
    operands: VecDeque<OsString>,
}

impl Given {
    /// Options may stand anywhere up to `--`.
    fn parse(topic: Topic, mut arguments: VecDeque<OsString>) -> Result<Self, String> {
        let mut given = Given::default();
        while let Some(argument) = arguments.pop_front() {
            if argument == "--" {
                given.operands.append(&mut arguments);
            } else if is_option(&argument) {
                given.option(topic, &argument, &mut arguments)?;
            } else {
                given.operands.push_back(argument);
            }
        }
        Ok(given)
    }

    /// Takes an option, and its value from what follows or after an `=`.
    fn option(
        &mut self,
        topic: Topic,
        argument: &OsStr,
        following: &mut VecDeque<OsString>,
    ) -> Result<(), String> {
        let (option, value) = split(argument);
        let judges = topic == Topic::Judge;
        let draws = topic == Topic::Draw;
        match (option.to_str(), &value) {
            (Some("--help" | "-h"), None) => self.help = true,
            (Some("--json"), None) => self.json = true,
            (Some("--lines"), None) if judges => self.lines = true,
            (Some("--jobs"), _) if judges => {
                let value = value.or_else(|| following.pop_front());
                self.jobs = Some(jobs(value.as_deref())?);
            }
            (Some("--names"), _) => {
                let value = value.or_else(|| following.pop_front());
                self.names = Some(value.ok_or("--names wants a FILE after it")?);
            }
            (Some("--records"), None) if draws => self.records = true,
            (Some("--dot"), None) if draws => self.dot = true,
            (Some("--svg"), _) if draws => {
                let value = value.or_else(|| following.pop_front());
                self.svg = Some(value.ok_or("--svg wants an OUT after it")?);
            }
            (Some("--ontology"), _) if topic == Topic::Export => {
                let value = value.or_else(|| following.pop_front());
                self.ontology = Some(iri(value.as_deref())?);
            }
            _ => return Err(format!("there is no option {}", argument.display())),
        }
        Ok(())
    }

    /// Standard input is named once.
    fn check_standard_input(&self) -> Result<(), String> {
        let named = self.operands.iter().chain(&self.names);
        match named.filter(|file| *file == "-").count() {
            0 | 1 => Ok(()),
            _ => Err("standard input (-) can be read only once".into()),
        }
    }

    /// The operand, which is one.
    fn only_file(&mut self) -> Result<OsString, String> {
        let file = self.file()?;
        match self.operands.is_empty() {
            true => Ok(file),
            false => Err("name one FILE and no more".into()),
        }
    }

    /// The first operand.
    fn file(&mut self) -> Result<OsString, String> {
        self.operand("FILE")
    }

    /// The next operand, which is that.
    fn operand(&mut self, what: &str) -> Result<OsString, String> {
        let file = self.operands.pop_front();
        file.ok_or_else(|| format!("name a {what}, or - for standard input"))
    }
}

/// An option, and the value behind its `=`.
fn split(argument: &OsStr) -> (OsString, Option<OsString>) {
    let mut parts = argument.as_bytes().splitn(2, |&byte| byte == b'=');
    let mut part = || parts.next().map(|part| OsString::from_vec(part.into()));
    (part().unwrap_or_default(), part())
}

/// The value of `--jobs`.
fn jobs(value: Option<&OsStr>) -> Result<NonZeroUsize, String> {
    let number = value.and_then(digits).and_then(|text| text.parse().ok());
    number.ok_or_else(|| "--jobs wants a number from 1 after it".into())
}

/// The value of `--ontology`: a scheme, a colon, and what may stand in an IRI.
fn iri(value: Option<&OsStr>) -> Result<String, String> {
    const WANTED: &str = "--ontology wants an IRI such as http://example.org/coil after it";
    let value = value.ok_or(WANTED)?;
    let is_iri = |text: &&str| {
        let may_stand = |c: char| !c.is_control() && !" <>\"{}|\\^`".contains(c);
        let in_scheme = |c: char| c.is_ascii_alphanumeric() || "+-.".contains(c);
        text.split_once(':').is_some_and(|(scheme, rest)| {
            scheme.starts_with(|c: char| c.is_ascii_alphabetic())
                && scheme.chars().all(in_scheme)
                && !rest.is_empty()
                && rest.chars().all(may_stand)
        })
    };
    match value.to_str().filter(is_iri) {
        Some(iri) => Ok(iri.into()),
        None => Err(format!("'{}' is no IRI; {WANTED}", value.display())),
    }
}

#[cfg(test)]
mod tests {
    use super::*;

    fn asked(line: &str) -> Result<Question, String> {
        parse(line.split_whitespace().map(OsString::from))
    }

    fn judging(files: &str, form: Form, jobs: usize, names: Option<&str>) -> Question {
        Question::Judge(Judge {
            files: files.split_whitespace().map(OsString::from).collect(),
            form,
            jobs: NonZeroUsize::new(jobs),
            names: names.map(OsString::from),
        })
    }

    #[test]
    fn help_and_version() {
        let help = |topic| Ok(Question::Help(topic));
        let rows = [
            ("--help", help(Topic::Whole)),
            ("-h judge", help(Topic::Whole)),
            ("help", help(Topic::Whole)),
            ("help strike", help(Topic::Strike)),
            ("judge --help", help(Topic::Judge)),
            ("show x -h", help(Topic::Show)),
            ("strike --help", help(Topic::Strike)),
            ("help check", help(Topic::Check)),
            ("check s -h", help(Topic::Check)),
            ("draw --dot --json -h", help(Topic::Draw)),
            ("help import", help(Topic::Import)),
            ("export --help --ontology a:b", help(Topic::Export)),
            ("--version", Ok(Question::Version)),
            ("-V", Ok(Question::Version)),
        ];
        for (line, expected) in rows {
            assert_eq!(asked(line), expected, "{line}");
        }
    }

    #[test]
    fn questions_about_files() {
        let rows = [
            ("judge a", judging("a", Form::Text, 0, None)),
            ("judge a - b", judging("a - b", Form::Text, 0, None)),
            ("judge --json a", judging("a", Form::Json, 0, None)),
            ("judge a --lines b", judging("a b", Form::Lines, 0, None)),
            ("judge --jobs 3 a b", judging("a b", Form::Text, 3, None)),
            ("judge a --jobs=12", judging("a", Form::Text, 12, None)),
            ("judge a --names n", judging("a", Form::Text, 0, Some("n"))),
            (
                "judge --names=n=m a",
                judging("a", Form::Text, 0, Some("n=m")),
            ),
            (
                "judge a -- --json --",
                judging("a --json --", Form::Text, 0, None),
            ),
        ];
        for (line, expected) in rows {
            assert_eq!(asked(line), Ok(expected), "{line}");
        }
    }

    #[test]
    fn questions_about_one_file() {
        let show = Show {
            file: "-".into(),
            json: true,
            names: Some("n".into()),
        };
        assert_eq!(asked("show --names n - --json"), Ok(Question::Show(show)));
        let strike = Strike {
            file: "f".into(),
            numbers: vec![32, 0, u64::MAX],
            json: false,
            names: None,
        };
        let line = format!("strike f 32 000 {}", u64::MAX);
        assert_eq!(asked(&line), Ok(Question::Strike(strike)));
        let import = Import {
            file: "f".into(),
            json: true,
            names: Some("n".into()),
        };
        let line = "import --json --names n f";
        assert_eq!(asked(line), Ok(Question::Import(import)));
        let export = |ontology: Option<&str>| Export {
            file: "-".into(),
            ontology: ontology.map(String::from),
            json: false,
            names: None,
        };
        let iri = "http://a.example/b=c#";
        let rows = [
            ("export -".to_string(), export(None)),
            (format!("export --ontology {iri} -"), export(Some(iri))),
            (format!("export - --ontology={iri}"), export(Some(iri))),
        ];
        for (line, expected) in rows {
            assert_eq!(asked(&line), Ok(Question::Export(expected)), "{line}");
        }
    }

    #[test]
    fn questions_about_a_sheet_and_a_plant() {
        let check = |json, names: Option<&str>| {
            Ok(Question::Check(Check {
                sheet: "s".into(),
                plant: "-".into(),
                json,
                names: names.map(OsString::from),
            }))
        };
        assert_eq!(asked("check s -"), check(false, None));
        let line = "check s --names n - --json";
        assert_eq!(asked(line), check(true, Some("n")));
    }

    #[test]
    fn questions_about_a_plant_to_be_drawn() {
        let draw = |form, names: Option<&str>| {
            Ok(Question::Draw(Draw {
                file: "-".into(),
                form,
                names: names.map(OsString::from),
            }))
        };
        let svg = |out: &str| Drawing::Svg(out.into());
        let rows = [
            ("draw -", draw(Drawing::Table, None)),
            ("draw --records -", draw(Drawing::Records, None)),
            ("draw - --dot --names n", draw(Drawing::Dot, Some("n"))),
            ("draw --json --json -", draw(Drawing::Json, None)),
            ("draw --svg o -", draw(svg("o"), None)),
            ("draw - --svg=o=p", draw(svg("o=p"), None)),
            ("draw --svg - -", draw(svg("-"), None)),
            ("draw --svg --dot -", draw(svg("--dot"), None)),
        ];
        for (line, expected) in rows {
            assert_eq!(asked(line), expected, "{line}");
        }
    }

    /// Asserts what is said of lines that begin so, and where help is.
    #[track_caller]
    fn assert_wrong(subcommand: &str, rows: &[(&str, &str)]) {
        let (said_of, help) = match subcommand {
            "" => (String::new(), "lodhrussi --help".into()),
            word => (format!("{word}: "), format!("lodhrussi {word} --help")),
        };
        for (line, wrong) in rows {
            let expected = format!("{said_of}{wrong}; {help} tells how to ask");
            let line = format!("{subcommand} {line}");
            assert_eq!(asked(&line), Err(expected), "{line}");
        }
    }

    #[test]
    fn no_subcommand() {
        let rows = [
            (
                "",
                "name a subcommand: judge, show, strike, check, draw, import or export",
            ),
            ("weigh f", "there is no subcommand 'weigh'"),
            ("-", "there is no subcommand '-'"),
            ("help me", "there is no subcommand 'me'"),
            ("--json judge f", "there is no option --json"),
        ];
        assert_wrong("", &rows);
    }

    #[test]
    fn what_cannot_be_judged() {
        let rows = [
            ("", "name a FILE or several, or - for standard input"),
            ("--json", "name a FILE or several, or - for standard input"),
            ("- f -", "standard input (-) can be read only once"),
            ("--names - -", "standard input (-) can be read only once"),
            (
                "--lines --json f",
                "--lines and --json are two forms; ask for one",
            ),
            ("-x f", "there is no option -x"),
            ("--json=1 f", "there is no option --json=1"),
            ("f --jobs", "--jobs wants a number from 1 after it"),
            ("f --jobs 0", "--jobs wants a number from 1 after it"),
            ("f --jobs=+1", "--jobs wants a number from 1 after it"),
            ("f --names", "--names wants a FILE after it"),
        ];
        assert_wrong("judge", &rows);
    }

    #[test]
    fn what_cannot_be_shown_or_struck() {
        let rows = [
            ("", "name a FILE, or - for standard input"),
            ("f g", "name one FILE and no more"),
            ("--lines f", "there is no option --lines"),
            ("--jobs 2 f", "there is no option --jobs"),
            ("- --names=-", "standard input (-) can be read only once"),
        ];
        assert_wrong("show", &rows);
        assert_wrong("import", &rows);
        assert_wrong("export", &rows);
        assert_wrong(
            "import",
            &[("--ontology a:b f", "there is no option --ontology")],
        );
        let too_large = "18446744073709551616 is too large for a number of a pairing";
        let rows = [
            ("", "name a FILE, or - for standard input"),
            ("f", "name the NUMBER of a pairing or several"),
            ("f 1 x", "'x' is no number of a pairing"),
            ("f +1", "'+1' is no number of a pairing"),
            ("f -1", "there is no option -1"),
            ("f 18446744073709551616", too_large),
        ];
        assert_wrong("strike", &rows);
    }

    #[test]
    fn what_cannot_be_checked() {
        let rows = [
            ("", "name a SHEET, or - for standard input"),
            ("--json", "name a SHEET, or - for standard input"),
            ("s", "name a PLANT, or - for standard input"),
            ("s p q", "name one SHEET, one PLANT and no more"),
            ("- -", "standard input (-) can be read only once"),
            ("s - --names=-", "standard input (-) can be read only once"),
            ("--lines s p", "there is no option --lines"),
            ("--jobs 2 s p", "there is no option --jobs"),
            ("--ontology a:b s p", "there is no option --ontology"),
            ("s p --names", "--names wants a FILE after it"),
        ];
        assert_wrong("check", &rows);
    }

    #[test]
    fn what_cannot_be_drawn() {
        let rows = [
            ("", "name a FILE, or - for standard input"),
            ("--svg f", "name a FILE, or - for standard input"),
            ("f g", "name one FILE and no more"),
            ("f --svg", "--svg wants an OUT after it"),
            ("--lines f", "there is no option --lines"),
            ("--svg", "--svg wants an OUT after it"),
            ("--records=p f", "there is no option --records=p"),
            ("- --names=-", "standard input (-) can be read only once"),
        ];
        assert_wrong("draw", &rows);
        let forms = ["--records", "--dot", "--svg=o", "--json"];
        for (first, second) in [(0, 1), (0, 2), (0, 3), (1, 2), (1, 3), (2, 3)] {
            let [first, second] = [forms[first], forms[second]];
            let [told, also] = [first, second].map(|form| form.trim_end_matches("=o"));
            let wrong = format!("{told} and {also} are two forms; ask for one");
            assert_wrong("draw", &[(&format!("{first} f {second}"), &wrong)]);
            assert_wrong("draw", &[(&format!("{second} {first} f"), &wrong)]);
        }
        for form in &forms[..3] {
            let wrong = format!("there is no option {form}");
            assert_wrong("export", &[(&format!("{form} f"), &wrong)]);
        }
    }

    #[test]
    fn what_is_no_iri() {
        let wanted = "--ontology wants an IRI such as http://example.org/coil after it";
        assert_wrong("export", &[("f --ontology", wanted)]);
        let none = [
            "coil", "coil.hex", ":a", "1a:b", "a:", "a:b<c", "a:b\"", "a_b:c",
        ];
        for iri in none {
            let sentence = format!("'{iri}' is no IRI; {wanted}");
            assert_wrong("export", &[(&format!("f --ontology {iri}"), &sentence)]);
            assert_wrong("export", &[(&format!("--ontology={iri} f"), &sentence)]);
        }
        for iri in [
            "a:b",
            "urn:x-1:c",
            "http://a.example/b#",
            "file:///K\u{fc}hler",
        ] {
            let asked = asked(&format!("export f --ontology={iri}"));
            assert!(matches!(asked, Ok(Question::Export(_))), "{iri}");
        }
    }

    #[test]
    fn a_file_may_have_any_name() {
        let file = OsString::from_vec(vec![0xFF, b'x']);
        let names = OsString::from_vec(b"--names=\xFE".to_vec());
        let question = parse(["show".into(), names, file.clone()]);
        let expected = Show {
            file,
            json: false,
            names: Some(OsString::from_vec(vec![0xFE])),
        };
        assert_eq!(question, Ok(Question::Show(expected)));
    }
}
