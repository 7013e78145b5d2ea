//! A reader of JSON, strict: what it reads is JSON, and all of it is read.

use std::iter::Peekable;
use std::str::Chars;

#[derive(Clone, Debug, PartialEq, Eq)]
pub enum Json {
    Null,
    Truth(bool),
    /// A whole number that is not negative.
    Number(u64),
    Text(String),
    List(Vec<Json>),
    /// Keys in the order written, each once.
    Object(Vec<(String, Json)>),
}

impl Json {
    /// The value of a key.
    #[track_caller]
    pub fn of(&self, key: &str) -> &Json {
        self.get(key)
            .unwrap_or_else(|| panic!("{self:?} has no {key}"))
    }

    pub fn get(&self, key: &str) -> Option<&Json> {
        let Json::Object(members) = self else {
            return None;
        };
        let found = members.iter().find(|(other, _)| other == key);
        found.map(|(_, value)| value)
    }
}

impl From<u64> for Json {
    fn from(number: u64) -> Self {
        Json::Number(number)
    }
}

impl From<&str> for Json {
    fn from(text: &str) -> Self {
        Json::Text(text.into())
    }
}

/// The objects of a text that has one on each line.
#[track_caller]
pub fn objects(text: &str) -> Vec<Json> {
    assert!(text.is_empty() || text.ends_with('\n'), "{text:?}");
    let read = text.lines().map(|line| match read(line) {
        Some(object @ Json::Object(_)) => object,
        other => panic!("no JSON object, but {other:?}: {line}"),
    });
    read.collect()
}

/// The value that a text is.
pub fn read(text: &str) -> Option<Json> {
    let mut reader = Reader(text.chars().peekable());
    let value = reader.value()?;
    reader.blanks();
    reader.0.next().is_none().then_some(value)
}

struct Reader<'a>(Peekable<Chars<'a>>);

impl Reader<'_> {
    fn blanks(&mut self) {
        while self.0.next_if(|c| " \t\r\n".contains(*c)).is_some() {}
    }

    /// Takes that character, after blanks.
    fn takes(&mut self, wanted: char) -> bool {
        self.blanks();
        self.0.next_if_eq(&wanted).is_some()
    }

    fn value(&mut self) -> Option<Json> {
        self.blanks();
        match self.0.peek()? {
            '"' => self.text().map(Json::Text),
            '{' => self.list('{', '}', Self::member).map(Json::Object),
            '[' => self.list('[', ']', Self::value).map(Json::List),
            '0'..='9' => self.number(),
            _ => self.word(),
        }
        .filter(no_key_twice)
    }

    /// Items parted by commas, between two marks.
    fn list<T>(
        &mut self,
        open: char,
        close: char,
        item: impl Fn(&mut Self) -> Option<T>,
    ) -> Option<Vec<T>> {
        let mut items = Vec::new();
        self.takes(open).then_some(())?;
        if self.takes(close) {
            return Some(items);
        }
        loop {
            items.push(item(self)?);
            if self.takes(close) {
                return Some(items);
            }
            self.takes(',').then_some(())?;
        }
    }

    fn member(&mut self) -> Option<(String, Json)> {
        self.blanks();
        let key = self.text()?;
        self.takes(':').then_some(())?;
        Some((key, self.value()?))
    }

    fn number(&mut self) -> Option<Json> {
        let mut digits = String::new();
        while let Some(digit) = self.0.next_if(char::is_ascii_digit) {
            digits.push(digit);
        }
        let leading_zero = digits.len() > 1 && digits.starts_with('0');
        (!leading_zero).then(|| digits.parse().ok().map(Json::Number))?
    }

    fn word(&mut self) -> Option<Json> {
        let mut word = String::new();
        while let Some(letter) = self.0.next_if(char::is_ascii_lowercase) {
            word.push(letter);
        }
        match &word[..] {
            "null" => Some(Json::Null),
            "true" => Some(Json::Truth(true)),
            "false" => Some(Json::Truth(false)),
            _ => None,
        }
    }

    fn text(&mut self) -> Option<String> {
        let mut text = String::new();
        self.0.next_if_eq(&'"')?;
        loop {
            match self.0.next()? {
                '"' => return Some(text),
                '\\' => text.push(self.escaped()?),
                control if control < ' ' => return None,
                other => text.push(other),
            }
        }
    }

    /// What stands after a backslash. Pairs of surrogates are not read.
    fn escaped(&mut self) -> Option<char> {
        Some(match self.0.next()? {
            same @ ('"' | '\\' | '/') => same,
            'b' => '\u{8}',
            'f' => '\u{C}',
            'n' => '\n',
            'r' => '\r',
            't' => '\t',
            'u' => {
                let digits: String = self.0.by_ref().take(4).collect();
                let is_hex = digits.len() == 4 && digits.chars().all(|c| c.is_ascii_hexdigit());
                is_hex
                    .then(|| u32::from_str_radix(&digits, 16).ok())??
                    .try_into()
                    .ok()?
            }
            _ => return None,
        })
    }
}

fn no_key_twice(value: &Json) -> bool {
    let Json::Object(members) = value else {
        return true;
    };
    let keys = members.iter().map(|(key, _)| key);
    keys.collect::<std::collections::HashSet<_>>().len() == members.len()
}

#[test]
fn values_are_read() {
    let text = r#" {"a": [1, 0, []], "b":{}, "c":"x\"\\\/\b\f\n\r\t\u00e4ä", "d":null,"e":true} "#;
    let object = Json::Object(vec![
        (
            "a".into(),
            Json::List(vec![1.into(), 0.into(), Json::List(vec![])]),
        ),
        ("b".into(), Json::Object(vec![])),
        ("c".into(), "x\"\\/\u{8}\u{C}\n\r\tää".into()),
        ("d".into(), Json::Null),
        ("e".into(), Json::Truth(true)),
    ]);
    assert_eq!(read(text), Some(object));
}

#[test]
fn what_is_no_json_is_not_read() {
    let faulty = [
        "",
        "{",
        "[1,]",
        "{\"a\":1,}",
        "{a:1}",
        "01",
        "1 2",
        "\"\n\"",
        "\"\\x\"",
        "\"\\u12\"",
        "nul",
        "{\"a\":1,\"a\":2}",
        "[1 2]",
        "'a'",
        "\"",
        "-",
        "\"\\ud800\"",
    ];
    for text in faulty {
        assert_eq!(read(text), None, "{text}");
    }
}
