//! JSON objects on a line.

use std::fmt::{self, Write};

/// An object, built field by field; displayed on one line.
#[derive(Clone, Debug, Default)]
pub struct Object {
    fields: Vec<String>,
}

impl Object {
    /// With a field that is a string.
    #[must_use]
    pub fn text(self, key: &str, value: &str) -> Self {
        let value = quoted(value);
        self.with(key, value)
    }

    /// With a field that is a number.
    #[must_use]
    pub fn number(self, key: &str, value: u64) -> Self {
        self.with(key, value.to_string())
    }

    /// With a field that is true or false.
    #[must_use]
    pub fn truth(self, key: &str, value: bool) -> Self {
        self.with(key, value.to_string())
    }

    /// With a field that is an array of strings.
    #[must_use]
    pub fn texts<S: AsRef<str>>(self, key: &str, values: impl IntoIterator<Item = S>) -> Self {
        let values = values.into_iter().map(|value| quoted(value.as_ref()));
        self.with(key, array(values))
    }

    /// With a field that is an array of numbers.
    #[must_use]
    pub fn numbers(self, key: &str, values: impl IntoIterator<Item = u64>) -> Self {
        let values = values.into_iter().map(|value| value.to_string());
        self.with(key, array(values))
    }

    /// With a field that is an object.
    #[must_use]
    pub fn object(self, key: &str, value: &Object) -> Self {
        self.with(key, value.to_string())
    }

    /// With a field that is an array of objects.
    #[must_use]
    pub fn objects(self, key: &str, values: impl IntoIterator<Item = Object>) -> Self {
        let values = values.into_iter().map(|value| value.to_string());
        self.with(key, array(values))
    }

    fn with(mut self, key: &str, value: String) -> Self {
        self.fields.push(format!("{}:{value}", quoted(key)));
        self
    }
}

impl fmt::Display for Object {
    fn fmt(&self, f: &mut fmt::Formatter<'_>) -> fmt::Result {
        write!(f, "{{{}}}", self.fields.join(","))
    }
}

fn array(values: impl Iterator<Item = String>) -> String {
    format!("[{}]", values.collect::<Vec<_>>().join(","))
}

/// A string in quotes, with escapes for what may not stand between them.
fn quoted(text: &str) -> String {
    let mut quoted = String::from("\"");
    for c in text.chars() {
        match c {
            '"' => quoted.push_str("\\\""),
            '\\' => quoted.push_str("\\\\"),
            '\n' => quoted.push_str("\\n"),
            '\r' => quoted.push_str("\\r"),
            '\t' => quoted.push_str("\\t"),
            c if c < ' ' || c == '\u{7f}' => {
                let _ = write!(quoted, "\\u{:04x}", u32::from(c));
            }
            c => quoted.push(c),
        }
    }
    quoted.push('"');
    quoted
}

#[cfg(test)]
mod tests {
    use super::*;

    #[test]
    fn an_object_of_every_sort_of_field() {
        let inner = Object::default().number("n", 1);
        let object = Object::default()
            .text("file", "a \"b\"")
            .number("most", u64::MAX)
            .truth("met", true)
            .texts("none", [""; 0])
            .texts("texts", ["a", "b\n"])
            .numbers("numbers", [0, u64::MAX])
            .object("object", &inner)
            .objects("objects", [Object::default(), inner]);
        let expected = r#"{"file":"a \"b\"","most":18446744073709551615,"met":true,"#.to_string()
            + r#""none":[],"texts":["a","b\n"],"numbers":[0,18446744073709551615],"#
            + r#""object":{"n":1},"objects":[{},{"n":1}]}"#;
        assert_eq!(object.to_string(), expected);
    }

    #[test]
    fn what_may_not_stand_in_quotes_is_escaped() {
        let escapes: String = (0..0x20_u8)
            .map(|byte| quoted(&char::from(byte).to_string()))
            .collect();
        let expected: String = (0..0x20_u8)
            .map(|byte| match byte {
                9 => r#""\t""#.into(),
                10 => r#""\n""#.into(),
                13 => r#""\r""#.into(),
                _ => format!("\"\\u{byte:04x}\""),
            })
            .collect();
        assert_eq!(escapes, expected);
        assert_eq!(quoted("\\ \" \u{7f}"), r#""\\ \" \u007f""#);
        assert_eq!(
            quoted("coil \u{e9} \u{1f525} /"),
            "\"coil \u{e9} \u{1f525} /\""
        );
    }

    #[test]
    fn keys_are_escaped_too() {
        let object = Object::default().truth("\"", false);
        assert_eq!(object.to_string(), r#"{"\"":false}"#);
    }
}
