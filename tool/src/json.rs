//! JSON values and their text (RFC 8259), as far as the reports need them.
//!
//! Strings are escaped whatever they hold. A path that is not UTF-8 can't be a JSON string: it is shown with U+FFFD for what is
//! wrong, and `path_hex` beside it has its bytes exactly.

use std::ffi::OsStr;
use std::os::unix::ffi::OsStrExt;

/// A JSON value. Objects keep the order of their members.
#[derive(Debug, Clone, PartialEq)]
pub enum Json {
    Null,
    Number(u64),
    Seconds(f64),
    Text(String),
    Array(Vec<Json>),
    Object(Vec<(&'static str, Json)>),
}

impl Json {
    pub fn text(text: impl Into<String>) -> Json {
        Json::Text(text.into())
    }

    /// A number, or null.
    pub fn number(number: Option<u64>) -> Json {
        number.map_or(Json::Null, Json::Number)
    }

    /// The value as text.
    pub fn written(&self) -> String {
        let mut out = String::new();
        self.write(&mut out);
        out
    }

    fn write(&self, out: &mut String) {
        match self {
            Json::Null => out.push_str("null"),
            Json::Number(n) => out.push_str(&n.to_string()),
            Json::Seconds(s) => out.push_str(&format!("{s:.6}")),
            Json::Text(t) => write_text(t, out),
            Json::Array(values) => write_list(out, '[', ']', values, |v, out| v.write(out)),
            Json::Object(members) => write_list(out, '{', '}', members, |(name, value), out| {
                write_text(name, out);
                out.push(':');
                value.write(out);
            }),
        }
    }
}

/// The values with commas between them.
fn write_list<T>(out: &mut String, open: char, close: char, values: &[T], write: impl Fn(&T, &mut String)) {
    out.push(open);
    for (n, value) in values.iter().enumerate() {
        if n > 0 {
            out.push(',');
        }
        write(value, out);
    }
    out.push(close);
}

/// A string in quotes. Control characters have to be escaped; U+2028 and U+2029 are as well, for readers that take JSON for
/// JavaScript.
fn write_text(text: &str, out: &mut String) {
    out.push('"');
    for c in text.chars() {
        match c {
            '"' => out.push_str("\\\""),
            '\\' => out.push_str("\\\\"),
            '\n' => out.push_str("\\n"),
            '\r' => out.push_str("\\r"),
            '\t' => out.push_str("\\t"),
            c if c < ' ' || ('\u{7f}'..'\u{a0}').contains(&c) || c == '\u{2028}' || c == '\u{2029}' => {
                out.push_str(&format!("\\u{:04x}", c as u32));
            }
            c => out.push(c),
        }
    }
    out.push('"');
}

/// The members that say a path.
pub fn path_members(path: &OsStr) -> Vec<(&'static str, Json)> {
    match path.to_str() {
        Some(text) => vec![("path", Json::text(text))],
        None => {
            let hex = path.as_bytes().iter().map(|b| format!("{b:02x}")).collect::<String>();
            vec![("path", Json::text(path.to_string_lossy())), ("path_hex", Json::text(hex))]
        }
    }
}

#[cfg(test)]
mod tests {
    use super::*;

    #[test]
    fn strings_are_escaped() {
        let text = Json::text("a\"b\\c\n\u{1}\u{7f}\u{e4}\u{2028}").written();
        assert_eq!(text, "\"a\\\"b\\\\c\\n\\u0001\\u007f\u{e4}\\u2028\"");
    }

    #[test]
    fn a_path_that_is_no_text_has_its_bytes_beside_it() {
        let members = path_members(OsStr::from_bytes(b"a\xff\"b"));
        let text = Json::Object(members).written();
        assert_eq!(text, "{\"path\":\"a\u{fffd}\\\"b\",\"path_hex\":\"61ff2262\"}");
    }

    #[test]
    fn values_have_commas_between_them() {
        let value = Json::Object(vec![
            ("a", Json::Array(vec![Json::Number(1), Json::Null])),
            ("b", Json::Seconds(0.5)),
            ("c", Json::Array(vec![])),
        ]);
        assert_eq!(value.written(), "{\"a\":[1,null],\"b\":0.500000,\"c\":[]}");
    }
}
