//! Names and bytes as they are shown to people: control characters and bytes that are no UTF-8 as `\xNN`, so that no file name
//! can forge a line of a report or steer a terminal.
//!
//! What is shown is meant to be read; it can't in general be turned back into the bytes.

use std::ffi::OsStr;
use std::os::unix::ffi::OsStrExt;

/// How many bytes of a token are shown.
const SHOWN: usize = 40;

/// Bytes as text.
pub fn bytes(bytes: &[u8]) -> String {
    let mut out = String::new();
    for chunk in bytes.utf8_chunks() {
        for c in chunk.valid().chars() {
            if c.is_control() {
                let mut buffer = [0; 4];
                c.encode_utf8(&mut buffer).bytes().for_each(|b| out.push_str(&format!("\\x{b:02x}")));
            } else {
                out.push(c);
            }
        }
        chunk.invalid().iter().for_each(|b| out.push_str(&format!("\\x{b:02x}")));
    }
    out
}

/// A path as text; `-` is standard input.
pub fn path(path: &OsStr) -> String {
    match path.as_bytes() {
        b"-" => "standard input".to_string(),
        b"" => "the file with an empty name".to_string(),
        name => bytes(name),
    }
}

/// A token in quotes, cut if it is long.
pub fn token(token: &[u8]) -> String {
    if token.len() <= SHOWN {
        return format!("`{}`", bytes(token));
    }
    format!("`{}...` ({} bytes)", bytes(&token[..SHOWN]), token.len())
}

/// A number and the word for what is counted, `steps` for one that is not 1.
pub fn counted(number: u64, one: &str, many: &str) -> String {
    format!("{number} {}", if number == 1 { one } else { many })
}

#[cfg(test)]
mod tests {
    use super::*;

    #[test]
    fn nothing_steers_the_terminal() {
        assert_eq!(bytes(b"a\n\x1b[1m\xff\xc3\xa4"), "a\\x0a\\x1b[1m\\xff\u{e4}");
        assert_eq!(bytes("\u{85}".as_bytes()), "\\xc2\\x85");
        assert_eq!(token(&[b'1'; 41]), format!("`{}...` (41 bytes)", "1".repeat(40)));
    }
}
