//! SHA-256 of bytes, by the system's `sha256sum`, so that the tool has no cryptography of its own that somebody had to trust.
//!
//! The bytes that are hashed are those that were checked, handed over through a pipe; no file is read a second time.

use std::io::Write;
use std::process::{Child, Command, Stdio};

/// The sum as 64 hexadecimal digits, or why there is none.
pub fn of(bytes: &[u8]) -> Result<String, String> {
    let mut child = Command::new("sha256sum")
        .stdin(Stdio::piped())
        .stdout(Stdio::piped())
        .stderr(Stdio::null())
        .spawn()
        .map_err(|e| format!("sha256sum can't be run: {e}"))?;
    let fed = feed(&mut child, bytes);
    let output = child.wait_with_output().map_err(|e| format!("sha256sum did not end: {e}"))?;
    fed.map_err(|e| format!("sha256sum did not take its input: {e}"))?;
    let text = String::from_utf8_lossy(&output.stdout);
    let sum = text.split_ascii_whitespace().next().unwrap_or_default();
    if output.status.success() && sum.len() == 64 && sum.bytes().all(|b| b.is_ascii_hexdigit()) {
        return Ok(sum.to_string());
    }
    Err(format!("sha256sum printed no sum ({})", output.status))
}

/// Hands the bytes over and closes the pipe, which is what makes sha256sum print.
fn feed(child: &mut Child, bytes: &[u8]) -> std::io::Result<()> {
    let mut pipe = child.stdin.take().expect("the pipe was asked for");
    pipe.write_all(bytes)
}

#[cfg(test)]
mod tests {
    #[test]
    fn the_sum_of_nothing_and_of_abc() {
        assert_eq!(super::of(b"").as_deref(), Ok("e3b0c44298fc1c149afbf4c8996fb92427ae41e4649b934ca495991b7852b855"));
        assert_eq!(super::of(b"abc").as_deref(), Ok("ba7816bf8f01cfea414140de5dae2223b00361a396177a9cb410ff61f20015ad"));
    }
}
