//! Links the proved static library, and notes which one it is.
//!
//! The library is taken from ../dist, where the repository keeps it, or from the folder that the environment variable
//! PROOFSCALE_LIB names. That in ../dist has to have the SHA-256 that ../dist/made-from says; of one from elsewhere nothing is
//! checked, and a stand-in links as well: the tool then says where it is from. The commit is known only from the script
//! ../proofscale, which hands it over in PROOFSCALE_COMMIT whenever it changes.

use std::env;
use std::fs;
use std::path::{Path, PathBuf};
use std::process::Command;

/// The SHA-256 of a file, by the system's sha256sum, as 64 hexadecimal digits.
fn sha256(file: &Path) -> String {
    let output = Command::new("sha256sum").arg("--").arg(file).output().expect("sha256sum has to be on the PATH");
    let text = String::from_utf8_lossy(&output.stdout).into_owned();
    let sum = text.trim_start_matches('\\').get(..64).unwrap_or_default().to_string();
    assert!(
        output.status.success() && sum.bytes().all(|b| b.is_ascii_hexdigit()),
        "sha256sum has no sum of {}",
        file.display()
    );
    sum
}

/// What ../dist/made-from says behind a word.
fn said(made_from: &str, word: &str) -> String {
    let line = made_from.lines().find_map(|line| line.strip_prefix(word));
    line.unwrap_or_else(|| panic!("dist/made-from has no line of the {word}")).trim().to_string()
}

/// Sets a variable that the tool reads when it is compiled.
fn tell(name: &str, value: &str) {
    println!("cargo:rustc-env={name}={value}");
}

fn main() {
    let root = PathBuf::from(env::var_os("CARGO_MANIFEST_DIR").expect("cargo sets CARGO_MANIFEST_DIR")).join("..");
    let elsewhere = env::var_os("PROOFSCALE_LIB").filter(|folder| !folder.is_empty()).map(PathBuf::from);
    let folder = elsewhere.clone().unwrap_or_else(|| root.join("dist"));
    let archive = folder.join("libproofscale.a");
    // What is told to cargo goes line by line.
    assert!(!archive.display().to_string().contains(char::is_control), "PROOFSCALE_LIB has a control character");
    println!("cargo:rerun-if-env-changed=PROOFSCALE_LIB");
    println!("cargo:rerun-if-env-changed=PROOFSCALE_COMMIT");
    println!("cargo:rerun-if-changed={}", archive.display());
    println!("cargo:rerun-if-changed=../dist/made-from");
    println!("cargo:rerun-if-changed=build.rs");
    if !archive.is_file() {
        panic!("{} is missing; expected the proved library there", archive.display());
    }
    let sum = sha256(&archive);
    if elsewhere.is_some() {
        tell("PROOFSCALE_KIT", "unknown, with a library from PROOFSCALE_LIB");
        tell("PROOFSCALE_ORIGIN", "PROOFSCALE_LIB");
    } else {
        let made_from = fs::read_to_string(root.join("dist/made-from")).expect("dist/made-from has to be there");
        assert!(said(&made_from, "archive") == sum, "dist/libproofscale.a is not the library that dist/made-from names");
        tell("PROOFSCALE_KIT", &said(&made_from, "kit"));
        tell("PROOFSCALE_ORIGIN", "dist");
    }
    tell("PROOFSCALE_LIBRARY", &sum);
    tell("PROOFSCALE_COMMIT", &env::var("PROOFSCALE_COMMIT").unwrap_or_default());
    // Under a name of its own, with its sum, in cargo's folder: so no other folder that the linker is told of (RUSTFLAGS, a cargo
    // configuration) can have one of that name.
    let own = PathBuf::from(env::var_os("OUT_DIR").expect("cargo sets OUT_DIR"));
    let copy = own.join(format!("libproofscale_{sum}.a"));
    fs::copy(&archive, &copy).expect("the library has to be copied");
    assert!(sha256(&copy) == sum, "the library changed while it was copied");
    println!("cargo:rustc-link-search=native={}", own.display());
    println!("cargo:rustc-link-lib=static=proofscale_{sum}");
    println!("cargo:rustc-link-arg-tests={}", copy.display());
}
