//! The program `proofscale`: hands its arguments to the library of the tool, and exits with the status that comes back.

use std::process::ExitCode;

fn main() -> ExitCode {
    ExitCode::from(proofscale_tool::run(std::env::args_os().skip(1).collect()))
}
