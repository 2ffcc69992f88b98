//! The program `h26x`.

use std::process::ExitCode;

fn main() -> ExitCode {
    ExitCode::from(h26x::run(std::env::args_os().skip(1).collect()))
}
