//! Calls the comparison. It stands by itself so that all else is compiled before there is a library to link.
use std::process::ExitCode;

fn main() -> ExitCode {
    second::compare()
}
