//! Compares the dumps alone, which needs no library where it has no call that loads them.
use std::process::ExitCode;

fn main() -> ExitCode {
    second::compare_dumps_alone()
}
