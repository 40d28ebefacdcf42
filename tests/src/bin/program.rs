//! Runs every test of the program as a process, on two threads. SEED chooses the random inputs.

#![forbid(unsafe_code)]

use std::process::ExitCode;

use comparison::halves;
use comparison::program;

fn main() -> ExitCode {
    halves::compare(program::compare, program::compare_inputs)
}
