//! code-sequences INPUT OUTPUT: which of the wanted sequences the lines and their answers reach, one
//! a line. Without arguments: the sequences that are wanted.

use second::program::run_reached;
use second::sequences::{reached, wanted};
use std::process::ExitCode;

fn main() -> ExitCode {
    run_reached("code-sequences", wanted, reached)
}
