//! digests-signed INPUT OUTPUT: which digests, and which data that comes near one, the lines gave SIGN,
//! and how each was answered, one a line. Without arguments: what is wanted of them.

use second::digests_signed::{reached, wanted};
use second::program::run_reached;
use std::process::ExitCode;

fn main() -> ExitCode {
    run_reached("digests-signed", wanted, reached)
}
