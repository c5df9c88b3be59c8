//! second-transcript [AUTH.der SIGN.der]

use second::program::run_card;
use second::transcript::Transcript;
use std::process::ExitCode;

fn main() -> ExitCode {
    run_card("second-transcript", Transcript::new)
}
