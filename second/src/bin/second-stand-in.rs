//! second-stand-in [AUTH.der SIGN.der]

use second::program::run_card;
use second::stand_in::StandIn;
use std::process::ExitCode;

fn main() -> ExitCode {
    run_card("second-stand-in", StandIn::new)
}
