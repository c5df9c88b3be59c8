//! unblockings-without-limit INPUT OUTPUT: as `unblockings`. Without arguments: what is wanted of lines
//! of the transcript program, whose card has no limit.

use second::program::run_reached;
use second::unblockings::{reached, wanted_without_limit};
use std::process::ExitCode;

fn main() -> ExitCode {
    run_reached("unblockings-without-limit", wanted_without_limit, reached)
}
