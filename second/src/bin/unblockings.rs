//! unblockings INPUT OUTPUT: what RESET RETRY met at which unblocking count, and which last sections
//! images had, with the answers, one a line. Without arguments: what is wanted of lines of the stand-in
//! program.

use second::program::run_reached;
use second::unblockings::{reached, wanted};
use std::process::ExitCode;

fn main() -> ExitCode {
    run_reached("unblockings", wanted, reached)
}
