//! stand-in-answers INPUT OUTPUT: which classes of answers the output reaches, one a line.
//! Without arguments: the classes that there are.

use second::answers::{reached, wanted};
use second::program::run_reached;
use std::process::ExitCode;

fn main() -> ExitCode {
    run_reached("stand-in-answers", wanted, |answered| {
        answered.iter().flat_map(|(line, answer)| reached(line, answer)).collect()
    })
}
