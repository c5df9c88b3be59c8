//! generate SEED N: N transcript input lines.

use second::generate::Generator;
use second::program::run_generator;
use std::process::ExitCode;

fn main() -> ExitCode {
    run_generator("generate", Generator::new)
}
