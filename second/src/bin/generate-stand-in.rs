//! generate-stand-in SEED N: N stand-in input lines.

use second::generate::Generator;
use second::program::run_generator;
use std::process::ExitCode;

fn main() -> ExitCode {
    run_generator("generate-stand-in", |seed, _| Generator::for_stand_in(seed))
}
