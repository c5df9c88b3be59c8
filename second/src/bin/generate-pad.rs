//! generate-pad SEED N: N lines for second-pad.

use second::generate::Random;
use second::pad_lines;
use second::program::run_generator;
use std::iter;
use std::process::ExitCode;

fn main() -> ExitCode {
    run_generator("generate-pad", |seed, _| {
        let mut random = Random(seed);
        iter::repeat_with(move || pad_lines::line(&mut random).into_bytes())
    })
}
