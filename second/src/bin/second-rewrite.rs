//! second-rewrite < IMAGE: the image again, or the load number.

use second::program::run_on_image;
use second::writer::rewritten;
use std::process::ExitCode;

fn main() -> ExitCode {
    run_on_image("second-rewrite", rewritten)
}
