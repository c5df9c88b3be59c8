//! second-load < IMAGE

use second::listing::listing;
use second::program::run_on_image;
use std::process::ExitCode;

fn main() -> ExitCode {
    run_on_image("second-load", |image| listing(image).into_bytes())
}
