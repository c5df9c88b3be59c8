//! compare-load PROGRAM SEED N: compares what PROGRAM prints for N card images with what second-load prints.

use second::comparison::run_comparison;
use second::listing::listing;
use std::process::ExitCode;

fn main() -> ExitCode {
    run_comparison("compare-load", |_| Vec::new(), |image| listing(image).into_bytes())
}
