//! compare-rewrite PROGRAM SEED N: compares what PROGRAM writes for N card images, for the shortest
//! and the longest, and for inputs of ten million bytes, with what second-rewrite writes.

use second::comparison::run_comparison;
use second::images::extremes;
use second::writer::rewritten;
use std::process::ExitCode;

fn main() -> ExitCode {
    run_comparison("compare-rewrite", extremes, rewritten)
}
