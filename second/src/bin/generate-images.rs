//! generate-images SEED N: N card images, one hex line each.

use second::generate::Random;
use second::program::run_generator;
use second::{hex, images};
use std::iter;
use std::process::ExitCode;

fn main() -> ExitCode {
    run_generator("generate-images", |seed, _| {
        let mut random = Random(seed);
        iter::repeat_with(move || hex::encode(&images::image(&mut random)).into_bytes())
    })
}
