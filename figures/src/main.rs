//! figures TRANSCRIPT SECOND-TRANSCRIPT AUTH.der SIGN.der FOLDER: measures, and prints the report.

mod goals;
mod padding;
mod profile;
mod programs;
mod text;
mod transcripts;

use goals::Goals;
use programs::Program;
use std::path::Path;

const TOP: &str = "\
# Figures

Written by `figures/measure`, all in one run on one machine. The ratios are what counts; the times beside them differ
from machine to machine.
";

fn main() -> std::io::Result<()> {
    let arguments: Vec<String> = std::env::args().skip(1).collect();
    let [transcript, second, authentication, signature, folder] = &arguments[..] else {
        eprintln!("usage: figures TRANSCRIPT SECOND-TRANSCRIPT AUTH.der SIGN.der FOLDER");
        std::process::exit(2);
    };
    let transcript = Program { path: transcript.clone(), arguments: vec![] };
    let second = Program { path: second.clone(), arguments: vec![authentication.clone(), signature.clone()] };
    let mut goals = Goals::default();
    println!("{TOP}\nProcessor: {}.", processor());
    transcripts::measure(&transcript, &second, Path::new(folder), &mut goals)?;
    padding::measure(&mut goals);
    goals.print();
    Ok(())
}

fn processor() -> String {
    let text = std::fs::read_to_string("/proc/cpuinfo").unwrap_or_default();
    let name = text.lines().find(|line| line.starts_with("model name"));
    name.and_then(|line| line.split(": ").nth(1)).unwrap_or("unknown").to_string()
}
