//! What the programs in `bin` share: their arguments, and how they end.

use crate::lines::{run, LineProgram};
use crate::sample;
use std::collections::BTreeSet;
use std::fs::{self, File};
use std::io::{self, Read, Write};
use std::os::fd::AsFd;
use std::process::{exit, ExitCode};
use std::env;

/// NAME [AUTH.der SIGN.der]; without arguments the built-in certificates.
pub fn run_card<P: LineProgram>(name: &str, start: fn(Vec<u8>, Vec<u8>) -> P) -> ExitCode {
    let arguments: Vec<String> = env::args().skip(1).collect();
    let certificates = match &arguments[..] {
        [] => Ok((sample::authentication_certificate(), sample::signature_certificate())),
        [authentication, signature] => read(authentication).and_then(|first| Ok((first, read(signature)?))),
        _ => {
            eprintln!("usage: {name} [AUTH.der SIGN.der]");
            return ExitCode::from(2);
        }
    };
    let ended = certificates.and_then(|(authentication, signature)| {
        run(&mut start(authentication, signature), standard_input()?, io::stdout().lock())
    });
    report(name, ended)
}

/// Without a buffer of its own: a read of the program is a read of the system.
fn standard_input() -> io::Result<File> {
    Ok(File::from(io::stdin().as_fd().try_clone_to_owned()?))
}

fn report(name: &str, ended: io::Result<()>) -> ExitCode {
    match ended {
        Ok(()) => ExitCode::SUCCESS,
        Err(error) => {
            eprintln!("{name}: {error}");
            ExitCode::FAILURE
        }
    }
}

/// NAME < IMAGE: writes what `answer` makes of the whole input.
pub fn run_on_image(name: &str, answer: fn(&[u8]) -> Vec<u8>) -> ExitCode {
    let mut image = Vec::new();
    let read = io::stdin().lock().read_to_end(&mut image);
    let written = read.and_then(|_| {
        let mut out = io::stdout().lock();
        out.write_all(&answer(&image))?;
        out.flush()
    });
    report(name, written)
}

/// NAME SEED N: the first N lines that `lines` makes of the seed and the number.
pub fn run_generator<L: Iterator<Item = Vec<u8>>>(name: &str, lines: impl Fn(u64, usize) -> L) -> ExitCode {
    let (seed, n) = seed_and_number(name);
    let mut out = io::BufWriter::new(io::stdout().lock());
    let written = lines(seed, n).take(n).try_for_each(|mut line| {
        line.push(b'\n');
        out.write_all(&line)
    });
    report(name, written.and_then(|()| out.flush()))
}

/// A line and its answer.
pub type Answered = (Vec<u8>, String);

/// NAME [INPUT OUTPUT]: what the lines of INPUT reach with the answers of OUTPUT, one a line. Without
/// arguments what is wanted of them.
pub fn run_reached(name: &str, wanted: fn() -> Vec<String>, reached: fn(&[Answered]) -> BTreeSet<String>) -> ExitCode {
    let arguments: Vec<String> = env::args().skip(1).collect();
    let list = match &arguments[..] {
        [] => Ok(wanted()),
        [input, output] => answered(input, output).map(|answered| reached(&answered).into_iter().collect()),
        _ => {
            eprintln!("usage: {name} [INPUT OUTPUT]");
            return ExitCode::from(2);
        }
    };
    let printed = list.and_then(|list| io::stdout().lock().write_all((list.join("\n") + "\n").as_bytes()));
    report(name, printed)
}

fn answered(input: &str, output: &str) -> io::Result<Vec<Answered>> {
    let (input, output) = (read(input)?, read(output)?);
    let lines = input.split(|byte| *byte == b'\n').map(<[u8]>::to_vec);
    let answers = output.split(|byte| *byte == b'\n').map(|answer| String::from_utf8_lossy(answer).into_owned());
    Ok(lines.zip(answers).collect())
}

fn seed_and_number(name: &str) -> (u64, usize) {
    let arguments: Vec<String> = env::args().skip(1).collect();
    if let [seed, n] = &arguments[..] {
        if let (Ok(seed), Ok(n)) = (seed.parse(), n.parse()) {
            return (seed, n);
        }
    }
    eprintln!("usage: {name} SEED N");
    exit(2);
}

fn read(file: &str) -> io::Result<Vec<u8>> {
    fs::read(file).map_err(|error| io::Error::new(error.kind(), format!("{file}: {error}")))
}
