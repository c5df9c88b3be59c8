//! would-block PROGRAM [TEXT]: runs a program whose standard input has this text to read, with escapes for line feeds (\\n), and
//! then must not be waited for.

use std::io::Write;
use std::os::fd::OwnedFd;
use std::os::unix::net::UnixStream;
use std::process::{Command, ExitCode};

fn main() -> ExitCode {
    let arguments: Vec<String> = std::env::args().skip(1).collect();
    let (program, text) = match &arguments[..] {
        [program] => (program, String::new()),
        [program, text] => (program, text.replace("\\n", "\n")),
        _ => {
            eprintln!("usage: would-block PROGRAM [TEXT]");
            return ExitCode::from(2);
        }
    };
    match run(program, text.as_bytes()) {
        Ok(true) => ExitCode::SUCCESS,
        Ok(false) => ExitCode::FAILURE,
        Err(error) => {
            eprintln!("{program}: {error}");
            ExitCode::FAILURE
        }
    }
}

fn run(program: &str, text: &[u8]) -> std::io::Result<bool> {
    let (input, mut writer) = UnixStream::pair()?;
    writer.write_all(text)?;
    input.set_nonblocking(true)?;
    Ok(Command::new(program).stdin(OwnedFd::from(input)).status()?.success())
}
