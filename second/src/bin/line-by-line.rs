//! line-by-line PROGRAM [ARGUMENT..]: gives PROGRAM each line of standard input when the line
//! before it has been answered, and writes the answers. Ends with exit status 1 where no answer comes.

use std::io::{self, BufRead, BufReader, Write};
use std::process::{exit, Child, ChildStdout, Command, Stdio};
use std::sync::mpsc::{channel, Receiver};
use std::{env, thread, time::Duration};

const PATIENCE: Duration = Duration::from_secs(10);

/// The answers as they come, each with its line feed.
fn answers_of(output: ChildStdout) -> Receiver<Vec<u8>> {
    let (sender, receiver) = channel();
    thread::spawn(move || {
        let mut output = BufReader::new(output);
        let mut answer = Vec::new();
        while output.read_until(b'\n', &mut answer).is_ok_and(|count| count > 0) {
            if sender.send(std::mem::take(&mut answer)).is_err() {
                return;
            }
        }
    });
    receiver
}

fn converse(child: &mut Child) -> io::Result<()> {
    let mut to_program = child.stdin.take().unwrap();
    let answers = answers_of(child.stdout.take().unwrap());
    let mut out = io::BufWriter::new(io::stdout().lock());
    for (place, line) in io::stdin().lock().split(b'\n').enumerate() {
        to_program.write_all(&[&line?[..], b"\n"].concat())?;
        let answer = answers.recv_timeout(PATIENCE);
        out.write_all(&answer.map_err(|_| io::Error::other(format!("no answer to line {}", place + 1)))?)?;
    }
    drop(to_program);
    match answers.recv_timeout(PATIENCE) {
        Ok(_) => Err(io::Error::other("more answers than lines")),
        Err(_) => out.flush(),
    }
}

fn run(program: &str, arguments: &[String]) -> io::Result<()> {
    let mut child = Command::new(program).args(arguments).stdin(Stdio::piped()).stdout(Stdio::piped()).spawn()?;
    let conversed = converse(&mut child);
    if conversed.is_err() {
        child.kill()?;
    }
    let status = child.wait()?;
    conversed?;
    if status.success() { Ok(()) } else { Err(io::Error::other(status.to_string())) }
}

fn main() {
    let arguments: Vec<String> = env::args().skip(1).collect();
    let Some((program, arguments)) = arguments.split_first() else {
        eprintln!("usage: line-by-line PROGRAM [ARGUMENT..]");
        exit(2);
    };
    if let Err(error) = run(program, arguments) {
        eprintln!("line-by-line: {program}: {error}");
        exit(1);
    }
}
