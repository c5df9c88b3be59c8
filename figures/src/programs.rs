//! The two transcript programs, run on inputs.

use std::fs::{self, File};
use std::io::{self, BufRead, BufReader, Read, Write};
use std::path::PathBuf;
use std::process::{Child, Command, Stdio};
use std::thread;
use std::time::{Duration, Instant};

pub struct Program {
    pub path: String,
    pub arguments: Vec<String>,
}

pub struct Input {
    pub file: PathBuf,
    pub name: String,
    pub lines: usize,
}

impl Program {
    fn command(&self) -> Command {
        let mut command = Command::new(&self.path);
        command.args(&self.arguments);
        command
    }

    pub fn answers(&self, input: &Input) -> io::Result<Vec<u8>> {
        let output = self.command().stdin(File::open(&input.file)?).stderr(Stdio::inherit()).output()?;
        Ok(output.stdout)
    }

    /// From a file to /dev/null.
    pub fn seconds(&self, input: &Input) -> io::Result<f64> {
        let file = File::open(&input.file)?;
        let start = Instant::now();
        let status = self.command().stdin(file).stdout(Stdio::null()).status()?;
        let time = start.elapsed().as_secs_f64();
        if status.success() { Ok(time) } else { Err(io::Error::other(format!("{}: {status}", self.path))) }
    }

    /// By pipes: each line is written when the one before it has been answered.
    pub fn seconds_by_line(&self, input: &Input) -> io::Result<f64> {
        let text = fs::read(&input.file)?;
        let mut child = self.piped()?;
        let mut to_program = child.stdin.take().unwrap();
        let mut from_program = BufReader::new(child.stdout.take().unwrap());
        let mut answer = Vec::new();
        let start = Instant::now();
        for line in text.split_inclusive(|byte| *byte == b'\n') {
            to_program.write_all(line)?;
            answer.clear();
            if from_program.read_until(b'\n', &mut answer)? == 0 {
                return Err(io::Error::other(format!("{}: too few answers", self.path)));
            }
        }
        let time = start.elapsed().as_secs_f64();
        drop(to_program);
        child.wait()?;
        Ok(time)
    }

    fn piped(&self) -> io::Result<Child> {
        self.command().stdin(Stdio::piped()).stdout(Stdio::piped()).spawn()
    }

    /// How many times the program called read and write, as the kernel counts; None where it does not say.
    pub fn calls(&self, input: &Input) -> Option<(u64, u64)> {
        let mut child = self.command().stdin(File::open(&input.file).ok()?).stdout(Stdio::null()).spawn().ok()?;
        let folder = format!("/proc/{}", child.id());
        // The counts are read when the program has ended and has not been waited for.
        while fs::read_to_string(format!("{folder}/stat")).is_ok_and(|text| !text.contains(") Z ")) {
            thread::sleep(Duration::from_millis(10));
        }
        let counts = fs::read_to_string(format!("{folder}/io"));
        child.wait().ok()?;
        let counts = counts.ok()?;
        number_after(&counts, "syscr:").zip(number_after(&counts, "syscw:"))
    }

    /// None where there is no valgrind.
    pub fn instructions(&self, input: &Input) -> Option<f64> {
        let options = ["--tool=cachegrind", "--cache-sim=no", "--cachegrind-out-file=/dev/null", &self.path];
        let file = File::open(&input.file).ok()?;
        let output = Command::new("valgrind").args(options).stdin(file).stdout(Stdio::null()).output().ok()?;
        let text = String::from_utf8_lossy(&output.stderr).into_owned();
        let line = text.lines().find(|line| line.contains("refs:"))?;
        line.split_whitespace().last()?.replace(',', "").parse().ok()
    }

    /// The most memory that the program held, in kB, when it had answered all lines and waited for more.
    pub fn memory(&self, input: &Input) -> io::Result<u64> {
        let mut child = self.piped()?;
        let mut to_program = child.stdin.take().unwrap();
        let mut file = File::open(&input.file)?;
        // The pipe stays open until the memory has been read.
        let writer = thread::spawn(move || io::copy(&mut file, &mut to_program).map(|_| to_program));
        read_answers(&mut child, input.lines)?;
        let to_program = writer.join().unwrap()?;
        let status = fs::read_to_string(format!("/proc/{}/status", child.id()))?;
        drop(to_program);
        child.wait()?;
        number_after(&status, "VmHWM:").ok_or(io::Error::other("no VmHWM"))
    }
}

fn number_after(text: &str, name: &str) -> Option<u64> {
    let line = text.lines().find(|line| line.starts_with(name))?;
    line.split_whitespace().nth(1)?.parse().ok()
}

fn read_answers(child: &mut Child, lines: usize) -> io::Result<()> {
    let from_program = child.stdout.as_mut().unwrap();
    let mut chunk = vec![0; 1 << 16];
    let mut answers = 0;
    while answers < lines {
        let count = from_program.read(&mut chunk)?;
        if count == 0 {
            return Err(io::Error::other("too few answers"));
        }
        answers += chunk[..count].iter().filter(|byte| **byte == b'\n').count();
    }
    Ok(())
}
