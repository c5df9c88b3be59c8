//! What `compare-load` and `compare-rewrite` share: a program that is given one image a run.

use crate::generate::Random;
use crate::images::{self, VERY_LONG};
use crate::writer::LONGEST_IMAGE;
use crate::{hex, load, sections};
use std::io::{self, Write};
use std::process::{ChildStdin, Command, ExitCode, Output, Stdio};
use std::{env, iter, thread, time::Duration};

/// So many images arrive in two parts with a pause between them.
const IN_TWO_PARTS: usize = 10;
/// The most bytes of an input or an output that are shown.
const MOST_SHOWN: usize = 4_000;

/// What the second program answers to an image.
pub type Answer = fn(&[u8]) -> Vec<u8>;

/// NAME PROGRAM SEED N: gives N generated images, and those that `more` makes, to PROGRAM, one run
/// each, and compares what it writes with `answer`. Ends at the first difference, with exit status 1.
pub fn run_comparison(name: &str, more: fn(&mut Random) -> Vec<Vec<u8>>, answer: Answer) -> ExitCode {
    let arguments: Vec<String> = env::args().skip(1).collect();
    let numbers: Vec<u64> = arguments.iter().skip(1).filter_map(|text| text.parse().ok()).collect();
    let ([program, _, _], [seed, n]) = (&arguments[..], &numbers[..]) else {
        eprintln!("usage: {name} PROGRAM SEED N");
        return ExitCode::from(2);
    };
    let mut random = Random(*seed);
    let more = more(&mut Random(*seed));
    let images = iter::repeat_with(|| images::image(&mut random)).take(*n as usize).chain(more);
    match compare(program, images, answer) {
        Ok(true) => ExitCode::SUCCESS,
        Ok(false) => ExitCode::FAILURE,
        Err(error) => {
            eprintln!("{name}: {program}: {error}");
            ExitCode::FAILURE
        }
    }
}

/// Whether all are alike; prints the first difference, or how many images there were of each kind.
pub fn compare(program: &str, images: impl Iterator<Item = Vec<u8>>, answer: Answer) -> io::Result<bool> {
    let mut counts = Counts::default();
    for (place, image) in images.enumerate() {
        let (first, rest) = image.split_at(image.len() / 2);
        let output = if place < IN_TWO_PARTS { run(program, &[first, rest])? } else { run(program, &[&image])? };
        let ours = answer(&image);
        if output.stdout != ours || !output.status.success() {
            println!("image {}, {} bytes: {}", place + 1, image.len(), shown(&image));
            println!("{program}, {}:\n{}", output.status, shown(&output.stdout));
            println!("the second program:\n{}", shown(&ours));
            return Ok(false);
        }
        counts.add(&image);
    }
    counts.print();
    Ok(true)
}

fn run(program: &str, parts: &[&[u8]]) -> io::Result<Output> {
    let mut child = Command::new(program).stdin(Stdio::piped()).stdout(Stdio::piped()).spawn()?;
    let input = child.stdin.take().unwrap();
    thread::scope(|scope| {
        let fed = scope.spawn(|| feed(input, parts));
        let output = child.wait_with_output();
        fed.join().unwrap()?;
        output
    })
}

/// A program need not read to the end.
fn feed(mut input: ChildStdin, parts: &[&[u8]]) -> io::Result<()> {
    for (place, part) in parts.iter().enumerate() {
        if place > 0 {
            thread::sleep(Duration::from_millis(50));
        }
        match input.write_all(part) {
            Err(error) if error.kind() != io::ErrorKind::BrokenPipe => return Err(error),
            _ => {}
        }
    }
    Ok(())
}

/// As text, or in hex where it is none; only its beginning, if it is long.
fn shown(bytes: &[u8]) -> String {
    let start = &bytes[..bytes.len().min(MOST_SHOWN)];
    let is_text = start.iter().all(|byte| matches!(byte, b'\n' | b' '..=b'~'));
    if is_text { String::from_utf8_lossy(start).into_owned() } else { hex::encode(start) }
}

/// How many images gave each load number, 0 for those that load; and how many had a length that matters,
/// and a last section of each kind.
#[derive(Default)]
struct Counts {
    numbers: [usize; 29],
    shortest: usize,
    longest: usize,
    very_long: usize,
    sections: sections::Counts,
}

impl Counts {
    fn add(&mut self, image: &[u8]) {
        let number = load(image).1 as usize;
        self.numbers[number] += 1;
        self.sections.add(image);
        match image.len() {
            84 if number == 0 => self.shortest += 1,
            LONGEST_IMAGE if number == 0 => self.longest += 1,
            VERY_LONG.. => self.very_long += 1,
            _ => {}
        }
    }

    fn print(&self) {
        println!("{} images alike", self.numbers.iter().sum::<usize>());
        println!("loaded {}", self.numbers[0]);
        for number in 21..=28 {
            println!("{number} {}", self.numbers[number]);
        }
        println!("shortest {}\nlongest {}\nvery long {}", self.shortest, self.longest, self.very_long);
        self.sections.lines().iter().for_each(|line| println!("{line}"));
    }
}
