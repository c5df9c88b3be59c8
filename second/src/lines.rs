//! Lines in, lines out: what every program of lines shares.

use std::io::{self, Read, Write};

/// Input is read in blocks of at most so many bytes: as many as the proved programs read,
/// so that the figures compare like with like.
pub const BLOCK: usize = 1_006;

/// A program that answers each line with one line; `?` where its rules know no answer.
pub trait LineProgram {
    /// In characters, without the line feed.
    const LONGEST_LINE: usize;

    /// For a line that is not too long; None for a line that is none of the program's.
    fn answer(&mut self, line: &[u8]) -> Option<String>;

    /// The line comes without its line feed; so does the output line.
    fn line(&mut self, line: &[u8]) -> String {
        let answer = if line.len() > Self::LONGEST_LINE { None } else { self.answer(line) };
        answer.unwrap_or_else(|| "?".to_string())
    }
}

pub fn run<P: LineProgram>(program: &mut P, input: impl Read, output: impl Write) -> io::Result<()> {
    run_with(P::LONGEST_LINE, |line| program.line(line), input, output)
}

/// "Lines end in a line feed, the last perhaps not." The answers to the lines
/// that end in a block are written together, before the next block is read.
pub fn run_with(
    longest: usize,
    mut answer: impl FnMut(&[u8]) -> String,
    mut input: impl Read,
    mut output: impl Write,
) -> io::Result<()> {
    let mut block = vec![0u8; BLOCK];
    let mut line: Vec<u8> = Vec::new();
    let mut answers: Vec<u8> = Vec::new();
    loop {
        let count = read_block(&mut input, &mut block)?;
        for piece in block[..count].split_inclusive(|byte| *byte == b'\n') {
            let text = piece.strip_suffix(b"\n");
            keep_start(&mut line, text.unwrap_or(piece), longest + 1);
            if text.is_some() {
                put_line(&mut answers, &answer(&line));
                line.clear();
            }
        }
        if count == 0 && !line.is_empty() {
            put_line(&mut answers, &answer(&line));
        }
        if !answers.is_empty() {
            output.write_all(&answers)?;
            output.flush()?;
            answers.clear();
        }
        if count == 0 {
            return Ok(());
        }
    }
}

/// Some bytes, or 0 at the end of the input.
fn read_block(input: &mut impl Read, block: &mut [u8]) -> io::Result<usize> {
    loop {
        match input.read(block) {
            Err(error) if error.kind() == io::ErrorKind::Interrupted => continue,
            result => return result,
        }
    }
}

/// Of an overlong line only the start is kept.
fn keep_start(line: &mut Vec<u8>, text: &[u8], most: usize) {
    let room = most - line.len();
    line.extend(&text[..text.len().min(room)]);
}

fn put_line(answers: &mut Vec<u8>, answer: &str) {
    answers.extend(answer.bytes());
    answers.push(b'\n');
}
