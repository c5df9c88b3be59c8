//! READ BINARY on a certificate, read off the bytes of lines and answers.

use second::generate::Random;
use second::state::File;
use second::{hex, CardState};
use std::collections::BTreeSet;

/// As long as those in `certificates/`.
pub fn long_certificates() -> [Vec<u8>; 2] {
    [Random(1).bytes(1536), Random(2).bytes(1536)]
}

/// A READ BINARY that is answered with a response while a certificate is the current file.
pub struct Read {
    file: &'static str,
    certificate: Vec<u8>,
    offset: usize,
    /// As in the command: 0 asks for 256 bytes.
    le: usize,
    data: Vec<u8>,
    word: String,
}

type Condition = fn(&Read) -> bool;

/// What a read can meet at the end of its certificate, with the status word for it.
const ENDS: [(&str, Condition, &str); 15] = [
    ("offset at the size", |read| read.offset == read.certificate.len(), "6B00"),
    ("offset one past the size", |read| read.offset == read.certificate.len() + 1, "6B00"),
    ("Le one less than remains", |read| read.le > 0 && read.le + 1 == read.remaining(), "9000"),
    ("Le as much as remains", |read| read.le > 0 && read.le == read.remaining(), "9000"),
    ("Le one more than remains", |read| read.remaining() > 0 && read.le == read.remaining() + 1, "6282"),
    ("Le far more than remains", |read| read.remaining() > 0 && read.le > read.remaining() + 100, "6282"),
    ("Le 00, 1 remains", |read| read.le == 0 && read.remaining() == 1, "9000"),
    ("Le 00, 2 to 254 remain", |read| read.le == 0 && (2..=254).contains(&read.remaining()), "9000"),
    ("Le 00, 255 remain", |read| read.le == 0 && read.remaining() == 255, "9000"),
    ("Le 00, 256 remain", |read| read.le == 0 && read.remaining() == 256, "9000"),
    ("Le FF, 254 remain", |read| read.le == 255 && read.remaining() == 254, "6282"),
    ("Le FF, 255 remain", |read| read.le == 255 && read.remaining() == 255, "9000"),
    ("Le FF, 256 remain", |read| read.le == 255 && read.remaining() == 256, "9000"),
    ("1 byte given, more asked", |read| read.le > 1 && read.data.len() == 1, "6282"),
    ("254 bytes given, more asked", |read| read.le > 254 && read.data.len() == 254, "6282"),
];

const FILES: [&str; 2] = ["AACE", "DDCE"];

/// With the current file and its bytes; None for another line or without a response.
pub fn read(line: &[u8], answer: &str, file: Option<File>, certificate: Option<&[u8]>) -> Option<Read> {
    let (offset, le) = read_binary(line)?;
    let response = answer.strip_prefix('R')?;
    let (data, word) = response.split_at(response.len() - 4);
    Some(Read {
        file: if file == Some(File::AuthenticationCertificate) { FILES[0] } else { FILES[1] },
        certificate: certificate?.to_vec(),
        offset,
        le,
        data: hex::decode(data.as_bytes())?,
        word: word.to_string(),
    })
}

/// Offset and Le of a READ BINARY that only its own rules can refuse.
fn read_binary(line: &[u8]) -> Option<(usize, usize)> {
    match hex::decode(line.strip_prefix(b"C")?)?[..] {
        [0x00, 0xB0, p1 @ 0x00..=0x7F, p2, le] => Some((u16::from_be_bytes([p1, p2]) as usize, le as usize)),
        _ => None,
    }
}

/// What was there for an answer of 6282 to drop: a held answer, a chain. 6282 is READ BINARY's
/// alone, comes with 1 to 254 bytes and leaves neither.
pub fn dropped_at_end(line: &[u8], answer: &str, before: &CardState, after: &CardState) -> Vec<&'static str> {
    let Some(data) = answer.strip_prefix('R').and_then(|response| response.strip_suffix("6282")) else {
        return vec![];
    };
    assert!(read_binary(line).is_some(), "{}: {answer}", String::from_utf8_lossy(line));
    assert!((1..=254).contains(&(data.len() / 2)), "{answer}");
    assert_eq!((after.held.length, after.chain.length), (0, 0));
    let there = [("held", before.held.length > 0), ("chain", before.chain.length > 0)];
    there.iter().filter(|(_, is_there)| *is_there).map(|(name, _)| *name).collect()
}

impl Read {
    fn remaining(&self) -> usize {
        self.certificate.len().saturating_sub(self.offset)
    }

    /// As "AACE, Le one more than remains: 6282".
    pub fn ends(&self) -> Vec<String> {
        let met = ENDS.iter().filter(|(_, holds, _)| holds(self));
        met.map(|(name, _, _)| named(self.file, name, &self.word)).collect()
    }

    fn gives_whole_block(&self) -> bool {
        self.word == "9000" && self.data.len() == self.le
    }

    fn goes_on_from(&self, last: &Read) -> bool {
        self.certificate == last.certificate && self.le == last.le && self.offset == last.offset + last.le
    }
}

/// Each of the conditions, with its status word, for both files.
pub fn ends_of_both_files() -> BTreeSet<String> {
    FILES.iter().flat_map(|file| ENDS.iter().map(move |(name, _, word)| named(file, name, word))).collect()
}

/// The certificate's last bytes, or all of them, read in blocks of one size until an answer is not
/// 9000 with a whole block.
pub struct Reading {
    file: &'static str,
    pub size: usize,
    pub offset: usize,
    pub block: usize,
    blocks: usize,
    word: String,
}

/// The readings among lines, in their order; None is a line that is no read.
pub fn readings<'a>(lines: impl Iterator<Item = Option<&'a Read>>) -> Vec<Reading> {
    let mut readings = Vec::new();
    let mut run: Vec<&Read> = Vec::new();
    for line in lines {
        let Some(read) = line.filter(|read| read.le > 0) else {
            run.clear();
            continue;
        };
        if run.last().is_some_and(|last| !read.goes_on_from(last)) {
            run.clear();
        }
        run.push(read);
        if !read.gives_whole_block() {
            readings.extend(ended(&run));
            run.clear();
        }
    }
    readings
}

/// None for a run that begins at the end or past it. Any other gives exactly the bytes up to the end.
fn ended(run: &[&Read]) -> Option<Reading> {
    let (first, last) = (run.first()?, run.last()?);
    let rest = first.certificate.get(first.offset..).filter(|rest| !rest.is_empty())?;
    let given: Vec<u8> = run.iter().flat_map(|read| read.data.clone()).collect();
    assert_eq!(given, rest);
    Some(Reading {
        file: first.file,
        size: first.certificate.len(),
        offset: first.offset,
        block: first.le,
        blocks: run.len(),
        word: last.word.clone(),
    })
}

impl Reading {
    /// As "AACE, from the start in blocks: 6282"; None for one that ends with its first block.
    pub fn name(&self) -> Option<String> {
        let start = if self.offset == 0 { "from the start in blocks" } else { "from further on in blocks" };
        (self.blocks > 1).then(|| named(self.file, start, &self.word))
    }
}

/// Both files, from the start and from further on, with each word that ends a reading.
pub fn readings_of_both_files() -> BTreeSet<String> {
    let mut names = BTreeSet::new();
    for file in FILES {
        for start in ["from the start in blocks", "from further on in blocks"] {
            names.extend(["6282", "6B00"].map(|word| named(file, start, word)));
        }
    }
    names
}

fn named(file: &str, met: &str, word: &str) -> String {
    format!("{file}, {met}: {word}")
}
