//! What SIGN was given and how it was answered, read off the bytes of lines, so that a run can be asked
//! which digests, and which data that comes near one, it reached.

use crate::digests::{digest_heads, is_digest, sha2_head, Row, SHA2_ROWS};
use crate::program::Answered;
use crate::sequences::word;
use crate::{apdu, hex};
use std::collections::BTreeSet;

/// Hashes that are not in document 01's list though their digests have the same form.
const UNLISTED_ROWS: [(&str, Row); 6] = [
    ("SHA-512/224", (0x2D, 0x05, 0x1C)),
    ("SHA-512/256", (0x31, 0x06, 0x20)),
    ("SHA3-224", (0x2D, 0x07, 0x1C)),
    ("SHA3-256", (0x31, 0x08, 0x20)),
    ("SHA3-384", (0x41, 0x09, 0x30)),
    ("SHA3-512", (0x51, 0x0A, 0x40)),
];

/// Heads of other forms that are not in the list either, each with the number of bytes behind it.
pub const UNLISTED_HEADS: [(&str, &[u8], usize); 4] = [
    (
        "MD5",
        &[0x30, 0x20, 0x30, 0x0C, 0x06, 0x08, 0x2A, 0x86, 0x48, 0x86, 0xF7, 0x0D, 0x02, 0x05, 0x05, 0x00, 0x04, 0x10],
        16,
    ),
    (
        "RIPEMD-160",
        &[0x30, 0x21, 0x30, 0x09, 0x06, 0x05, 0x2B, 0x24, 0x03, 0x02, 0x01, 0x05, 0x00, 0x04, 0x14],
        20,
    ),
    (
        "SHA-256 without parameters",
        &[0x30, 0x2F, 0x30, 0x0B, 0x06, 0x09, 0x60, 0x86, 0x48, 0x01, 0x65, 0x03, 0x04, 0x02, 0x01, 0x04, 0x20],
        32,
    ),
    (
        "SHA-256 with a length of two bytes",
        &[
            0x30, 0x81, 0x31, 0x30, 0x0D, 0x06, 0x09, 0x60, 0x86, 0x48, 0x01, 0x65, 0x03, 0x04, 0x02, 0x01, 0x05, 0x00, 0x04,
            0x20,
        ],
        32,
    ),
];

const REFUSED: &str = "6A80";
/// How a digest is answered.
const ANSWERS: [&str; 3] = ["J2", "6985", "6982"];

/// Data by its head, of which one byte may be changed, and the number of bytes behind it.
#[derive(Clone)]
pub struct Kind {
    pub name: String,
    pub head: Vec<u8>,
    /// The place, counted from zero.
    pub changed: Option<usize>,
    pub hash: usize,
}

impl Kind {
    fn new(name: String, head: &[u8], hash: usize) -> Self {
        Kind { name, head: head.to_vec(), changed: None, hash }
    }

    fn fits(&self, data: &[u8]) -> bool {
        if data.len() != self.head.len() + self.hash {
            return false;
        }
        if self.head.is_empty() {
            return data.first() != Some(&0x30); // else it may begin with a head
        }
        (0..self.head.len()).filter(|place| data[*place] != self.head[*place]).eq(self.changed)
    }
}

fn digests() -> Vec<Kind> {
    let names = std::iter::once("SHA-1".to_string()).chain(SHA2_ROWS.iter().map(sha2_name));
    names.zip(digest_heads()).map(|(name, (head, hash))| Kind::new(name, &head, hash)).collect()
}

/// By the number of bits that the hash has.
fn sha2_name(row: &Row) -> String {
    format!("SHA-{}", 8 * row.2 as usize)
}

/// Every kind of data that comes near a digest and is none.
pub fn near_digests() -> Vec<Kind> {
    let digests = digests();
    let mut near: Vec<Kind> = digests.iter().flat_map(changed_bytes).collect();
    near.extend(digests.iter().flat_map(wrong_lengths));
    near.extend(digests.iter().map(hash_alone));
    near.extend(UNLISTED_ROWS.map(|(name, row)| Kind::new(name.to_string(), &sha2_head(row), row.2 as usize)));
    near.extend(UNLISTED_HEADS.map(|(name, head, hash)| Kind::new(name.to_string(), head, hash)));
    near.extend(pairs().into_iter().flat_map(mixed_rows));
    near
}

fn changed_bytes(digest: &Kind) -> Vec<Kind> {
    let changed = |place| {
        let name = format!("{}, byte {place} of the head changed", digest.name);
        Kind { name, changed: Some(place), ..digest.clone() }
    };
    (0..digest.head.len()).map(changed).collect()
}

/// The head alone, with a byte too few or too many, and with the bytes of each other hash.
fn wrong_lengths(digest: &Kind) -> Vec<Kind> {
    let Kind { name, head, hash, .. } = digest;
    let mut lengths = vec![
        (0, format!("{name}, the head alone")),
        (hash - 1, format!("{name}, a byte too few")),
        (hash + 1, format!("{name}, a byte too many")),
    ];
    let others = digest_heads().into_iter().map(|(_, other)| other).filter(|other| other != hash);
    lengths.extend(others.map(|other| (other, format!("{name}, the head with {other} bytes"))));
    lengths.into_iter().map(|(length, name)| Kind::new(name, head, length)).collect()
}

fn hash_alone(digest: &Kind) -> Kind {
    Kind::new(format!("a hash of {} bytes alone", digest.hash), &[], digest.hash)
}

/// Pairs of different rows.
fn pairs() -> Vec<(Row, Row)> {
    let with_others = |row: &Row| SHA2_ROWS.iter().map(|other| (*row, *other)).collect::<Vec<_>>();
    SHA2_ROWS.iter().flat_map(with_others).filter(|(row, other)| row != other).collect()
}

/// L, A or H of another row, with as many bytes as the row's own H says; H also with as many as it
/// says itself.
fn mixed_rows((row, other): (Row, Row)) -> [Kind; 4] {
    let (name, from) = (sha2_name(&row), sha2_name(&other));
    let ((l, a, h), (other_l, other_a, other_h)) = (row, other);
    let mixed = [
        ((other_l, a, h), h, format!("{name} with L of {from}")),
        ((l, other_a, h), h, format!("{name} with A of {from}")),
        ((l, a, other_h), h, format!("{name} with H of {from}")),
        ((l, a, other_h), other_h, format!("{name} with H of {from} and as many bytes")),
    ];
    mixed.map(|(row, hash, name)| Kind::new(name, &sha2_head(row), hash as usize))
}

/// Names the digest that the data is, or what it comes near to; several where several fit.
pub fn kinds(data: &[u8]) -> Vec<String> {
    let all = digests().into_iter().chain(near_digests());
    all.filter(|kind| kind.fits(data)).map(|kind| kind.name).collect()
}

/// Each kind of data that SIGN was given, with its answer; and the answers to digests that came next
/// after data that was refused: they show the environment and PIN2's mark at the refusal.
pub fn reached(answered: &[Answered]) -> BTreeSet<String> {
    let given: Vec<Option<(Vec<u8>, &str)>> =
        answered.iter().map(|(line, answer)| Some((sign_data(line)?, word(answer)))).collect();
    let mut reached = BTreeSet::new();
    for (data, word) in given.iter().flatten() {
        reached.extend(kinds(data).iter().map(|kind| format!("{kind}: {word}")));
    }
    for pair in given.windows(2) {
        if let [Some((none, REFUSED)), Some((digest, word))] = pair {
            if !is_digest(none) && is_digest(digest) {
                reached.insert(after_refusal(word));
            }
        }
    }
    reached
}

fn after_refusal(word: &str) -> String {
    format!("no digest: {REFUSED}, a digest: {word}")
}

/// The data of a SIGN that has any.
fn sign_data(line: &[u8]) -> Option<Vec<u8>> {
    let command = hex::decode(line.strip_prefix(b"C")?)?;
    let apdu = apdu::parse(&command)?;
    let is_sign = (apdu.class, apdu.instruction, apdu.p1, apdu.p2) == (0x00, 0x2A, 0x9E, 0x9A);
    (is_sign && !apdu.data.is_empty()).then(|| apdu.data.to_vec())
}

/// What the lines for each of the two programs must reach.
pub fn wanted() -> Vec<String> {
    let mut wanted = Vec::new();
    for digest in digests() {
        wanted.extend(ANSWERS.map(|word| format!("{}: {word}", digest.name)));
    }
    wanted.extend(near_digests().iter().map(|kind| format!("{}: {REFUSED}", kind.name)));
    wanted.extend(ANSWERS.map(after_refusal));
    wanted
}
