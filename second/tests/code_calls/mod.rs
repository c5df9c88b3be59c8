//! The commands that present, change or unblock a code, sent to a card by themselves.

use second::state::*;
use second::{command, hex, CardState, Certificates, Outcome};

pub fn set(card: &mut CardState, code: usize, tries: u8, verified: bool) {
    (card.codes[code].tries, card.codes[code].verified) = (tries, verified);
}

/// The status word, or the kind of the job, or the number of the edge.
pub fn send(card: &mut CardState, apdu: &[u8]) -> String {
    let lent = Certificates { authentication: &[0x30], signature: &[0x30] };
    let mut buffer = [0xEE; 258];
    match command(card, apdu, lent, &mut buffer) {
        Outcome::Response(length) => hex::encode(&buffer[length - 2..length]),
        Outcome::Job { kind, .. } => format!("J{kind}"),
        Outcome::Refused(number) => format!("H{number}"),
    }
}

pub fn change(card: &mut CardState, code: usize, data: &[u8]) -> String {
    send(card, &[&[0x00, 0x24, 0x00, code as u8, data.len() as u8], data].concat())
}

pub fn unblock(card: &mut CardState, pin: usize, data: &[u8]) -> String {
    send(card, &[&[0x00, 0x2C, 0x00, pin as u8, data.len() as u8], data].concat())
}

pub fn unblock_by_mark(card: &mut CardState, pin: usize) -> String {
    send(card, &[0x00, 0x2C, 0x03, pin as u8])
}

/// The stored value, then a new one.
pub fn right_and(card: &CardState, code: usize, new: &[u8]) -> Vec<u8> {
    [card.codes[code].value.get(), new].concat()
}

/// Of each allowed length, and the stored value itself.
pub fn allowed_values(card: &CardState, code: usize) -> Vec<Vec<u8>> {
    let mut values: Vec<Vec<u8>> = (shortest_code(code)..=LONGEST_CODE).map(|n| b"098765432109"[..n].to_vec()).collect();
    values.push(card.codes[code].value.get().to_vec());
    values
}

/// None, too few and too many digits, and one byte that is no digit.
pub fn refused_values(code: usize) -> Vec<Vec<u8>> {
    let shortest = shortest_code(code);
    let mut values: Vec<Vec<u8>> = [0, 1, shortest - 1, 13, 24].map(|n| vec![b'5'; n]).to_vec();
    for (at, byte) in [(0, 0x2F), (shortest - 1, 0x3A), (1, 0x00)] {
        let mut value = vec![b'5'; shortest];
        value[at] = byte;
        values.push(value);
    }
    values
}

/// An old value that is wrong in its first digit or its last, or short.
pub fn wrong_data(card: &CardState, code: usize) -> Vec<Vec<u8>> {
    let right = right_and(card, code, &[b'5'; 12]);
    let length = card.codes[code].value.length;
    let (mut first, mut last) = (right.clone(), right.clone());
    first[0] ^= 1;
    last[length - 1] ^= 1;
    vec![first, last, right[..length - 1].to_vec(), right[..1].to_vec()]
}
