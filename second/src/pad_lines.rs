//! The lines of `second-pad`, and a generator of them.

use crate::generate::Random;
use crate::padding::{pad, strip, BLOCK};
use crate::hex;

/// What `second-pad` prints for a line: `p <hex of data> <buffer length>` or `s <hex of block>`.
pub fn answer(line: &[u8]) -> String {
    judged(line).unwrap_or("?".to_string())
}

fn judged(line: &[u8]) -> Option<String> {
    let fields: Vec<&[u8]> = line.split(|b| *b == b' ').collect();
    match fields[..] {
        [b"p", data, length] => {
            let data = hex::decode(data)?;
            let mut buffer = vec![0xEE; buffer_length(length)?];
            let number = pad(&data, &mut buffer);
            Some(format!("{number} {}", hex::encode(&buffer)))
        }
        [b"s", block] => Some(strip(&hex::decode(block)?).to_string()),
        _ => None,
    }
}

/// Digits only, at most 65,535.
fn buffer_length(text: &[u8]) -> Option<usize> {
    if !text.iter().all(u8::is_ascii_digit) {
        return None;
    }
    let length: u16 = std::str::from_utf8(text).ok()?.parse().ok()?;
    Some(length as usize)
}

pub fn line(r: &mut Random) -> String {
    match r.below(50) {
        0 => malformed(r),
        1..=20 => {
            let data = data(r);
            format!("p {} {}", hex::encode(&data), length_near(r, BLOCK, 600))
        }
        _ => format!("s {}", hex::encode(&block(r))),
    }
}

fn malformed(r: &mut Random) -> String {
    let lines = ["", "p", "s", "s ", "p 00", "p 0 256", "p 0a 256", "p 00 65536", "p 00 x", "p 00 ", "p  256 ", "s 0", "s 00 1", "S 00", "x 00", " s 00"];
    r.pick(&lines).to_string()
}

/// 0 to `most`, half of them next to the limit.
fn length_near(r: &mut Random, limit: usize, most: usize) -> usize {
    let any = r.between(0, most);
    r.pick(&[limit - 1, limit, limit + 1, 0, any, any])
}

fn data(r: &mut Random) -> Vec<u8> {
    let n = length_near(r, 245, 300);
    let any = r.bytes(n);
    r.pick(&[any.clone(), any, vec![0x00; n], vec![0xFF; n]])
}

/// A block for stripping: right, damaged, or of another length.
fn block(r: &mut Random) -> Vec<u8> {
    let mut block = right(r);
    match r.below(24) {
        0 => block[0] = r.pick(&[0x01, 0x02, 0x80, 0xFF]),
        1 => block[1] = r.pick(&[0x00, 0x01, 0x03, 0x12, 0x82, 0xFF]),
        2 => {
            let at = r.between(2, 9);
            block[at] = 0x00; // under 8 bytes before it
        }
        3 => block[2..].iter_mut().for_each(|b| *b |= 1), // no zero
        4 => {
            let at = r.below(BLOCK);
            block[at] ^= 1 << r.below(8);
        }
        5 => {
            let at = r.below(BLOCK);
            block[at] = 0x00;
        }
        6 => {
            let shorter = r.below(BLOCK);
            let n = r.pick(&[255, 255, shorter, 0, 11]);
            block.truncate(n);
        }
        7 => {
            let n = r.between(1, 344);
            let more = r.pick(&[1, 1, n]);
            block.extend(r.bytes(more));
        }
        8 => block = padded(r),
        9 => block = r.pick(&[vec![0x00; BLOCK], vec![0xFF; BLOCK], vec![0x02; BLOCK]]),
        10 => {
            block = r.bytes(BLOCK);
            block[..2].copy_from_slice(&[0x00, 0x02]);
        }
        11 => drop(block.remove(0)), // the leading zero is lost
        12 => block.insert(0, 0x00),
        _ => {}
    }
    block
}

/// 00 02, non-zero bytes, 00, a message of 0 to 245 bytes.
fn right(r: &mut Random) -> Vec<u8> {
    let any = r.between(0, 245);
    let n = r.pick(&[0, 1, 244, 245, any, any, any, any]);
    let mut block = vec![0x00, 0x02];
    block.extend((0..253 - n).map(|_| r.between(1, 255) as u8));
    block.push(0x00);
    block.extend(r.bytes(n));
    block
}

/// A block of the other type.
fn padded(r: &mut Random) -> Vec<u8> {
    let n = r.between(0, 245);
    let mut block = vec![0; BLOCK];
    pad(&r.bytes(n), &mut block);
    block
}
