//! Load: a card image to a card state, or the number of its first fault.

use crate::state::*;

pub const ENDS_EARLY: u8 = 21;
pub const COUNT: u8 = 22;
pub const CODE: u8 = 23;
pub const KEY: u8 = 24;
pub const REFERENCE: u8 = 25;
pub const RECORD_LENGTH: u8 = 26;
pub const LEFT_OVER: u8 = 27;
pub const UNBLOCKING_COUNT: u8 = 28;

/// The state and 0, or the all-zero state and 21 to 28.
pub fn load(image: &[u8]) -> (CardState, u8) {
    match read_card(image) {
        Ok(card) => (card, 0),
        Err(fault) => (CardState::ZERO, fault),
    }
}

struct Reader<'a> {
    rest: &'a [u8],
}

impl Reader<'_> {
    /// "A missing byte is 21."
    fn byte(&mut self) -> Result<u8, u8> {
        let (first, rest) = self.rest.split_first().ok_or(ENDS_EARLY)?;
        self.rest = rest;
        Ok(*first)
    }

    /// "Each byte is judged as it is read."
    fn judged(&mut self, fault: u8, allowed: impl Fn(u8) -> bool) -> Result<u8, u8> {
        let byte = self.byte()?;
        if allowed(byte) { Ok(byte) } else { Err(fault) }
    }
}

fn read_card(image: &[u8]) -> Result<CardState, u8> {
    let mut reader = Reader { rest: image };
    let mut card = CardState::ZERO;
    read_to_records(&mut reader, &mut card)?;
    read_unblocking_counts(&mut reader, &mut card)?;
    if !reader.rest.is_empty() {
        return Err(LEFT_OVER);
    }
    card.start_session();
    Ok(card)
}

/// The bytes behind the personal records; None where there is a fault before them.
pub fn behind_records(image: &[u8]) -> Option<&[u8]> {
    let mut reader = Reader { rest: image };
    read_to_records(&mut reader, &mut CardState::ZERO.clone()).ok()?;
    Some(reader.rest)
}

fn read_to_records(reader: &mut Reader, card: &mut CardState) -> Result<(), u8> {
    read_codes(reader, card)?;
    read_keys(reader, card)?;
    read_references(reader, card)?;
    read_records(reader, card)
}

/// "Codes: 3; PUK, PIN1, PIN2, each as length, digits, tries."
fn read_codes(reader: &mut Reader, card: &mut CardState) -> Result<(), u8> {
    reader.judged(COUNT, |count| count == 3)?;
    for (number, code) in card.codes.iter_mut().enumerate() {
        let length = reader.judged(CODE, |n| code_length_allowed(number, n as usize))? as usize;
        for place in 0..length {
            code.value.place[place] = reader.judged(CODE, is_digit)?;
        }
        code.value.length = length;
        code.tries = reader.judged(CODE, |tries| tries <= MAX_TRIES)?;
    }
    Ok(())
}

/// "Keys: 2 to 4; two-byte numbers, high byte first as everywhere, strictly
/// rising." "a key [is judged] at its second byte, the classes after the last key"
fn read_keys(reader: &mut Reader, card: &mut CardState) -> Result<(), u8> {
    let count = reader.judged(COUNT, |count| (2..=4).contains(&count))? as usize;
    for place in 0..count {
        let key = u16::from_be_bytes([reader.byte()?, reader.byte()?]);
        if key_class(key).is_none() || (place > 0 && card.keys[place - 1] >= key) {
            return Err(KEY);
        }
        card.keys[place] = key;
    }
    card.key_count = count;
    for class in [KeyClass::Signature, KeyClass::Authentication] {
        if !card.present_keys().iter().any(|key| key_class(*key) == Some(class)) {
            return Err(KEY);
        }
    }
    Ok(())
}

/// "References: 21; the 0033h record." Judged "after byte 21".
fn read_references(reader: &mut Reader, card: &mut CardState) -> Result<(), u8> {
    reader.judged(COUNT, |count| count as usize == REFERENCES)?;
    for place in 0..REFERENCES {
        card.references[place] = reader.byte()?;
    }
    for class in [KeyClass::Authentication, KeyClass::Signature] {
        let key = card.active_key(class);
        if !card.has_key(key) || key_class(key) != Some(class) {
            return Err(REFERENCE);
        }
    }
    Ok(())
}

/// "Personal: 16; each as length 1 to 64, bytes."
fn read_records(reader: &mut Reader, card: &mut CardState) -> Result<(), u8> {
    reader.judged(COUNT, |count| count as usize == RECORDS)?;
    for record in &mut card.records {
        let length = reader.judged(RECORD_LENGTH, |n| (1..=64).contains(&n))? as usize;
        for place in 0..length {
            record.place[place] = reader.byte()?;
        }
        record.length = length;
    }
    Ok(())
}

/// Wish 6: "a last section, count 2, then the two bytes, PIN1 first, each 0 to A5h. An image that ends
/// after the personal records means A5h for both". "28 for a byte over A5h as it is read, or for A5h
/// twice after the second byte and before 27."
fn read_unblocking_counts(reader: &mut Reader, card: &mut CardState) -> Result<(), u8> {
    if reader.rest.is_empty() {
        card.unblocking_counts = [NO_LIMIT; 2];
        return Ok(());
    }
    reader.judged(COUNT, |count| count as usize == card.unblocking_counts.len())?;
    for count in &mut card.unblocking_counts {
        *count = reader.judged(UNBLOCKING_COUNT, |n| n <= NO_LIMIT)?;
    }
    if card.unblocking_counts == [NO_LIMIT; 2] { Err(UNBLOCKING_COUNT) } else { Ok(()) }
}
