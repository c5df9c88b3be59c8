//! The writer of document 02's wishes 3 and 6: from a card state to its card image.

use crate::load;
use crate::state::*;

/// Wish 6: "Its buffer is now 1,118 bytes."
pub const LONGEST_IMAGE: usize = 1118;

/// The length of the image, which is in the first bytes of the buffer; or edge refusal 1 or 2,
/// and nothing is written.
pub fn write_image(card: &CardState, buffer: &mut [u8]) -> Result<usize, u8> {
    if !card.is_good() {
        return Err(1);
    }
    if buffer.len() < LONGEST_IMAGE {
        return Err(2);
    }
    let image = image_of(card);
    buffer[..image.len()].copy_from_slice(&image);
    Ok(image.len())
}

/// "Sections in fixed order, each after a one-byte count." The caller knows that the card is good.
fn image_of(card: &CardState) -> Vec<u8> {
    let mut image = vec![card.codes.len() as u8];
    for code in &card.codes {
        put_with_length(&mut image, code.value.get());
        image.push(code.tries);
    }
    image.push(card.key_count as u8);
    for key in card.present_keys() {
        image.extend(key.to_be_bytes());
    }
    put_with_length(&mut image, &card.references);
    image.push(RECORDS as u8);
    for record in &card.records {
        put_with_length(&mut image, record.get());
    }
    // Wish 6: it "leaves the section out when both are A5h".
    if card.unblocking_counts != [NO_LIMIT; 2] {
        put_with_length(&mut image, &card.unblocking_counts);
    }
    image
}

fn put_with_length(image: &mut Vec<u8>, bytes: &[u8]) {
    image.push(bytes.len() as u8);
    image.extend(bytes);
}

/// What `second-rewrite` writes: the image again, or the load number and a line end.
pub fn rewritten(image: &[u8]) -> Vec<u8> {
    let (card, number) = load(image);
    let mut buffer = vec![0; LONGEST_IMAGE];
    match write_image(&card, &mut buffer) {
        Ok(length) => buffer[..length].to_vec(),
        Err(_) => format!("{number}\n").into_bytes(),
    }
}
