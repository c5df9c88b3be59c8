//! What `second-load` prints for an image.

use crate::{hex, load};

/// The number of the fault on a line; or the card that was loaded, line by line.
pub fn listing(image: &[u8]) -> String {
    let (card, number) = load(image);
    if number != 0 {
        return format!("{number}\n");
    }
    let mut text = String::new();
    for (name, code) in ["PUK", "PIN1", "PIN2"].iter().zip(&card.codes) {
        text += &format!("{name} {} {}\n", String::from_utf8_lossy(code.value.get()), code.tries);
    }
    let keys: Vec<String> = card.present_keys().iter().map(|key| format!("{key:04X}")).collect();
    text += &format!("keys {}\n", keys.join(" "));
    text += &format!("references {}\n", hex::encode(&card.references));
    for record in &card.records {
        text += &format!("record {}\n", hex::encode(record.get()));
    }
    let [pin1, pin2] = card.unblocking_counts;
    text + &format!("unblocking {pin1} {pin2}\n")
}
