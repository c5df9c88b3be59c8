//! A card beside the sample card.

/// PIN1 9999, PIN2 88888, PUK 77777777, 2 tries; all keys, 0200h and 1200h active; record n has n bytes.
pub fn own_image() -> Vec<u8> {
    let mut image = vec![3];
    for digits in ["77777777", "9999", "88888"] {
        image.push(digits.len() as u8);
        image.extend(digits.bytes());
        image.push(2);
    }
    image.extend([4, 0x01, 0x00, 0x02, 0x00, 0x11, 0x00, 0x12, 0x00, 21]);
    let mut references = [0x55; 21];
    references[9..11].copy_from_slice(&[0x12, 0x00]);
    references[19..21].copy_from_slice(&[0x02, 0x00]);
    image.extend(references);
    image.push(16);
    (1..=16).for_each(|n| image.extend(vec![n; n as usize + 1]));
    image
}
