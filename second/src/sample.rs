//! The sample card of the chapter "Cases", and two small certificates.

/// "PIN1 1234, PIN2 12345, PUK 12345678, 3 tries, keys 0100h and 1100h, both
/// active, other bytes of 0033h zero, each personal record one byte 20h." Wish 6: no limit on
/// unblocking, so there is no last section.
pub fn image() -> Vec<u8> {
    let mut image = vec![3];
    for digits in ["12345678", "1234", "12345"] {
        image.push(digits.len() as u8);
        image.extend(digits.bytes());
        image.push(3);
    }
    image.extend([2, 0x01, 0x00, 0x11, 0x00]);
    let mut references = [0; 21];
    references[9] = 0x11;
    references[19] = 0x01;
    image.push(21);
    image.extend(references);
    image.push(16);
    for _ in 0..16 {
        image.extend([1, 0x20]);
    }
    image
}

/// 600 bytes, so that reads cross 256 and 512.
pub fn authentication_certificate() -> Vec<u8> {
    let mut certificate = vec![0x30, 0x82, 0x02, 0x54];
    certificate.extend((0..596u32).map(|i| (i * 7 + i / 256) as u8));
    certificate
}

pub fn signature_certificate() -> Vec<u8> {
    vec![0x30, 0x05, 0x04, 0x03, 0x5A, 0x5B, 0x5C]
}
