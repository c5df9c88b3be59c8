//! RSA padding and stripping for 2048-bit keys (RFC 8017).

pub const BLOCK: usize = 256;

/// "00 01, 253 - n bytes FF, 00, the n data bytes." Answers 256, or 0 "with
/// nothing written if n > 245 or its buffer is under 256".
pub fn pad(data: &[u8], buffer: &mut [u8]) -> usize {
    let n = data.len();
    if n > 245 || buffer.len() < BLOCK {
        return 0;
    }
    buffer[0] = 0x00;
    buffer[1] = 0x01;
    buffer[2..255 - n].fill(0xFF);
    buffer[255 - n] = 0x00;
    buffer[BLOCK - n..BLOCK].copy_from_slice(data);
    BLOCK
}

/// "Stripping wants 256 bytes: 00 02, at least 8 non-zero bytes, 00, message."
/// Answers where the message starts (11 to 256), else 0.
pub fn strip(block: &[u8]) -> usize {
    if block.len() != BLOCK || block[0] != 0x00 || block[1] != 0x02 {
        return 0;
    }
    match block[2..].iter().position(|b| *b == 0) {
        Some(filler) if filler >= 8 => 2 + filler + 1,
        _ => 0,
    }
}
