//! The digests that SIGN takes: document 01, "Digests (RFC 8017)".

/// "30 21 30 09 06 05 2B 0E 03 02 1A 05 00 04 14 and 20 bytes"
pub const SHA1_HEAD: [u8; 15] = [0x30, 0x21, 0x30, 0x09, 0x06, 0x05, 0x2B, 0x0E, 0x03, 0x02, 0x1A, 0x05, 0x00, 0x04, 0x14];
pub const SHA1_HASH: usize = 20;

/// The numbers (L, A, H) of "30 L 30 0D 06 09 60 86 48 01 65 03 04 02 A 05 00 04 H and H bytes".
pub type Row = (u8, u8, u8);

/// SHA-224, SHA-256, SHA-384 and SHA-512.
pub const SHA2_ROWS: &[Row] = &[
    (0x2D, 0x04, 0x1C),
    (0x31, 0x01, 0x20),
    (0x41, 0x02, 0x30),
    (0x51, 0x03, 0x40),
];

pub const SHA2_HEAD_LENGTH: usize = 19;

/// The bytes that the rows have in common, with the three that differ.
pub fn sha2_head((l, a, h): Row) -> [u8; SHA2_HEAD_LENGTH] {
    [0x30, l, 0x30, 0x0D, 0x06, 0x09, 0x60, 0x86, 0x48, 0x01, 0x65, 0x03, 0x04, 0x02, a, 0x05, 0x00, 0x04, h]
}

/// The heads of the digests, SHA-1's first, each with the length of the hash.
pub fn digest_heads() -> Vec<(Vec<u8>, usize)> {
    let sha1 = (SHA1_HEAD.to_vec(), SHA1_HASH);
    let sha2 = SHA2_ROWS.iter().map(|row| (sha2_head(*row).to_vec(), row.2 as usize));
    std::iter::once(sha1).chain(sha2).collect()
}

pub fn is_digest(data: &[u8]) -> bool {
    let fits = |head: &[u8], hash: usize| data.strip_prefix(head).is_some_and(|rest| rest.len() == hash);
    fits(&SHA1_HEAD, SHA1_HASH) || SHA2_ROWS.iter().any(|row| fits(&sha2_head(*row), row.2 as usize))
}
