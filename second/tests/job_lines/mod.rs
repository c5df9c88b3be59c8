//! The lines of a signature on the sample card or another.

/// A SHA-1 digest with its head.
pub fn digest() -> String {
    format!("3021300906052B0E03021A05000414{}", "AB".repeat(20))
}

/// SIGN with the digest.
#[allow(dead_code)] // not every test that has a result signs
pub fn sign_line() -> String {
    format!("C002A9E9A23{}", digest())
}

/// A result of 256 bytes.
pub fn result_line() -> String {
    format!("D{}", "5A".repeat(256))
}
