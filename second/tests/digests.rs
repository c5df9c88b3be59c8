//! The digests that SIGN takes, and what comes near one: document 01, "Digests (RFC 8017)"; document
//! 02, wish 5.

use second::digests::{digest_heads, is_digest, sha2_head, Row, SHA2_ROWS};
use second::digests_signed::UNLISTED_HEADS;
use second::hex;
use second::lines::LineProgram;
use second::transcript::Transcript;
use std::collections::BTreeSet;

/// As document 01 prints them.
const PRINTED_ROWS: [Row; 4] = [(0x2D, 0x04, 0x1C), (0x31, 0x01, 0x20), (0x41, 0x02, 0x30), (0x51, 0x03, 0x40)];

/// As 003 prints them (3.2.1), with the bytes of the hash.
const PRINTED_HEADS: [(&str, usize); 5] = [
    ("3021300906052B0E03021A05000414", 20),
    ("302D300D06096086480165030402040500041C", 28),
    ("3031300D060960864801650304020105000420", 32),
    ("3041300D060960864801650304020205000430", 48),
    ("3051300D060960864801650304020305000440", 64),
];

fn with_hash(head: &[u8], hash: usize) -> Vec<u8> {
    [head, &vec![0x5A; hash]].concat()
}

#[test]
fn heads_are_those_that_003_prints() {
    let heads: Vec<(String, usize)> = digest_heads().iter().map(|(head, hash)| (hex::encode(head), *hash)).collect();
    assert_eq!(heads, PRINTED_HEADS.map(|(head, hash)| (head.to_string(), hash)));
    assert_eq!(SHA2_ROWS, PRINTED_ROWS);
}

/// Wish 5: "L is H + 11h". So L counts the bytes that come after it.
#[test]
fn l_is_h_and_11h() {
    for (l, a, h) in SHA2_ROWS {
        assert_eq!(*l, h + 0x11, "{l:02X} {a:02X} {h:02X}");
    }
    for (head, hash) in digest_heads() {
        assert_eq!(head[1] as usize, with_hash(&head, hash).len() - 2);
        assert_eq!(*head.last().unwrap() as usize, hash);
    }
}

/// Wish 5: "no data fits two of the five digests": they differ in length, and already in a byte that
/// both heads have.
#[test]
fn no_data_fits_two_digests() {
    let digests = digest_heads();
    assert_eq!(digests.len(), 5);
    for (place, (head, hash)) in digests.iter().enumerate() {
        for (other, other_hash) in &digests[..place] {
            assert_ne!(head.len() + hash, other.len() + other_hash);
            assert!(head.iter().zip(other).any(|(byte, other)| byte != other), "{head:02X?} {other:02X?}");
        }
    }
}

/// With L, H and the number of bytes taken from the rows, and every A.
#[test]
fn only_the_four_rows_are_taken() {
    let mut taken = BTreeSet::new();
    for (l, _, _) in PRINTED_ROWS {
        for (_, _, h) in PRINTED_ROWS {
            let rows = (0..=255).map(|a| (l, a, h)).filter(|row| is_digest(&with_hash(&sha2_head(*row), h as usize)));
            taken.extend(rows);
        }
    }
    assert_eq!(taken, PRINTED_ROWS.into());
}

#[test]
fn each_bit_of_a_head_counts() {
    for (head, hash) in PRINTED_HEADS.map(|(head, hash)| (hex::decode(head.as_bytes()).unwrap(), hash)) {
        assert!(is_digest(&with_hash(&head, hash)));
        for bit in 0..8 * head.len() {
            let mut changed = head.clone();
            changed[bit / 8] ^= 1 << (bit % 8);
            assert!(!is_digest(&with_hash(&changed, hash)), "{changed:02X?}");
        }
    }
}

/// Every length up to that of the longest data that a command has.
#[test]
fn only_one_length_is_taken() {
    for (head, hash) in PRINTED_HEADS.map(|(head, hash)| (hex::decode(head.as_bytes()).unwrap(), hash)) {
        let taken: Vec<usize> = (0..=255 - head.len()).filter(|length| is_digest(&with_hash(&head, *length))).collect();
        assert_eq!(taken, [hash], "{head:02X?}");
        assert!((0..head.len()).all(|length| !is_digest(&head[..length])));
    }
}

#[test]
fn any_hash_is_taken() {
    for (head, hash) in digest_heads() {
        for byte in 0..=255 {
            assert!(is_digest(&[&head[..], &vec![byte; hash]].concat()));
        }
        assert!(!is_digest(&vec![0x5A; hash]));
    }
}

#[test]
fn a_digest_has_at_most_83_bytes() {
    assert_eq!(digest_heads().iter().map(|(head, hash)| head.len() + hash).max(), Some(83));
    assert!(!is_digest(&[]));
}

/// SIGN with data, answered on the sample card with PIN2 open.
fn signed(data: &[u8]) -> String {
    let mut session = Transcript::sample();
    assert_eq!(session.line(b"C00200002053132333435"), "R9000");
    session.line(format!("C002A9E9A{:02X}{}", data.len(), hex::encode(data)).as_bytes())
}

#[test]
fn sign_hands_out_digests_alone() {
    for (head, hash) in digest_heads() {
        assert_eq!(signed(&with_hash(&head, hash)), "J2 0100");
        for length in [0, hash - 1, hash + 1] {
            assert_eq!(signed(&with_hash(&head, length)), "R6A80");
        }
    }
}

#[test]
fn digests_of_other_forms_are_refused() {
    for (name, head, hash) in UNLISTED_HEADS {
        let data = with_hash(head, hash);
        assert!(!is_digest(&data), "{name}");
        assert_eq!(signed(&data), "R6A80", "{name}");
    }
}
