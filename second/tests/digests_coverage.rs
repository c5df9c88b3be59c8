//! Over a few fixed seeds both generators give SIGN each digest and all that comes near one; and what
//! comes near one is answered 6A80 wherever the edge takes it.

mod all_seen;
mod played;

use all_seen::check_all;
use played::{play_stand_in, play_transcript, Step, SEEDS};
use second::digests::{digest_heads, is_digest};
use second::digests_signed::{kinds, near_digests, reached, wanted};
use second::hex;
use second::program::Answered;
use std::collections::BTreeSet;

fn answered(steps: Vec<Step>) -> Vec<Answered> {
    steps.into_iter().map(|step| step.answered).collect()
}

fn reached_by(play: fn(u64) -> Vec<Step>) -> BTreeSet<String> {
    (1..=SEEDS).flat_map(|seed| reached(&answered(play(seed)))).collect()
}

#[test]
fn transcripts_reach_all_that_is_wanted() {
    check_all(reached_by(play_transcript), wanted());
}

#[test]
fn stand_in_lines_reach_all_that_is_wanted() {
    check_all(reached_by(play_stand_in), wanted());
}

/// Five digests with three answers; for each of them three wrong lengths, the lengths of the four other
/// hashes, and the hash alone; each byte of a head; four kinds for each of twelve pairs of rows; six
/// other rows and four other heads; three answers after a refusal.
#[test]
fn so_much_is_wanted() {
    assert_eq!(wanted().len(), 5 * 3 + 5 * (3 + 4 + 1) + (15 + 4 * 19) + 4 * 12 + 6 + 4 + 3);
    assert_eq!(wanted().into_iter().collect::<BTreeSet<_>>().len(), wanted().len());
}

#[test]
fn what_comes_near_a_digest_is_refused_and_changes_no_code() {
    let near: BTreeSet<String> = near_digests().into_iter().map(|kind| kind.name).collect();
    let mut seen = BTreeSet::new();
    for step in (1..=SEEDS).flat_map(|seed| play_transcript(seed).into_iter().chain(play_stand_in(seed))) {
        for text in reached(&[step.answered]) {
            let (kind, word) = text.rsplit_once(": ").unwrap();
            if near.contains(kind) {
                assert!(word == "6A80" || word.starts_with('H'), "{text}");
                assert_eq!(step.before, step.after, "{text}");
                seen.insert(kind.to_string());
            }
        }
    }
    assert_eq!(seen, near);
}

/// Data by its bytes, and all the names that it has.
#[test]
fn data_is_named_by_its_bytes() {
    let sha1 = "3021300906052B0E03021A05000414";
    let sha256 = "3031300D060960864801650304020105000420";
    let cases: [(&str, usize, &[&str]); 21] = [
        (sha1, 20, &["SHA-1"]),
        ("3051300D060960864801650304020305000440", 64, &["SHA-512"]),
        (sha256, 31, &["SHA-256, a byte too few"]),
        (sha256, 33, &["SHA-256, a byte too many"]),
        (sha256, 0, &["SHA-256, the head alone"]),
        (sha256, 20, &["SHA-256, the head with 20 bytes"]),
        (sha1, 48, &["SHA-1, the head with 48 bytes"]),
        ("", 28, &["a hash of 28 bytes alone"]),
        ("3031300D060960864801650304020105000520", 32, &["SHA-256, byte 17 of the head changed"]),
        ("3032300D060960864801650304020105000520", 32, &[]),
        ("3041300D060960864801650304020105000420", 32, &["SHA-256, byte 1 of the head changed", "SHA-256 with L of SHA-384"]),
        ("3031300D060960864801650304020405000420", 32, &["SHA-256, byte 14 of the head changed", "SHA-256 with A of SHA-224"]),
        ("3031300D060960864801650304020105000440", 32, &["SHA-256, byte 18 of the head changed", "SHA-256 with H of SHA-512"]),
        ("3031300D060960864801650304020105000440", 64, &["SHA-256 with H of SHA-512 and as many bytes"]),
        ("302D300D06096086480165030402050500041C", 28, &["SHA-224, byte 14 of the head changed", "SHA-512/224"]),
        ("302D300D06096086480165030402050500041C", 27, &[]),
        ("3051300D060960864801650304020A05000440", 64, &["SHA-512, byte 14 of the head changed", "SHA3-512"]),
        ("3020300C06082A864886F70D020505000410", 16, &["MD5"]),
        ("3021300906052B2403020105000414", 20, &["RIPEMD-160"]),
        ("302F300B06096086480165030402010420", 32, &["SHA-256 without parameters"]),
        ("308131300D060960864801650304020105000420", 32, &["SHA-256 with a length of two bytes"]),
    ];
    for (head, hash, names) in cases {
        let data = [hex::decode(head.as_bytes()).unwrap(), vec![0x5A; hash]].concat();
        assert_eq!(kinds(&data), names, "{head} and {hash} bytes");
        assert_eq!(is_digest(&data), matches!(names, ["SHA-1"] | ["SHA-512"]), "{head} and {hash} bytes");
    }
    for other in [&[][..], &[0x30], &[0x30; 32], &[0x5A; 31]] {
        assert!(kinds(other).is_empty(), "{other:02X?}");
    }
}

/// A digest is named by its hash and nothing else.
#[test]
fn a_digest_comes_near_no_other() {
    let names = digest_heads().iter().map(|(head, hash)| kinds(&[&head[..], &vec![0x5A; *hash]].concat())).collect::<Vec<_>>();
    assert_eq!(names, ["SHA-1", "SHA-224", "SHA-256", "SHA-384", "SHA-512"].map(|name| vec![name.to_string()]));
}

/// A digest that does not come next after the refusal makes no pair with it.
#[test]
fn lines_are_read_with_their_answers() {
    let sha1 = format!("3021300906052B0E03021A05000414{}", "5A".repeat(20));
    let line = |text: String, answer: &str| (text.into_bytes(), answer.to_string());
    let lines = [
        line(format!("C002A9E9A23{sha1}00"), "J2 0200 00"),
        line(format!("C002A9E9A23{sha1}"), "R6985"),
        line(format!("C002A9E9A22{}", &sha1[..68]), "R6A80"),
        line(format!("C002A9E9A23{sha1}"), "R6982"),
        line(format!("C002A9E9A22{}", &sha1[..68]), "R6A80"),
        line("P".to_string(), "P"),
        line(format!("C002A9E9A23{sha1}"), "R6985"),
        line(format!("C102A9E9A23{sha1}"), "R6884"),
        line(format!("C0088000023{sha1}"), "J1 1100"),
        line(format!("C002A9E9A24{sha1}"), "R6700"),
    ];
    let expected = ["SHA-1: J2", "SHA-1: 6985", "SHA-1: 6982", "SHA-1, a byte too few: 6A80", "no digest: 6A80, a digest: 6982"];
    assert_eq!(reached(&lines), expected.map(str::to_string).into());
}
