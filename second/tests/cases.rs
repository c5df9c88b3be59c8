//! Document 01's cases P1 to P10 and its printed transcript; document 02's wishes.

mod job_lines;

use job_lines::{result_line, sign_line};
use second::generate::Random;
use second::lines::{run, LineProgram};
use second::transcript::Transcript;
use second::{hex, padding};

/// Each line with its output line, from the sample card.
fn check(lines: &[(&str, &str)]) -> Transcript {
    let mut session = Transcript::sample();
    for (line, output) in lines {
        assert_eq!(&session.line(line.as_bytes()), output, "{line}");
    }
    session
}

#[test]
fn p1_three_wrong_pin1() {
    let wrong = "C002000010439393939";
    check(&[(wrong, "R63C2"), (wrong, "R63C1"), (wrong, "R63C0"), ("C002000010431323334", "R6983")]);
}

#[test]
fn p2_sign_twice() {
    let (sign, result) = (sign_line(), result_line());
    check(&[("C00200002053132333435", "R9000"), (&sign, "J2 0100"), (&result, "R6100"), (&sign, "R6982")]);
}

#[test]
fn p3_unblocking_a_pin_with_tries() {
    check(&[("C002C0301", "R6A86")]);
}

#[test]
fn p4_refused_change_keeps_tries_and_mark() {
    for first in [("P", "P"), ("C002000010431323334", "R9000"), ("C002000010439393939", "R63C2")] {
        let mut session = check(&[first]);
        let before = session.card().clone();
        assert_eq!(session.line(b"C0024000106313233343132"), "R6A80");
        assert_eq!(session.card(), &before);
    }
}

#[test]
fn p5_a_prefix_is_wrong() {
    check(&[("C002000020431323334", "R63C2")]);
}

#[test]
fn p6_length_forms() {
    let f261 = format!("C{}", "FF".repeat(261));
    let f262 = format!("C{}", "FF".repeat(262));
    check(&[("C", "R6700"), (&f261, "R6E00"), (&f262, "R6700")]);
}

#[test]
fn p7_class_10_elsewhere() {
    check(&[("C10200001", "R6884")]);
}

#[test]
fn p8_key_choices() {
    check(&[("C002241B8058303800100", "R6A80"), ("C002241B6058303800200", "R6A88")]);
}

#[test]
fn p9_chains() {
    let first = format!("C102A8086FF{}", "00".repeat(255));
    check(&[(&first, "R9000"), ("C002A8086020000", "R6985")]);
    check(&[(&first, "R9000"), ("C002A808603000000", "R6700")]);
}

#[test]
fn p10_padding() {
    let mut block = [0xEE; 257];
    assert_eq!(padding::pad(&[0x11; 245], &mut block), 256);
    assert_eq!(block[..11], [0, 1, 255, 255, 255, 255, 255, 255, 255, 255, 0]);
    assert_eq!((block[11], block[255], block[256]), (0x11, 0x11, 0xEE));
    let mut block = [0xEE; 256];
    assert_eq!(padding::pad(&[0x11; 246], &mut block), 0);
    assert_eq!(padding::pad(&[], &mut block[..255]), 0);
    assert_eq!(block, [0xEE; 256]);
    assert_eq!(padding::pad(&[], &mut block), 256);
    assert_eq!((block[2], block[254], block[255]), (0xFF, 0xFF, 0));
}

#[test]
fn stripping() {
    let block = |filler: usize| {
        let mut block = [0x77u8; 256];
        block[0] = 0;
        block[1] = 2;
        if 2 + filler < 256 {
            block[2 + filler] = 0;
        }
        block
    };
    assert_eq!(padding::strip(&block(7)), 0);
    assert_eq!(padding::strip(&block(8)), 11);
    assert_eq!(padding::strip(&block(253)), 256);
    assert_eq!(padding::strip(&block(254)), 0);
    assert_eq!(padding::strip(&block(8)[..255]), 0);
}

#[test]
fn printed_transcript() {
    let input = "P\nC002000010439393939\nC002000010431323334\nC00A4020C020016\nC00B2010400\nC00B2030400\nCFF";
    let output = "P\nR63C2\nR9000\nR9000\nR800103900103830200009000\nR8001039001039000\nR6700\n";
    for ending in ["", "\n"] {
        let mut written = Vec::new();
        run(&mut Transcript::sample(), format!("{input}{ending}").as_bytes(), &mut written).unwrap();
        assert_eq!(String::from_utf8(written).unwrap(), output);
    }
}

#[test]
fn other_lines() {
    let fits = format!("C{}", "00".repeat(511));
    let over = format!("C{}", "00".repeat(512));
    check(&[("", "?"), ("p", "?"), ("P\r", "?"), ("C0", "?"), ("C0a", "?"), ("D", "H5"), (&fits, "R6700"), (&over, "?")]);
}

#[test]
fn decipher_delivery_and_held_answer() {
    let first = format!("C102A8086FF{}", "00".repeat(255));
    let mut block = vec![0, 2];
    block.extend([7; 8]);
    block.push(0);
    block.extend([9; 245]);
    let result = format!("D{}", hex::encode(&block));
    let mut empty = vec![5u8; 256];
    (empty[0], empty[1], empty[255]) = (0, 2, 0);
    let empty = format!("D{}", hex::encode(&empty));
    let whole = format!("R{}9000", "09".repeat(245));
    let given = format!("R{}61C1", "09".repeat(52));
    check(&[
        ("C0022F306", "R9000"), ("C002000010431323334", "R9000"),
        (&first, "R9000"), ("C002A8086020000", "J3 1100"), ("CFF", "H4"), (&result, "R61F5"), ("C00C0000034", &given),
        ("?", "?"), ("D", "H5"), ("C00C0000101", "R6A86"), ("C00C0000001", "R6985"),
        (&first, "R9000"), ("C002A808602000000", "J3 1100"), (&result, &whole),
        (&first, "R9000"), ("C002A8086020000", "J3 1100"), (&empty, "R9000"),
        (&first, "R9000"), ("C002A8086020000", "J3 1100"), ("D00", "R6400"), ("D00", "H5"),
        (&first, "R9000"), ("C002A8086020000", "J3 1100"), ("P", "P"), ("D00", "H5"),
    ]);
}

#[test]
fn unblocking() {
    let wrong = "C002000020439393939";
    check(&[
        (wrong, "R63C2"), (wrong, "R63C1"), (wrong, "R63C0"), ("C002C0302", "R6982"), ("C002C0002", "R6700"),
        ("C002C00020431323334", "R63C2"), ("C002C00020C313233343536373831323334", "R6A80"),
        ("C0020000008313233343536373800", "R9000"), ("C002C0302", "R9000"), ("C002C0302", "R6A86"),
        (wrong, "R63C2"), (wrong, "R63C1"), (wrong, "R63C0"),
        ("C002C00020D31323334353637383534333231", "R9000"), ("C00200002053534333231", "R9000"),
    ]);
}

/// Document 02, wish 1.
#[test]
fn verify_without_data_asks() {
    let wrong = "C002000010439393939";
    check(&[
        ("C00200000", "R63C3"), ("C00200001", "R63C3"), ("C0020000200", "R63C3"), ("C00200003", "R6A86"), ("C10200001", "R6884"),
        (wrong, "R63C2"), ("C00200001", "R63C2"), ("C0020000100", "R63C2"), ("C002000010431323334", "R9000"),
        ("C00200001", "R9000"), ("C00200002", "R63C3"), ("C00200000", "R63C3"), ("P", "P"), ("C00200001", "R63C3"),
        (wrong, "R63C2"), (wrong, "R63C1"), ("C00200001", "R63C1"), (wrong, "R63C0"), ("C00200001", "R6983"), (wrong, "R6983"),
    ]);
}

/// A fresh card with a certificate of this length as its current file, and that certificate.
fn at_certificate(file: &str, length: usize) -> (Transcript, Vec<u8>) {
    let certificate = Random(length as u64).bytes(length);
    let other = vec![0x5A; 1536];
    let mut session = match file {
        "AACE" => Transcript::new(certificate.clone(), other),
        _ => Transcript::new(other, certificate.clone()),
    };
    for select in ["C00A4010C02EEEE".to_string(), format!("C00A4020C02{file}")] {
        assert_eq!(session.line(select.as_bytes()), "R9000");
    }
    (session, certificate)
}

/// Data and status word.
fn read_binary(session: &mut Transcript, offset: usize, le: usize) -> (Vec<u8>, String) {
    let answer = session.line(format!("C00B0{offset:04X}{le:02X}").as_bytes());
    let (data, word) = answer[1..].split_at(answer.len() - 5);
    (hex::decode(data.as_bytes()).unwrap(), word.to_string())
}

/// At 0, n, 2n, .. until an answer is not 9000 with n bytes: all data, and the last status word.
fn read_in_blocks(session: &mut Transcript, n: usize) -> (Vec<u8>, String) {
    let mut read = Vec::new();
    loop {
        let (data, word) = read_binary(session, read.len(), n);
        let whole = word == "9000" && data.len() == n;
        read.extend(data);
        if !whole {
            return (read, word);
        }
    }
}

/// Document 02, wish 2. The signature certificate has 7 bytes.
#[test]
fn read_binary_says_when_the_file_ended() {
    check(&[
        ("C00A4010C02EEEE", "R9000"), ("C00A4020C02DDCE", "R9000"),
        ("C00B0000006", "R300504035A5B9000"), ("C00B0000007", "R300504035A5B5C9000"), ("C00B0000008", "R300504035A5B5C6282"),
        ("C00B00000FF", "R300504035A5B5C6282"), ("C00B0000000", "R300504035A5B5C9000"),
        ("C00B0000601", "R5C9000"), ("C00B0000602", "R5C6282"), ("C00B00006FF", "R5C6282"), ("C00B0000600", "R5C9000"),
        ("C00B0000700", "R6B00"), ("C00B0000701", "R6B00"), ("C00B00007FF", "R6B00"), ("C00B0000800", "R6B00"), ("C00B00008FF", "R6B00"),
        ("C00B07FFFFF", "R6B00"), ("C00B00000", "R6700"), ("C00B08000FF", "R6A86"), ("C10B00000FF", "R6884"),
    ]);
}

#[test]
fn every_le_at_every_offset() {
    let (mut session, certificate) = at_certificate("AACE", 300);
    for offset in 0..300 {
        let rest = &certificate[offset..];
        for le in 0..=255 {
            let (part, word) = match le {
                0 if rest.len() > 256 => (&rest[..256], "9000"),
                0 => (rest, "9000"),
                _ if le <= rest.len() => (&rest[..le], "9000"),
                _ => (rest, "6282"),
            };
            assert_eq!(read_binary(&mut session, offset, le), (part.to_vec(), word.to_string()), "{offset} {le}");
        }
    }
    for (offset, le) in [300, 301, 0x7FFF].iter().flat_map(|offset| (0..=255).map(move |le| (*offset, le))) {
        assert_eq!(read_binary(&mut session, offset, le), (vec![], "6B00".to_string()), "{offset} {le}");
    }
}

#[test]
fn a_reader_in_blocks_gets_the_certificate_and_stops() {
    for length in [1, 2, 7, 199, 200, 201, 254, 255, 256, 257, 400, 510, 600, 1344, 1535, 1536] {
        for file in ["AACE", "DDCE"] {
            let (mut session, certificate) = at_certificate(file, length);
            for n in 1..=255 {
                let word = if length % n == 0 { "6B00" } else { "6282" };
                assert_eq!(read_in_blocks(&mut session, n), (certificate.clone(), word.to_string()), "{file} {length} {n}");
            }
        }
    }
}

/// As every other call, it drops the held answer and the chain, and it leaves the current file.
#[test]
fn a_read_over_the_end_drops_what_is_held() {
    let result = result_line();
    let first = format!("C102A8086FF{}", "00".repeat(255));
    let short = ("C00B00006FF", "R5C6282");
    check(&[
        ("C00A4010C02EEEE", "R9000"), ("C00A4020C02DDCE", "R9000"), ("C002000010431323334", "R9000"),
        ("C008800000100", "J1 1100"), ("C00B00006FF", "H4"), (&result, "R6100"), short, ("C00C0000000", "R6985"),
        (&first, "R9000"), short, ("C002A8086020000", "R6700"), short, ("C00200001", "R9000"),
    ]);
}

#[test]
fn other_commands_with_a_le_over_their_data_keep_9000() {
    let record = "R800103900103830200009000";
    check(&[
        ("C00A4020C020016", "R9000"), ("C00B201040A", record), ("C00B201040B", record), ("C00B20104FF", record), ("C00B2010400", record),
        ("C00B20104", "R610A"), ("C00C000000B", record), ("C00B20104", "R610A"), ("C00C00000FF", record),
    ]);
}
