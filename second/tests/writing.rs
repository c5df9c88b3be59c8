//! The writer of document 02's wishes 3 and 6: its laws, its edge, the line I and the programs of images.

mod job_lines;
mod states;

use job_lines::result_line;
use second::comparison::{compare, Answer};
use second::generate::{Generator, Random};
use second::images::{self, Parts, VERY_LONG};
use second::lines::LineProgram;
use second::stand_in::StandIn;
use second::state::Bytes;
use second::transcript::Transcript;
use second::writer::rewritten;
use second::{hex, load, power_reset, sample, write_image, CardState};
use states::bad_states;
use std::collections::BTreeMap;
use std::fs::{self, File, OpenOptions};
use std::io::Write;
use std::process::{Command, Output, Stdio};

/// The sample card's image up to PIN1; PIN2; keys and references.
const PUK: &str = "0308313233343536373803";
const PIN2: &str = "05313233343503";
const KEYS: &str = "020100110015000000000000000000110000000000000000000100";

/// In hex, with this length and value of PIN1 and these tries.
fn sample_with_pin1(pin1: &str, tries: u8) -> String {
    format!("{PUK}{pin1}{tries:02X}{PIN2}{KEYS}10{}", "0120".repeat(16))
}

fn sample_hex() -> String {
    sample_with_pin1("0431323334", 3)
}

fn sample_image() -> Vec<u8> {
    hex::decode(sample_hex().as_bytes()).unwrap()
}

/// Codes of twelve digits, four keys, records of 64 bytes, and the last section.
fn longest_image() -> Vec<u8> {
    let mut image = vec![3];
    for (digits, tries) in [("000000000000", 0), ("123456789012", 1), ("999999999999", 2)] {
        image.push(12);
        image.extend(digits.bytes());
        image.push(tries);
    }
    image.extend([4, 0x01, 0x00, 0x02, 0x00, 0x11, 0x00, 0x12, 0x00]);
    image.extend([21, 1, 2, 3, 4, 5, 6, 7, 8, 9, 0x12, 0x00, 12, 13, 14, 15, 16, 17, 18, 19, 0x02, 0x00]);
    image.push(16);
    for number in 0..16 {
        image.push(64);
        image.extend((0..64).map(|place| number * 11 + place));
    }
    image.extend([2, 0xA4, 0x00]);
    image
}

/// What the writer makes of a card, with a buffer of 1,118 bytes.
fn written(card: &CardState) -> Vec<u8> {
    let mut buffer = [0xEE; 1118];
    let length = write_image(card, &mut buffer).unwrap();
    buffer[..length].to_vec()
}

#[test]
fn the_sample_card_is_written_as_its_image() {
    assert_eq!(sample_image().len(), 84);
    assert_eq!(written(&load(&sample::image()).0), sample_image());
    assert_eq!(rewritten(&sample_image()), sample_image());
}

#[test]
fn the_longest_image_has_1118_bytes() {
    let image = longest_image();
    let (card, number) = load(&image);
    assert_eq!((image.len(), number), (1118, 0));
    assert_eq!(written(&card), image);
    let mut buffer = [0xEE; 1117];
    assert_eq!(write_image(&card, &mut buffer), Err(2));
    assert_eq!(buffer, [0xEE; 1117]);
}

#[test]
fn the_first_refusal_wins_and_nothing_is_written() {
    let good = load(&sample::image()).0;
    for size in 0..1118 {
        let mut buffer = vec![0xEE; size];
        assert_eq!(write_image(&good, &mut buffer), Err(2), "{size}");
        assert_eq!(buffer, vec![0xEE; size]);
    }
    for (name, bad) in bad_states() {
        for size in [0, 84, 1115, 1117, 1118, 4096] {
            let mut buffer = vec![0xEE; size];
            assert_eq!(write_image(&bad, &mut buffer), Err(1), "{name}, {size}");
            assert_eq!(buffer, vec![0xEE; size], "{name}");
        }
    }
}

#[test]
fn an_empty_record_is_refused_and_one_of_a_byte_is_not() {
    let mut card = load(&longest_image()).0;
    for number in 0..16 {
        card.records[number] = Bytes::EMPTY;
        assert_eq!(write_image(&card, &mut [0; 1118]), Err(1), "{number}");
        card.records[number] = Bytes::of(&[0]);
        assert_eq!(written(&card).len(), 1118 - 63 * (number + 1));
    }
}

#[test]
fn no_byte_past_the_image_is_changed() {
    let mut random = Random(11);
    for _ in 0..300 {
        let image = Parts::valid(&mut random).bytes();
        let card = load(&image).0;
        for (size, filler) in [(1118, 0xEE), (1119, 0x11), (1700, 0x00), (4096, 0xFF)] {
            let mut buffer = vec![filler; size];
            assert_eq!(write_image(&card, &mut buffer), Ok(image.len()));
            let (first, rest) = buffer.split_at(image.len());
            assert_eq!(first, image);
            assert!(rest.iter().all(|byte| *byte == filler), "{size}");
        }
    }
}

/// "writing a state just loaded gives the same bytes back", and the number where it is refused.
#[test]
fn generated_images_are_written_back() {
    let mut random = Random(12);
    let mut lengths = BTreeMap::new();
    for _ in 0..4000 {
        let image = images::image(&mut random);
        match load(&image) {
            (card, 0) => {
                assert_eq!(written(&card), image);
                assert_eq!(rewritten(&image), image);
                *lengths.entry(image.len()).or_insert(0) += 1;
            }
            (_, number) => assert_eq!(rewritten(&image), format!("{number}\n").as_bytes()),
        }
    }
    assert!(lengths[&84] > 5 && lengths[&1118] > 5 && lengths.len() > 200, "{lengths:?}");
    assert!(lengths.keys().all(|length| (84..=1118).contains(length)));
}

/// "Loading what it writes gives the state after a power reset"
#[test]
fn what_is_written_loads_as_the_card_after_a_reset() {
    for seed in 1..=4 {
        let mut stand_in = StandIn::sample();
        let mut good = 0;
        for line in Generator::for_stand_in(seed).take(5000) {
            stand_in.line(&line);
            let mut card = stand_in.card().clone();
            if card.is_good() {
                let image = written(&card);
                assert_eq!(power_reset(&mut card), 0);
                assert_eq!(load(&image), (card.clone(), 0));
                assert_eq!(written(&card), image);
                good += 1;
            }
        }
        assert!(good > 3000, "{good}");
    }
}

/// "No two images that load give one state."
#[test]
fn every_other_image_that_loads_is_another_card() {
    let mut random = Random(13);
    let mut loaded = 0;
    for image in [sample::image(), Parts::shortest(&mut random).bytes(), Parts::valid(&mut random).bytes()] {
        let card = load(&image).0;
        for (at, byte) in (0..image.len()).flat_map(|at| (0..=255).map(move |byte| (at, byte))) {
            let mut other = image.clone();
            other[at] = byte;
            let (other_card, number) = load(&other);
            assert_eq!(number == 0 && other_card == card, other == image, "{at} {byte}");
            loaded += usize::from(number == 0);
        }
    }
    assert!(loaded > 3 * 16 * 256, "{loaded}");
}

/// Each line with its output line, from the stand-in's start.
fn check(lines: &[(&str, &str)]) -> StandIn {
    let mut stand_in = StandIn::sample();
    for (line, output) in lines {
        assert_eq!(&stand_in.line(line.as_bytes()), output, "{line}");
    }
    stand_in
}

#[test]
fn the_line_shows_codes_and_tries_and_no_session() {
    let sample = format!("I{}", sample_hex());
    let fewer = format!("I{}", sample_with_pin1("0431323334", 2));
    let changed = format!("I{}", sample_with_pin1("053939393939", 3));
    check(&[
        ("I", &sample), ("I", &sample), ("C002000010439393939", "R63C2"), ("I", &fewer), ("P", "P"), ("I", &fewer),
        ("C002000010431323334", "R9000"), ("I", &sample), ("C00200001", "R9000"), ("C0022F306", "R9000"), ("C00A4010C02EEEE", "R9000"),
        ("I", &sample), ("C00A4020C025044", "R9000"), ("C00B20104", "R6101"), ("I", &sample), ("C00C0000000", "R209000"),
        ("C0024000109313233343939393939", "R9000"), ("I", &changed), ("C00200001", "R9000"), ("P", "P"), ("I", &changed), ("C00200001", "R63C3"),
    ]);
}

#[test]
fn the_line_leaves_job_chain_and_held_answer() {
    let sample = format!("I{}", sample_hex());
    let result = result_line();
    let rest = format!("R{}9000", "5A".repeat(256));
    let block = format!("J1 1100 0001{}0000", "FF".repeat(252));
    let first = format!("C102A8086FF{}", "00".repeat(255));
    let mut stand_in = check(&[
        ("C002000010431323334", "R9000"), ("C008800000100", &block), ("I", &sample), ("C", "H4"), ("I", &sample), (&result, "R6100"),
        ("I", &sample), ("C00C0000000", &rest), (&first, "R9000"), ("I", &sample), ("C002A8086020000", "R6985"),
    ]);
    let before = stand_in.card().clone();
    stand_in.line(b"I");
    assert_eq!(stand_in.card(), &before);
}

#[test]
fn the_line_asks_for_a_good_card_and_then_for_1118_bytes() {
    let sample = format!("I{}", sample_hex());
    let load_line = format!("L{}", sample_hex());
    let small = ["B0", "B257", "B258", "B1114", "B1115", "B1117"].map(|size| (size, false));
    let large = ["B1118", "B1119", "B4096"].map(|size| (size, true));
    for (size, large) in small.into_iter().chain(large) {
        let answer = if large { &sample } else { "H2" };
        check(&[(size, "B"), ("I", answer), ("L", "F21"), ("I", "H1"), (size, "B"), ("I", "H1"), (&load_line, "L"), ("I", answer)]);
    }
    check(&[("A", "A"), ("S", "S"), ("I", &sample), ("C", "H3"), ("B1117", "B"), ("I", "H2"), ("C", "H3"), ("B1118", "B"), ("I", &sample)]);
}

#[test]
fn anything_but_the_letter_is_another_line() {
    let long = format!("I{}", "0".repeat(4096));
    for line in ["i", "I ", " I", "I\r", "II", "I0", "I00", "IP", "I1118", &format!("I{}", sample_hex()), &long] {
        check(&[(line, "?"), ("C002000010431323334", "R9000"), (line, "?"), ("C00200001", "R9000")]);
    }
}

#[test]
fn the_transcript_program_has_no_such_line() {
    for line in [&b"I"[..], b"I00", b"i"] {
        assert_eq!(Transcript::sample().line(line), "?");
    }
}

#[test]
fn extremes_are_what_they_say() {
    let images = images::extremes(&mut Random(14));
    let numbers = |long: bool| {
        let mut counts = BTreeMap::new();
        for image in images.iter().filter(|image| (image.len() >= VERY_LONG) == long) {
            *counts.entry(load(image).1).or_insert(0) += 1;
        }
        counts
    };
    assert_eq!(numbers(true), BTreeMap::from([(22, 4), (26, 1), (27, 3), (28, 1)]));
    assert_eq!(numbers(false), BTreeMap::from([(0, 5), (21, 8), (22, 10), (27, 7), (28, 5)]));
}

const REWRITE: &str = env!("CARGO_BIN_EXE_second-rewrite");

fn rewrite_with(input: Stdio, output: Stdio) -> Output {
    Command::new(REWRITE).stdin(input).stdout(output).stderr(Stdio::piped()).output().unwrap()
}

fn rewrite(input: &[u8]) -> Output {
    let mut child = Command::new(REWRITE).stdin(Stdio::piped()).stdout(Stdio::piped()).stderr(Stdio::piped()).spawn().unwrap();
    child.stdin.take().unwrap().write_all(input).unwrap();
    child.wait_with_output().unwrap()
}

#[test]
fn the_program_writes_an_image_or_a_number() {
    let very_long = [&longest_image()[..], &vec![0; VERY_LONG]].concat();
    let cases: [(&[u8], &[u8]); 6] = [
        (&sample_image(), &sample_image()),
        (&longest_image(), &longest_image()),
        (&[], b"21\n"),
        (&sample_image()[..83], b"21\n"),
        (b"22", b"22\n"),
        (&very_long, b"27\n"),
    ];
    for (input, output) in cases {
        let ran = rewrite(input);
        assert_eq!((&ran.stdout[..], &ran.stderr[..], ran.status.code()), (output, &b""[..], Some(0)), "{} bytes", input.len());
    }
}

#[test]
fn the_program_says_what_failed() {
    let folder = File::open(env!("CARGO_MANIFEST_DIR")).unwrap();
    let ran = rewrite_with(folder.into(), Stdio::piped());
    assert_eq!((ran.stdout.len(), ran.status.code()), (0, Some(1)));
    assert!(String::from_utf8_lossy(&ran.stderr).starts_with("second-rewrite: "));

    let path = format!("{}/image", env!("CARGO_TARGET_TMPDIR"));
    fs::write(&path, sample_image()).unwrap();
    let full = OpenOptions::new().write(true).open("/dev/full").unwrap();
    let ran = rewrite_with(File::open(path).unwrap().into(), full.into());
    assert_eq!(ran.status.code(), Some(1));
    assert!(String::from_utf8_lossy(&ran.stderr).starts_with("second-rewrite: "));
}

/// Exit status and output of compare-rewrite with this program.
fn compared(program: &str) -> (Option<i32>, String) {
    let ran = Command::new(env!("CARGO_BIN_EXE_compare-rewrite")).args([program, "3", "150"]).output().unwrap();
    (ran.status.code(), String::from_utf8_lossy(&ran.stdout).into_owned())
}

#[test]
fn the_comparison_finds_the_second_program_alike() {
    let (status, output) = compared(REWRITE);
    assert_eq!(status, Some(0), "{output}");
    assert!(output.starts_with("194 images alike\n"), "{output}");
    for wanted in ["\nloaded ", "\n21 ", "\n22 ", "\n23 ", "\n24 ", "\n25 ", "\n26 ", "\n27 ", "\n28 ", "\nshortest ", "\nlongest ", "\nvery long "] {
        let number = output.split(wanted).nth(1).unwrap_or_else(|| panic!("{wanted:?} in {output}"));
        assert!(!number.starts_with('0'), "{wanted:?} in {output}");
    }
}

#[test]
fn the_comparison_notices_other_programs() {
    for program in ["cat", "false", env!("CARGO_BIN_EXE_second-load")] {
        let (status, output) = compared(program);
        assert_eq!(status, Some(1), "{program}: {output}");
        assert!(output.starts_with("image ") && output.len() < 20_000, "{program}: {output}");
    }
    assert_eq!(compared("no such program"), (Some(1), String::new()));
}

/// The second program against answers that are wrong, each on the extremes alone.
#[test]
fn the_extremes_show_wrong_answers() {
    let wrong: [(&str, Answer); 7] = [
        ("the number without a line end", |image| rewritten(image).strip_suffix(b"\n").map_or(rewritten(image), <[u8]>::to_vec)),
        ("a line end behind the image", |image| [&rewritten(image)[..], if load(image).1 == 0 { b"\n" } else { b"" }].concat()),
        ("1,118 bytes are read", |image| rewritten(&image[..image.len().min(1118)])),
        ("1,115 bytes are read", |image| rewritten(&image[..image.len().min(1115)])),
        ("84 bytes are read", |image| rewritten(&image[..image.len().min(84)])),
        ("too long an input is no image", |image| if image.len() < VERY_LONG { rewritten(image) } else { b"21\n".to_vec() }),
        ("too long an input has no answer", |image| if image.len() < VERY_LONG { rewritten(image) } else { vec![] }),
    ];
    let images = images::extremes(&mut Random(15));
    assert!(compare(REWRITE, images.iter().cloned(), rewritten).unwrap());
    for (name, answer) in wrong {
        assert!(!compare(REWRITE, images.iter().cloned(), answer).unwrap(), "{name}");
    }
}
