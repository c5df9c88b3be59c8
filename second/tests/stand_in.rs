//! The stand-in program's own lines, and that lines are answered at once.

mod cards;
mod job_lines;

use cards::own_image;
use job_lines::{digest, result_line, sign_line};
use second::lines::{run, LineProgram, BLOCK};
use second::stand_in::StandIn;
use second::transcript::Transcript;
use second::{hex, sample};
use std::cell::RefCell;
use std::io::{self, Read, Write};

const VERIFY_PIN1: &str = "C002000010431323334";
const VERIFY_PIN2: &str = "C00200002053132333435";
const SELECT_ROOT: &str = "C00A4000C";

/// Each line with its output line, from the program's start.
fn check(lines: &[(&str, &str)]) -> StandIn {
    let mut stand_in = StandIn::sample();
    for (line, output) in lines {
        assert_eq!(&stand_in.line(line.as_bytes()), output, "{line}");
    }
    stand_in
}

fn load_line(image: &[u8]) -> String {
    format!("L{}", hex::encode(image))
}

fn bytes_line(letter: char, length: usize) -> String {
    format!("{letter}{}", "5A".repeat(length))
}

fn padded_line(head: &str, data: &str) -> String {
    format!("{head} 0001{}00{data}", "FF".repeat(253 - data.len() / 2))
}

#[test]
fn it_starts_with_the_sample_card() {
    check(&[("P", "P"), ("C002000010439393939", "R63C2"), (VERIFY_PIN1, "R9000"), ("D", "H5"), ("CFF", "R6700")]);
    assert_eq!(StandIn::sample().buffer_length(), 4096);
}

#[test]
fn load_gives_the_card_of_the_image() {
    let own = load_line(&own_image());
    let whole = format!("R{}9000", "10".repeat(16));
    check(&[
        (&own, "L"), (VERIFY_PIN1, "R63C1"), ("C002000010439393939", "R9000"), ("C00A4010C02EEEE", "R9000"),
        ("C00A4020C025044", "R9000"), ("C00B2100410", &whole), ("C00B210040F", "R6110"), (&own, "L"), ("C00C0000000", "R6985"),
        ("C00B2100400", "R6986"), (&load_line(&sample::image()), "L"), (VERIFY_PIN1, "R9000"),
    ]);
}

#[test]
fn a_refused_image_leaves_the_zero_card() {
    let short = load_line(&sample::image()[..83]);
    let with_section = |section: &str| format!("{}{section}", load_line(&sample::image()));
    let (other_count, left_over, no_limits) = (with_section("00"), with_section("02A50000"), with_section("02A5A5"));
    for (line, number) in [
        ("L", "F21"), ("L02", "F22"), ("L0304", "F23"), (&short, "F21"), (&other_count, "F22"), (&left_over, "F27"), (&no_limits, "F28"),
    ] {
        check(&[
            (VERIFY_PIN1, "R9000"), (line, number), ("P", "H1"), ("C", "H1"), (SELECT_ROOT, "H1"), ("D", "H1"),
            ("B0", "B"), ("A", "A"), ("S", "S"), ("P", "H1"), ("C", "H1"), ("D", "H1"), ("Lx", "?"), ("L0", "?"), ("C", "H1"),
            (&load_line(&sample::image()), "L"), ("C", "H2"), ("B258", "B"), ("C", "H3"), ("A00", "A"), ("S00", "S"), ("C", "R6700"),
        ]);
    }
}

#[test]
fn load_ends_a_waiting_job() {
    let sample = load_line(&sample::image());
    let mut stand_in = check(&[(VERIFY_PIN1, "R9000")]);
    assert_eq!(&stand_in.line(b"C008800000100")[..7], "J1 1100");
    assert_eq!(stand_in.line(SELECT_ROOT.as_bytes()), "H4");
    assert_eq!(stand_in.line(sample.as_bytes()), "L");
    assert_eq!(stand_in.line(b"D"), "H5");
}

#[test]
fn a_job_shows_its_block() {
    let sign = sign_line();
    let signature = padded_line("J2 0100", &digest());
    let first = format!("C102A8086FF00{}", "77".repeat(254));
    let decipher = format!("J3 1100 {}", "77".repeat(256));
    let authenticate = padded_line("J1 1100", "A1B2C3");
    let longest = format!("C00880000F5{}", "C4".repeat(245));
    let result = result_line();
    check(&[
        (VERIFY_PIN1, "R9000"), (VERIFY_PIN2, "R9000"), (&sign, &signature), (&result, "R6100"), (&sign, "R6982"),
        ("C0088000003A1B2C3", &authenticate), ("D", "R6400"), (&longest, &padded_line("J1 1100", &"C4".repeat(245))), ("D", "R6400"),
        ("C0022F306", "R9000"), (&first, "R9000"), ("C002A8086027777", &decipher), ("D", "R6400"),
    ]);
}

#[test]
fn each_key_of_a_card_is_handed_out() {
    let own = load_line(&own_image());
    let mut stand_in = check(&[(&own, "L"), ("C002000010439393939", "R9000")]);
    for (choice, head) in [("8300", "J1 1200"), ("8303801100", "J1 1100"), ("8303801200", "J1 1200")] {
        let choose = format!("C002241A4{:02X}{choice}", choice.len() / 2);
        assert_eq!(stand_in.line(choose.as_bytes()), "R9000");
        assert_eq!(stand_in.line(b"C008800000100"), padded_line(head, "00"));
        assert_eq!(stand_in.line(b"D00"), "R6400");
    }
    assert_eq!(stand_in.line(b"C002241B6058303800100"), "R9000");
}

#[test]
fn certificates_are_lent_from_now_on() {
    let select = [("C00A4010C02EEEE", "R9000"), ("C00A4020C02AACE", "R9000")];
    let mut stand_in = check(&select);
    for (line, read) in [("A0102030405", "R01020304059000"), ("A06", "R069000"), ("S07", "R069000")] {
        assert_eq!(stand_in.line(line.as_bytes()), line[..1]);
        assert_eq!(stand_in.line(b"C00B0000000"), read);
    }
    assert_eq!(stand_in.line(b"C00B0000100"), "R6B00");
    assert_eq!(stand_in.line(b"C00A4020C02DDCE"), "R9000");
    assert_eq!(stand_in.line(b"C00B0000000"), "R079000");
    for letter in ['A', 'S'] {
        for (length, answer) in [(0, "H3"), (1, "R9000"), (1536, "R9000"), (1537, "H3"), (2047, "H3"), (200, "R9000")] {
            assert_eq!(stand_in.line(bytes_line(letter, length).as_bytes()), letter.to_string());
            assert_eq!(stand_in.line(SELECT_ROOT.as_bytes()), answer, "{letter} {length}");
        }
    }
}

#[test]
fn the_end_is_that_of_the_certificate_lent_with_the_command() {
    check(&[
        ("C00A4010C02EEEE", "R9000"), ("C00A4020C02AACE", "R9000"), ("A0102030405", "A"), ("C00B0000205", "R0304056282"),
        ("A010203040506", "A"), ("C00B0000204", "R030405069000"), ("C00B0000205", "R030405066282"), ("S01", "S"), ("C00B0000205", "R030405066282"),
        ("A010203", "A"), ("C00B0000205", "R036282"), ("A0102", "A"), ("C00B0000205", "R6B00"), ("A", "A"), ("C00B0000205", "H3"),
        ("A0102", "A"), ("B257", "B"), ("C00B0000003", "H2"), ("B258", "B"), ("C00B0000003", "R01026282"),
    ]);
}

#[test]
fn buffers_from_258_bytes_are_taken() {
    for (line, answer) in [("B0", "H2"), ("B2", "H2"), ("B256", "H2"), ("B257", "H2"), ("B258", "R9000"), ("B259", "R9000"), ("B4096", "R9000")] {
        check(&[(line, "B"), (SELECT_ROOT, answer), ("P", "P")]);
    }
    for text in ["", "00", "01", "0258", "4097", "04096", "10000", "4294967554", "-1", "+258", " 258", "258 ", "258\r", "2A", "A"] {
        check(&[("B0", "B"), (&format!("B{text}"), "?"), (SELECT_ROOT, "H2")]);
    }
}

#[test]
fn the_edge_drops_nothing() {
    let result = result_line();
    let rest = format!("R{}9000", "5A".repeat(256));
    let block = padded_line("J1 1100", "00");
    check(&[
        (VERIFY_PIN1, "R9000"), ("C008800000100", &block), ("A", "A"), ("C", "H3"), ("B257", "B"), ("C", "H2"), (&result, "H2"), ("B258", "B"),
        ("C", "H3"), ("A00", "A"), ("C", "H4"), ("A", "A"), (&result, "R6100"), ("C00C0000000", "H3"), ("B0", "B"), ("C00C0000000", "H2"),
        ("A00", "A"), ("B4096", "B"), ("D", "H5"), ("?", "?"), ("C00C0000000", &rest),
    ]);
}

#[test]
fn every_letter_has_4096_characters() {
    for letter in ['L', 'A', 'S', 'C', 'D', 'B', 'P', 'I', 'X'] {
        for length in [4096, 4097, 4098, 4099, 100_000] {
            check(&[(&format!("{letter}{}", "0".repeat(length - 1)), "?"), (VERIFY_PIN1, "R9000")]);
        }
    }
    let longest = |letter: char| bytes_line(letter, 2047);
    check(&[(&longest('C'), "R6700"), (&longest('D'), "H5"), (&longest('A'), "A"), (&longest('S'), "S"), (&longest('L'), "F22")]);
    check(&[(&bytes_line('C', 512), "R6700"), (&bytes_line('D', 512), "H5")]);
}

#[test]
fn other_lines() {
    for line in ["", " ", "p", "P0", "P ", "c", "Caa", "CA", "l", "La0", "L0", "Aa0", "A0", "S0g", "S 00", "b1", "F21", "J1 1100", "W", "V35"] {
        check(&[(line, "?"), (VERIFY_PIN1, "R9000")]);
    }
}

/// Gives its pieces one by one; each must find the answers to those before it written.
struct Pieces<'a> {
    pieces: Vec<(&'a str, usize)>,
    written: &'a RefCell<Vec<u8>>,
}

impl Read for Pieces<'_> {
    fn read(&mut self, block: &mut [u8]) -> io::Result<usize> {
        assert_eq!(block.len(), BLOCK);
        if self.pieces.is_empty() {
            return Ok(0);
        }
        let (piece, answers) = self.pieces.remove(0);
        assert_eq!(self.written.borrow().iter().filter(|byte| **byte == b'\n').count(), answers);
        block[..piece.len()].copy_from_slice(piece.as_bytes());
        Ok(piece.len())
    }
}

/// Counts writes; what is written is seen when it is flushed.
struct Counted<'a> {
    unseen: Vec<u8>,
    writes: usize,
    written: &'a RefCell<Vec<u8>>,
}

impl Write for Counted<'_> {
    fn write(&mut self, bytes: &[u8]) -> io::Result<usize> {
        self.writes += 1;
        self.unseen.extend(bytes);
        Ok(bytes.len())
    }

    fn flush(&mut self) -> io::Result<()> {
        self.written.borrow_mut().append(&mut self.unseen);
        Ok(())
    }
}

#[test]
fn a_block_is_answered_before_the_next_is_read() {
    let written = RefCell::new(Vec::new());
    let pieces = vec![("P\n", 0), ("C00A4", 1), ("000C\nP\nB", 1), ("25", 3), ("8\n", 3), ("\n\nP\nA", 4), ("B", 7)];
    let mut output = Counted { unseen: Vec::new(), writes: 0, written: &written };
    run(&mut StandIn::sample(), Pieces { pieces, written: &written }, &mut output).unwrap();
    assert_eq!(output.writes, 5);
    assert_eq!(written.take(), b"P\nR9000\nP\nB\n?\n?\nP\n?\n");
}

#[test]
fn lines_go_over_the_ends_of_blocks() {
    let line = bytes_line('C', 500) + "\n";
    let input = line.repeat(1000);
    let mut output = Vec::new();
    run(&mut Transcript::sample(), input.as_bytes(), &mut output).unwrap();
    assert_eq!(String::from_utf8(output).unwrap(), "R6700\n".repeat(1000));
}
