//! Over a few fixed seeds the generator reaches every answer a transcript can give, asks about each
//! code in each of its states, and reads both certificates over their ends.

mod queries;
mod reads;

use queries::{queries_of_each_code, query, STATES};
use reads::{dropped_at_end, ends_of_both_files, long_certificates, read, readings, readings_of_both_files, Read, Reading};
use second::generate::{Generator, Random};
use second::lines::LineProgram;
use second::transcript::Transcript;
use second::{images, load, pad_lines};
use std::collections::BTreeSet;

const SEEDS: u64 = 8;
const LINES: usize = 4000;

struct Step {
    line: Vec<u8>,
    answer: String,
    read: Option<Read>,
    dropped_at_end: Vec<&'static str>,
}

/// The lines of all seeds with their answers, each seed from this start.
fn play(start: Transcript) -> Vec<Step> {
    let mut played = Vec::new();
    for seed in 1..=SEEDS {
        let mut session = start.clone();
        for line in Generator::new(seed, LINES).take(LINES) {
            assert!(!line.contains(&b'\n'));
            let before = session.card().clone();
            let answer = session.line(&line);
            assert!(session.card().is_good());
            let read = read(&line, &answer, before.file, session.current_certificate());
            let dropped_at_end = dropped_at_end(&line, &answer, &before, session.card());
            played.push(Step { line, answer, read, dropped_at_end });
        }
    }
    played
}

fn with_long_certificates() -> Transcript {
    let [authentication, signature] = long_certificates();
    Transcript::new(authentication, signature)
}

#[test]
fn every_answer_occurs() {
    let mut seen = BTreeSet::new();
    for Step { answer, .. } in play(Transcript::sample()) {
        let word = match answer.as_bytes()[0] {
            b'R' => answer[answer.len() - 4..].to_string(),
            b'J' => answer[..2].to_string(),
            _ => answer,
        };
        if word.starts_with("61") && word != "6100" {
            seen.insert("61xx".to_string());
        }
        seen.insert(word);
    }
    let named = "6700 6E00 6D00 6884 6A86 6A82 6986 6981 6A83 6B00 6985 6983 63C0 63C1 63C2 63C3 6A80 6982 6A88 \
                 6400 61xx 6100 6282 9000 H4 H5 J1 J2 J3 P ?";
    for word in named.split_whitespace() {
        assert!(seen.contains(word), "{word} in {seen:?}");
    }
}

#[test]
fn each_code_is_asked_about_in_each_state() {
    let seen: BTreeSet<String> = play(Transcript::sample()).iter().filter_map(|step| query(&step.line, &step.answer)).collect();
    for wanted in queries_of_each_code(&STATES) {
        assert!(seen.contains(&wanted), "{wanted} in {seen:?}");
    }
}

#[test]
fn both_certificates_are_read_at_their_ends() {
    let played = play(with_long_certificates());
    let seen: BTreeSet<String> = played.iter().filter_map(|step| step.read.as_ref()).flat_map(Read::ends).collect();
    assert_eq!(seen, ends_of_both_files());
    let dropped: BTreeSet<&str> = played.iter().flat_map(|step| step.dropped_at_end.clone()).collect();
    assert_eq!(dropped, ["chain", "held"].into());
}

#[test]
fn both_certificates_are_read_in_blocks() {
    let played = play(with_long_certificates());
    let readings = readings(played.iter().map(|step| step.read.as_ref()));
    let seen: BTreeSet<String> = readings.iter().filter_map(Reading::name).collect();
    assert_eq!(seen, readings_of_both_files());
    assert!(readings.iter().any(|reading| (reading.size, reading.offset, reading.block) == (1536, 0, 200)));
}

#[test]
fn every_load_number_occurs() {
    let mut random = Random(5);
    let mut counts = [0; 29];
    for _ in 0..3000 {
        let (card, number) = load(&images::image(&mut random));
        assert_eq!(card.is_good(), number == 0);
        counts[number as usize] += 1;
    }
    for number in [0, 21, 22, 23, 24, 25, 26, 27, 28] {
        assert!(counts[number] > 10, "{number}: {counts:?}");
    }
}

#[test]
fn every_padding_answer_occurs() {
    let mut random = Random(6);
    let mut padded = BTreeSet::new();
    let mut stripped = BTreeSet::new();
    for _ in 0..20_000 {
        let line = pad_lines::line(&mut random);
        let answer = pad_lines::answer(line.as_bytes());
        match answer.split_once(' ') {
            Some((number, _)) => padded.insert(number.to_string()),
            None => stripped.insert(answer),
        };
    }
    assert_eq!(padded, ["0", "256"].map(str::to_string).into());
    let numbers = (11..=256).chain([0]).map(|n| n.to_string());
    assert_eq!(stripped, numbers.chain(["?".to_string()]).collect());
}
