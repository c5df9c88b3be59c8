//! Over a few fixed seeds the generator of stand-in lines reaches RESET RETRY at every unblocking count
//! that matters, whatever PUK is, and images with every last section; both generators reach it without
//! a limit; and no line moves a count otherwise than document 02 says.

mod all_seen;
mod played;

use all_seen::check_all;
use played::{play_stand_in, play_transcript, Step, SEEDS};
use second::code_commands::reset_pin;
use second::generate::{Generator, Random};
use second::images;
use second::lines::LineProgram;
use second::program::Answered;
use second::sections;
use second::state::*;
use second::transcript::Transcript;
use second::unblockings::{reached, wanted, wanted_without_limit};
use second::{hex, load, sample};
use std::collections::{BTreeMap, BTreeSet};

fn answered(steps: Vec<Step>) -> Vec<Answered> {
    steps.into_iter().map(|step| step.answered).collect()
}

#[test]
fn the_stand_in_reaches_every_count() {
    check_all((1..=SEEDS).flat_map(|seed| reached(&answered(play_stand_in(seed)))).collect(), wanted());
}

/// With as many lines as `.ci/compare` has.
#[test]
fn transcripts_reach_every_answer_without_a_limit() {
    let mut seen = BTreeSet::new();
    for seed in 1..=3 {
        let mut session = Transcript::sample();
        let answer = |line: Vec<u8>| (line.clone(), session.line(&line));
        seen.extend(reached(&Generator::new(seed, 20_000).take(20_000).map(answer).collect::<Vec<Answered>>()));
    }
    assert!(!seen.iter().any(|name| name.contains("count") && !name.contains("count 165")), "{seen:?}");
    check_all(seen, wanted_without_limit());
}

#[test]
fn nothing_is_wanted_twice() {
    for list in [wanted(), wanted_without_limit()] {
        assert_eq!(list.len(), list.iter().collect::<BTreeSet<_>>().len());
    }
}

/// "A successful RESET RETRY lowers it by one, unless it is A5h"
fn expected(step: &Step) -> [u8; 2] {
    let (line, answer) = &step.answered;
    let mut counts = step.counts_before;
    if let Some(pin) = reset_pin(line).filter(|_| answer == "R9000") {
        let count = &mut counts[pin - PIN1];
        assert!(*count > 0, "{}", String::from_utf8_lossy(line));
        *count -= u8::from(*count != 0xA5);
    }
    counts
}

#[test]
fn nothing_else_moves_a_count() {
    let on_one_card = |step: &Step| !step.answered.0.starts_with(b"L");
    for step in (1..=SEEDS).flat_map(|seed| play_transcript(seed).into_iter().chain(play_stand_in(seed))).filter(on_one_card) {
        assert_eq!(step.counts_after, expected(&step), "{}: {}", String::from_utf8_lossy(&step.answered.0), step.answered.1);
    }
}

/// A wrong PUK costs a try only where the count is not 0.
#[test]
fn at_0_nothing_is_asked_of_puk() {
    let mut refused = 0;
    for step in (1..=SEEDS).flat_map(play_stand_in) {
        let (line, answer) = &step.answered;
        let Some(pin) = reset_pin(line).filter(|_| answer.starts_with('R')) else {
            continue;
        };
        if answer != "R6700" && step.before[pin].0 == 0 && step.counts_before[pin - PIN1] == 0 {
            assert_eq!((answer.as_str(), step.before), ("R6983", step.after));
            refused += 1;
        }
    }
    assert!(refused > 300, "{refused}");
}

/// Every kind of last section has its number, and the images of `generate-images` have each of them.
#[test]
fn every_kind_of_section_has_its_number() {
    let numbers: BTreeMap<String, u8> = sections::wanted().into_iter().collect();
    let mut random = Random(31);
    let mut seen = BTreeSet::new();
    for _ in 0..2000 {
        let image = images::image(&mut random);
        for kind in sections::kinds(&image) {
            let expected = numbers.get(&kind).copied().unwrap_or(0);
            assert_eq!(load(&image).1, expected, "{kind}: {}", hex::encode(&image));
            seen.insert(kind);
        }
    }
    check_all(seen, numbers.into_keys());
}

#[test]
fn kinds_are_named_by_the_bytes() {
    let kinds = |section: &[u8]| sections::kinds(&[&sample::image()[..], section].concat()).join(", ");
    for (section, name) in [
        (&[][..], "none"), (&[2, 0, 0xA5], "PIN1 0, PIN2 165"), (&[2, 7, 0xA4], "PIN1 7, PIN2 164"), (&[0], "another count"),
        (&[3, 0, 0], "another count"), (&[2], "the count alone"), (&[2, 0xA5], "one byte"), (&[2, 0xA6], "PIN1 over A5h at the end"),
        (&[2, 0xFF, 0], "PIN1 over A5h"), (&[2, 0xA6, 0xA6, 0], "PIN1 over A5h"), (&[2, 0, 0xA6], "PIN2 over A5h"),
        (&[2, 0, 0xA6, 1], "PIN2 over A5h and more"), (&[2, 0xA5, 0xA5], "A5h twice"), (&[2, 0xA5, 0xA5, 0], "A5h twice and more"),
        (&[2, 0xA5, 0, 0], "bytes behind it"), (&[2, 0, 0, 0, 0], "bytes behind it"),
    ] {
        assert_eq!(kinds(section), name, "{section:?}");
    }
    assert!(sections::kinds(&sample::image()[..83]).is_empty());
    assert!(sections::kinds(b"22\n").is_empty());
}
