//! Over a few fixed seeds the generator of stand-in lines reaches every answer, every shape of
//! card, every length that matters, queries of each code in each of its states, reads of both
//! certificates over their ends, and refusals in the midst of everything.

mod all_seen;
mod queries;
mod reads;

use all_seen::check_all;
use queries::{queries_of_each_code, query, STATES};
use reads::{dropped_at_end, ends_of_both_files, long_certificates, read, readings, readings_of_both_files, Read, Reading};
use second::answers::{reached, wanted};
use second::generate::{Generator, Random};
use second::images::{cut_short, with_fault, Fault, Parts};
use second::lines::{LineProgram, BLOCK};
use second::stand_in::StandIn;
use second::state::{KeyClass, PIN1, PIN2, PUK};
use second::{load, sample, CardState};
use std::collections::BTreeSet;

const SEEDS: u64 = 8;
const LINES: usize = 10_000;

struct Step {
    line: Vec<u8>,
    answer: String,
    before: CardState,
    after: CardState,
    read: Option<Read>,
}

fn play(seed: u64) -> Vec<Step> {
    let [authentication, signature] = long_certificates();
    let mut stand_in = StandIn::new(authentication, signature);
    let step = |line: Vec<u8>| {
        let before = stand_in.card().clone();
        let answer = stand_in.line(&line);
        let read = read(&line, &answer, before.file, stand_in.current_certificate());
        Step { line, answer, before, after: stand_in.card().clone(), read }
    };
    Generator::for_stand_in(seed).take(LINES).map(step).collect()
}

/// What `seen` finds in the steps.
fn collect<T: Ord>(seen: impl Fn(&Step) -> Vec<T>) -> BTreeSet<T> {
    (1..=SEEDS).flat_map(|seed| play(seed).iter().flat_map(&seen).collect::<Vec<T>>()).collect()
}

#[test]
fn every_answer_occurs() {
    let seen = collect(|step| reached(&step.line, &step.answer));
    let strange: Vec<&String> = seen.iter().filter(|class| !wanted().contains(class)).collect();
    assert!(strange.is_empty(), "{strange:?}");
    check_all(seen, wanted());
}

#[test]
fn each_code_is_asked_about_in_each_state_and_at_the_edge() {
    let asked = |step: &Step| query(&step.line, &step.answer).into_iter().collect();
    check_all(collect(asked), queries_of_each_code(&[&STATES[..], &["H1", "H2", "H3", "H4"]].concat()));
}

#[test]
fn both_certificates_are_read_at_their_ends() {
    let ends = collect(|step| step.read.as_ref().map_or(vec![], Read::ends));
    assert_eq!(ends, ends_of_both_files());
    let dropped = collect(|step| dropped_at_end(&step.line, &step.answer, &step.before, &step.after));
    assert_eq!(dropped, BTreeSet::from(["chain", "held"]));
}

#[test]
fn certificates_of_every_length_that_matters_are_read_in_blocks() {
    let readings_of = |seed| readings(play(seed).iter().map(|step| step.read.as_ref()));
    let readings: Vec<Reading> = (1..=SEEDS).flat_map(readings_of).collect();
    let seen: BTreeSet<String> = readings.iter().filter_map(Reading::name).collect();
    assert_eq!(seen, readings_of_both_files());
    let whole: BTreeSet<usize> = readings.iter().filter(|reading| reading.offset == 0).map(|reading| reading.size).collect();
    for size in [1, 2, 200, 254, 255, 256, 257, 400, 510, 1535, 1536] {
        assert!(whole.contains(&size), "{size} in {whole:?}");
    }
    let blocks: BTreeSet<usize> = readings.iter().map(|reading| reading.block).collect();
    assert!(blocks.contains(&1) && blocks.contains(&200) && blocks.contains(&255) && blocks.len() > 100, "{blocks:?}");
}

#[test]
fn lines_have_no_line_feed_and_cards_are_good_or_zero() {
    for seed in 1..=SEEDS {
        for step in play(seed) {
            assert!(!step.line.contains(&b'\n'));
            assert!(step.after.is_good() || step.after == CardState::ZERO);
        }
    }
}

/// The cards that L lines load.
fn loaded(step: &Step) -> Option<&CardState> {
    (step.answer == "L").then_some(&step.after)
}

#[test]
fn cards_have_every_key_and_each_active() {
    let keys = |card: &CardState| (card.active_key(KeyClass::Signature), card.active_key(KeyClass::Authentication), card.present_keys().to_vec());
    let seen = collect(|step| loaded(step).map(keys).into_iter().collect());
    let both = |keys: [u16; 2]| [vec![keys[0]], vec![keys[1]], keys.to_vec()];
    let mut expected = BTreeSet::new();
    for signature in both([0x0100, 0x0200]) {
        for authentication in both([0x1100, 0x1200]) {
            for active in signature.iter().flat_map(|first| authentication.iter().map(move |second| (*first, *second))) {
                expected.insert((active.0, active.1, [&signature[..], &authentication].concat()));
            }
        }
    }
    assert_eq!(expected.len(), 16);
    check_all(seen, expected);
}

#[test]
fn cards_have_every_length_and_number_of_tries() {
    let tries = |card: &CardState| (0..3).map(|code| (code, card.codes[code].tries)).collect::<Vec<_>>();
    check_all(collect(|step| loaded(step).map_or(vec![], tries)), (0..3).flat_map(|code| (0..=3).map(move |tries| (code, tries))));

    let codes = |card: &CardState| (0..3).map(|code| (code, card.codes[code].value.length)).collect::<Vec<_>>();
    let lengths = [8, 4, 5].into_iter().enumerate().flat_map(|(code, shortest)| (shortest..=12).map(move |length| (code, length)));
    check_all(collect(|step| loaded(step).map_or(vec![], codes)), lengths);

    let records = |card: &CardState| card.records.iter().map(|record| record.length).collect::<Vec<_>>();
    check_all(collect(|step| loaded(step).map_or(vec![], records)), 1..=64);

    let image = |step: &Step| loaded(step).map(|_| step.line.len() / 2).into_iter().collect();
    check_all(collect(image), [84, 87, 1115, 1118]);

    let counts = |card: &CardState| [(PIN1, card.unblocking_counts[0]), (PIN2, card.unblocking_counts[1])].to_vec();
    let expected = [0, 1, 2, 3, 0xA4, 0xA5].iter().flat_map(|count| [(PIN1, *count), (PIN2, *count)]);
    check_all(collect(|step| loaded(step).map_or(vec![], counts)), expected);
}

/// The lengths of records that are read whole.
#[test]
fn records_of_every_length_are_read() {
    let read = |step: &Step| {
        let whole = step.line.starts_with(b"C00B2") && step.answer.ends_with("9000");
        if whole { vec![(step.answer.len() - 5) / 2] } else { vec![] }
    };
    check_all(collect(read), 1..=64);
}

#[test]
fn every_fault_gives_its_number() {
    let mut random = Random(7);
    for fault in Fault::all() {
        for _ in 0..30 {
            assert_eq!(load(&with_fault(&mut random, fault)).1, fault.number(), "{fault:?}");
        }
    }
    for _ in 0..300 {
        assert_eq!(load(&cut_short(&mut random)).1, 21);
        assert_eq!(load(&Parts::valid(&mut random).bytes()).1, 0);
    }
    assert_eq!(load(&sample::image()).1, 0);
}

#[test]
fn certificates_and_buffers_have_every_length_that_matters() {
    let lent = |step: &Step| match step.answer.as_str() {
        "A" | "S" => vec![(step.answer.clone(), step.line.len() / 2)],
        "B" => vec![("B".to_string(), String::from_utf8_lossy(&step.line[1..]).parse().unwrap())],
        _ => vec![],
    };
    let lengths = |letter: &'static str, list: &'static [usize]| list.iter().map(move |length| (letter.to_string(), *length));
    let certificates = &[0, 1, 2, 200, 254, 255, 256, 257, 400, 510, 1535, 1536, 1537, 2047];
    let buffers = &[0, 2, 255, 256, 257, 258, 259, 260, 1115, 1117, 1118, 1119, 4095, 4096];
    check_all(collect(lent), lengths("A", certificates).chain(lengths("S", certificates)).chain(lengths("B", buffers)));
}

#[test]
fn lines_have_every_length_that_matters() {
    let long = |step: &Step| {
        let letter = step.line.first().copied().unwrap_or(b' ') as char;
        let question = step.answer == "?";
        let more_than_a_block = if step.line.len() > BLOCK { '+' } else { letter };
        vec![(letter, step.line.len().min(4098), question), (more_than_a_block, 0, question)]
    };
    let mut expected = Vec::new();
    for letter in ['L', 'A', 'S', 'C', 'D'] {
        expected.extend([(letter, 4095, false), (letter, 4096, true), (letter, 4097, true), (letter, 4098, true)]);
    }
    expected.extend(['B', 'P', 'I', 'X'].map(|letter| (letter, 4098, true)));
    expected.extend([('C', 1025, false), ('D', 1025, false), (' ', 0, true), ('+', 0, true)]);
    check_all(collect(long), expected);
}

#[test]
fn refusals_come_in_the_midst_of_everything() {
    let met = |step: &Step| {
        let card = &step.before;
        let states = [
            ("held", card.held.length > 0),
            ("chain", card.chain.length > 0),
            ("job", card.job.is_some()),
            ("open", card.codes.iter().any(|code| code.verified)),
            ("PUK blocked", card.is_good() && card.codes[PUK].tries == 0),
        ];
        states.iter().filter(|(_, holds)| *holds).map(|(name, _)| (*name, step.answer.chars().take(2).collect::<String>())).collect()
    };
    let mut expected = Vec::new();
    for state in ["held", "chain", "job", "open", "PUK blocked"] {
        expected.extend(["H2", "H3", "H5", "A", "S", "B", "L", "P", "I0", "?"].map(|answer| (state, answer.to_string())));
    }
    expected.retain(|(state, answer)| (*state, answer.as_str()) != ("job", "H5"));
    check_all(collect(met), expected);
}

#[test]
fn sessions_are_short_and_long() {
    let mut lengths = Vec::new();
    for seed in 1..=SEEDS {
        let loads: Vec<usize> = play(seed).iter().enumerate().filter(|(_, step)| step.line.starts_with(b"L")).map(|(place, _)| place).collect();
        lengths.extend(loads.windows(2).map(|pair| pair[1] - pair[0]));
    }
    let count = |least: usize, most: usize| lengths.iter().filter(|length| (least..=most).contains(*length)).count();
    assert!(count(1, 10) > 50 && count(11, 100) > 50 && count(101, 500) > 10 && count(700, LINES) > 1, "{lengths:?}");
}
