//! States that are not good, each by one fault.

use second::state::*;
use second::{load, sample, CardState};

type Fault = fn(&mut CardState);

const FAULTS: [(&str, Fault); 33] = [
    ("PIN1 of three digits", |c| c.codes[PIN1].value = Bytes::of(b"123")),
    ("PIN1 of length 13", |c| c.codes[PIN1].value.length = 13),
    ("PUK of seven digits", |c| c.codes[PUK].value = Bytes::of(b"1234567")),
    ("PIN2 of four digits", |c| c.codes[PIN2].value = Bytes::of(b"1234")),
    ("a byte behind PIN1", |c| c.codes[PIN1].value.place[4] = 0x31),
    ("PIN2 with 3A", |c| c.codes[PIN2].value.place[0] = 0x3A),
    ("PUK with 2F", |c| c.codes[PUK].value.place[7] = 0x2F),
    ("PUK with four tries", |c| c.codes[PUK].tries = 4),
    ("PUK open with two tries", |c| (c.codes[PUK].verified, c.codes[PUK].tries) = (true, 2)),
    ("a key behind the keys", |c| c.keys[3] = 0x1200),
    ("one key", |c| c.key_count = 1),
    ("five keys", |c| c.key_count = 5),
    ("keys in the wrong order", |c| c.keys = [0x1100, 0x0100, 0, 0]),
    ("a key twice", |c| (c.keys, c.key_count) = ([0x0100, 0x1100, 0x1100, 0], 3)),
    ("an unknown key", |c| (c.keys, c.key_count) = ([0x0100, 0x1100, 0x1300, 0], 3)),
    ("no signature key", |c| c.keys = [0x1100, 0x1200, 0, 0]),
    ("no authentication key", |c| c.keys = [0x0100, 0x0200, 0, 0]),
    ("an active authentication key that is absent", |c| c.references[9] = 0x12),
    ("an active signature key of the other class", |c| c.references[19] = 0x11),
    ("a byte behind a record", |c| c.records[7].place[1] = 0x20),
    ("a record of length 65", |c| c.records[7].length = 65),
    ("an unblocking count of PIN1 over A5h", |c| c.unblocking_counts[0] = 0xA6),
    ("an unblocking count of PIN2 over A5h", |c| c.unblocking_counts[1] = 0xFF),
    ("a file of the other directory", |c| c.file = Some(File::KeyReferences)),
    ("a file of the root in EEEEh", |c| (c.directory, c.file) = (Directory::Eeee, Some(File::CodeRecords))),
    ("environment 2", |c| c.environment = 2),
    ("a choice of the other class", |c| c.choices[2] = 0x0100),
    ("a choice that is absent", |c| c.choices[0] = 0x1200),
    ("a byte behind the held answer", |c| c.held.place[255] = 1),
    ("a byte behind the chain", |c| c.chain.place[256] = 1),
    ("a job with a key of the other class", |c| c.job = Some(Job { kind: 3, key: 0x0100, le: None })),
    ("a job with Le 257", |c| c.job = Some(Job { kind: 2, key: 0x0100, le: Some(257) })),
    ("a job and a chain", |c| (c.job, c.chain) = (Some(Job { kind: 3, key: 0x1100, le: None }), Bytes::of(&[0]))),
];

/// The all-zero state, the sample card with each of the faults, and with each of its personal records empty.
pub fn bad_states() -> Vec<(String, CardState)> {
    let sample = load(&sample::image()).0;
    let mut states = vec![("all zero".to_string(), CardState::ZERO)];
    for (name, fault) in FAULTS {
        let mut card = sample.clone();
        fault(&mut card);
        states.push((name.to_string(), card));
    }
    for number in 0..RECORDS {
        let mut card = sample.clone();
        card.records[number] = Bytes::EMPTY;
        states.push((format!("record {} empty", number + 1), card));
    }
    states
}
