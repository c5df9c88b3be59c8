//! Sequences of lines with their answers that show which commands open a code and which close it,
//! so that a run can be asked which of them it reached.

use crate::apdu;
use crate::code_commands::{code_command, CodeCommand};
use crate::hex;
use crate::program::Answered;
use std::collections::BTreeSet;

/// The most lines of a sequence.
const LONGEST: usize = 4;
const CODES: [&str; 3] = ["PUK", "PIN1", "PIN2"];
const PINS: [&str; 2] = ["PIN1", "PIN2"];
/// What a query says of an open code, and of a closed one with 3, 2 and 1 tries.
const STATES: [&str; 4] = ["9000", "63C3", "63C2", "63C1"];

/// A code; what it permits; how that is answered where the code is closed.
const USES: [(&str, &str, &str); 5] = [
    ("PUK", "2C 03 PIN1: 9000", "2C 03 PIN1: 6982"),
    ("PUK", "2C 03 PIN2: 9000", "2C 03 PIN2: 6982"),
    ("PIN1", "AUTHENTICATE: J1", "AUTHENTICATE: 6982"),
    ("PIN1", "DECIPHER part: 9000, DECIPHER: J3", "DECIPHER part: 9000, DECIPHER: 6982"),
    ("PIN2", "SIGN: J2", "SIGN: 6982"),
];

/// Those of the wanted sequences that these lines have with their answers.
pub fn reached(answered: &[Answered]) -> BTreeSet<String> {
    let all = sequences(answered);
    wanted().into_iter().filter(|sequence| all.contains(sequence)).collect()
}

/// Every sequence of two to four lines that follow each other, by what each line does: as
/// "CHANGE PIN2: 9000, SIGN: J2".
pub fn sequences(answered: &[Answered]) -> BTreeSet<String> {
    let names: Vec<Option<String>> = answered.iter().map(|(line, answer)| name(line, answer)).collect();
    let mut sequences = BTreeSet::new();
    for length in 2..=LONGEST {
        for window in names.windows(length) {
            let named: Option<Vec<&str>> = window.iter().map(Option::as_deref).collect();
            sequences.extend(named.map(|names| names.join(", ")));
        }
    }
    sequences
}

/// What a line does and how it is answered; None for a line that no sequence has.
fn name(line: &[u8], answer: &str) -> Option<String> {
    match line {
        b"P" if answer == "P" => Some("P".to_string()),
        b"I" if answer.starts_with('I') => Some("I".to_string()),
        [b'L', ..] if answer == "L" => Some("L".to_string()),
        [b'D', ..] if answer.starts_with('R') => Some("delivery".to_string()),
        _ => Some(format!("{}: {}", command_name(line)?, word(answer))),
    }
}

fn command_name(line: &[u8]) -> Option<String> {
    match code_command(line) {
        Some(CodeCommand::Ask { code }) => Some(format!("ask {}", CODES[code])),
        Some(CodeCommand::Verify { code }) => Some(format!("VERIFY {}", CODES[code])),
        Some(CodeCommand::Change { code }) if repeats(line) => Some(format!("CHANGE {} to itself", CODES[code])),
        Some(CodeCommand::Change { code }) => Some(format!("CHANGE {}", CODES[code])),
        Some(CodeCommand::UnblockByMark { pin }) => Some(format!("2C 03 {}", CODES[pin])),
        Some(CodeCommand::UnblockByPuk { pin }) => Some(format!("2C 00 {}", CODES[pin])),
        None => key_operation(line).map(str::to_string),
    }
}

/// Whether the data of a CHANGE is one value twice.
fn repeats(line: &[u8]) -> bool {
    let command = hex::decode(&line[1..]).unwrap_or_default();
    let data = apdu::parse(&command).map_or(&[][..], |apdu| apdu.data);
    let (old, new) = data.split_at(data.len() / 2);
    !data.is_empty() && old == new
}

fn key_operation(line: &[u8]) -> Option<&'static str> {
    match hex::decode(line.strip_prefix(b"C")?)?[..] {
        [0x00, 0x88, 0x00, 0x00, ..] => Some("AUTHENTICATE"),
        [0x00, 0x2A, 0x9E, 0x9A, ..] => Some("SIGN"),
        [0x10, 0x2A, 0x80, 0x86, ..] => Some("DECIPHER part"),
        [0x00, 0x2A, 0x80, 0x86, ..] => Some("DECIPHER"),
        _ => None,
    }
}

/// Of a response the status word, of a job the kind.
pub(crate) fn word(answer: &str) -> &str {
    match answer.as_bytes() {
        [b'R', .., _, _, _, _] => &answer[answer.len() - 4..],
        [b'J', _, ..] => &answer[..2],
        _ => answer,
    }
}

/// What the lines for each of the two programs must reach.
pub fn wanted() -> Vec<String> {
    let mut wanted = Vec::new();
    for code in CODES {
        wanted.extend(changes(code));
        wanted.extend(refused_changes(code));
        wanted.extend(changes_beside(code));
    }
    wanted.extend(USES.iter().flat_map(uses));
    wanted.extend(PINS.iter().flat_map(|pin| unblockings(pin)));
    wanted.extend(uses_after_unblocking());
    wanted.extend(job_sequences().map(str::to_string));
    wanted
}

/// "a successful CHANGE leaves the code verified", until a reset.
fn changes(code: &str) -> Vec<String> {
    let asked = STATES.iter().map(|state| format!("ask {code}: {state}, CHANGE {code}: 9000, ask {code}: 9000"));
    let to_itself = format!("ask {code}: 63C3, CHANGE {code} to itself: 9000, ask {code}: 9000");
    let reset = format!("CHANGE {code}: 9000, P, ask {code}: 63C3");
    asked.chain([to_itself, reset]).collect()
}

/// 6A80 and 6983 leave the mark, 63Cx takes it.
fn refused_changes(code: &str) -> Vec<String> {
    let same = STATES.iter().map(|state| (*state, "6A80", *state));
    let lower = [("9000", "63C2", "63C2"), ("63C3", "63C2", "63C2"), ("63C2", "63C1", "63C1"), ("63C1", "63C0", "6983")];
    let blocked = [("6983", "6983", "6983")];
    let all = same.chain(lower).chain(blocked);
    all.map(|(before, word, after)| format!("ask {code}: {before}, CHANGE {code}: {word}, ask {code}: {after}")).collect()
}

/// The other codes stay as they are, open or closed.
fn changes_beside(other: &str) -> Vec<String> {
    let mut wanted = Vec::new();
    for code in CODES.iter().filter(|code| **code != other) {
        wanted.extend(["9000", "63C3"].map(|state| format!("ask {other}: {state}, CHANGE {code}: 9000, ask {other}: {state}")));
    }
    wanted
}

/// What an open code permits, at once after a CHANGE.
fn uses((code, permitted, refused): &(&str, &str, &str)) -> Vec<String> {
    let opened = STATES.iter().map(|state| (*state, "9000", *permitted));
    let left = [("9000", "6A80", *permitted), ("63C3", "6A80", *refused), ("9000", "63C2", *refused)];
    let all = opened.chain(left);
    all.map(|(before, word, used)| format!("ask {code}: {before}, CHANGE {code}: {word}, {used}")).collect()
}

/// "RESET RETRY ... keeps the mark off", that of the PIN and that of PUK, however PUK was before.
fn unblockings(pin: &str) -> Vec<String> {
    let opened = ["VERIFY PUK: 9000, ask PUK: 9000", "CHANGE PUK: 9000, ask PUK: 9000"];
    let closed = ["ask PUK: 63C3", "ask PUK: 63C2", "ask PUK: 63C1"];
    let forms = [("03", &opened[..]), ("00", &opened[..]), ("00", &closed[..])];
    let mut wanted = Vec::new();
    for (form, ways) in forms {
        for before in ways {
            wanted.extend([pin, "PUK"].map(|asked| format!("{before}, 2C {form} {pin}: 9000, ask {asked}: 63C3")));
        }
    }
    wanted.push(format!("CHANGE PUK: 9000, ask PUK: 9000, 2C 00 {pin}: 6A80, ask PUK: 9000"));
    wanted.push(format!("ask PUK: 63C3, 2C 00 {pin}: 6A80, ask PUK: 63C3"));
    wanted
}

/// What the unblocked PIN and PUK would permit, had their marks stayed or come on.
fn uses_after_unblocking() -> Vec<String> {
    let mut wanted = Vec::new();
    for form in ["03", "00"] {
        let pins = USES.iter().filter(|(code, _, _)| *code != "PUK");
        wanted.extend(pins.map(|(pin, _, refused)| format!("2C {form} {pin}: 9000, {refused}")));
        let pairs = [("PIN1", "PIN2"), ("PIN2", "PIN1")];
        wanted.extend(pairs.map(|(pin, other)| format!("2C {form} {pin}: 9000, 2C 03 {other}: 6982")));
    }
    wanted
}

/// Each CHANGE of PIN2 is good for one signature; PIN1 stays open.
fn job_sequences() -> [&'static str; 4] {
    [
        "CHANGE PIN2: 9000, SIGN: J2, delivery, SIGN: 6982",
        "CHANGE PIN2: 9000, SIGN: J2, delivery, ask PIN2: 63C3",
        "SIGN: J2, delivery, CHANGE PIN2: 9000, SIGN: J2",
        "CHANGE PIN1: 9000, AUTHENTICATE: J1, delivery, AUTHENTICATE: J1",
    ]
}
