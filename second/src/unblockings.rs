//! What RESET RETRY met on the card, its PIN's unblocking count above all, and how it was answered; and
//! which last sections images had: so that a run can be asked which of these it reached.

use crate::apdu;
use crate::code_commands::{code_command, reset_pin, CodeCommand};
use crate::lines::LineProgram;
use crate::program::Answered;
use crate::sections;
use crate::sequences::word;
use crate::stand_in::StandIn;
use crate::state::*;
use crate::{hex, CardState};
use std::collections::BTreeSet;

const PINS: [usize; 2] = [PIN1, PIN2];
const CODES: [&str; 3] = ["PUK", "PIN1", "PIN2"];
/// What 2C 00 and 2C 03 may meet, and how they are answered where the count is not 0.
const BY_PUK: [(&str, &str); 5] = [
    ("PUK right", "9000"),
    ("PUK wrong", "63Cx"),
    ("PUK short", "63Cx"),
    ("new PIN refused", "6A80"),
    ("PUK blocked", "6983"),
];
const BY_MARK: [(&str, &str); 3] = [("PUK open", "9000"), ("PUK closed", "6982"), ("PUK blocked", "6982")];
/// More unblockings of a PIN on one card than a count of A5h would allow if it were a limit.
const MANY: usize = 166;
/// What a query says of PUK after a refusal at count 0, as before it: open; closed with 3, 2 and 1 tries.
const PUK_STATES: [&str; 4] = ["9000", "63C3", "63C2", "63C1"];

/// Each unblocking by what it met, with its answer; those that a query of PUK or the image follows once
/// more with that line.
pub fn reached(answered: &[Answered]) -> BTreeSet<String> {
    let mut played = Played::start();
    let mut before: Option<String> = None;
    let mut reached = BTreeSet::new();
    for (line, answer) in answered.iter().filter(|(_, answer)| answer != "?") {
        if let (Some(unblocking), Some(look)) = (&before, look(line, answer)) {
            reached.insert(format!("{unblocking}, {look}"));
        }
        before = played.unblocking(line, answer);
        reached.extend(before.clone());
        reached.extend(loaded(line, answer));
        reached.extend(played.play(line, answer));
    }
    reached
}

/// The card as the lines make it, and since it was loaded.
struct Played {
    stand_in: StandIn,
    at_load: CardState,
    /// How often each code was unblocked.
    times: [usize; 3],
}

impl Played {
    fn start() -> Self {
        let stand_in = StandIn::sample();
        let at_load = stand_in.card().clone();
        Played { stand_in, at_load, times: [0; 3] }
    }

    /// Names a PIN that has now been unblocked many times.
    fn play(&mut self, line: &[u8], answer: &str) -> Option<String> {
        self.stand_in.line(line);
        if line.starts_with(b"L") {
            self.at_load = self.stand_in.card().clone();
            self.times = [0; 3];
        }
        let pin = reset_pin(line).filter(|_| answer == "R9000")?;
        self.times[pin] += 1;
        (self.times[pin] == MANY).then(|| many(CODES[pin]))
    }

    /// As "2C 00 PIN1, count 1, PUK right: 9000"; None for a line that is no such command, that is
    /// refused for its form or that the edge refuses.
    fn unblocking(&self, line: &[u8], answer: &str) -> Option<String> {
        let card = self.stand_in.card();
        let word = word(answer);
        let word = if word.starts_with("63C") { "63Cx" } else { word };
        if word == "6700" || answer.starts_with('H') {
            return None;
        }
        let (form, pin, met) = match code_command(line)? {
            CodeCommand::UnblockByMark { pin } => ("03", pin, met_by_mark(card)),
            CodeCommand::UnblockByPuk { pin } => ("00", pin, met_by_puk(card, pin, line)?),
            _ => return None,
        };
        let met = if card.codes[pin].tries > 0 { "PIN has tries" } else { met };
        Some(format!("2C {form} {}, count {}, {met}: {word}", CODES[pin], self.count(pin)))
    }

    fn count(&self, pin: usize) -> String {
        match (self.stand_in.card().unblocking_count(pin), self.at_load.unblocking_count(pin)) {
            (0, 0) => "0 at load".to_string(),
            (0, _) => "0, used up".to_string(),
            (count, _) => count.to_string(),
        }
    }
}

fn many(pin: &str) -> String {
    format!("{pin} unblocked {MANY} times")
}

/// As "L, section A5h twice: F28".
fn loaded(line: &[u8], answer: &str) -> Vec<String> {
    let image = line.strip_prefix(b"L").and_then(hex::decode);
    let kinds = image.map_or(vec![], |image| sections::kinds(&image));
    kinds.iter().map(|kind| format!("L, section {kind}: {answer}")).collect()
}

/// A query of PUK, or the image.
fn look(line: &[u8], answer: &str) -> Option<String> {
    match code_command(line) {
        Some(CodeCommand::Ask { code: PUK }) => Some(format!("ask PUK: {}", word(answer))),
        _ => (line == b"I" && answer.starts_with('I')).then(|| "I".to_string()),
    }
}

fn met_by_mark(card: &CardState) -> &'static str {
    match card.codes[PUK] {
        Code { tries: 0, .. } => "PUK blocked",
        Code { verified: true, .. } => "PUK open",
        _ => "PUK closed",
    }
}

fn met_by_puk(card: &CardState, pin: usize, line: &[u8]) -> Option<&'static str> {
    let command = hex::decode(&line[1..])?;
    let data = apdu::parse(&command)?.data;
    let puk = card.codes[PUK].value.get();
    Some(match data.strip_prefix(puk) {
        _ if card.codes[PUK].tries == 0 => "PUK blocked",
        None if data.len() < puk.len() => "PUK short",
        None => "PUK wrong",
        Some(new) if !code_allowed(pin, new) => "new PIN refused",
        Some(_) => "PUK right",
    })
}

/// What lines of the stand-in program must reach.
pub fn wanted() -> Vec<String> {
    let mut wanted = Vec::new();
    for pin in PINS.map(|pin| CODES[pin]) {
        for count in ["1", "2", "164", "165"] {
            wanted.extend(at_count(pin, count));
        }
        wanted.extend(BY_PUK.iter().flat_map(|(met, _)| at_0("00", pin, met, "6983")));
        wanted.extend(BY_MARK.iter().flat_map(|(met, _)| at_0("03", pin, met, "6983")));
        wanted.extend(["00", "03"].iter().flat_map(|form| at_0(form, pin, "PIN has tries", "6A86")));
        wanted.extend(after_0(pin));
    }
    let loaded = |number| if number == 0 { "L".to_string() } else { format!("F{number}") };
    wanted.extend(sections::wanted().iter().map(|(kind, number)| format!("L, section {kind}: {}", loaded(*number))));
    wanted
}

/// What lines of the transcript program must reach: its card has A5h for both PINs.
pub fn wanted_without_limit() -> Vec<String> {
    let pins = PINS.map(|pin| CODES[pin]);
    pins.iter().flat_map(|pin| at_count(pin, "165")).chain(pins.map(many)).collect()
}

/// Answered as document 01 has it.
fn at_count(pin: &str, count: &str) -> Vec<String> {
    let by_puk = BY_PUK.iter().map(|(met, word)| format!("2C 00 {pin}, count {count}, {met}: {word}"));
    let by_mark = BY_MARK.iter().map(|(met, word)| format!("2C 03 {pin}, count {count}, {met}: {word}"));
    by_puk.chain(by_mark).collect()
}

fn at_0(form: &str, pin: &str, met: &str, word: &str) -> [String; 2] {
    ["0 at load", "0, used up"].map(|count| format!("2C {form} {pin}, count {count}, {met}: {word}"))
}

/// After 6983 at count 0 PUK is as it was, with every number of tries; and the image shows the count
/// that is left.
fn after_0(pin: &str) -> Vec<String> {
    let mut wanted = Vec::new();
    for met in ["PUK right", "PUK wrong", "PUK short", "new PIN refused"] {
        wanted.extend(PUK_STATES.iter().map(|state| format!("2C 00 {pin}, count 0 at load, {met}: 6983, ask PUK: {state}")));
        wanted.push(format!("2C 00 {pin}, count 0, used up, {met}: 6983, ask PUK: 63C3"));
    }
    wanted.push(format!("2C 03 {pin}, count 0 at load, PUK open: 6983, ask PUK: 9000"));
    wanted.push(format!("2C 03 {pin}, count 0, used up, PUK open: 6983, ask PUK: 9000"));
    for count in ["1", "2", "164", "165"] {
        wanted.push(format!("2C 00 {pin}, count {count}, PUK right: 9000, I"));
        wanted.push(format!("2C 03 {pin}, count {count}, PUK open: 9000, I"));
    }
    wanted
}
