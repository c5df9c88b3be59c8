//! Over a few fixed seeds the generator of stand-in lines has images written in every situation and
//! with every buffer that matters, loads them again, and looks at what is kept and what is gone.

mod all_seen;

use all_seen::check_all;
use second::generate::Generator;
use second::lines::LineProgram;
use second::stand_in::StandIn;
use second::state::*;
use second::{hex, load, sample, CardState};
use std::collections::BTreeSet;

const SEEDS: u64 = 8;
const LINES: usize = 10_000;
const CODES: [&str; 3] = ["PUK", "PIN1", "PIN2"];

struct Step {
    line: Vec<u8>,
    answer: String,
    before: CardState,
    after: CardState,
    /// What the last L line made, or the program's start.
    loaded: CardState,
    buffer: usize,
}

impl Step {
    /// I, H1 or H2 for a line I.
    fn writing(&self) -> Option<&str> {
        (self.line == b"I").then(|| if self.answer.starts_with('I') { "I" } else { &self.answer })
    }

    /// The image that a line I is answered with.
    fn image(&self) -> Option<&str> {
        if self.line == b"I" { self.answer.strip_prefix('I') } else { None }
    }

    fn command(&self) -> Option<Vec<u8>> {
        hex::decode(self.line.strip_prefix(b"C")?)
    }
}

fn play(seed: u64) -> Vec<Step> {
    let mut stand_in = StandIn::new(vec![0x30; 1536], vec![0x30; 1536]);
    let mut loaded = load(&sample::image()).0;
    let mut steps = Vec::new();
    for line in Generator::for_stand_in(seed).take(LINES) {
        let before = stand_in.card().clone();
        let answer = stand_in.line(&line);
        let after = stand_in.card().clone();
        steps.push(Step { line, answer, before, after: after.clone(), loaded: loaded.clone(), buffer: stand_in.buffer_length() });
        if steps.last().is_some_and(|step| step.answer == "L" || step.answer.starts_with('F')) {
            loaded = after;
        }
    }
    steps
}

fn collect<T: Ord>(seen: impl Fn(&[Step]) -> Vec<T>) -> BTreeSet<T> {
    (1..=SEEDS).flat_map(|seed| seen(&play(seed))).collect()
}

type Condition = fn(&Step) -> bool;
type CodeCondition = fn(&Code, &Code) -> bool;

/// What a session has when the image is written.
const SITUATIONS: [(&str, Condition); 14] = [
    ("as loaded", |step| step.before == step.loaded),
    ("a held answer", |step| step.before.held.length > 0),
    ("a chain", |step| step.before.chain.length > 0),
    ("job 1", |step| step.before.job.is_some_and(|job| job.kind == AUTHENTICATE)),
    ("job 2", |step| step.before.job.is_some_and(|job| job.kind == SIGN)),
    ("job 3", |step| step.before.job.is_some_and(|job| job.kind == DECIPHER)),
    ("EEEEh", |step| step.before.directory == Directory::Eeee),
    ("a file", |step| step.before.file.is_some()),
    ("environment 6", |step| step.before.environment == 6),
    ("a choice", |step| step.before.choices != [0; 3]),
    ("PIN1's count lowered", |step| step.before.unblocking_counts[0] < step.loaded.unblocking_counts[0]),
    ("PIN2's count lowered", |step| step.before.unblocking_counts[1] < step.loaded.unblocking_counts[1]),
    ("PIN1's count used up", |step| step.before.unblocking_counts[0] == 0 && step.loaded.unblocking_counts[0] > 0),
    ("PIN2's count used up", |step| step.before.unblocking_counts[1] == 0 && step.loaded.unblocking_counts[1] > 0),
];

/// What a code has, beside what it had when the card was loaded.
const CODE_SITUATIONS: [(&str, CodeCondition); 5] = [
    ("open", |code, _| code.verified),
    ("changed", |code, loaded| code.value != loaded.value),
    ("with fewer tries", |code, loaded| code.tries < loaded.tries),
    ("with more tries", |code, loaded| code.tries > loaded.tries),
    ("blocked", |code, _| code.tries == 0),
];

fn situations(step: &Step) -> Vec<String> {
    let met = SITUATIONS.iter().filter(|(_, holds)| holds(step));
    let mut names: Vec<String> = met.map(|(name, _)| name.to_string()).collect();
    for (number, code) in step.before.codes.iter().enumerate() {
        let met = CODE_SITUATIONS.iter().filter(|(_, holds)| holds(code, &step.loaded.codes[number]));
        names.extend(met.map(|(name, _)| format!("{} {name}", CODES[number])));
    }
    names
}

#[test]
fn images_are_written_and_refused_in_every_situation() {
    let written_in = |step: &Step| {
        let answer = step.writing().filter(|_| step.before.is_good());
        answer.map_or(vec![], |answer| situations(step).into_iter().map(|name| (name, answer.to_string())).collect())
    };
    let mut names: Vec<String> = SITUATIONS.iter().map(|(name, _)| name.to_string()).collect();
    for (name, _) in CODE_SITUATIONS {
        names.extend(CODES.map(|code| format!("{code} {name}")));
    }
    assert_eq!(names.len(), 29);
    let expected = names.into_iter().flat_map(|name| ["I", "H2"].map(|answer| (name.clone(), answer.to_string())));
    check_all(collect(|steps| steps.iter().flat_map(written_in).collect()), expected);
}

#[test]
fn every_line_leaves_the_card_and_says_what_loads_as_it() {
    for step in (1..=SEEDS).flat_map(play).filter(|step| step.line == b"I") {
        assert_eq!(step.before, step.after);
        let mut card = step.before;
        match step.answer.as_str() {
            "H1" => assert_eq!(card, CardState::ZERO),
            "H2" => assert!(card.is_good() && step.buffer < 1118),
            answer => {
                card.start_session();
                assert_eq!(load(&hex::decode(&answer.as_bytes()[1..]).unwrap()), (card, 0));
                assert!(step.buffer >= 1118);
            }
        }
    }
}

/// Each size that matters, with a card of both kinds.
#[test]
fn buffers_have_every_size_that_matters() {
    let sized = |steps: &[Step]| {
        let answers = steps.iter().filter_map(|step| Some((step.buffer, step.before.is_good(), step.writing()?.to_string())));
        answers.collect::<Vec<_>>()
    };
    let mut expected = Vec::new();
    for size in [0, 257, 258, 1115, 1117, 1118, 1119, 4096] {
        expected.push((size, true, if size < 1118 { "H2" } else { "I" }.to_string()));
        expected.push((size, false, "H1".to_string()));
    }
    check_all(collect(sized), expected);
}

#[test]
fn shortest_and_longest_images_are_written_and_loaded_again() {
    let lengths = |steps: &[Step]| {
        let again = steps.windows(2).filter(|pair| is_loaded_again(&pair[0], &pair[1])).map(|pair| (true, pair[1].line.len() / 2));
        again.chain(steps.iter().filter_map(|step| Some((false, step.image()?.len() / 2)))).collect::<Vec<_>>()
    };
    let expected = [84, 87, 1115, 1118].map(|length| [(false, length), (true, length)]);
    check_all(collect(lengths), expected.into_iter().flatten());
}

#[test]
fn other_lines_come_near_the_letter() {
    let near = |steps: &[Step]| {
        let others = steps.iter().filter(|step| step.answer == "?" && step.line.len() < 6);
        others.map(|step| step.line.clone()).collect::<Vec<_>>()
    };
    let lines = [&b"i"[..], b"I ", b" I", b"I\r", b"I\t", b"I\0", b"II", b"IP", b"PI", b"I0", b"I00", b"I1118", b"IL"];
    check_all(collect(near), lines.map(<[u8]>::to_vec));

    let whole = |steps: &[Step]| {
        let others = steps.iter().filter(|step| step.answer == "?");
        let images = others.filter_map(|step| {
            let (letter, text) = step.line.split_first()?;
            (load(&hex::decode(text)?).1 == 0).then_some(*letter as char)
        });
        images.collect::<Vec<_>>()
    };
    check_all(collect(whole), ['I', 'i']);
}

fn is_loaded_again(written: &Step, loaded: &Step) -> bool {
    written.image().is_some_and(|image| loaded.line == format!("L{image}").as_bytes())
}

/// A card that was written and loaded: how it was written, and the lines up to the next L.
struct Again<'a> {
    written: &'a Step,
    lines: &'a [Step],
}

fn loaded_again(steps: &[Step]) -> Vec<Again<'_>> {
    let places = (1..steps.len()).filter(|place| is_loaded_again(&steps[place - 1], &steps[*place]));
    let again = places.map(|place| {
        let lines = &steps[place + 1..];
        let end = lines.iter().position(|step| step.line.starts_with(b"L")).unwrap_or(lines.len());
        Again { written: &steps[place - 1], lines: &lines[..end] }
    });
    again.collect()
}

#[test]
fn load_brings_the_card_back_as_a_reset_would_leave_it() {
    let mut times = 0;
    for steps in (1..=SEEDS).map(play) {
        for again in loaded_again(&steps) {
            let mut card = again.written.before.clone();
            card.start_session();
            assert_eq!(again.lines.first().map_or(&card, |step| &step.before), &card);
            times += 1;
        }
    }
    assert!(times > 150, "{times}");
}

impl Again<'_> {
    /// The card as it was written.
    fn card(&self) -> &CardState {
        &self.written.before
    }

    /// A held answer and a chain are gone: only the first command can show it.
    fn nothing_waits(&self) -> Option<&'static str> {
        let card = self.card();
        let step = self.lines.iter().find(|step| step.line.starts_with(b"C"))?;
        match (step.command()?.as_slice(), step.answer.as_str()) {
            ([0x00, 0xC0, ..], "R6985") if card.held.length > 0 => Some("no held answer"),
            ([0x00, 0x2A, 0x80, 0x86, n, ..], "R6700") if card.chain.length + *n as usize == 257 => Some("no chain"),
            _ => None,
        }
    }

    /// What a line shows of the session that was, on the card as load made it.
    fn gone(&self, step: &Step) -> Option<String> {
        let card = self.card();
        if step.line.starts_with(b"D") && step.answer == "H5" && card.job.is_some() {
            return Some("no job".to_string());
        }
        match (step.command()?.as_slice(), step.answer.as_str()) {
            ([0x00, 0xB2, ..], "R6986") if card.file.is_some() => Some("no file".to_string()),
            ([0x00, 0xA4, 0x02, 0x0C, 0x02, 0x50, 0x44], "R6A82") if card.directory == Directory::Eeee => Some("root".to_string()),
            ([0x00, 0x20, 0x00, code], "R63C3") if card.codes[*code as usize].verified => Some(format!("{} closed", CODES[*code as usize])),
            _ => None,
        }
    }

    /// The tries that a query shows, on the card as load made it.
    fn tries(&self, step: &Step) -> Option<String> {
        let [0x00, 0x20, 0x00, code @ 0..=2] = step.command()?[..] else {
            return None;
        };
        let tries = self.card().codes[code as usize].tries;
        let answer = if tries == 0 { "R6983".to_string() } else { format!("R63C{tries}") };
        (step.answer == answer).then(|| format!("{} with tries {tries}", CODES[code as usize]))
    }

    /// Jobs before any command sets the environment or a choice: environment 1, and the active key
    /// although another was chosen when the card was written.
    fn jobs(&self) -> Vec<String> {
        let sets = |step: &Step| step.command().is_some_and(|command| command.get(1) == Some(&0x22));
        let jobs = self.lines.iter().take_while(|step| !sets(step)).filter(|step| step.answer.starts_with('J'));
        jobs.flat_map(|step| self.job(&step.answer)).collect()
    }

    fn job(&self, answer: &str) -> Vec<String> {
        let kind = answer[1..2].parse::<u8>().unwrap();
        let (chosen, active) = (self.card().choices[kind as usize - 1], self.card().active_key(class_for(kind)));
        assert_eq!(answer[3..7], format!("{active:04X}"));
        let mut seen = Vec::new();
        if self.card().environment == 6 {
            seen.push("environment 1".to_string());
        }
        if chosen != 0 && chosen != active {
            seen.push(format!("no choice for job {kind}"));
        }
        seen
    }

    /// What a line shows of the codes, files and keys that were.
    fn kept(&self, step: &Step) -> Option<String> {
        let card = self.card();
        match step.command()?.as_slice() {
            [0x00, 0x20, 0x00, code @ 0..=2, _, value @ ..] if step.answer == "R9000" => {
                let number = *code as usize;
                let changed = card.codes[number].value != self.written.loaded.codes[number].value;
                (changed && value == card.codes[number].value.get()).then(|| format!("{} changed", CODES[number]))
            }
            [0x00, 0xB2, number, 0x04, ..] => {
                let (name, record) = match step.before.file? {
                    File::PersonalRecords => (format!("record {number}"), card.records.get((*number as usize).checked_sub(1)?)?.get()),
                    File::KeyReferences => ("0033h".to_string(), &card.references[..]),
                    _ => return None,
                };
                (step.answer == format!("R{}9000", hex::encode(record))).then_some(name)
            }
            [0x00, 0x22, 0x41, _, 0x05, 0x83, 0x03, 0x80, high, low] => Some(format!("{high:02X}{low:02X}: {}", step.answer)),
            _ => None,
        }
    }

    /// The image again, or that of a card whose codes have changed since.
    fn written_again(&self, step: &Step) -> Option<String> {
        let image = step.image()?;
        Some(if Some(image) == self.written.image() { "the same image" } else { "another image" }.to_string())
    }

    fn seen(&self) -> Vec<String> {
        let mut fresh = self.card().clone();
        fresh.start_session();
        let mut seen = self.jobs();
        seen.extend(self.nothing_waits().map(str::to_string));
        for step in self.lines {
            if step.before == fresh {
                seen.extend([self.gone(step), self.tries(step)].into_iter().flatten());
            }
            seen.extend([self.kept(step), self.written_again(step)].into_iter().flatten());
        }
        seen
    }
}

#[test]
fn a_card_that_was_written_and_loaded_is_looked_at() {
    let gone = "no held answer,no chain,no job,no file,root,environment 1,no choice for job 1,no choice for job 2";
    let mut expected: Vec<String> = gone.split(',').map(str::to_string).collect();
    for code in CODES {
        expected.extend([format!("{code} closed"), format!("{code} changed")]);
        expected.extend((0..=3).map(|tries| format!("{code} with tries {tries}")));
    }
    for key in ["0100", "0200", "1100", "1200"] {
        expected.extend([format!("{key}: R9000"), format!("{key}: R6A88")]);
    }
    expected.extend((1..=RECORDS).map(|number| format!("record {number}")));
    expected.extend(["0033h", "the same image", "another image"].map(str::to_string));
    check_all(collect(|steps| loaded_again(steps).iter().flat_map(Again::seen).collect()), expected);
}
