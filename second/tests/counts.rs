//! Demand 3's numbers over generated sessions, counted from the calls' bytes and their answers, with
//! document 02's wish 4: its "last sentence then counts right VERIFY and successful CHANGE of PIN2
//! together"; and wish 6: "unblockings of a PIN from load never outnumber its count at load unless that
//! is A5h".

mod played;

use played::{play_stand_in, play_transcript, Codes, Step, SEEDS};
use second::code_commands::{code_command, CodeCommand};
use second::state::{NO_LIMIT, PIN1, PIN2, PUK};

/// From a load on.
#[derive(Clone, Debug, Default)]
struct Counts {
    tries_at_load: [usize; 3],
    /// Of PIN1 and PIN2.
    counts_at_load: [u8; 2],
    wrong: [usize; 3],
    restorations: [usize; 3],
    unblockings: [usize; 3],
    right_verifies_of_pin2: usize,
    changes_of_pin2: usize,
    signatures: usize,
}

impl Counts {
    fn from_load(codes: Codes, counts_at_load: [u8; 2]) -> Counts {
        Counts { tries_at_load: codes.map(|(tries, _)| tries as usize), counts_at_load, ..Counts::default() }
    }

    fn add(&mut self, line: &[u8], answer: &str) {
        if line.starts_with(b"C") && answer.starts_with("J2") {
            self.signatures += 1;
        }
        match code_command(line) {
            Some(CodeCommand::Verify { code } | CodeCommand::Change { code }) => self.add_presentation(code, answer),
            Some(CodeCommand::UnblockByPuk { .. }) => self.add_presentation(PUK, answer),
            _ => {}
        }
        if answer == "R9000" {
            self.add_success(code_command(line));
        }
    }

    /// "A wrong answer is 63Cx, a restoration 9000"
    fn add_presentation(&mut self, code: usize, answer: &str) {
        self.wrong[code] += usize::from(answer.starts_with("R63C"));
        self.restorations[code] += usize::from(answer == "R9000");
    }

    fn add_success(&mut self, command: Option<CodeCommand>) {
        match command {
            Some(CodeCommand::Verify { code: PIN2 }) => self.right_verifies_of_pin2 += 1,
            Some(CodeCommand::Change { code: PIN2 }) => self.changes_of_pin2 += 1,
            Some(CodeCommand::UnblockByMark { pin } | CodeCommand::UnblockByPuk { pin }) => self.unblockings[pin] += 1,
            _ => {}
        }
    }

    fn most_wrong(&self, code: usize) -> usize {
        self.tries_at_load[code] + 2 * self.restorations[code] + 3 * self.unblockings[code]
    }

    fn presentations_of_pin2(&self) -> usize {
        self.right_verifies_of_pin2 + self.changes_of_pin2
    }

    fn check(&self) {
        for code in 0..3 {
            assert!(self.wrong[code] <= self.most_wrong(code), "{self:?}");
        }
        assert!(self.signatures <= self.presentations_of_pin2(), "{self:?}");
        for pin in [PIN1, PIN2] {
            assert!(self.unblockings[pin] <= self.most_unblockings(pin), "{self:?}");
        }
    }

    fn most_unblockings(&self, pin: usize) -> usize {
        match self.counts_at_load[pin - PIN1] {
            NO_LIMIT => usize::MAX,
            count => count as usize,
        }
    }
}

/// The counts after each line, each load beginning anew; on a card that load refused nothing counts.
fn count(steps: &[Step]) -> Vec<Counts> {
    let mut counts = Counts::from_load(steps[0].before, steps[0].counts_before);
    let after = |step: &Step| {
        let (line, answer) = &step.answered;
        if line.starts_with(b"L") && answer != "?" {
            counts = Counts::from_load(step.after, step.counts_after);
        } else {
            counts.add(line, answer);
        }
        counts.clone()
    };
    steps.iter().map(after).collect()
}

fn count_transcript(seed: u64) -> Vec<Counts> {
    count(&play_transcript(seed))
}

fn count_stand_in(seed: u64) -> Vec<Counts> {
    count(&play_stand_in(seed))
}

#[test]
fn the_numbers_stay_within_their_bounds() {
    for seed in 1..=SEEDS {
        count_transcript(seed).iter().chain(&count_stand_in(seed)).for_each(Counts::check);
    }
}

/// Signatures outnumber the right VERIFYs, and the successful CHANGEs, but never both together.
#[test]
fn both_kinds_of_presentation_are_needed() {
    let counts: Vec<Counts> = (1..=SEEDS).flat_map(count_stand_in).collect();
    let some = |holds: fn(&Counts) -> bool| counts.iter().any(holds);
    assert!(some(|counts| counts.signatures > counts.right_verifies_of_pin2));
    assert!(some(|counts| counts.signatures > counts.changes_of_pin2));
    assert!(some(|counts| counts.changes_of_pin2 > 0 && counts.signatures == counts.presentations_of_pin2()));
}

#[test]
fn some_sessions_have_as_many_wrong_answers_as_there_can_be() {
    let counts: Vec<Counts> = (1..=SEEDS).flat_map(count_stand_in).collect();
    for code in 0..3 {
        let met = |counts: &Counts| counts.restorations[code] > 0 && counts.wrong[code] == counts.most_wrong(code);
        assert!(counts.iter().any(met), "{code}");
    }
}

/// Small counts are used up in some session.
#[test]
fn counts_are_used_up() {
    let counts: Vec<Counts> = (1..=SEEDS).flat_map(count_stand_in).collect();
    for (pin, at_load) in [PIN1, PIN2].iter().flat_map(|pin| [1, 2].map(|count| (*pin, count))) {
        let used_up = |counts: &Counts| counts.counts_at_load[pin - PIN1] == at_load && counts.unblockings[pin] == at_load as usize;
        assert!(counts.iter().any(used_up), "{pin} {at_load}");
    }
}
