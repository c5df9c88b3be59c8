//! Generated sessions of both programs, from the sample card on, with tries and marks of the codes and
//! the unblocking counts.

use second::generate::Generator;
use second::lines::LineProgram;
use second::program::Answered;
use second::stand_in::StandIn;
use second::state::*;
use second::transcript::Transcript;
use second::CardState;

pub const SEEDS: u64 = 8;
const LINES: usize = 10_000;

/// Tries and mark of each code.
pub type Codes = [(u8, bool); 3];

#[allow(dead_code)] // not every test looks at all of it
pub struct Step {
    pub answered: Answered,
    pub before: Codes,
    pub after: Codes,
    /// The unblocking counts of PIN1 and PIN2.
    pub counts_before: [u8; 2],
    pub counts_after: [u8; 2],
}

fn codes(card: &CardState) -> Codes {
    [PUK, PIN1, PIN2].map(|code| (card.codes[code].tries, card.codes[code].verified))
}

fn play<P: LineProgram>(mut program: P, card: fn(&P) -> &CardState, lines: impl Iterator<Item = Vec<u8>>) -> Vec<Step> {
    let step = |line: Vec<u8>| {
        let (before, counts_before) = (codes(card(&program)), card(&program).unblocking_counts);
        let answer = program.line(&line);
        let after = card(&program);
        Step { answered: (line, answer), before, after: codes(after), counts_before, counts_after: after.unblocking_counts }
    };
    lines.take(LINES).map(step).collect()
}

pub fn play_transcript(seed: u64) -> Vec<Step> {
    play(Transcript::sample(), Transcript::card, Generator::new(seed, LINES))
}

pub fn play_stand_in(seed: u64) -> Vec<Step> {
    play(StandIn::sample(), StandIn::card, Generator::for_stand_in(seed))
}
