//! Over a few fixed seeds both generators reach every sequence that shows which commands open a code
//! and which close it, on the sample card and on others; and no line opens or closes a code otherwise
//! than documents 01 and 02 say.

mod all_seen;
mod played;

use all_seen::check_all;
use played::{play_stand_in, play_transcript, Codes, Step, SEEDS};
use second::code_commands::{code_command, CodeCommand};
use second::program::Answered;
use second::sequences::{reached, sequences, wanted};
use second::state::*;

fn answered(steps: Vec<Step>) -> Vec<Answered> {
    steps.into_iter().map(|step| step.answered).collect()
}

/// From the first image that is loaded; the program starts with the sample card.
fn answered_on_other_cards(seed: u64) -> Vec<Answered> {
    answered(play_stand_in(seed)).into_iter().skip_while(|(_, answer)| answer != "L").collect()
}

#[test]
fn transcripts_reach_every_sequence() {
    check_all((1..=SEEDS).flat_map(|seed| reached(&answered(play_transcript(seed)))).collect(), wanted());
}

#[test]
fn other_cards_reach_every_sequence() {
    check_all((1..=SEEDS).flat_map(|seed| reached(&answered_on_other_cards(seed))).collect(), wanted());
}

#[test]
fn changed_codes_are_written_and_loaded_closed() {
    let expected = ["PUK", "PIN1", "PIN2"].map(|code| format!("CHANGE {code}: 9000, I, L, ask {code}: 63C3"));
    check_all((1..=SEEDS).flat_map(|seed| sequences(&answered_on_other_cards(seed))).collect(), expected);
}

#[test]
fn changes_are_refused_by_the_edge() {
    let change_and_answer = |(line, answer): Answered| match code_command(&line) {
        Some(CodeCommand::Change { code }) => Some((code, answer)),
        _ => None,
    };
    let expected = [PUK, PIN1, PIN2].iter().flat_map(|code| ["H1", "H2", "H3", "H4"].map(|answer| (*code, answer.to_string())));
    check_all((1..=SEEDS).flat_map(|seed| answered_on_other_cards(seed).into_iter().filter_map(change_and_answer)).collect(), expected);
}

/// What a line and its answer make of tries and marks.
fn expected(step: &Step) -> Codes {
    let (line, answer) = &step.answered;
    let left = answer.strip_prefix("R63C").and_then(|left| left.parse().ok());
    let mut codes = step.before;
    match (code_command(line), left) {
        (Some(CodeCommand::Verify { code } | CodeCommand::Change { code }), Some(left)) => codes[code] = (left, false),
        (Some(CodeCommand::UnblockByPuk { .. }), Some(left)) => codes[PUK] = (left, false),
        (Some(CodeCommand::Verify { code } | CodeCommand::Change { code }), None) if answer == "R9000" => codes[code] = (3, true),
        (Some(CodeCommand::UnblockByMark { pin } | CodeCommand::UnblockByPuk { pin }), None) if answer == "R9000" => {
            codes[pin] = (3, false);
            codes[PUK] = (3, false);
        }
        _ if answer == "P" => codes.iter_mut().for_each(|(_, verified)| *verified = false),
        _ if answer.starts_with("J2") => codes[PIN2].1 = false,
        _ => {}
    }
    codes
}

#[test]
fn nothing_else_opens_or_closes_a_code() {
    let on_one_card = |step: &Step| !step.answered.0.starts_with(b"L");
    for step in (1..=SEEDS).flat_map(|seed| play_transcript(seed).into_iter().chain(play_stand_in(seed))).filter(on_one_card) {
        assert_eq!(step.after, expected(&step), "{}: {}", String::from_utf8_lossy(&step.answered.0), step.answered.1);
    }
}
