//! Document 02's wish 6: each PIN's unblocking count, which RESET RETRY lowers and looks at.

mod cards;
mod code_calls;
mod job_lines;

use cards::own_image;
use code_calls::*;
use job_lines::{result_line, sign_line};
use second::lines::LineProgram;
use second::stand_in::StandIn;
use second::state::*;
use second::transcript::Transcript;
use second::{delivery, hex, load, power_reset, sample, write_image, CardState, Outcome};

const PINS: [(usize, usize); 2] = [(PIN1, PIN2), (PIN2, PIN1)];
/// Some counts of the other PIN.
const OTHERS: [u8; 4] = [0, 1, 0xA4, 0xA5];
/// Tries and mark of PUK: open; closed with 3, 2 and 1 tries; blocked.
const PUK_STATES: [(u8, bool); 5] = [(3, true), (3, false), (2, false), (1, false), (0, false)];

fn set_count(card: &mut CardState, pin: usize, count: u8) {
    card.unblocking_counts[pin - PIN1] = count;
}

/// The sample card and another one, each PIN blocked with this count, the other PIN with each count
/// and each number of tries that matters.
fn blocked_cards(count: u8) -> Vec<(usize, CardState)> {
    let mut cards = Vec::new();
    for (image, (pin, other)) in [sample::image(), own_image()].iter().flat_map(|image| PINS.map(|pins| (image, pins))) {
        for (other_count, other_tries) in OTHERS.iter().flat_map(|count| [0, 3].map(|tries| (*count, tries))) {
            let mut card = load(image).0;
            set(&mut card, pin, 0, false);
            set(&mut card, other, other_tries, false);
            set_count(&mut card, pin, count);
            set_count(&mut card, other, other_count);
            assert!(card.is_good());
            cards.push((pin, card));
        }
    }
    cards
}

fn with_puk(card: &CardState, (tries, verified): (u8, bool)) -> CardState {
    let mut card = card.clone();
    set(&mut card, PUK, tries, verified);
    card
}

/// PUK right with a new PIN that is allowed and that is not, PUK wrong and short, and any bytes.
fn any_data(card: &CardState, pin: usize) -> Vec<Vec<u8>> {
    let mut all = wrong_data(card, PUK);
    let new_values = [allowed_values(card, pin), refused_values(pin)].concat();
    all.extend(new_values.iter().map(|new| right_and(card, PUK, new)));
    all.extend([vec![0x00], vec![0xFF; 255], b"12345678".to_vec()]);
    all
}

/// "before the PUK is looked at": a wrong one costs no try, and one that is not verified is not 6982.
#[test]
fn at_0_both_forms_are_refused_and_nothing_changes() {
    for (pin, card) in blocked_cards(0) {
        for before in PUK_STATES.map(|state| with_puk(&card, state)) {
            for data in any_data(&before, pin) {
                let mut card = before.clone();
                assert_eq!((unblock(&mut card, pin, &data).as_str(), &card), ("6983", &before));
            }
            let mut card = before.clone();
            assert_eq!((unblock_by_mark(&mut card, pin).as_str(), &card), ("6983", &before));
        }
    }
}

/// "after "PIN has tries"", and so after steps 1 to 6.
#[test]
fn at_0_what_comes_before_is_as_it_was() {
    for (pin, blocked) in blocked_cards(0) {
        for (tries, verified) in [(1, false), (2, false), (3, false), (3, true)] {
            let mut before = blocked.clone();
            set(&mut before, pin, tries, verified);
            let mut card = before.clone();
            assert_eq!(unblock_by_mark(&mut card, pin), "6A86");
            for data in any_data(&before, pin) {
                assert_eq!(unblock(&mut card, pin, &data), "6A86");
            }
            assert_eq!(card, before);
        }
        let p2 = pin as u8;
        let others: [(&[u8], &str); 8] = [
            (&[0x00, 0x2C, 0x00, p2], "6700"),
            (&[0x00, 0x2C, 0x00, p2, 0x00], "6700"),
            (&[0x00, 0x2C, 0x00, p2, 0x02, 0x31], "6700"),
            (&[0x00, 0x2C, 0x03, p2, 0x01, 0x31], "6700"),
            (&[0x10, 0x2C, 0x03, p2], "6884"),
            (&[0x00, 0x2C, 0x01, p2], "6A86"),
            (&[0x00, 0x2C, 0x03, 0x00], "6A86"),
            (&[0x00, 0x2C, 0x03, 0x03], "6A86"),
        ];
        for (apdu, word) in others {
            let mut card = blocked.clone();
            assert_eq!((send(&mut card, apdu).as_str(), &card), (word, &blocked), "{apdu:02X?}");
        }
        let mut card = blocked.clone();
        assert_eq!(send(&mut card, &[0x00, 0x2C, 0x03, p2, 0x00]), "6983"); // a Le is ignored
    }
}

/// "lowers it by one, unless it is A5h"; the other PIN's stays.
#[test]
fn a_successful_unblocking_lowers_the_count() {
    for count in 1..=NO_LIMIT {
        let lowered = if count == 0xA5 { 0xA5 } else { count - 1 };
        for (pin, before) in blocked_cards(count) {
            let mut expected = before.clone();
            set_count(&mut expected, pin, lowered);
            set(&mut expected, pin, 3, false);
            set(&mut expected, PUK, 3, false);

            let mut card = with_puk(&before, (3, true));
            assert_eq!((unblock_by_mark(&mut card, pin).as_str(), &card), ("9000", &expected), "{count}");

            let new = &b"098765432109"[..shortest_code(pin)];
            expected.codes[pin].value = Bytes::of(new);
            for state in &PUK_STATES[..4] {
                let mut card = with_puk(&before, *state);
                assert_eq!((unblock(&mut card, pin, &right_and(&before, PUK, new)).as_str(), &card), ("9000", &expected), "{count}");
            }
        }
    }
}

/// Above 0 all other answers are as they were, and leave the count.
#[test]
fn a_refused_unblocking_leaves_the_count() {
    for count in [1, 2, 0xA4, 0xA5] {
        for (pin, card) in blocked_cards(count) {
            for before in PUK_STATES.map(|state| with_puk(&card, state)) {
                let Code { tries, verified, .. } = before.codes[PUK];
                for data in wrong_data(&before, PUK) {
                    let (mut card, mut expected) = (before.clone(), before.clone());
                    let left = tries.saturating_sub(1);
                    set(&mut expected, PUK, left, false);
                    let word = if tries == 0 { "6983".to_string() } else { format!("63C{left}") };
                    assert_eq!((unblock(&mut card, pin, &data), &card), (word, &expected));
                }
                for new in refused_values(pin) {
                    let mut card = before.clone();
                    let word = if tries == 0 { "6983" } else { "6A80" };
                    assert_eq!((unblock(&mut card, pin, &right_and(&before, PUK, &new)).as_str(), &card), (word, &before));
                }
                if !verified {
                    let mut card = before.clone();
                    assert_eq!((unblock_by_mark(&mut card, pin).as_str(), &card), ("6982", &before));
                }
            }
        }
    }
}

/// Right and wrong values, a query, key operations with their results, reads, choices, and resets.
#[test]
fn nothing_else_moves_a_count() {
    let presented: [&[u8]; 4] = [b"1234", b"12345", b"12345678", b"9"];
    for counts in [[0, 0], [1, 2], [0, 0xA5], [0xA4, 0x01], [0xA5, 0xA5]] {
        let mut card = load(&sample::image()).0;
        card.unblocking_counts = counts;
        let mut seen = Vec::new();
        for code in [PUK, PIN1, PIN2] {
            for value in presented {
                let verify = [&[0x00, 0x20, 0x00, code as u8, value.len() as u8], value].concat();
                seen.push(send(&mut card, &verify));
                let change_to_itself = [value, value].concat();
                seen.push(change(&mut card, code, &change_to_itself));
                seen.push(change(&mut card, code, value));
                seen.push(send(&mut card, &[0x00, 0x20, 0x00, code as u8]));
                assert_eq!(card.unblocking_counts, counts);
            }
            card.codes = load(&sample::image()).0.codes;
        }
        for (environment, pin, value, line) in [
            (1, PIN1, &b"1234"[..], "C008800000100".to_string()),
            (1, PIN2, b"12345", sign_line()),
            (6, PIN1, b"1234", format!("C002A8086FF{}", "00".repeat(255))),
        ] {
            seen.push(send(&mut card, &[0x00, 0x22, 0xF3, environment]));
            seen.push(send(&mut card, &[&[0x00, 0x20, 0x00, pin as u8, value.len() as u8], value].concat()));
            let mut apdu = hex::decode(&line.as_bytes()[1..]).unwrap();
            if environment == 6 {
                apdu[0] = 0x10;
                seen.push(send(&mut card, &apdu));
                apdu = vec![0x00, 0x2A, 0x80, 0x86, 0x02, 0x00, 0x00];
            }
            seen.push(send(&mut card, &apdu));
            assert_eq!(delivery(&mut card, &[0x5A; 256], &mut [0; 258]), Outcome::Response(2));
            assert_eq!(card.unblocking_counts, counts);
        }
        for apdu in [&[0x00, 0xA4, 0x00, 0x0C][..], &[0x00, 0xA4, 0x02, 0x0C, 0x02, 0x00, 0x16], &[0x00, 0xB2, 0x01, 0x04, 0x00]] {
            assert_eq!(send(&mut card, apdu), "9000");
        }
        assert_eq!(power_reset(&mut card), 0);
        assert_eq!(card.unblocking_counts, counts);
        for word in ["9000", "6A80", "63C0", "63C1", "63C2", "6983", "J1", "J2", "J3"] {
            assert!(seen.iter().any(|answer| answer == word), "{word} in {seen:?}");
        }
    }
}

/// "which a reset keeps"
#[test]
fn a_reset_keeps_the_counts() {
    for (pin1, pin2) in (0..=NO_LIMIT).flat_map(|pin1| OTHERS.map(|pin2| (pin1, pin2))) {
        let mut card = load(&own_image()).0;
        card.unblocking_counts = [pin1, pin2];
        let before = card.clone();
        assert_eq!((power_reset(&mut card), card), (0, before));
    }
}

fn block(card: &mut CardState, pin: usize) {
    while card.codes[pin].tries > 0 {
        assert!(send(card, &[0x00, 0x20, 0x00, pin as u8, 0x01, 0x00]).starts_with("63C"));
    }
}

/// In both forms by turns, with a reset, or with the card written and loaded again, between them.
fn unblock_once(card: &mut CardState, pin: usize, turn: usize) -> String {
    block(card, pin);
    match turn % 3 {
        1 => assert_eq!(power_reset(card), 0),
        2 => {
            let mut image = [0; 1118];
            let length = write_image(card, &mut image).unwrap();
            *card = load(&image[..length]).0;
        }
        _ => {}
    }
    let data = right_and(card, PUK, b"5555555");
    if turn % 2 == 0 {
        return unblock(card, pin, &data);
    }
    assert_eq!(send(card, &[&[0x00, 0x20, 0x00, PUK as u8, 8], &data[..8]].concat()), "9000");
    unblock_by_mark(card, pin)
}

/// As many unblockings as the count says, and none after them; at A5h there is no end to them.
#[test]
fn a_count_allows_as_many_unblockings() {
    for (pin, other) in PINS {
        for count in [0, 1, 2, 3, 0xA3, 0xA4, 0xA5] {
            let mut card = load(&sample::image()).0;
            set_count(&mut card, pin, count);
            let times = if count == 0xA5 { 400 } else { count as usize };
            for turn in 0..times {
                assert_eq!(unblock_once(&mut card, pin, turn), "9000", "{count} {turn}");
            }
            assert_eq!((card.unblocking_count(pin), card.unblocking_count(other)), (if count == 0xA5 { 0xA5 } else { 0 }, 0xA5));
            if count != 0xA5 {
                for turn in 0..6 {
                    assert_eq!(unblock_once(&mut card, pin, turn), "6983", "{count}");
                }
            }
            for turn in 0..6 {
                assert_eq!(unblock_once(&mut card, other, turn), "9000");
            }
        }
    }
}

#[test]
fn counts_to_a5_are_good_and_others_are_not() {
    for (count, pin) in (0..=255).flat_map(|count| [PIN1, PIN2].map(|pin| (count, pin))) {
        let mut card = load(&own_image()).0;
        set_count(&mut card, pin, count);
        assert_eq!(card.is_good(), count <= 0xA5, "{count}");
        assert_eq!(power_reset(&mut card), u8::from(count > 0xA5));
    }
}

#[test]
fn the_sample_card_has_no_limit_and_the_zero_state_has_0() {
    assert_eq!(load(&sample::image()).0.unblocking_counts, [0xA5; 2]);
    assert_eq!(Transcript::sample().card().unblocking_counts, [0xA5; 2]);
    assert_eq!(StandIn::sample().card().unblocking_counts, [0xA5; 2]);
    assert_eq!(CardState::ZERO.unblocking_counts, [0; 2]);
}

/// Each line with its output line.
fn check(program: &mut impl LineProgram, lines: &[(&str, &str)]) {
    for (line, output) in lines {
        let answer = program.line(line.as_bytes());
        let shown = if answer.starts_with('J') { &answer[..7] } else { &answer };
        assert_eq!(shown, *output, "{line}");
    }
}

/// The sample card's image with PIN1's tries 0 and this section, in hex.
fn blocked_pin1(section: &str) -> String {
    format!("03083132333435363738030431323334000531323334350302010011001500000000000000000011000000000000000000010010{}{section}", "0120".repeat(16))
}

#[test]
fn the_lines_show_what_is_left_of_a_count() {
    let one = format!("L{}", blocked_pin1("0201A5"));
    let left = format!("I{}", blocked_pin1("0200A5").replacen("0431323334", "0439393939", 1));
    let load_left = left.replacen('I', "L", 1);
    let unblock_with = |puk: &str| format!("C002C00010C{puk}39393939");
    let (right, wrong) = (unblock_with("3132333435363738"), unblock_with("3132333435363739"));
    let pin1 = "C002000010400000000";
    let mut stand_in = StandIn::sample();
    check(&mut stand_in, &[
        (&one, "L"), ("C002C0301", "R6982"), (&wrong, "R63C2"), ("C00200000", "R63C2"), (&right, "R9000"), (&right, "R6A86"),
        (pin1, "R63C2"), (pin1, "R63C1"), (pin1, "R63C0"), ("C002C0301", "R6983"), (&wrong, "R6983"), (&right, "R6983"), ("C00200000", "R63C3"),
        (&left, "?"), ("I", &left), ("P", "P"), (&right, "R6983"), (&load_left, "L"), (&wrong, "R6983"), ("C00200000", "R63C3"),
        ("C00200000083132333435363738", "R9000"), ("C002C0301", "R6983"), ("C00200000", "R9000"), ("C002C0302", "R6A86"), ("I", &left),
    ]);
    assert_eq!(stand_in.card().unblocking_counts, [0, 0xA5]);
}

/// The transcript program's card can be unblocked without end.
#[test]
fn transcripts_never_meet_the_limit() {
    let mut session = Transcript::sample();
    let wrong = "C002000020439393939";
    for _ in 0..200 {
        check(&mut session, &[
            (wrong, "R63C2"), (wrong, "R63C1"), (wrong, "R63C0"), ("C002C00020D31323334353637383534333231", "R9000"),
        ]);
    }
    assert_eq!(session.card().unblocking_counts, [0xA5; 2]);
    check(&mut session, &[("C00200002053534333231", "R9000"), (&sign_line(), "J2 0100"), (&result_line(), "R6100")]);
}
