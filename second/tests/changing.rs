//! Document 02's wish 4: "a successful CHANGE leaves the code verified", and RESET RETRY "keeps the
//! mark off".

mod cards;
mod code_calls;
mod job_lines;

use cards::own_image;
use code_calls::*;
use job_lines::{result_line, sign_line};
use second::generate::Random;
use second::images::Parts;
use second::lines::LineProgram;
use second::stand_in::StandIn;
use second::state::*;
use second::transcript::Transcript;
use second::{command, hex, load, power_reset, sample, CardState, Certificates, Outcome};

const CODES: [usize; 3] = [PUK, PIN1, PIN2];

/// The sample card, another one, and generated ones; their PINs can be unblocked without limit.
fn loaded_cards() -> Vec<CardState> {
    let mut random = Random(21);
    let generated = (0..20).map(|_| Parts::valid(&mut random).bytes());
    let loaded = |image: Vec<u8>| CardState { unblocking_counts: [NO_LIMIT; 2], ..load(&image).0 };
    [sample::image(), own_image()].into_iter().chain(generated).map(loaded).collect()
}

/// Each code of each card open, or closed with 3, 2 and 1 tries; the other two closed or open.
fn cards() -> Vec<(usize, CardState)> {
    let mut cards = Vec::new();
    for (loaded, code) in loaded_cards().iter().flat_map(|card| CODES.map(|code| (card, code))) {
        for (tries, verified) in [(3, true), (3, false), (2, false), (1, false)] {
            for others_open in [false, true] {
                let mut card = loaded.clone();
                CODES.iter().for_each(|other| set(&mut card, *other, 3, others_open));
                set(&mut card, code, tries, verified);
                assert!(card.is_good());
                cards.push((code, card));
            }
        }
    }
    cards
}

/// Each PIN blocked, with PUK open, or closed with 3, 2 and 1 tries.
fn cards_with_blocked_pin() -> Vec<(usize, CardState)> {
    let mut blocked = Vec::new();
    for (_, card) in cards().into_iter().filter(|(code, _)| *code == PUK) {
        for pin in [PIN1, PIN2] {
            let mut card = card.clone();
            set(&mut card, pin, 0, false);
            blocked.push((pin, card));
        }
    }
    blocked
}

/// Nothing but this code changes.
#[test]
fn a_successful_change_opens_the_code() {
    for (code, before) in cards() {
        for new in allowed_values(&before, code) {
            let mut card = before.clone();
            assert_eq!(change(&mut card, code, &right_and(&before, code, &new)), "9000");
            let mut expected = before.clone();
            expected.codes[code] = Code { value: Bytes::of(&new), tries: 3, verified: true };
            assert_eq!(card, expected);
            assert!(card.is_good());
        }
    }
}

#[test]
fn a_refused_new_value_leaves_the_mark() {
    for (code, before) in cards() {
        for new in refused_values(code) {
            let mut card = before.clone();
            assert_eq!(change(&mut card, code, &right_and(&before, code, &new)), "6A80");
            assert_eq!(card, before);
        }
    }
}

#[test]
fn a_wrong_old_value_closes_the_code() {
    for (code, before) in cards() {
        for data in wrong_data(&before, code) {
            let mut card = before.clone();
            let left = before.codes[code].tries - 1;
            assert_eq!(change(&mut card, code, &data), format!("63C{left}"));
            let mut expected = before.clone();
            set(&mut expected, code, left, false);
            assert_eq!(card, expected);
        }
    }
}

#[test]
fn a_blocked_code_stays_as_it_is() {
    for (code, mut before) in cards() {
        set(&mut before, code, 0, false);
        let mut all = wrong_data(&before, code);
        all.push(right_and(&before, code, b"555555555555"));
        all.push(right_and(&before, code, b"5"));
        for data in all {
            let mut card = before.clone();
            assert_eq!(change(&mut card, code, &data), "6983");
            assert_eq!(card, before);
        }
    }
}

/// "PIN stored, both tries 3, both marks off"
#[test]
fn reset_retry_with_data_keeps_the_marks_off() {
    for (pin, before) in cards_with_blocked_pin() {
        for new in allowed_values(&before, pin) {
            let mut card = before.clone();
            assert_eq!(unblock(&mut card, pin, &right_and(&before, PUK, &new)), "9000");
            let mut expected = before.clone();
            expected.codes[pin] = Code { value: Bytes::of(&new), tries: 3, verified: false };
            set(&mut expected, PUK, 3, false);
            assert_eq!(card, expected);
        }
        for new in refused_values(pin) {
            let mut card = before.clone();
            assert_eq!(unblock(&mut card, pin, &right_and(&before, PUK, &new)), "6A80");
            assert_eq!(card, before);
        }
    }
}

/// "tries 3, PIN and PUK marks off"
#[test]
fn reset_retry_without_data_takes_a_changed_puk_and_closes_it() {
    for (pin, before) in cards_with_blocked_pin() {
        let mut card = before.clone();
        assert_eq!(change(&mut card, PUK, &right_and(&before, PUK, b"00000000")), "9000");
        let mut expected = card.clone();
        assert_eq!(unblock_by_mark(&mut card, pin), "9000");
        set(&mut expected, pin, 3, false);
        set(&mut expected, PUK, 3, false);
        assert_eq!(card, expected);
    }
}

#[test]
fn reset_retry_with_data_closes_a_changed_puk() {
    for (pin, before) in cards_with_blocked_pin() {
        let mut card = before.clone();
        assert_eq!(change(&mut card, PUK, &right_and(&before, PUK, b"00000000")), "9000");
        assert_eq!(unblock(&mut card, pin, b"00000000999999999999"), "9000");
        assert!(!card.codes[pin].verified && !card.codes[PUK].verified);
    }
}

#[test]
fn a_reset_closes_a_changed_code_and_keeps_its_value() {
    for (code, before) in cards() {
        let mut card = before.clone();
        assert_eq!(change(&mut card, code, &right_and(&before, code, b"000000000000")), "9000");
        assert_eq!(power_reset(&mut card), 0);
        assert_eq!(card.codes[code], Code { value: Bytes::of(b"000000000000"), tries: 3, verified: false });
    }
}

#[test]
fn a_change_that_the_edge_refuses_opens_nothing() {
    for (code, mut before) in cards() {
        let data = right_and(&before, code, b"000000000000");
        let apdu = [&[0x00, 0x24, 0x00, code as u8, data.len() as u8], &data[..]].concat();
        let mut card = before.clone();
        for (length, size, refusal) in [(1, 257, 2), (0, 258, 3)] {
            let lent = Certificates { authentication: &[0x30], signature: &[0x30][..length] };
            assert_eq!(command(&mut card, &apdu, lent, &mut vec![0; size]), Outcome::Refused(refusal));
            assert_eq!(card, before);
        }
        before.job = Some(Job { kind: 2, key: before.key_for(2), le: None });
        let mut card = before.clone();
        assert_eq!((send(&mut card, &apdu), card), ("H4".to_string(), before));
    }
}

/// Each line with its output line; of a job only its kind and key.
fn check(program: &mut impl LineProgram, lines: &[(&str, &str)]) {
    for (line, output) in lines {
        let answer = program.line(line.as_bytes());
        let shown = if answer.starts_with('J') { &answer[..7] } else { &answer };
        assert_eq!(shown, *output, "{line}");
    }
}

/// The other card in the stand-in program.
fn own_card() -> StandIn {
    let mut stand_in = StandIn::sample();
    assert_eq!(stand_in.line(format!("L{}", hex::encode(&own_image())).as_bytes()), "L");
    stand_in
}

#[test]
fn a_changed_pin2_signs_once() {
    let (sign, result) = (sign_line(), result_line());
    check(&mut Transcript::sample(), &[
        (&sign, "R6982"), ("C002400020A31323334353534333231", "R9000"), (&sign, "J2 0100"), (&result, "R6100"), (&sign, "R6982"),
        ("C00200002", "R63C3"), ("C002400020A35343332313132333435", "R9000"), ("C00200002", "R9000"), ("C00200001", "R63C3"),
        (&sign, "J2 0100"), ("D", "R6400"), (&sign, "R6982"), ("C00200002053132333435", "R9000"), (&sign, "J2 0100"),
    ]);
    check(&mut own_card(), &[
        (&sign, "R6982"), ("C002400020A38383838383534333231", "R9000"), (&sign, "J2 0200"), (&result, "R6100"), (&sign, "R6982"),
        ("C00200002", "R63C3"), ("C00200001", "R63C2"), ("C00200000", "R63C2"),
    ]);
}

/// 12345 to itself, each time for one signature; no VERIFY is needed.
#[test]
fn as_many_signatures_as_changes() {
    let (sign, result) = (sign_line(), result_line());
    let mut session = Transcript::sample();
    let change = "C002400020A31323334353132333435";
    for _ in 0..5 {
        check(&mut session, &[(change, "R9000"), (&sign, "J2 0100"), (&result, "R6100"), (&sign, "R6982")]);
    }
    check(&mut session, &[(change, "R9000"), (change, "R9000"), (&sign, "J2 0100"), (&result, "R6100"), (&sign, "R6982")]);
}

#[test]
fn a_changed_pin1_stays_open() {
    let (result, part) = (result_line(), format!("C102A8086FF{}", "00".repeat(255)));
    check(&mut Transcript::sample(), &[
        ("C008800000100", "R6982"), ("C0024000109313233343939393939", "R9000"), ("C008800000100", "J1 1100"), (&result, "R6100"),
        ("C008800000100", "J1 1100"), ("D", "R6400"), ("C0022F306", "R9000"), (&part, "R9000"), ("C002A8086020000", "J3 1100"),
        ("D", "R6400"), ("C00200001", "R9000"), ("P", "P"), ("C00200001", "R63C3"), ("C00200001053939393939", "R9000"),
    ]);
    check(&mut own_card(), &[
        ("C0022F306", "R9000"), (&part, "R9000"), ("C002A8086020000", "R6982"), ("C0024000109393939393131313131", "R9000"),
        (&part, "R9000"), ("C002A8086020000", "J3 1200"), ("D", "R6400"), ("C0022F301", "R9000"), ("C008800000100", "J1 1200"),
        ("D", "R6400"), ("C00200001", "R9000"), ("C00200002", "R63C2"), ("C00200000", "R63C2"),
    ]);
}

/// PUK goes from 12345678 to 87654321 and back.
#[test]
fn a_changed_puk_unblocks_once() {
    let (there, back) = ("C002400001031323334353637383837363534333231", "C002400001038373635343332313132333435363738");
    let mut session = Transcript::sample();
    for pin in ["01", "02"] {
        let wrong = format!("C002000{pin}0100");
        check(&mut session, &[(&wrong, "R63C2"), (&wrong, "R63C1"), (&wrong, "R63C0")]);
    }
    check(&mut session, &[
        ("C002C0301", "R6982"), (there, "R9000"), ("C002C0301", "R9000"), ("C00200001", "R63C3"), ("C00200000", "R63C3"),
        ("C002C0302", "R6982"), ("C00200002", "R6983"), (back, "R9000"), ("C00200000", "R9000"),
        ("C002C00020D31323334353637383534333231", "R9000"), ("C00200002", "R63C3"), ("C00200000", "R63C3"), ("C00200001", "R63C3"),
    ]);
}

#[test]
fn signing_after_a_refused_change() {
    let (sign, result) = (sign_line(), result_line());
    let (right, refused, wrong) = ("C00200002053132333435", "C002400020731323334353132", "C002400020A39393939393534333231");
    check(&mut Transcript::sample(), &[
        (refused, "R6A80"), ("C00200002", "R63C3"), (&sign, "R6982"), (right, "R9000"), (refused, "R6A80"), ("C00200002", "R9000"),
        (&sign, "J2 0100"), (&result, "R6100"), (right, "R9000"), (wrong, "R63C2"), ("C00200002", "R63C2"), (&sign, "R6982"),
        (refused, "R6A80"), ("C00200002", "R63C2"), (wrong, "R63C1"), (wrong, "R63C0"), (wrong, "R6983"), (refused, "R6983"),
        ("C00200002", "R6983"), (&sign, "R6982"),
    ]);
}

/// "Le that isn't needed is ignored."
#[test]
fn a_change_with_le_opens_the_code() {
    let change = "C002400020A3132333435353433323100";
    check(&mut Transcript::sample(), &[(change, "R9000"), ("C00200002", "R9000"), (&sign_line(), "J2 0100")]);
}

/// The writer writes no mark.
#[test]
fn a_changed_code_is_closed_when_the_image_is_loaded() {
    let mut stand_in = StandIn::sample();
    check(&mut stand_in, &[("C002400020A31323334353534333231", "R9000"), ("C00200002", "R9000")]);
    let image = stand_in.line(b"I");
    let reload = format!("L{}", &image[1..]);
    check(&mut stand_in, &[
        ("C00200002", "R9000"), (&reload, "L"), ("C00200002", "R63C3"), (&sign_line(), "R6982"),
        ("C00200002053534333231", "R9000"), ("I", &image),
    ]);
}
