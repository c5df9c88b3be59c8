//! Load faults 21 to 28, edge refusals and good states.

mod states;

use second::state::*;
use second::{command, delivery, load, power_reset, sample, write_image, CardState, Certificates, Outcome};
use states::bad_states;

fn changed(at: usize, byte: u8) -> u8 {
    let mut image = sample::image();
    image[at] = byte;
    load(&image).1
}

#[test]
fn load_accepts_the_sample() {
    let (card, number) = load(&sample::image());
    assert_eq!((number, sample::image().len()), (0, 84));
    assert!(card.is_good() && card.environment == 1 && card.file.is_none());
    assert_eq!(card.active_key(KeyClass::Signature), 0x0100);
    assert_eq!(card.active_key(KeyClass::Authentication), 0x1100);
}

#[test]
fn load_21_ends_early() {
    for n in 0..84 {
        let (card, number) = load(&sample::image()[..n]);
        assert_eq!((number, card == CardState::ZERO), (21, true), "{n}");
    }
    assert!(!CardState::ZERO.is_good());
}

#[test]
fn load_22_counts() {
    for at in [0, 24, 29, 51] {
        assert_eq!(changed(at, 99), 22, "{at}");
    }
    assert_eq!((changed(24, 1), changed(24, 5)), (22, 22));
}

#[test]
fn load_23_codes() {
    for (at, byte) in [(1, 7), (1, 13), (2, 0x2F), (9, 0x3A), (10, 4), (11, 3), (16, 255), (17, 4), (23, 4)] {
        assert_eq!(changed(at, byte), 23, "{at}");
    }
    assert_eq!((changed(10, 0), changed(16, 2)), (0, 0));
}

#[test]
fn load_24_keys() {
    assert_eq!((changed(25, 3), changed(26, 1), changed(25, 0x11), changed(25, 0x12)), (24, 24, 24, 24));
    assert_eq!(changed(27, 0x02), 24); // 0100h, 0200h: no authentication key
    let mut image = sample::image();
    image[27] = 0x02;
    assert_eq!((load(&image[..29]).1, load(&image[..28]).1), (24, 21));
}

#[test]
fn load_25_references() {
    assert_eq!((changed(39, 0x12), changed(39, 0x01), changed(49, 0x11), changed(50, 1)), (25, 25, 25, 25));
    let mut image = sample::image();
    image[39] = 0;
    assert_eq!((load(&image[..51]).1, load(&image[..50]).1), (25, 21));
}

#[test]
fn load_26_records() {
    assert_eq!((changed(52, 0), changed(82, 65), changed(82, 64)), (26, 26, 21));
}

#[test]
fn load_27_and_28() {
    let followed = |more: &[u8]| load(&[&sample::image()[..], more].concat()).1;
    assert_eq!((followed(&[0]), followed(&[2]), followed(&[2, 0]), followed(&[2, 0, 0])), (22, 21, 21, 0));
    assert_eq!((followed(&[2, 0, 0, 0]), followed(&[2, 0xA5, 0xA5]), followed(&[2, 0xA6]), followed(&[2, 0, 0xA6])), (27, 28, 28, 28));
}

#[test]
fn edge_refusals_come_in_order() {
    let long = [0u8; 1537];
    let lend = |authentication, signature| Certificates { authentication, signature };
    let good = lend(&long[..1], &long[..1536]);
    let bad = lend(&long[..0], &long[..1]);
    let mut buffer = [0xEE; 258];
    let mut card = load(&sample::image()).0;
    let before = card.clone();
    let reply = command(&mut card, &[], bad, &mut buffer[..257]);
    assert_eq!(reply, Outcome::Refused(2));
    assert_eq!(command(&mut card, &[], bad, &mut buffer), Outcome::Refused(3));
    assert_eq!(command(&mut card, &[], lend(&long[..1], &long), &mut buffer), Outcome::Refused(3));
    assert_eq!(delivery(&mut card, &[], &mut buffer[..257]), Outcome::Refused(2));
    assert_eq!(delivery(&mut card, &[], &mut buffer), Outcome::Refused(5));
    card.job = Some(Job { kind: 2, key: 0x0100, le: None });
    assert_eq!(command(&mut card, &[], bad, &mut buffer), Outcome::Refused(3));
    assert_eq!(command(&mut card, &[], good, &mut buffer), Outcome::Refused(4));
    let mut zero = CardState::ZERO;
    assert_eq!(command(&mut zero, &[], bad, &mut []), Outcome::Refused(1));
    assert_eq!(delivery(&mut zero, &[], &mut []), Outcome::Refused(1));
    assert_eq!((power_reset(&mut zero), zero == CardState::ZERO), (1, true));
    assert_eq!(buffer, [0xEE; 258]);
    assert_eq!((power_reset(&mut card), card == before), (0, true));
    assert_eq!(command(&mut card, &[], good, &mut buffer), Outcome::Response(2));
    assert_eq!((buffer[0], buffer[1], buffer[2]), (0x67, 0x00, 0xEE));
}

#[test]
fn bad_states_are_refused_by_every_call() {
    let lent = Certificates { authentication: &[0x30], signature: &[0x30] };
    for (name, bad) in bad_states() {
        let mut card = bad.clone();
        let mut buffer = [0xEE; 2000];
        assert!(!card.is_good(), "{name}");
        assert_eq!(command(&mut card, &[0x00, 0xA4, 0x00, 0x0C], lent, &mut buffer), Outcome::Refused(1), "{name}");
        assert_eq!(delivery(&mut card, &[0; 256], &mut buffer), Outcome::Refused(1), "{name}");
        assert_eq!(power_reset(&mut card), 1, "{name}");
        assert_eq!(write_image(&card, &mut buffer), Err(1), "{name}");
        assert_eq!((card, buffer), (bad, [0xEE; 2000]), "{name}");
    }
}

#[test]
fn good_states() {
    let mut card = load(&sample::image()).0;
    card.job = Some(Job { kind: 2, key: 0x0100, le: Some(256) });
    card.environment = 6;
    assert!(card.is_good());
    for record in 0..RECORDS {
        for length in 1..=LONGEST_RECORD {
            card.records[record] = Bytes::of(&vec![0; length]);
            assert!(card.is_good(), "{record} {length}");
        }
    }
}

#[test]
fn a_read_over_the_end_writes_data_and_word_alone() {
    let certificate: Vec<u8> = (0..254).collect();
    let lent = Certificates { authentication: &certificate, signature: &[0x5A] };
    for offset in [0, 1, 252, 253] {
        let mut buffer = [0xEE; 300];
        let mut card = load(&sample::image()).0;
        (card.directory, card.file) = (Directory::Eeee, Some(File::AuthenticationCertificate));
        let before = card.clone();
        let rest = &certificate[offset..];
        let expected = [rest, &[0x62, 0x82], &[0xEE; 300][rest.len() + 2..]].concat();
        assert_eq!(command(&mut card, &[0x00, 0xB0, 0x00, offset as u8, 0xFF], lent, &mut buffer), Outcome::Response(rest.len() + 2));
        assert_eq!((&buffer[..], &card), (&expected[..], &before));
    }
}
