//! Document 02's wish 6: the last section of a card image, in load, in the writer and in what the
//! programs print of it.

mod cards;

use cards::own_image;
use second::listing::listing;
use second::state::*;
use second::writer::rewritten;
use second::{hex, load, sample, write_image, CardState};

/// Two images without the section.
fn images() -> [Vec<u8>; 2] {
    [sample::image(), own_image()]
}

fn followed(image: &[u8], more: &[u8]) -> Vec<u8> {
    [image, more].concat()
}

fn with_counts(image: &[u8], counts: [u8; 2]) -> CardState {
    let mut card = load(image).0;
    card.unblocking_counts = counts;
    card
}

fn written(card: &CardState) -> Vec<u8> {
    let mut buffer = [0xEE; 1118];
    let length = write_image(card, &mut buffer).unwrap();
    buffer[..length].to_vec()
}

/// "An image that ends after the personal records means A5h for both"
#[test]
fn without_the_section_there_is_no_limit() {
    for image in images() {
        assert_eq!(load(&image), (with_counts(&image, [0xA5; 2]), 0));
        assert_eq!(written(&load(&image).0), image);
    }
}

/// "28 for a byte over A5h as it is read, or for A5h twice"
#[test]
fn every_two_counts() {
    for image in images() {
        for (pin1, pin2) in (0..=255).flat_map(|pin1| (0..=255).map(move |pin2| (pin1, pin2))) {
            let whole = followed(&image, &[2, pin1, pin2]);
            let (card, number) = load(&whole);
            if pin1 > 0xA5 || pin2 > 0xA5 || (pin1, pin2) == (0xA5, 0xA5) {
                assert_eq!((card, number), (CardState::ZERO, 28), "{pin1} {pin2}");
            } else {
                assert_eq!((&card, number), (&with_counts(&image, [pin1, pin2]), 0), "{pin1} {pin2}");
                assert_eq!(written(&card), whole);
            }
        }
    }
}

/// "22 for another count", where document 01 had 27.
#[test]
fn another_count_is_22() {
    for image in images() {
        for count in (0..=255).filter(|count| *count != 2) {
            for more in [&[][..], &[0], &[0, 0], &[0xA5, 0xA5], &[0xA6], &[0, 0, 0], &[2, 0, 0]] {
                assert_eq!(load(&followed(&image, &followed(&[count], more))), (CardState::ZERO, 22), "{count} {more:?}");
            }
        }
    }
}

/// "21 for a missing byte", but a byte is judged before the next one is missed.
#[test]
fn a_missing_byte_is_21() {
    for image in images() {
        assert_eq!(load(&followed(&image, &[2])), (CardState::ZERO, 21));
        for first in 0..=255 {
            let number = if first > 0xA5 { 28 } else { 21 };
            assert_eq!(load(&followed(&image, &[2, first])), (CardState::ZERO, number), "{first}");
        }
    }
}

/// 28 comes "before 27", and 27 is for bytes behind a section that is good.
#[test]
fn bytes_behind_the_section() {
    for image in images() {
        for more in [&[0][..], &[2], &[0xA5], &[0; 3], &[2, 0, 0], &[0xFF; 2000]] {
            for (section, number) in [
                ([2, 0, 0], 27), ([2, 0xA5, 0], 27), ([2, 0, 0xA5], 27), ([2, 0xA4, 0xA5], 27), ([2, 0xA5, 0xA4], 27), ([2, 0xA4, 0xA4], 27),
                ([2, 0xA5, 0xA5], 28), ([2, 0xA6, 0], 28), ([2, 0, 0xA6], 28), ([2, 0xFF, 0xFF], 28), ([3, 0, 0], 22), ([1, 0xA6, 0xA6], 22),
            ] {
                assert_eq!(load(&followed(&image, &followed(&section, more))), (CardState::ZERO, number), "{section:?}");
            }
        }
    }
}

/// "First fault in reading order": whatever the section is, a fault before it counts.
#[test]
fn faults_before_the_section_come_first() {
    let sections: [&[u8]; 6] = [&[], &[2, 0, 0], &[2, 0xA5, 0xA5], &[2, 0xA6, 0], &[3], &[2]];
    for (at, byte, number) in [(0, 2, 22), (10, 4, 23), (16, 9, 23), (25, 3, 24), (39, 0, 25), (51, 15, 22), (52, 0, 26), (82, 65, 26)] {
        for section in sections {
            let mut image = followed(&sample::image(), section);
            image[at] = byte;
            assert_eq!(load(&image), (CardState::ZERO, number), "{at} {section:?}");
        }
    }
}

/// Bytes are what their place makes them: after fifteen records the section is the sixteenth, and after
/// seventeen the last one may be the section.
#[test]
fn a_record_too_few_or_too_many_may_load() {
    let image = sample::image();
    let (card, number) = load(&followed(&image[..82], &[2, 0, 3]));
    assert_eq!((number, card.records[15].get(), card.unblocking_counts), (0, &[0, 3][..], [0xA5; 2]));
    let (card, number) = load(&followed(&image, &[2, 0x20, 0x20]));
    assert_eq!((number, card.records[15].get(), card.unblocking_counts), (0, &[0x20][..], [0x20; 2]));
    assert_eq!(load(&followed(&image, &[1, 0x20])).1, 22);
    assert_eq!(load(&followed(&image[..82], &[2, 0])).1, 21);
    assert_eq!(load(&followed(&image[..82], &[2, 0, 3, 2, 0, 3])).0.unblocking_counts, [0, 3]);
}

/// "leaves the section out when both are A5h"
#[test]
fn the_writer_leaves_the_section_out_only_without_limits() {
    for image in images() {
        for (pin1, pin2) in (0..=NO_LIMIT).flat_map(|pin1| (0..=NO_LIMIT).map(move |pin2| (pin1, pin2))) {
            let card = with_counts(&image, [pin1, pin2]);
            let section: &[u8] = if (pin1, pin2) == (0xA5, 0xA5) { &[] } else { &[2, pin1, pin2] };
            assert_eq!(written(&card), followed(&image, section));
            assert_eq!(load(&written(&card)), (card, 0));
        }
    }
}

#[test]
fn the_writer_needs_1118_bytes_with_the_section_and_without() {
    for counts in [[0xA5, 0xA5], [0, 0], [0xA5, 3]] {
        let card = with_counts(&sample::image(), counts);
        for size in [0, 84, 87, 258, 1114, 1115, 1116, 1117] {
            let mut buffer = vec![0xEE; size];
            assert_eq!(write_image(&card, &mut buffer), Err(2), "{size}");
            assert_eq!(buffer, vec![0xEE; size]);
        }
        for size in [1118, 1119, 4096] {
            let mut buffer = vec![0xEE; size];
            let length = write_image(&card, &mut buffer).unwrap();
            assert_eq!(length, if counts == [0xA5; 2] { 84 } else { 87 });
            assert!(buffer[length..].iter().all(|byte| *byte == 0xEE));
        }
    }
}

#[test]
fn counts_that_are_not_good_are_not_written() {
    for counts in [[0xA6, 0], [0, 0xA6], [0xFF, 0xFF], [0xA5, 0xA6], [0xA6, 0xA5]] {
        for size in [0, 1117, 1118] {
            let mut buffer = vec![0xEE; size];
            assert_eq!(write_image(&with_counts(&own_image(), counts), &mut buffer), Err(1));
            assert_eq!(buffer, vec![0xEE; size]);
        }
    }
}

/// "so one state keeps one image"
#[test]
fn no_two_images_give_one_card() {
    let mut cards = vec![load(&sample::image()).0];
    for section in [[2, 0, 0], [2, 0, 0xA5], [2, 0xA5, 0], [2, 0xA4, 0xA5], [2, 0xA5, 0xA4], [2, 1, 2], [2, 2, 1]] {
        let (card, number) = load(&followed(&sample::image(), &section));
        assert_eq!(number, 0);
        assert!(!cards.contains(&card), "{section:?}");
        cards.push(card);
    }
}

#[test]
fn the_listing_ends_with_the_counts() {
    let lines = |section: &[u8]| listing(&followed(&own_image(), section));
    for (section, last) in [
        (&[][..], "unblocking 165 165"), (&[2, 0, 0], "unblocking 0 0"), (&[2, 1, 2], "unblocking 1 2"), (&[2, 0xA5, 0xA4], "unblocking 165 164"),
        (&[2, 10, 0xA5], "unblocking 10 165"),
    ] {
        let text = lines(section);
        assert_eq!(text.lines().count(), 22);
        assert!(text.ends_with(&format!("record {}\n{last}\n", "10".repeat(16))), "{text}");
    }
    for (section, number) in [(&[2][..], "21\n"), (&[3], "22\n"), (&[2, 0, 0, 0], "27\n"), (&[2, 0xA5, 0xA5], "28\n"), (&[2, 0xFF], "28\n")] {
        assert_eq!(lines(section), number);
    }
}

/// Each image comes back, or its number; what stands past 1,119 bytes changes nothing.
#[test]
fn images_with_the_section_are_rewritten() {
    for section in [&[2, 0, 0][..], &[2, 0xA5, 1], &[2, 0xA4, 0xA5], &[]] {
        let image = followed(&own_image(), section);
        assert_eq!(rewritten(&image), image);
    }
    for (section, number) in [(&[2][..], "21\n"), (&[0], "22\n"), (&[b'\n'], "22\n"), (&[2, 1, 1, b'\n'], "27\n"), (&[2, 0xA5, 0xA5], "28\n")] {
        assert_eq!(rewritten(&followed(&sample::image(), section)), number.as_bytes());
    }
    for section in [[2, 0, 0], [2, 0xA5, 0xA5], [2, 0xA6, 0], [3, 0, 0]] {
        let long = followed(&followed(&own_image(), &section), &vec![0x5A; 3000]);
        let expected = rewritten(&long[..1119]);
        for length in [1120, 2000, long.len()] {
            assert_eq!(rewritten(&long[..length]), expected);
        }
    }
}

/// The hex that a test author sees: the sample card, PIN1 with three unblockings left, PIN2 with none.
#[test]
fn the_section_byte_by_byte() {
    let image = hex::decode(format!("{}020300", hex::encode(&sample::image())).as_bytes()).unwrap();
    let (card, number) = load(&image);
    assert_eq!((image.len(), number), (87, 0));
    assert_eq!((card.unblocking_count(PIN1), card.unblocking_count(PIN2)), (3, 0));
}
