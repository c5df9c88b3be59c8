//! The last section of card images in kinds, so that a run can be asked which of them it had.

use crate::image::behind_records;
use crate::state::NO_LIMIT;
use std::collections::BTreeMap;

/// The counts that are wanted of each PIN.
pub const COUNTS: [u8; 5] = [0, 1, 2, NO_LIMIT - 1, NO_LIMIT];

/// Kinds of images with their load number; counts that load are named by themselves.
const FAULTY: [(&str, u8); 10] = [
    ("another count", 22),
    ("the count alone", 21),
    ("one byte", 21),
    ("PIN1 over A5h", 28),
    ("PIN1 over A5h at the end", 28),
    ("PIN2 over A5h", 28),
    ("PIN2 over A5h and more", 28),
    ("A5h twice", 28),
    ("A5h twice and more", 28),
    ("bytes behind it", 27),
];

/// None where the image has a fault before its last section.
pub fn kinds(image: &[u8]) -> Vec<String> {
    let named = |name: &str| vec![name.to_string()];
    match behind_records(image) {
        None => vec![],
        Some([]) => named("none"),
        Some([2]) => named("the count alone"),
        Some([2, 0xA6..=0xFF]) => named("PIN1 over A5h at the end"),
        Some([2, _]) => named("one byte"),
        Some([2, 0xA6..=0xFF, ..]) => named("PIN1 over A5h"),
        Some([2, _, 0xA6..=0xFF]) => named("PIN2 over A5h"),
        Some([2, _, 0xA6..=0xFF, ..]) => named("PIN2 over A5h and more"),
        Some([2, NO_LIMIT, NO_LIMIT]) => named("A5h twice"),
        Some([2, NO_LIMIT, NO_LIMIT, ..]) => named("A5h twice and more"),
        Some([2, pin1, pin2]) => vec![format!("PIN1 {pin1}"), format!("PIN2 {pin2}")],
        Some([2, ..]) => named("bytes behind it"),
        Some(_) => named("another count"),
    }
}

/// Each kind with its load number, 0 for those that load.
pub fn wanted() -> Vec<(String, u8)> {
    let mut wanted = vec![("none".to_string(), 0)];
    for count in COUNTS {
        wanted.extend([(format!("PIN1 {count}"), 0), (format!("PIN2 {count}"), 0)]);
    }
    wanted.extend(FAULTY.map(|(name, number)| (name.to_string(), number)));
    wanted
}

/// How many images had each of the kinds that are wanted.
pub struct Counts(BTreeMap<String, usize>);

impl Counts {
    pub fn new() -> Self {
        Counts(wanted().into_iter().map(|(kind, _)| (kind, 0)).collect())
    }

    pub fn add(&mut self, image: &[u8]) {
        for kind in kinds(image) {
            self.0.entry(kind).and_modify(|count| *count += 1);
        }
    }

    /// As "section A5h twice: 3".
    pub fn lines(&self) -> Vec<String> {
        self.0.iter().map(|(kind, count)| format!("section {kind}: {count}")).collect()
    }
}

impl Default for Counts {
    fn default() -> Self {
        Counts::new()
    }
}
