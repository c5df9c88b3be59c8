//! That generated lines reach what they should.

use std::collections::BTreeSet;
use std::fmt::Debug;

pub fn check_all<T: Ord + Debug>(seen: BTreeSet<T>, expected: impl IntoIterator<Item = T>) {
    let missing: Vec<T> = expected.into_iter().filter(|thing| !seen.contains(thing)).collect();
    assert!(missing.is_empty(), "seen {seen:?}\nmissing {missing:#?}");
}
