//! Data for SIGN, for both generators: digests, and what comes near one, case by case in turn.

use crate::digests::digest_heads;
use crate::digests_signed::{near_digests, Kind};
use crate::generate::{Generator, Played};

/// The cases that two seeds next to each other begin with lie so far apart.
const APART: usize = 25;

/// Where a seed begins among the cases.
pub(crate) fn first_near_digest(seed: u64) -> usize {
    (seed as usize).wrapping_mul(APART)
}

impl<S: Played> Generator<S> {
    /// A digest of the list.
    pub(crate) fn digest(&mut self) -> Vec<u8> {
        let (head, hash) = self.random.pick(&digest_heads());
        [head, self.random.bytes(hash)].concat()
    }

    /// A digest cut short, with a byte more or with a bit of its head changed, or any bytes.
    pub(crate) fn spoilt_digest(&mut self) -> Vec<u8> {
        let (head, hash) = self.random.pick(&digest_heads());
        let mut digest = [&head[..], &self.random.bytes(hash)].concat();
        match self.random.below(4) {
            0 => digest.truncate(self.random.between(1, digest.len() - 1)),
            1 => digest.push(self.random.byte()),
            2 => digest[self.random.below(head.len())] ^= 1 << self.random.below(8),
            _ => {
                let n = self.random.between(1, 255);
                digest = self.random.bytes(n);
            }
        }
        digest
    }

    /// The next few cases; where a job waits, none. The lines are not damaged, and no others come
    /// between them.
    pub(crate) fn sign_near_digests(&mut self) {
        if self.session.card().job.is_some() {
            return;
        }
        for _ in 0..self.random.between(1, 8) {
            let data = self.near_digest();
            let le = self.maybe_le();
            self.send_alone([0x00, 0x2A, 0x9E, 0x9A], &data, le);
        }
    }

    fn near_digest(&mut self) -> Vec<u8> {
        let cases = near_digests();
        let Kind { mut head, changed, hash, .. } = cases[self.next_near_digest % cases.len()].clone();
        self.next_near_digest = self.next_near_digest.wrapping_add(1);
        if let Some(place) = changed {
            head[place] ^= self.random.between(1, 255) as u8;
        }
        [head, self.random.bytes(hash)].concat()
    }
}
