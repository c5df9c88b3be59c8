//! Reads of a certificate, for both generators: near its end, and block by block.

use crate::generate::{Generator, Played};

/// The most whole blocks of a reading that begins at the start.
const MOST_BLOCKS: usize = 12;

impl<S: Played> Generator<S> {
    pub(crate) fn read_binary(&mut self, offset: usize, le: Option<u8>) {
        let [p1, p2] = (offset as u16).to_be_bytes();
        self.send(0x00, 0xB0, p1, p2, &[], le);
    }

    /// Mostly one less, the number itself or one more, where a Le can say it.
    pub(crate) fn le_near(&mut self, n: usize) -> Option<u8> {
        let r = &mut self.random;
        let any = r.byte();
        let near = match r.pick(&[n.saturating_sub(1), n, n + 1]) {
            near @ 1..=256 => near as u8,
            _ => any,
        };
        r.pick(&[Some(near), Some(near), Some(near), Some(0), Some(0), Some(1), Some(0xFF), Some(any), None])
    }

    /// The last bytes of a certificate of this length, with a Le around their number; sometimes
    /// at its end or one past it.
    pub(crate) fn read_near_end(&mut self, length: usize) {
        let r = &mut self.random;
        let any = r.between(1, 300);
        let remaining = r.pick(&[1, 1, 2, 254, 254, 255, 255, 256, 256, 257, any, any, any]).min(length);
        let offset = match r.below(10) {
            0 => length,
            1 => length + 1,
            _ => length - remaining,
        };
        let le = self.le_near(remaining);
        self.read_binary(offset, le);
    }

    /// More than remains of the current file, if it is a certificate.
    pub(crate) fn read_over_end(&mut self) {
        if let Some(length) = self.session.certificate_length() {
            let remaining = self.random.between(1, 254).min(length);
            let le = self.random.between(remaining + 1, 255);
            self.read_binary(length - remaining, Some(le as u8));
        }
    }

    /// One of the certificates in blocks.
    pub(crate) fn browse_in_blocks(&mut self) {
        let file = self.random.pick(&[[0xAA, 0xCE], [0xDD, 0xCE]]);
        self.choose_file(file);
        self.read_in_blocks();
    }

    /// The current file, if it is a certificate, in blocks of one size, each where the one before
    /// ended, until one is short or past the end.
    pub(crate) fn read_in_blocks(&mut self) {
        let Some(length) = self.session.certificate_length() else {
            return;
        };
        let (mut offset, block) = self.start_and_block(length);
        self.read_binary(offset, Some(block as u8));
        while offset + block <= length {
            offset += block;
            self.read_binary(offset, Some(block as u8));
        }
    }

    /// Where a reading begins, the start or near the end, and its size of blocks, 1 to 255. About
    /// half of them have a whole block that ends where the certificate does.
    fn start_and_block(&mut self, length: usize) -> (usize, usize) {
        let r = &mut self.random;
        let few: Vec<usize> = (1..=255).filter(|block| length / block <= MOST_BLOCKS).collect();
        let fitting: Vec<usize> = few.iter().copied().filter(|block| length % block == 0).collect();
        let any = r.between(1, 255);
        let block = r.pick(&[1, 255, any, any, any, any]);
        let whole = block * r.below(6);
        match r.below(8) {
            0 if few.contains(&200) => (0, 200),
            0 | 1 => (0, r.pick(&few)),
            2 | 3 if !fitting.is_empty() => (0, r.pick(&fitting)),
            2..=5 => (length.saturating_sub(whole), block),
            _ => (length.saturating_sub(whole + r.below(block)), block),
        }
    }
}
