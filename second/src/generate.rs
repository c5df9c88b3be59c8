//! A generator of lines. It plays each line on a session of its own, so that it
//! knows the present codes, the waiting job and the held answer.

use crate::generate_changing::first_case;
use crate::generate_digests::first_near_digest;
use crate::state::{shortest_code, DECIPHER, LONGEST_CODE, PIN1, PIN2, PUK};
use crate::{hex, padding, CardState};
use std::collections::VecDeque;

/// splitmix64
pub struct Random(pub u64);

impl Random {
    pub fn next(&mut self) -> u64 {
        self.0 = self.0.wrapping_add(0x9E37_79B9_7F4A_7C15);
        let mut z = self.0;
        z = (z ^ (z >> 30)).wrapping_mul(0xBF58_476D_1CE4_E5B9);
        z = (z ^ (z >> 27)).wrapping_mul(0x94D0_49BB_1331_11EB);
        z ^ (z >> 31)
    }

    /// 0 to n-1.
    pub fn below(&mut self, n: usize) -> usize {
        (self.next() % n as u64) as usize
    }

    pub fn between(&mut self, low: usize, high: usize) -> usize {
        low + self.below(high - low + 1)
    }

    pub fn percent(&mut self, p: usize) -> bool {
        self.below(100) < p
    }

    pub fn byte(&mut self) -> u8 {
        self.next() as u8
    }

    pub fn bytes(&mut self, n: usize) -> Vec<u8> {
        (0..n).map(|_| self.byte()).collect()
    }

    pub fn digits(&mut self, n: usize) -> Vec<u8> {
        (0..n).map(|_| b'0' + self.below(10) as u8).collect()
    }

    pub fn pick<T: Clone>(&mut self, list: &[T]) -> T {
        list[self.below(list.len())].clone()
    }
}

/// What lines are played on, with what is its own in making them.
pub trait Played: Clone {
    fn play(&mut self, line: &[u8]);
    fn card(&self) -> &CardState;
    /// The length of the current file, if it is a certificate.
    fn certificate_length(&self) -> Option<usize>;
    /// Whether the line that leads to `after` is not to be given out.
    fn holds_back(generator: &Generator<Self>, after: &Self) -> bool;
    fn malformed(random: &mut Random) -> Vec<u8>;
    /// One or a few lines in the midst of others.
    fn interruption(generator: &mut Generator<Self>);
    /// What comes, now and then, between a job and its result.
    fn before_delivery(generator: &mut Generator<Self>);
    /// A read of the current file.
    fn read(generator: &mut Generator<Self>);
    fn scenario(generator: &mut Generator<Self>);
}

pub struct Generator<S> {
    pub(crate) random: Random,
    pub(crate) session: S,
    pub(crate) made: usize,
    /// Goes through the cases of `generate_changing`.
    pub(crate) next_case: usize,
    /// Goes through the cases of `generate_digests`.
    pub(crate) next_near_digest: usize,
    pending: VecDeque<Vec<u8>>,
}

impl<S: Played> Generator<S> {
    pub(crate) fn on(session: S, seed: u64) -> Self {
        Generator {
            random: Random(seed),
            session,
            made: 0,
            next_case: first_case(seed),
            next_near_digest: first_near_digest(seed),
            pending: VecDeque::new(),
        }
    }

    pub(crate) fn line(&mut self, line: Vec<u8>) {
        let mut after = self.session.clone();
        after.play(&line);
        if S::holds_back(self, &after) {
            return;
        }
        self.session = after;
        self.made += 1;
        self.pending.push_back(line);
    }

    pub(crate) fn call(&mut self, letter: u8, bytes: &[u8]) {
        let mut line = vec![letter];
        line.extend(hex::encode(bytes).bytes());
        self.line(line);
    }

    /// A command line, now and then damaged or preceded by another line.
    pub(crate) fn send(&mut self, class: u8, ins: u8, p1: u8, p2: u8, data: &[u8], le: Option<u8>) {
        if self.random.percent(3) {
            S::interruption(self);
        }
        let mut apdu = apdu([class, ins, p1, p2], data, le);
        if self.random.percent(5) {
            self.damage(&mut apdu);
        }
        self.call(b'C', &apdu);
    }

    /// A command line, neither damaged nor preceded by another line.
    pub(crate) fn send_alone(&mut self, header: [u8; 4], data: &[u8], le: Option<u8>) {
        self.call(b'C', &apdu(header, data, le));
    }

    fn damage(&mut self, apdu: &mut Vec<u8>) {
        let r = &mut self.random;
        match r.below(9) {
            0 => apdu[0] = r.pick(&[0x10, 0x10, 0x80, 0x01, 0xFF]),
            1 => apdu[1] = r.pick(&[0xA4, 0xB2, 0xB0, 0xC0, 0x20, 0x24, 0x2C, 0x22, 0x88, 0x2A, 0x84, 0xCA, 0x00]),
            2 => apdu[2] = r.pick(&[0x00, 0x01, 0x02, 0x03, 0x41, 0xF3, 0x80, 0x9E, 0x7F, 0xFF]),
            3 => apdu[3] = r.pick(&[0x00, 0x01, 0x02, 0x03, 0x04, 0x06, 0x0C, 0xA4, 0xB6, 0xB8, 0x86, 0x9A]),
            4 => apdu.truncate(r.below(apdu.len())),
            5 => apdu.push(r.byte()),
            6 if apdu.len() > 4 => apdu[4] = r.pick(&[0, 1, apdu[4].wrapping_sub(1), apdu[4].wrapping_add(1)]),
            7 => {
                let at = r.below(apdu.len());
                apdu[at] = r.byte();
            }
            _ => {
                let at = r.below(apdu.len());
                apdu[at] ^= 1 << r.below(8);
            }
        }
    }

    /// A single line that may drop a held answer or a chain, or do nothing.
    pub(crate) fn single_interruption(&mut self) {
        match self.random.below(8) {
            0 => self.line(b"P".to_vec()),
            1 => self.malformed(),
            2 => self.call(b'D', &[]),
            3 => self.call(b'C', &[]),
            4 => self.call(b'C', &[0x00, 0xA4, 0x00, 0x0C]),
            5 => self.call(b'C', &[0x00, 0xC0, 0x00, 0x00, 0x01]),
            6 => {
                let code = self.any_code();
                self.ask_about(code);
            }
            _ => self.call(b'C', &[0x00, 0x22, 0xF3, 0x02]),
        }
    }

    pub(crate) fn malformed(&mut self) {
        let line = S::malformed(&mut self.random);
        self.line(line);
    }

    pub(crate) fn maybe_le(&mut self) -> Option<u8> {
        let le = self.random.byte();
        self.random.pick(&[None, Some(0), Some(0), Some(0), Some(1), Some(0xFF), Some(le)])
    }

    pub(crate) fn stored(&self, code: usize) -> Vec<u8> {
        self.session.card().codes[code].value.get().to_vec()
    }

    /// A value for a code, the stored one with this chance.
    fn value(&mut self, code: usize, right: usize) -> Vec<u8> {
        let mut value = self.stored(code);
        if self.random.percent(right) {
            return value;
        }
        let r = &mut self.random;
        match r.below(6) {
            0 => value.truncate(r.between(1, value.len() - 1)),
            1 => value.push(r.pick(&[b'0', 0x00, 0xFF, b'9'])),
            2 => value = b"9999".to_vec(),
            3 => {
                let n = r.between(1, 14);
                value = r.digits(n);
            }
            4 => value.extend([0; 12]),
            _ => {
                let at = r.below(value.len());
                value[at] ^= r.pick(&[1, 2, 0x80]);
            }
        }
        value
    }

    /// A new value for a code, mostly allowed.
    fn new_value(&mut self, code: usize) -> Vec<u8> {
        if self.random.percent(55) { self.allowed_value(code) } else { self.refused_value(code) }
    }

    pub(crate) fn allowed_value(&mut self, code: usize) -> Vec<u8> {
        let shortest = shortest_code(code);
        let any = self.random.between(shortest, LONGEST_CODE);
        let n = self.random.pick(&[shortest, shortest, shortest + 1, 11, 12, 12, any]);
        self.random.digits(n)
    }

    /// Not of allowed length or, less often, not digits.
    pub(crate) fn refused_value(&mut self, code: usize) -> Vec<u8> {
        if self.random.percent(80) {
            let n = self.random.pick(&[shortest_code(code) - 1, 13, 0, 2]);
            return self.random.digits(n);
        }
        let mut value = self.allowed_value(code);
        let at = self.random.below(value.len());
        value[at] = self.random.pick(&[0x2F, 0x3A, 0x00, 0xFF, b'A']);
        value
    }

    pub(crate) fn any_code(&mut self) -> usize {
        self.random.pick(&[PUK, PIN1, PIN1, PIN2, PIN2])
    }

    /// Sometimes with queries before it, and one of the same code after it.
    pub(crate) fn verify(&mut self, code: usize, right: usize) {
        if self.random.percent(8) {
            self.ask();
        }
        let value = self.value(code, right);
        let le = self.random.pick(&[None, None, None, Some(0)]);
        self.send(0x00, 0x20, 0x00, code as u8, &value, le);
        if self.random.percent(20) {
            self.ask_about(code);
        }
    }

    /// VERIFY without data, for a code or for each of them.
    pub(crate) fn ask(&mut self) {
        if self.random.percent(40) {
            for code in [PUK, PIN1, PIN2] {
                self.ask_about(code);
            }
        } else {
            let code = self.any_code();
            self.ask_about(code);
        }
    }

    pub(crate) fn ask_about(&mut self, code: usize) {
        let le = self.random.pick(&[None, None, Some(0), Some(2)]);
        self.send(0x00, 0x20, 0x00, code as u8, &[], le);
    }

    /// Sometimes with a query of the same code after it.
    pub(crate) fn change(&mut self) {
        let code = self.any_code();
        let mut data = self.value(code, 75);
        data.extend(self.new_value(code));
        self.send(0x00, 0x24, 0x00, code as u8, &data, None);
        if self.random.percent(20) {
            self.ask_about(code);
        }
    }

    pub(crate) fn unblock(&mut self, pin: usize) {
        if self.random.percent(45) {
            if self.random.percent(75) {
                self.verify(PUK, 90);
            }
            let stray: &[u8] = if self.random.percent(5) { b"12345678" } else { &[] };
            self.send(0x00, 0x2C, 0x03, pin as u8, stray, None);
        } else {
            let mut data = self.value(PUK, 80);
            data.extend(self.new_value(pin));
            if self.random.percent(4) {
                data.clear();
            }
            self.send(0x00, 0x2C, 0x00, pin as u8, &data, None);
        }
    }

    pub(crate) fn block_and_unblock(&mut self) {
        let pin = self.random.pick(&[PIN1, PIN2]);
        for _ in 0..self.random.between(1, 5) {
            self.verify(pin, 5);
        }
        if self.random.percent(30) {
            self.read_code_records();
        }
        for _ in 0..self.random.between(1, 4) {
            if self.random.percent(25) {
                self.verify(PUK, 80);
            } else {
                self.unblock(pin);
            }
        }
    }

    pub(crate) fn read_code_records(&mut self) {
        self.send(0x00, 0xA4, 0x00, 0x0C, &[], None);
        self.send(0x00, 0xA4, 0x02, 0x0C, &[0x00, 0x16], None);
        for record in 1..=3 {
            self.send(0x00, 0xB2, record, 0x04, &[], Some(0));
        }
    }

    pub(crate) fn select(&mut self) {
        let id = self.random.pick(&[0x0016u16, 0x5044, 0x5044, 0x0033, 0xAACE, 0xDDCE, 0xEEEE, 0x3F00, 0x0000]);
        let id = id.to_be_bytes();
        let le = self.random.pick(&[None, None, Some(0)]);
        match self.random.below(10) {
            0 | 1 => self.send(0x00, 0xA4, 0x00, 0x0C, &[], le),
            2..=4 => self.send(0x00, 0xA4, 0x01, 0x0C, &[0xEE, 0xEE], le),
            5 => self.send(0x00, 0xA4, 0x01, 0x0C, &id, le),
            6 => self.send(0x00, 0xA4, 0x02, 0x0C, &id[..1], le),
            _ => self.send(0x00, 0xA4, 0x02, 0x0C, &id, le),
        }
    }

    /// Into EEEEh, to one of its files, and reads there.
    pub(crate) fn browse(&mut self) {
        let id = self.random.pick(&[0x5044u16, 0x0033, 0xAACE, 0xAACE, 0xDDCE, 0xDDCE]);
        self.choose_file(id.to_be_bytes());
        for _ in 0..self.random.between(1, 4) {
            S::read(self);
        }
    }

    /// A file of EEEEh.
    pub(crate) fn choose_file(&mut self, file: [u8; 2]) {
        self.send(0x00, 0xA4, 0x00, 0x0C, &[], None);
        self.send(0x00, 0xA4, 0x01, 0x0C, &[0xEE, 0xEE], None);
        self.send(0x00, 0xA4, 0x02, 0x0C, &file, None);
    }

    /// Takes what is held in pieces; sometimes a read of a certificate drops it before.
    pub(crate) fn get_responses(&mut self) {
        let in_certificate = self.session.certificate_length().is_some();
        if in_certificate && self.session.card().held.length > 0 && self.random.percent(15) {
            self.read_over_end();
            self.send(0x00, 0xC0, 0x00, 0x00, &[], Some(0));
        }
        for _ in 0..6 {
            let held = self.session.card().held.length;
            if held == 0 && !self.random.percent(10) {
                return;
            }
            let le = self.random.pick(&[0, 1, 2, 100, held.wrapping_sub(1) as u8, held as u8, held as u8 ^ 1]);
            self.send(0x00, 0xC0, 0x00, 0x00, &[], Some(le));
        }
    }

    pub(crate) fn environment(&mut self) {
        let number = self.random.pick(&[1, 1, 1, 6, 6, 6, 0, 2, 7, 0xFF]);
        self.send(0x00, 0x22, 0xF3, number, &[], None);
    }

    pub(crate) fn choose_key(&mut self) {
        let kind = self.random.pick(&[0xA4, 0xB6, 0xB8, 0xB8, 0xB4]);
        let key = self.random.pick(&[0x0100u16, 0x0200, 0x1100, 0x1200, 0x0300, 0x0000]).to_be_bytes();
        let mut data = vec![0x83, 0x03, 0x80, key[0], key[1]];
        match self.random.below(10) {
            0 | 1 => data = vec![0x83, 0x00],
            2 => data.truncate(4),
            3 => data.push(0x00),
            4 => data[self.random.below(3)] ^= 1,
            _ => {}
        }
        self.send(0x00, 0x22, 0x41, kind, &data, None);
    }

    pub(crate) fn authenticate(&mut self) {
        if self.random.percent(40) {
            self.send(0x00, 0x22, 0xF3, 0x01, &[], None);
        }
        if self.random.percent(70) {
            self.verify(PIN1, 95);
        }
        self.internal_authenticate();
    }

    /// The command alone, and a result.
    pub(crate) fn internal_authenticate(&mut self) {
        let n = self.random.pick(&[1, 20, 35, 51, 244, 245, 245, 246, 255, 0]);
        let data = self.random.bytes(n);
        let le = self.maybe_le();
        self.send(0x00, 0x88, 0x00, 0x00, &data, le);
        self.deliver();
    }

    pub(crate) fn sign(&mut self) {
        if self.random.percent(40) {
            self.send(0x00, 0x22, 0xF3, 0x01, &[], None);
        }
        if self.random.percent(75) {
            self.verify(PIN2, 95);
        }
        self.sign_digest();
    }

    /// The command alone, perhaps with data that comes near a digest before it, perhaps twice, and a
    /// result.
    pub(crate) fn sign_digest(&mut self) {
        if self.random.percent(25) {
            self.sign_near_digests();
        }
        let digest = if self.random.percent(15) { self.spoilt_digest() } else { self.digest() };
        let le = self.maybe_le();
        self.send(0x00, 0x2A, 0x9E, 0x9A, &digest, le);
        if self.session.card().job.is_none() || self.random.percent(85) {
            self.deliver();
        }
        if self.random.percent(25) {
            self.ask_about(PIN2);
        }
        if self.random.percent(30) {
            self.send(0x00, 0x2A, 0x9E, 0x9A, &digest, le); // PIN2 is closed now
            self.deliver();
        }
    }

    pub(crate) fn decipher(&mut self) {
        if self.random.percent(70) {
            self.send(0x00, 0x22, 0xF3, 0x06, &[], None);
            self.verify(PIN1, 95);
        }
        self.decipher_parts();
    }

    /// The commands of a chain alone, and a result.
    pub(crate) fn decipher_parts(&mut self) {
        let first = if self.random.percent(92) { 0 } else { 0x81 };
        let parts: &[usize] = self.random.pick(&[
            &[255, 2], &[255, 2], &[255, 2], &[255, 1], &[255, 3], &[128, 129], &[1, 255, 1], &[100, 100, 57], &[255, 1, 1],
            &[1, 254, 2], &[255, 2, 1], &[200, 200], &[2, 255], &[255, 255, 2], &[1], &[10, 10], &[255],
        ]);
        for (place, n) in parts.iter().enumerate() {
            let mut data = self.random.bytes(*n);
            if place == 0 {
                data[0] = first;
            }
            let mut class = if place + 1 < parts.len() { 0x10 } else { 0x00 };
            if self.random.percent(6) {
                class ^= 0x10;
            }
            if place > 0 && self.random.percent(6) {
                self.read_over_end();
            }
            let le = self.maybe_le();
            self.send(class, 0x2A, 0x80, 0x86, &data, le);
        }
        self.deliver();
    }

    /// A result of the key host; sometimes something else comes first.
    pub(crate) fn deliver(&mut self) {
        let Some(job) = self.session.card().job else {
            if self.random.percent(5) {
                self.call(b'D', &[0; 256]);
            }
            return;
        };
        S::before_delivery(self);
        let mut result = self.random.bytes(256);
        if job.kind == DECIPHER {
            result = self.deciphered();
        }
        match self.random.below(20) {
            0 => result.truncate(255),
            1 => result.push(0),
            2 => result.truncate(self.random.below(256)),
            _ => {}
        }
        self.call(b'D', &result);
        if self.random.percent(70) {
            self.get_responses();
        }
    }

    fn deciphered(&mut self) -> Vec<u8> {
        let r = &mut self.random;
        let n = r.pick(&[0, 0, 1, 16, 32, 128, 244, 245, 245, 246, 247]);
        let mut block = vec![0x00, 0x02];
        for _ in 0..253 - n {
            block.push(r.byte() | 1);
        }
        block.push(0x00);
        block.extend(r.bytes(n));
        if r.percent(25) {
            match r.below(4) {
                0 => block[0] = 0x01,
                1 => block[1] = r.pick(&[0x00, 0x01, 0x03]),
                2 => block[r.between(2, 10)] = 0x00,
                _ => block.iter_mut().for_each(|b| *b |= 2),
            }
        }
        debug_assert!(block.len() == padding::BLOCK);
        block
    }

    pub(crate) fn noise(&mut self) {
        let r = &mut self.random;
        let apdu = match r.below(5) {
            0 => vec![0xFF; r.pick(&[0, 1, 3, 4, 5, 6, 260, 261, 262])],
            1 => {
                let n = r.below(12);
                r.bytes(n)
            }
            2 => {
                let ins = r.pick(&[0xA4, 0xB2, 0xB0, 0xC0, 0x20, 0x24, 0x2C, 0x22, 0x88, 0x2A]);
                let n = r.pick(&[0, 1, 1, 2, 3]);
                let mut apdu = vec![r.pick(&[0x00, 0x00, 0x10]), ins, r.byte(), r.byte()];
                apdu.extend(r.bytes(n));
                apdu
            }
            3 => {
                let n = r.pick(&[1, 2, 254, 255]);
                let mut apdu = vec![0x00, r.byte(), 0x00, 0x00, n as u8];
                apdu.extend(r.bytes(n + 1));
                apdu
            }
            _ => vec![0x10, 0x20, 0x00, 0x01],
        };
        self.call(b'C', &apdu);
    }
}

fn apdu(header: [u8; 4], data: &[u8], le: Option<u8>) -> Vec<u8> {
    let mut apdu = header.to_vec();
    if !data.is_empty() {
        apdu.push(data.len() as u8);
        apdu.extend(data);
    }
    apdu.extend(le);
    apdu
}

impl<S: Played> Iterator for Generator<S> {
    type Item = Vec<u8>;

    /// Lines without their line feed; there is always a next one.
    fn next(&mut self) -> Option<Vec<u8>> {
        while self.pending.is_empty() {
            S::scenario(self);
        }
        self.pending.pop_front()
    }
}
