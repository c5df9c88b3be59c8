//! The line `I` in the generator of stand-in lines: with buffers around the size that the writer
//! needs, and with the image loaded again.

use crate::generate::Generator;
use crate::generate_stand_in::{PlayedStandIn, SMALLEST_BUFFER};
use crate::images::Parts;
use crate::state::*;
use crate::writer::{write_image, LONGEST_IMAGE};
use crate::CardState;

impl Generator<PlayedStandIn> {
    pub(crate) fn write(&mut self) {
        self.line(b"I".to_vec());
    }

    /// With a buffer around what the calls need, around what the writer needs, as long as the longest
    /// image without its last section, or the largest. On a good card one that the calls take comes
    /// after it.
    pub(crate) fn write_by_size(&mut self) {
        let sizes = [0, SMALLEST_BUFFER - 1, SMALLEST_BUFFER, 1115, LONGEST_IMAGE - 1, LONGEST_IMAGE, LONGEST_IMAGE + 1, 4096];
        let size = self.random.pick(&sizes);
        self.buffer(size);
        self.write();
        if size < SMALLEST_BUFFER && self.session.stand_in.card().is_good() {
            self.large_buffer();
        }
    }

    /// A card of the shortest or the longest image, with its last section or without, written, loaded
    /// and written again.
    pub(crate) fn write_shortest_or_longest(&mut self) {
        let r = &mut self.random;
        let parts = if r.percent(50) { Parts::shortest(r) } else { Parts::longest(r) };
        let image = if r.percent(60) { parts } else { parts.with_or_without_section(r) }.bytes();
        self.call(b'L', &image);
        self.make_room();
        self.write();
        self.call(b'L', &image);
        self.write();
    }

    pub(crate) fn make_room(&mut self) {
        if self.session.stand_in.buffer_length() < LONGEST_IMAGE {
            let size = self.random.pick(&[LONGEST_IMAGE, LONGEST_IMAGE, LONGEST_IMAGE + 1, 4096]);
            self.buffer(size);
        }
    }

    /// The card as it stands is written and loaded again. Then lines that show what load kept and
    /// what it ended, and the card is written once more.
    pub(crate) fn write_and_load(&mut self) {
        if self.session.stand_in.card().is_good() && self.random.percent(80) {
            self.change_codes();
            self.leave_in_session();
        }
        let before = self.session.stand_in.card().clone();
        self.load_what_is_written();
        if !before.is_good() {
            return;
        }
        if self.random.percent(40) {
            self.write();
        }
        self.look_for_session(&before);
        self.look_at_card(&before);
        self.write();
    }

    pub(crate) fn load_what_is_written(&mut self) {
        self.make_room();
        self.write();
        let mut image = [0; LONGEST_IMAGE];
        if let Ok(length) = write_image(self.session.stand_in.card(), &mut image) {
            self.call(b'L', &image[..length]);
        }
    }

    /// A code that CHANGE opened is asked about when the card is written and loaded again.
    pub(crate) fn change_and_load(&mut self) {
        if self.session.stand_in.card().is_good() {
            let code = self.random.below(3);
            self.make_room();
            self.change_rightly(code);
            self.load_what_is_written();
            self.ask_alone(code);
        }
    }

    /// New values and fewer tries, or neither.
    fn change_codes(&mut self) {
        for _ in 0..self.random.below(3) {
            match self.random.below(4) {
                0 => self.change(),
                1 => {
                    let pin = self.random.pick(&[PIN1, PIN2]);
                    self.block(pin);
                }
                _ => {
                    let code = self.any_code();
                    self.verify(code, 0);
                }
            }
        }
    }

    /// What is to be gone after a load: open codes, environment, choices, file, and then mostly a
    /// chain, a held answer or a job.
    fn leave_in_session(&mut self) {
        let code = self.any_code();
        self.verify(code, 100);
        match self.random.below(4) {
            0 => self.send(0x00, 0x22, 0xF3, 0x06, &[], None),
            1 => self.choose_inactive_key(),
            _ => self.select(),
        }
        match self.random.below(4) {
            0 => {
                let n = self.random.between(2, 255);
                self.send(0x10, 0x2A, 0x80, 0x86, &vec![0; n], None);
            }
            1 => {
                self.choose_file([0x50, 0x44]);
                self.send(0x00, 0xB2, 0x01, 0x04, &[], None);
            }
            2 => {
                self.verify(PIN1, 100);
                self.send(0x00, 0x88, 0x00, 0x00, &[0x5A], Some(0));
            }
            _ => {}
        }
    }

    /// A key of the card beside the active one of its class, if there is any.
    fn choose_inactive_key(&mut self) {
        let card = self.session.stand_in.card();
        let is_inactive = |key: &u16| key_class(*key).is_some_and(|class| card.active_key(class) != *key);
        let inactive: Vec<u16> = card.present_keys().iter().copied().filter(is_inactive).collect();
        if inactive.is_empty() {
            return;
        }
        let key = self.random.pick(&inactive);
        let p2 = if key_class(key) == Some(KeyClass::Signature) { 0xB6 } else { self.random.pick(&[0xA4, 0xA4, 0xB8]) };
        self.choose(p2, key);
    }

    fn choose(&mut self, p2: u8, key: u16) {
        let [high, low] = key.to_be_bytes();
        self.call(b'C', &[0x00, 0x22, 0x41, p2, 0x05, 0x83, 0x03, 0x80, high, low]);
    }

    /// Lines that would be answered otherwise if something of the session had stayed; what another
    /// line would drop is looked for first.
    fn look_for_session(&mut self, before: &CardState) {
        if before.job.is_some() {
            self.call(b'D', &[0; 256]);
        }
        if before.held.length > 0 {
            self.call(b'C', &[0x00, 0xC0, 0x00, 0x00, 0x00]);
        }
        if let missing @ 1..=255 = 257 - before.chain.length {
            let part = vec![0; missing];
            self.call(b'C', &[&[0x00, 0x2A, 0x80, 0x86, missing as u8], &part[..]].concat());
        }
        if before.directory == Directory::Eeee {
            self.call(b'C', &[0x00, 0xB2, 0x01, 0x04, 0x00]);
            self.call(b'C', &[0x00, 0xA4, 0x02, 0x0C, 0x02, 0x50, 0x44]);
        }
        for code in 0..3 {
            self.call(b'C', &[0x00, 0x20, 0x00, code]);
        }
    }

    fn look_at_card(&mut self, before: &CardState) {
        if (before.environment, before.choices) != (1, [0; 3]) && self.random.percent(70) {
            self.use_active_keys();
        }
        for _ in 0..self.random.between(1, 2) {
            match self.random.below(4) {
                0 => {
                    self.read_code_records();
                    self.choose_file([0x00, 0x33]);
                    self.send(0x00, 0xB2, 0x01, 0x04, &[], Some(0));
                }
                1 => self.read_each_personal_record(),
                2 => self.choose_each_key(),
                _ => self.use_active_keys(),
            }
        }
    }

    fn read_each_personal_record(&mut self) {
        self.choose_file([0x50, 0x44]);
        for number in 1..=RECORDS as u8 {
            self.call(b'C', &[0x00, 0xB2, number, 0x04, 0x00]);
        }
    }

    /// A key that the card has not is refused.
    fn choose_each_key(&mut self) {
        for (p2, key) in [(0xB6, 0x0100), (0xB6, 0x0200), (0xA4, 0x1100), (0xA4, 0x1200)] {
            self.choose(p2, key);
        }
    }

    /// With the codes as they are stored, and no environment or choice made since load.
    fn use_active_keys(&mut self) {
        let digest = self.digest();
        for code in 0..3 {
            let value = self.stored(code);
            self.call(b'C', &[&[0x00, 0x20, 0x00, code as u8, value.len() as u8], &value[..]].concat());
        }
        self.call(b'C', &[0x00, 0x88, 0x00, 0x00, 0x01, 0x5A]);
        self.call(b'D', &[0x5A; 256]);
        self.call(b'C', &[&[0x00, 0x2A, 0x9E, 0x9A, digest.len() as u8], &digest[..]].concat());
        self.call(b'D', &[0x5A; 256]);
    }
}
