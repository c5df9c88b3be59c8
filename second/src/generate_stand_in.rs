//! A generator of lines for the stand-in program: sessions on cards, certificates
//! and buffers of every kind, with the commands of `generate`.

use crate::generate::{Generator, Played, Random};
use crate::generate_unblocking::first_unblocking;
use crate::images::{self, Fault, Parts};
use crate::lines::LineProgram;
use crate::stand_in::{StandIn, LARGEST_BUFFER};
use crate::state::*;
use crate::{hex, CardState};

pub(crate) const SMALLEST_BUFFER: usize = 258;
const LONGEST_CERTIFICATE: usize = 1536;
/// The most bytes that a line has room for.
const MOST_BYTES: usize = 2047;

#[derive(Clone)]
pub struct PlayedStandIn {
    pub(crate) stand_in: StandIn,
    /// The next session begins when so many lines are made.
    pub(crate) session_ends: usize,
    /// Whether a command that would block PUK is held back, because nothing unblocks PUK.
    pub(crate) spares_puk: bool,
    /// Goes through the faults.
    turn: usize,
    /// Goes through the cases of `generate_unblocking`.
    pub(crate) next_unblocking: usize,
}

impl Generator<PlayedStandIn> {
    /// Begins with the card that the program starts with, and certificates as long as the program's.
    pub fn for_stand_in(seed: u64) -> Self {
        let certificate = vec![0x30; LONGEST_CERTIFICATE];
        let played = PlayedStandIn {
            stand_in: StandIn::new(certificate.clone(), certificate),
            session_ends: 40,
            spares_puk: true,
            turn: seed as usize,
            next_unblocking: first_unblocking(seed),
        };
        Self::on(played, seed)
    }
}

impl Played for PlayedStandIn {
    fn play(&mut self, line: &[u8]) {
        self.stand_in.line(line);
    }

    fn card(&self) -> &CardState {
        self.stand_in.card()
    }

    fn certificate_length(&self) -> Option<usize> {
        self.stand_in.current_certificate().map(<[u8]>::len)
    }

    fn holds_back(generator: &Generator<Self>, after: &Self) -> bool {
        let has_tries = |played: &Self| played.card().codes[PUK].tries > 0;
        after.spares_puk && has_tries(&generator.session) && !has_tries(after)
    }

    fn malformed(r: &mut Random) -> Vec<u8> {
        match r.below(11) {
            0 | 1 => spoiled_hex(r),
            2 => other_buffer(r),
            3 | 4 => too_long(r),
            5 => {
                let n = r.below(40);
                r.bytes(n).into_iter().filter(|byte| !b"\nL".contains(byte)).collect() // L alone would load no card
            }
            6 => {
                let letter = r.pick(b"EFGHJKMNOQRTUVWXYZlascdbpi0123456789?.- ");
                let n = r.below(4);
                line_of(letter, &r.bytes(n))
            }
            7 | 8 => other_image_line(r),
            _ => r.pick(&OTHER_LINES).to_vec(),
        }
    }

    fn interruption(generator: &mut Generator<Self>) {
        match generator.random.below(13) {
            0..=3 => generator.single_interruption(),
            4 | 5 => generator.small_buffer(),
            6 | 7 => generator.bad_certificate(),
            8 => generator.lend_good(),
            9 if generator.near_its_end() => generator.good_card(),
            10 | 11 => generator.write(),
            _ => generator.large_buffer(),
        }
    }

    fn before_delivery(generator: &mut Generator<Self>) {
        match generator.random.below(10) {
            0 => Self::interruption(generator),
            1 | 2 => generator.plain_command(),
            3 => generator.step(),
            4 | 5 if generator.near_its_end() => generator.next_session(),
            6 => generator.write(),
            _ => {}
        }
    }

    fn read(generator: &mut Generator<Self>) {
        match generator.session.certificate_length() {
            Some(length) if generator.random.percent(30) => generator.read_near_end(length),
            Some(length) if !generator.random.percent(8) => generator.read_part(length),
            None if generator.random.percent(8) => generator.read_part(LONGEST_CERTIFICATE),
            _ => generator.read_record(),
        }
    }

    fn scenario(generator: &mut Generator<Self>) {
        if generator.made >= generator.session.session_ends {
            match generator.random.below(20) {
                0..=3 => generator.write_and_load(),
                4 => generator.block_puk(),
                5 => generator.change_and_load(),
                _ => {}
            }
            generator.next_session();
            return;
        }
        generator.step();
        if generator.session.card().job.is_some() && generator.random.percent(70) {
            generator.deliver();
        }
    }
}

impl Generator<PlayedStandIn> {
    fn near_its_end(&self) -> bool {
        self.session.session_ends < self.made + 10
    }

    fn block_puk(&mut self) {
        self.session.spares_puk = false;
        if self.session.card().is_good() {
            self.lower_puk_and_ask(0);
        }
    }

    /// A card that load refuses, or a session on a good one.
    fn next_session(&mut self) {
        self.session.spares_puk = false;
        if self.random.percent(3) {
            self.write_shortest_or_longest();
        }
        match self.random.below(100) {
            0..=42 => self.refused_card(),
            43..=81 => self.good_card(),
            _ => self.unblock_around_limit(),
        }
    }

    /// The longer sessions have no low unblocking counts: a PIN that stays blocked shows little.
    fn good_card(&mut self) {
        let (least, most) = match self.random.below(100) {
            0..=61 => (5, 15),
            62..=87 => (20, 80),
            88..=97 => (100, 400),
            _ => (1000, 3000),
        };
        let parts = Parts::valid(&mut self.random);
        let image = if most > 80 { parts.with_high_counts() } else { parts }.bytes();
        self.call(b'L', &image);
        if self.random.percent(15) {
            self.write();
        }
        if self.random.percent(15) {
            // Nothing of the card before is left.
            self.call(b'D', &[0; 256]);
            self.call(b'C', &[0x00, 0xC0, 0x00, 0x00, 0x00]);
        }
        if self.random.percent(10) {
            self.edge_order();
        }
        self.make_usable();
        self.session.session_ends = self.made + self.random.between(least, most);
        self.session.spares_puk = self.random.percent(75);
    }

    /// Lends and sizes anew what would only be refused.
    pub(crate) fn make_usable(&mut self) {
        let good = 1..=LONGEST_CERTIFICATE;
        if !good.contains(&self.session.stand_in.authentication().len()) || self.random.percent(25) {
            self.lend_good_as(b'A');
        }
        if !good.contains(&self.session.stand_in.signature().len()) || self.random.percent(25) {
            self.lend_good_as(b'S');
        }
        if self.session.stand_in.buffer_length() < SMALLEST_BUFFER {
            self.large_buffer();
        }
    }

    fn refused_card(&mut self) {
        let image = self.damaged_image();
        self.call(b'L', &image);
        for _ in 0..self.random.between(1, 5) {
            self.line_for_refused_card();
        }
        self.session.session_ends = self.made;
    }

    /// Mostly the next fault in turn, or one of a number in turn.
    fn damaged_image(&mut self) -> Vec<u8> {
        let faults = Fault::all();
        let turn = self.session.turn;
        self.session.turn += 1;
        let r = &mut self.random;
        match r.below(20) {
            0..=4 => images::with_fault(r, faults[turn % faults.len()]),
            5..=9 => {
                let number = 22 + (turn % 7) as u8;
                let alike: Vec<Fault> = faults.into_iter().filter(|fault| fault.number() == number).collect();
                let fault = r.pick(&alike);
                images::with_fault(r, fault)
            }
            10 | 11 => images::with_two_faults(r),
            12..=15 => images::cut_short(r),
            16 | 17 => {
                let image = Parts::valid(r).bytes();
                images::mutated(r, image)
            }
            18 => {
                let length = r.pick(&[1119, MOST_BYTES - 1, MOST_BYTES]);
                images::filled_up(r, length)
            }
            _ => {
                let n = r.pick(&[0, 0, 1, 84, 1118, MOST_BYTES]);
                r.bytes(n)
            }
        }
    }

    fn line_for_refused_card(&mut self) {
        match self.random.below(14) {
            0 | 1 => self.line(b"P".to_vec()),
            2..=5 => self.plain_command(),
            6 | 7 => self.plain_delivery(),
            8 | 11 => self.write_by_size(),
            12 => self.write(),
            9 => {
                let letter = self.random.pick(b"AS");
                let length = self.random.pick(&[0, 1, LONGEST_CERTIFICATE, LONGEST_CERTIFICATE + 1]);
                self.lend(letter, length);
            }
            10 => self.malformed(),
            _ => {
                let image = self.damaged_image();
                self.call(b'L', &image);
            }
        }
    }

    fn step(&mut self) {
        match self.random.below(115) {
            0..=3 => self.malformed(),
            4 => self.line(b"P".to_vec()),
            5..=7 => self.noise(),
            8..=11 => self.select(),
            12..=16 => self.browse(),
            17 | 18 => self.read_personal_records(),
            19..=24 => PlayedStandIn::read(self),
            25 | 26 => self.get_responses(),
            27..=31 => {
                let code = self.any_code();
                self.verify(code, 75);
            }
            32..=35 => self.change(),
            36..=38 => {
                let pin = self.random.pick(&[PIN1, PIN2]);
                self.unblock(pin);
            }
            39..=41 => self.block_and_unblock(),
            42 | 43 | 106..=114 => self.change_or_unblock(),
            44 => self.read_code_records(),
            45..=47 => self.environment(),
            48..=50 => self.choose_key(),
            51..=53 => {
                let kind = self.random.pick(&[AUTHENTICATE, SIGN, DECIPHER]);
                self.choose_own_key(kind);
            }
            54..=56 => self.authenticate(),
            57..=60 => self.sign(),
            61..=65 => self.decipher(),
            66..=87 => self.use_own_key(),
            88 | 89 => self.lend_and_read(),
            90 => self.large_buffer(),
            91 | 92 => self.small_buffer(),
            93 | 94 => self.bad_certificate(),
            95 => self.edge_order(),
            96 => self.malformed_and_looked_for(),
            97 | 98 => self.longest_lines(),
            99 => self.browse_in_blocks(),
            100 => self.lend_and_read_in_blocks(),
            101 => self.write(),
            102 => self.write_by_size(),
            103 | 104 if self.near_its_end() => self.write_and_load(),
            _ => self.plain_delivery(),
        }
    }

    // Cards

    /// A key operation with a key of the card, chosen or active.
    fn use_own_key(&mut self) {
        let kind = self.random.pick(&[AUTHENTICATE, SIGN, DECIPHER]);
        let pin = if kind == SIGN { PIN2 } else { PIN1 };
        if self.random.percent(85) {
            let environment = if kind == DECIPHER { 6 } else { 1 };
            self.send(0x00, 0x22, 0xF3, environment, &[], None);
        }
        if self.random.percent(75) {
            self.choose_own_key(kind);
        }
        if self.session.card().codes[pin].tries == 0 && self.random.percent(80) {
            self.unblock(pin);
        }
        if self.random.percent(95) {
            self.verify(pin, 97);
        }
        match kind {
            AUTHENTICATE => self.internal_authenticate(),
            SIGN => self.sign_digest(),
            _ => self.decipher_parts(),
        }
    }

    /// Mostly a key of the card; else one that it has not, or of the wrong class, or unknown.
    fn choose_own_key(&mut self, kind: u8) {
        let class = class_for(kind);
        let known = [0x0100u16, 0x0200, 0x1100, 0x1200];
        let (fitting, wrong): (Vec<u16>, Vec<u16>) = known.iter().partition(|key| key_class(**key) == Some(class));
        let (present, absent): (Vec<u16>, Vec<u16>) = fitting.iter().partition(|key| self.session.card().has_key(**key));
        let r = &mut self.random;
        let key = match r.below(20) {
            0 | 1 => None,
            2 => Some(r.pick(&wrong)),
            3 => Some(r.pick(&[0x0000, 0x0101, 0x1101, 0x0300, 0x1300, 0x0001, 0x0011, 0xFFFF])),
            4 | 5 if !absent.is_empty() => Some(r.pick(&absent)),
            _ => Some(r.pick(&present)),
        };
        let data = match key.map(u16::to_be_bytes) {
            None => vec![0x83, 0x00],
            Some([high, low]) => vec![0x83, 0x03, 0x80, high, low],
        };
        let p2 = [0xA4, 0xB6, 0xB8][kind as usize - 1];
        self.send(0x00, 0x22, 0x41, p2, &data, None);
    }

    /// All of them, or those from a place on.
    fn read_personal_records(&mut self) {
        self.choose_file([0x50, 0x44]);
        for number in self.random.between(1, RECORDS)..=RECORDS {
            let length = self.session.card().records[number - 1].length as u8;
            let le = self.random.pick(&[Some(0), Some(0), Some(length), Some(length), Some(length - 1), None]);
            self.send(0x00, 0xB2, number as u8, 0x04, &[], le);
        }
    }

    /// A record of the current file, with a Le around its length.
    fn read_record(&mut self) {
        let card = self.session.card();
        let lengths: Vec<usize> = match card.file {
            Some(File::CodeRecords) => vec![10, 10, 6],
            Some(File::KeyReferences) => vec![REFERENCES],
            _ => card.records.iter().map(|record| record.length).collect(),
        };
        let last = lengths.len();
        let any = self.random.between(1, last);
        let number = self.random.pick(&[0, 1, last, last + 1, 255, any, any, any, any, any, any]);
        let length = lengths.get(number.wrapping_sub(1)).copied().unwrap_or(0);
        let le = self.le_near(length);
        self.send(0x00, 0xB2, number as u8, 0x04, &[], le);
        self.get_responses();
    }

    /// A part of a certificate of this length, with a Le around what remains.
    fn read_part(&mut self, length: usize) {
        let r = &mut self.random;
        let inside = r.below(length.max(1));
        let outside = r.between(length, 0x7FFF);
        let near_end = length.saturating_sub(r.pick(&[0, 1, 2, 254, 255, 256, 257]));
        let offset = r.pick(&[0, 0, 1, 255, 256, inside, inside, inside, near_end, near_end, length + 1, outside, 0x7FFF, 0x8000]);
        let le = self.le_near(length.saturating_sub(offset));
        self.read_binary(offset, le);
    }

    // Certificates

    fn lend(&mut self, letter: u8, length: usize) {
        let certificate = self.random.bytes(length);
        self.call(letter, &certificate);
    }

    fn lend_good(&mut self) {
        let letter = self.random.pick(b"AS");
        self.lend_good_as(letter);
    }

    fn lend_good_as(&mut self, letter: u8) {
        let any = self.random.between(1, LONGEST_CERTIFICATE);
        let length = self.random.pick(&[1, 1, 2, 200, 254, 255, 256, 257, 400, 510, 1535, 1536, 1536, 1536, any, any, any]);
        self.lend(letter, length);
    }

    fn lend_and_read(&mut self) {
        let letter = self.random.pick(b"AS");
        self.lend_good_as(letter);
        self.read_certificate(letter);
    }

    fn lend_and_read_in_blocks(&mut self) {
        let letter = self.random.pick(b"AS");
        self.lend_good_as(letter);
        self.choose_certificate(letter);
        for _ in 0..self.random.between(1, 3) {
            self.read_in_blocks();
        }
    }

    fn choose_certificate(&mut self, letter: u8) {
        self.choose_file(if letter == b'A' { [0xAA, 0xCE] } else { [0xDD, 0xCE] });
    }

    fn read_certificate(&mut self, letter: u8) {
        self.choose_certificate(letter);
        for _ in 0..self.random.between(1, 4) {
            PlayedStandIn::read(self);
        }
    }

    /// Commands with an empty or too long certificate, then a good one again.
    fn bad_certificate(&mut self) {
        let letter = self.random.pick(b"AS");
        self.lend_bad(letter);
        self.plain_calls();
        self.lend_good_as(letter);
    }

    fn lend_bad(&mut self, letter: u8) {
        let any = self.random.between(LONGEST_CERTIFICATE + 1, MOST_BYTES);
        let length = self.random.pick(&[0, 0, 0, LONGEST_CERTIFICATE + 1, LONGEST_CERTIFICATE + 1, any, MOST_BYTES]);
        self.lend(letter, length);
    }

    // Buffers

    pub(crate) fn buffer(&mut self, length: usize) {
        self.line(format!("B{length}").into_bytes());
    }

    pub(crate) fn large_buffer(&mut self) {
        let any = self.random.between(SMALLEST_BUFFER, LARGEST_BUFFER);
        let length = self.random.pick(&[258, 258, 259, 260, 4095, 4096, 4096, any]);
        self.buffer(length);
    }

    /// Calls with a small buffer, then a large one again.
    fn small_buffer(&mut self) {
        let any = self.random.below(SMALLEST_BUFFER);
        let length = self.random.pick(&[0, 0, 2, 255, 256, 257, 257, any]);
        self.buffer(length);
        self.plain_calls();
        if self.random.percent(30) {
            let line = other_buffer(&mut self.random);
            self.line(line);
            self.plain_command();
        }
        self.large_buffer();
    }

    /// Edge refusals that would hold at once, taken away one after the other.
    fn edge_order(&mut self) {
        let letter = self.random.pick(b"AS");
        let small = self.random.pick(&[0, 256, 257]);
        self.buffer(small);
        self.lend_bad(letter);
        self.plain_calls();
        self.large_buffer();
        self.plain_command();
        self.plain_calls();
        self.lend_good_as(letter);
        self.plain_calls();
    }

    // Calls by themselves, whatever the card and the edge make of them

    fn plain_calls(&mut self) {
        for _ in 0..self.random.between(1, 3) {
            match self.random.below(11) {
                0..=5 => self.plain_command(),
                6..=8 => self.plain_delivery(),
                9 => self.write(),
                _ => self.line(b"P".to_vec()),
            }
        }
    }

    fn plain_command(&mut self) {
        let code = self.any_code();
        let value = self.stored(code);
        let query = vec![0x00, 0x20, 0x00, code as u8];
        let query_with_le = [&query[..], &[0x00]].concat();
        let verify = [&query[..], &[value.len() as u8], &value].concat();
        let change = [&[0x00, 0x24, 0x00, code as u8, 2 * value.len() as u8], &value[..], &value].concat();
        let commands = [
            query,
            query_with_le,
            verify,
            change,
            vec![0x00, 0x20, 0x00, 0x01, 0x04, 0x39, 0x39, 0x39, 0x39],
            vec![0x00, 0xA4, 0x00, 0x0C],
            vec![0x00, 0xC0, 0x00, 0x00, 0x00],
            vec![0x00, 0xB0, 0x00, 0x00, 0x00],
            vec![0x00, 0xB2, 0x01, 0x04, 0x00],
            vec![0x00, 0x22, 0xF3, 0x06],
            vec![0x00, 0x88, 0x00, 0x00, 0x01, 0x5A, 0x00],
            vec![0x10, 0x2A, 0x80, 0x86, 0x01, 0x00],
            vec![],
        ];
        let command = self.random.pick(&commands);
        self.call(b'C', &command);
    }

    fn plain_delivery(&mut self) {
        let any = self.random.below(300);
        let n = self.random.pick(&[0, 255, 256, 256, 257, any]);
        let result = self.random.bytes(n);
        self.call(b'D', &result);
    }

    // Malformed and long lines

    /// A line that is not one of the program's, and a look at what it might have changed.
    fn malformed_and_looked_for(&mut self) {
        let line = spoiled_hex(&mut self.random);
        let letter = line.first().copied();
        self.line(line);
        match letter {
            Some(letter @ (b'A' | b'S')) => self.read_certificate(letter),
            _ => self.plain_calls(),
        }
    }

    /// The longest line that is one of the program's, or one character more, or two; and the
    /// transcript program's limit, which is none here.
    fn longest_lines(&mut self) {
        let r = &mut self.random;
        let line = match r.pick(b"ASCDL") {
            b'L' => {
                let length = r.pick(&[4096, 4097]);
                line_of_length(b'L', &images::filled_up(r, length / 2), length)
            }
            letter => {
                let length = r.pick(&[4095, 4095, 4096, 4096, 4097, 4097, 1025, 1027]);
                line_of_length(letter, &r.bytes(length / 2), length)
            }
        };
        self.line(line);
        self.plain_calls();
        self.make_usable();
    }
}

fn line_of(letter: u8, bytes: &[u8]) -> Vec<u8> {
    let mut line = vec![letter];
    line.extend(hex::encode(bytes).bytes());
    line
}

/// Cut, or filled up with zeros.
fn line_of_length(letter: u8, bytes: &[u8], length: usize) -> Vec<u8> {
    let mut line = line_of(letter, bytes);
    line.resize(length, b'0');
    line
}

const OTHER_LINES: [&[u8]; 24] = [
    b"", b" ", b"\r", b"?", b"p", b"P ", b" P", b"P\r", b"PP", b"P0", b"P00", b"W", b"V35", b"N", b"R9000", b"J1 1100", b"H1", b"F21", b"LX",
    b"A-", b"S 00", b"C 00A4000C", b"D0", b"C00A4000",
];

/// A line that would be one of the program's, with one thing wrong in its hex.
fn spoiled_hex(r: &mut Random) -> Vec<u8> {
    let letter = r.pick(b"LASCD");
    let bytes = match letter {
        b'L' => Parts::valid(r).bytes(),
        b'C' => vec![0x00, 0xA4, 0x00, 0x0C],
        b'D' => r.bytes(256),
        _ => {
            let n = r.pick(&[1, 200, 256, LONGEST_CERTIFICATE]);
            r.bytes(n)
        }
    };
    let mut line = line_of(letter, &bytes);
    let at = r.between(1, line.len() - 1);
    match r.below(8) {
        0 => {
            line.extend(b"FF");
            line[1..].make_ascii_lowercase();
        }
        1 => line[at] = r.pick(b"abcdef"),
        2 => drop(line.pop()),
        3 => line.push(r.pick(b"0F")),
        4 | 5 => line[at] = r.pick(b"/:@G`gx \r\t\0\x80\xC6\xFF"),
        6 => line.insert(at, b' '),
        _ => line.push(b'\r'),
    }
    line
}

/// B with anything but a number from 0 to 4,096 without leading zeros.
fn other_buffer(r: &mut Random) -> Vec<u8> {
    let texts = [
        "", "00", "01", "0258", "04096", "000", "4097", "4098", "5000", "9999", "10000", "40960", "65536", "65794", "4294967296", "4294967554",
        "18446744073709551616", "18446744073709551874", "-1", "-0", "+0", "+258", " 258", "258 ", "258\r", "2 58", "25A", "A", "F", "0x102",
        "0X102", "102h", "258.", "258.0", "4,096", "1e3", "2B8", "//", "::",
    ];
    format!("B{}", r.pick(&texts)).into_bytes()
}

/// I with anything after it or before it, and i.
fn other_image_line(r: &mut Random) -> Vec<u8> {
    let n = r.between(1, 4);
    let (any, image) = (r.bytes(n), Parts::valid(r).bytes());
    let lines = [&b"i"[..], b"I ", b" I", b"I\r", b"I\t", b"I\0", b"II", b"IP", b"PI", b"I0", b"I00", b"I1118", b"IL"].map(<[u8]>::to_vec);
    match r.below(8) {
        0 => line_of(b'I', &any),
        1 => line_of(b'I', &image),
        2 => line_of(b'i', &image),
        _ => r.pick(&lines),
    }
}

/// Mostly over 4,096 characters, or of that length exactly. C and D also near
/// 1,024, which is no limit here.
fn too_long(r: &mut Random) -> Vec<u8> {
    let letter = r.pick(b"LLASCDBPIX");
    let over = r.pick(&[4096, 4097, 4097, 4098, 4099, 5001, 8193]);
    let far_over = r.pick(&[over, over, over, 65_535, 65_536, 65_537, 70_001]);
    let length = match letter {
        b'C' | b'D' => r.pick(&[over, over, far_over, 1023, 1024, 1025, 4094]),
        b'L' | b'A' | b'S' => r.pick(&[over, over, far_over, 1024, 4094]),
        _ => r.pick(&[over, far_over, 1025, 4095]),
    };
    let bytes = match letter {
        b'L' if length > 4000 => images::filled_up(r, length / 2),
        b'B' => vec![r.pick(&[0x00, 0x11]); length / 2],
        _ => r.bytes(length / 2),
    };
    line_of_length(letter, &bytes, length)
}
