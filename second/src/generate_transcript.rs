//! What is a transcript's own in a generator of lines.

use crate::card::LONGEST_CERTIFICATE;
use crate::generate::{Generator, Played, Random};
use crate::lines::LineProgram;
use crate::state::{PIN1, PIN2, PUK};
use crate::transcript::Transcript;
use crate::CardState;

#[derive(Clone)]
pub struct PlayedTranscript {
    transcript: Transcript,
    /// Where the last tenth of the lines begins.
    last_tenth: usize,
    /// Whether PUK is not to be blocked before the last tenth, because nothing unblocks it.
    spares_puk: bool,
}

impl Generator<PlayedTranscript> {
    /// Certificates as long as the program's. Seeds 3, 7, 11, ... may block PUK at any time; others
    /// only in the last tenth.
    pub fn new(seed: u64, total: usize) -> Self {
        let last_tenth = total - total / 10;
        let certificate = vec![0x30; LONGEST_CERTIFICATE];
        let transcript = Transcript::new(certificate.clone(), certificate);
        Self::on(PlayedTranscript { transcript, last_tenth, spares_puk: seed % 4 != 3 }, seed)
    }

    fn in_last_tenth(&self) -> bool {
        self.made >= self.session.last_tenth
    }

    fn read_anywhere(&mut self) {
        let le = self.maybe_le();
        let any = self.random.below(1600);
        let offset = self.random.pick(&[0, 1, 6, 7, 255, 256, 343, 344, 345, 599, 600, 1535, 1536, 0x7FFF, 0x8000, any, any, any]);
        self.read_binary(offset, le);
    }

    fn read_record(&mut self) {
        let le = self.maybe_le();
        let record = self.random.pick(&[0, 1, 1, 2, 3, 4, 15, 16, 17, 255]);
        let le = self.random.pick(&[le, Some(5), Some(6), Some(9), Some(10), Some(20), Some(21)]);
        self.send(0x00, 0xB2, record, 0x04, &[], le);
        self.get_responses();
    }
}

impl Played for PlayedTranscript {
    fn play(&mut self, line: &[u8]) {
        self.transcript.line(line);
    }

    fn card(&self) -> &CardState {
        self.transcript.card()
    }

    fn certificate_length(&self) -> Option<usize> {
        self.transcript.current_certificate().map(<[u8]>::len)
    }

    fn holds_back(generator: &Generator<Self>, after: &Self) -> bool {
        after.spares_puk && !generator.in_last_tenth() && after.card().codes[PUK].tries == 0
    }

    fn interruption(generator: &mut Generator<Self>) {
        generator.single_interruption();
    }

    fn before_delivery(generator: &mut Generator<Self>) {
        if generator.random.percent(12) {
            Self::interruption(generator);
        }
    }

    fn malformed(r: &mut Random) -> Vec<u8> {
        match r.below(14) {
            0 => vec![],
            1 => b"p".to_vec(),
            2 => b"P ".to_vec(),
            3 => b"P\r".to_vec(),
            4 => b"C00a4000c".to_vec(),
            5 => b"C00A4000".to_vec(),
            6 => b"C 00A4000C".to_vec(),
            7 => b"c00A4000C".to_vec(),
            8 => format!("D{}", "0".repeat(r.pick(&[511, 513, 1023]))).into_bytes(),
            9 => format!("{}{}", r.pick(&["C", "D"]), "0".repeat(r.pick(&[1022, 1024, 1026, 5000, 70_000]))).into_bytes(),
            10 => "P".repeat(r.pick(&[2, 1024, 1025])).into_bytes(),
            11 => {
                let n = r.below(40);
                r.bytes(n).into_iter().filter(|b| *b != b'\n').collect()
            }
            12 => b"C0G".to_vec(),
            _ => {
                let letter = r.pick(b"ABEHJRX? ");
                vec![letter, b'0', b'0']
            }
        }
    }

    fn read(generator: &mut Generator<Self>) {
        match generator.session.certificate_length() {
            Some(length) if generator.random.percent(30) => generator.read_near_end(length),
            _ if generator.random.percent(50) => generator.read_anywhere(),
            _ => generator.read_record(),
        }
    }

    fn scenario(generator: &mut Generator<Self>) {
        match generator.random.below(109) {
            0..=2 => generator.malformed(),
            3..=4 => generator.line(b"P".to_vec()),
            5..=8 => generator.noise(),
            9..=18 => generator.select(),
            19..=26 => generator.browse(),
            27..=39 => Self::read(generator),
            40..=43 => generator.get_responses(),
            44 | 45 => {
                let left = if generator.in_last_tenth() { 0 } else { 1 };
                generator.lower_puk_and_ask(left);
            }
            46..=51 => {
                let code = generator.any_code();
                generator.verify(code, 70);
            }
            52..=56 => generator.change(),
            57..=60 => {
                let pin = generator.random.pick(&[PIN1, PIN2]);
                generator.unblock(pin);
            }
            61..=66 => generator.block_and_unblock(),
            67..=71 => generator.environment(),
            72..=77 => generator.choose_key(),
            78..=84 => generator.authenticate(),
            85..=91 => generator.sign(),
            92..=98 => generator.decipher(),
            99 | 100 => generator.browse_in_blocks(),
            101..=107 => generator.change_or_unblock(),
            _ => {
                let n = generator.random.below(300);
                let result = generator.random.bytes(n);
                generator.call(b'D', &result);
            }
        }
        if generator.session.card().job.is_some() && generator.random.percent(70) {
            generator.deliver();
        }
    }
}
