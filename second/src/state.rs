//! The card state and the rule of a good state.

/// A place for at most N bytes.
#[derive(Clone, Debug, PartialEq, Eq)]
pub struct Bytes<const N: usize> {
    pub place: [u8; N],
    pub length: usize,
}

impl<const N: usize> Bytes<N> {
    pub const EMPTY: Self = Bytes { place: [0; N], length: 0 };

    /// The caller knows that the bytes fit.
    pub fn of(bytes: &[u8]) -> Self {
        let mut new = Self::EMPTY;
        new.place[..bytes.len()].copy_from_slice(bytes);
        new.length = bytes.len();
        new
    }

    pub fn get(&self) -> &[u8] {
        &self.place[..self.length]
    }

    /// "zeros in every unused place"
    fn is_good(&self) -> bool {
        self.length <= N && self.place[self.length..].iter().all(|b| *b == 0)
    }
}

pub const PUK: usize = 0;
pub const PIN1: usize = 1;
pub const PIN2: usize = 2;
pub const MAX_TRIES: u8 = 3;
pub const LONGEST_CODE: usize = 12;
/// Wish 6: "where A5h means no limit"; it is the greatest unblocking count, too.
pub const NO_LIMIT: u8 = 0xA5;

/// PUK 8 to 12 digits, PIN1 4 to 12, PIN2 5 to 12.
pub fn shortest_code(number: usize) -> usize {
    [8, 4, 5][number]
}

pub fn code_length_allowed(number: usize, length: usize) -> bool {
    (shortest_code(number)..=LONGEST_CODE).contains(&length)
}

/// "Digits are 30h to 39h."
pub fn is_digit(byte: u8) -> bool {
    (0x30..=0x39).contains(&byte)
}

pub fn code_allowed(number: usize, value: &[u8]) -> bool {
    code_length_allowed(number, value.len()) && value.iter().all(|b| is_digit(*b))
}

#[derive(Clone, Debug, PartialEq, Eq)]
pub struct Code {
    pub value: Bytes<LONGEST_CODE>,
    /// The retry counter.
    pub tries: u8,
    pub verified: bool,
}

impl Code {
    const ZERO: Code = Code { value: Bytes::EMPTY, tries: 0, verified: false };

    fn is_good(&self, number: usize) -> bool {
        self.value.is_good()
            && code_allowed(number, self.value.get())
            && self.tries <= MAX_TRIES
            && (!self.verified || self.tries == MAX_TRIES)
    }
}

#[derive(Clone, Copy, Debug, PartialEq, Eq)]
pub enum KeyClass {
    Signature,
    Authentication,
}

/// "signature 0100h, 0200h; authentication 1100h, 1200h"; None is an unknown key.
pub fn key_class(key: u16) -> Option<KeyClass> {
    match key {
        0x0100 | 0x0200 => Some(KeyClass::Signature),
        0x1100 | 0x1200 => Some(KeyClass::Authentication),
        _ => None,
    }
}

pub const AUTHENTICATE: u8 = 1;
pub const SIGN: u8 = 2;
pub const DECIPHER: u8 = 3;

/// The class of key that a job of this kind takes.
pub fn class_for(kind: u8) -> KeyClass {
    if kind == SIGN { KeyClass::Signature } else { KeyClass::Authentication }
}

#[derive(Clone, Copy, Debug, PartialEq, Eq)]
pub enum Directory {
    Root,
    Eeee,
}

#[derive(Clone, Copy, Debug, PartialEq, Eq)]
pub enum File {
    CodeRecords,
    PersonalRecords,
    KeyReferences,
    AuthenticationCertificate,
    SignatureCertificate,
}

pub fn file_in(directory: Directory, identifier: u16) -> Option<File> {
    match (directory, identifier) {
        (Directory::Root, 0x0016) => Some(File::CodeRecords),
        (Directory::Eeee, 0x5044) => Some(File::PersonalRecords),
        (Directory::Eeee, 0x0033) => Some(File::KeyReferences),
        (Directory::Eeee, 0xAACE) => Some(File::AuthenticationCertificate),
        (Directory::Eeee, 0xDDCE) => Some(File::SignatureCertificate),
        _ => None,
    }
}

#[derive(Clone, Copy, Debug, PartialEq, Eq)]
pub struct Job {
    pub kind: u8,
    pub key: u16,
    pub le: Option<usize>,
}

pub const REFERENCES: usize = 21;
pub const LONGEST_RECORD: usize = 64;
pub const RECORDS: usize = 16;

#[derive(Clone, Debug, PartialEq, Eq)]
pub struct CardState {
    pub codes: [Code; 3],
    /// The present keys, rising; unused places are zero.
    pub keys: [u16; 4],
    pub key_count: usize,
    /// The 0033h record.
    pub references: [u8; REFERENCES],
    /// The 5044h records.
    pub records: [Bytes<LONGEST_RECORD>; RECORDS],
    /// Wish 6: for PIN1 and PIN2, each 0 to A5h.
    pub unblocking_counts: [u8; 2],
    // The session.
    pub directory: Directory,
    pub file: Option<File>,
    pub environment: u8,
    /// For job kinds 1, 2, 3; 0 is "active".
    pub choices: [u16; 3],
    pub held: Bytes<256>,
    pub chain: Bytes<257>,
    pub job: Option<Job>,
}

impl CardState {
    /// What load gives beside a number; not good.
    pub const ZERO: CardState = CardState {
        codes: [Code::ZERO; 3],
        keys: [0; 4],
        key_count: 0,
        references: [0; REFERENCES],
        records: [Bytes::EMPTY; RECORDS],
        unblocking_counts: [0; 2],
        directory: Directory::Root,
        file: None,
        environment: 0,
        choices: [0; 3],
        held: Bytes::EMPTY,
        chain: Bytes::EMPTY,
        job: None,
    };

    pub fn unblocking_count(&self, pin: usize) -> u8 {
        self.unblocking_counts[pin - PIN1]
    }

    pub fn present_keys(&self) -> &[u16] {
        &self.keys[..self.key_count]
    }

    pub fn has_key(&self, key: u16) -> bool {
        self.present_keys().contains(&key)
    }

    /// "bytes 9, 10 and 19, 20 (from zero) name the active authentication and
    /// signature key"
    pub fn active_key(&self, class: KeyClass) -> u16 {
        active_key(&self.references, class)
    }

    /// The key that a job of this kind uses: the chosen one or the active one.
    pub fn key_for(&self, kind: u8) -> u16 {
        match self.choices[kind as usize - 1] {
            0 => self.active_key(class_for(kind)),
            chosen => chosen,
        }
    }

    fn has_key_of(&self, key: u16, class: KeyClass) -> bool {
        self.has_key(key) && key_class(key) == Some(class)
    }

    /// "root, no file, environment 1, choices at "active", marks off, the rest
    /// empty. A reset keeps code values and tries." Wish 6: the unblocking counts, too.
    pub fn start_session(&mut self) {
        self.directory = Directory::Root;
        self.file = None;
        self.environment = 1;
        self.choices = [0; 3];
        for code in &mut self.codes {
            code.verified = false;
        }
        self.held = Bytes::EMPTY;
        self.chain = Bytes::EMPTY;
        self.job = None;
    }

    /// Wish 3: it "keeps the image's ranges and key order too"; so a personal record has 1 to 64 bytes.
    pub fn is_good(&self) -> bool {
        let codes = (0..3).all(|number| self.codes[number].is_good(number));
        let keys = (2..=4).contains(&self.key_count)
            && self.present_keys().windows(2).all(|pair| pair[0] < pair[1])
            && self.present_keys().iter().all(|key| key_class(*key).is_some())
            && self.keys[self.key_count..].iter().all(|key| *key == 0);
        let records = self.records.iter().all(|record| record.length >= 1 && record.is_good());
        let counts = self.unblocking_counts.iter().all(|count| *count <= NO_LIMIT);
        if !(codes && keys && records && counts) {
            return false;
        }
        let classes = [KeyClass::Signature, KeyClass::Authentication];
        let active = classes.iter().all(|class| self.has_key_of(self.active_key(*class), *class));
        let file = match self.file {
            None => true,
            Some(File::CodeRecords) => self.directory == Directory::Root,
            Some(_) => self.directory == Directory::Eeee,
        };
        let environment = self.environment == 1 || self.environment == 6;
        let choices = (1..=3).all(|kind| {
            let chosen = self.choices[kind as usize - 1];
            chosen == 0 || self.has_key_of(chosen, class_for(kind))
        });
        let answer = self.held.is_good() && self.chain.is_good();
        let job = match self.job {
            None => true,
            Some(job) => {
                (1..=3).contains(&job.kind)
                    && self.has_key_of(job.key, class_for(job.kind))
                    && job.le.is_none_or(|le| (1..=256).contains(&le))
                    && self.held.length == 0
                    && self.chain.length == 0
            }
        };
        active && file && environment && choices && answer && job
    }
}

pub fn active_key(references: &[u8; REFERENCES], class: KeyClass) -> u16 {
    let at = if class == KeyClass::Authentication { 9 } else { 19 };
    u16::from_be_bytes([references[at], references[at + 1]])
}
