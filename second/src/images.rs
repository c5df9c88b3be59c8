//! A generator of card images: valid, with one field wrong, mutated, truncated, random.

use crate::generate::Random;
use crate::state::*;
use crate::sample;

const KEY_SETS: [&[u16]; 9] = [
    &[0x0100, 0x1100],
    &[0x0100, 0x1200],
    &[0x0200, 0x1100],
    &[0x0200, 0x1200],
    &[0x0100, 0x0200, 0x1100],
    &[0x0100, 0x0200, 0x1200],
    &[0x0100, 0x1100, 0x1200],
    &[0x0200, 0x1100, 0x1200],
    &[0x0100, 0x0200, 0x1100, 0x1200],
];

struct CodePart {
    length: u8,
    digits: Vec<u8>,
    tries: u8,
}

struct RecordPart {
    length: u8,
    bytes: Vec<u8>,
}

/// An image by its fields, each as the image says it, right or wrong.
pub struct Parts {
    code_count: u8,
    codes: Vec<CodePart>,
    key_count: u8,
    keys: Vec<u16>,
    reference_count: u8,
    references: Vec<u8>,
    record_count: u8,
    records: Vec<RecordPart>,
    /// The last section with its count; empty where the image ends after the records.
    section: Vec<u8>,
    left_over: Vec<u8>,
}

#[derive(Clone, Copy)]
enum Lengths {
    Shortest,
    Longest,
    Any,
}

impl Lengths {
    fn pick(self, r: &mut Random, least: usize, most: usize) -> usize {
        match self {
            Lengths::Shortest => least,
            Lengths::Longest => most,
            Lengths::Any => r.between(least, most),
        }
    }
}

impl Parts {
    /// A valid image of any shape; the shortest and the longest now and then.
    pub fn valid(r: &mut Random) -> Parts {
        match r.below(40) {
            0 => Parts::shortest(r),
            1 => Parts::longest(r),
            _ => {
                let records = match r.below(10) {
                    0 => Lengths::Shortest,
                    1 => Lengths::Longest,
                    _ => Lengths::Any,
                };
                let parts = Parts::with_lengths(r, Lengths::Any, records, &KEY_SETS);
                if r.percent(40) { parts.with_section(r) } else { parts }
            }
        }
    }

    /// A valid image of 84 bytes.
    pub fn shortest(r: &mut Random) -> Parts {
        Parts::with_lengths(r, Lengths::Shortest, Lengths::Shortest, &KEY_SETS[..4])
    }

    /// A valid image of 1,118 bytes.
    pub fn longest(r: &mut Random) -> Parts {
        Parts::with_lengths(r, Lengths::Longest, Lengths::Longest, &KEY_SETS[8..]).with_section(r)
    }

    /// With any good last section.
    pub fn with_section(mut self, r: &mut Random) -> Parts {
        self.section = valid_section(r);
        self
    }

    /// With these unblocking counts, which are not A5h twice.
    pub fn with_counts(mut self, [pin1, pin2]: [u8; 2]) -> Parts {
        self.section = vec![2, pin1, pin2];
        self
    }

    /// With a section where there was none, and without where there was one.
    pub fn with_or_without_section(self, r: &mut Random) -> Parts {
        if self.section.is_empty() { self.with_section(r) } else { self.without_section() }
    }

    pub fn without_section(mut self) -> Parts {
        self.section.clear();
        self
    }

    /// Without a limit under A4h.
    pub fn with_high_counts(mut self) -> Parts {
        self.section.iter_mut().skip(1).for_each(|count| *count = (*count).max(NO_LIMIT - 1));
        self
    }

    pub fn with_tries(mut self, code: usize, tries: u8) -> Parts {
        self.codes[code].tries = tries;
        self
    }

    fn with_lengths(r: &mut Random, codes: Lengths, records: Lengths, key_sets: &[&[u16]]) -> Parts {
        let keys = r.pick(key_sets).to_vec();
        let mut parts = Parts {
            code_count: 3,
            codes: (0..3).map(|number| valid_code(r, number, codes)).collect(),
            key_count: keys.len() as u8,
            references: r.bytes(REFERENCES),
            reference_count: REFERENCES as u8,
            record_count: RECORDS as u8,
            records: valid_records(r, records),
            section: Vec::new(),
            left_over: Vec::new(),
            keys,
        };
        for class in [KeyClass::Authentication, KeyClass::Signature] {
            let own: Vec<u16> = parts.keys.iter().copied().filter(|key| key_class(*key) == Some(class)).collect();
            parts.name_active(class, r.pick(&own));
        }
        parts
    }

    fn name_active(&mut self, class: KeyClass, key: u16) {
        let at = if class == KeyClass::Authentication { 9 } else { 19 };
        self.references[at..at + 2].copy_from_slice(&key.to_be_bytes());
    }

    pub fn bytes(&self) -> Vec<u8> {
        let mut image = vec![self.code_count];
        for code in &self.codes {
            image.push(code.length);
            image.extend(&code.digits);
            image.push(code.tries);
        }
        image.push(self.key_count);
        self.keys.iter().for_each(|key| image.extend(key.to_be_bytes()));
        image.push(self.reference_count);
        image.extend(&self.references);
        image.push(self.record_count);
        for record in &self.records {
            image.push(record.length);
            image.extend(&record.bytes);
        }
        image.extend(&self.section);
        image.extend(&self.left_over);
        image
    }

    /// Makes one field wrong; a place beyond this image's fields counts from its first again.
    pub fn damage(&mut self, r: &mut Random, fault: Fault) {
        match fault {
            Fault::CodeCount => self.code_count = r.pick(&[0, 2, 4, 255]),
            Fault::CodeLength(number) => {
                let length = r.pick(&[0, shortest_code(number) - 1, 13, 255]);
                self.codes[number] = CodePart { length: length as u8, digits: r.digits(length), tries: 3 };
            }
            Fault::Digit(number, place) => {
                let digits = &mut self.codes[number].digits;
                let at = place % digits.len();
                digits[at] = r.pick(&[0x2F, 0x3A, 0x00, 0xFF, b'A']);
            }
            Fault::Tries(number) => self.codes[number].tries = r.pick(&[4, 5, 0x30, 0x33, 255]),
            Fault::KeyCount => self.key_count = r.pick(&[0, 1, 5, 255]),
            Fault::UnknownKey(place) => {
                let at = place % self.keys.len();
                self.keys[at] = r.pick(&[0x0000, 0x0001, 0x0300, 0x0101, 0x1000, 0x1101, 0x1300, 0x2100, 0xFFFF]);
            }
            Fault::KeyOrder(place) => {
                let at = place % (self.keys.len() - 1);
                self.keys.swap(at, at + 1);
            }
            Fault::KeyTwice(place) => {
                let at = place % (self.keys.len() - 1);
                self.keys[at + 1] = self.keys[at];
            }
            Fault::NoKeyOf(KeyClass::Signature) => self.only_keys(&[0x1100, 0x1200]),
            Fault::NoKeyOf(KeyClass::Authentication) => self.only_keys(&[0x0100, 0x0200]),
            Fault::ReferenceCount => self.reference_count = r.pick(&[0, 20, 22, 255]),
            Fault::Reference(class) => {
                let wrong = |key: &u16| !self.keys.contains(key) || key_class(*key) != Some(class);
                let keys = [0x0000, 0x0100, 0x0200, 0x1100, 0x1200, 0x0101, 0x1101, 0x0011, 0x0001, 0xFFFF];
                let key = r.pick(&keys.into_iter().filter(wrong).collect::<Vec<u16>>());
                self.name_active(class, key);
            }
            Fault::RecordCount => self.record_count = r.pick(&[0, 15, 17, 255]),
            Fault::RecordLength(number) => {
                let length = r.pick(&[0, 65, 128, 255]);
                self.records[number] = RecordPart { length: length as u8, bytes: r.bytes(length) };
            }
            Fault::SectionCount => {
                self.section = valid_section(r);
                self.section[0] = r.pick(&[0, 1, 3, 10, 255]);
                self.section.truncate(r.pick(&[1, 3, 3]));
            }
            Fault::SectionEnds(length) => {
                self.section = valid_section(r);
                self.section.truncate(length);
            }
            Fault::CountOver(place) => {
                self.section = valid_section(r);
                self.section[place] = r.pick(&[0xA6, 0xA7, 0xC0, 0xFF]);
                self.section.truncate(r.pick(&[place + 1, 3, 3]));
                self.some_left_over(r);
            }
            Fault::NoLimitTwice => {
                self.section = vec![2, NO_LIMIT, NO_LIMIT];
                self.some_left_over(r);
            }
            Fault::LeftOver => {
                self.section = valid_section(r);
                let n = r.pick(&[1, 1, 2, 100, 900]);
                self.left_over = r.bytes(n);
            }
        }
    }

    /// Behind a last section that is whole.
    fn some_left_over(&mut self, r: &mut Random) {
        if self.section.len() == 3 {
            let n = r.pick(&[0, 0, 1, 3]);
            self.left_over = r.bytes(n);
        }
    }

    fn only_keys(&mut self, keys: &[u16]) {
        self.keys = keys.to_vec();
        self.key_count = keys.len() as u8;
    }
}

/// Three tries a little more often than fewer.
fn valid_code(r: &mut Random, number: usize, lengths: Lengths) -> CodePart {
    let length = lengths.pick(r, shortest_code(number), LONGEST_CODE);
    CodePart { length: length as u8, digits: r.digits(length), tries: r.pick(&[0, 1, 2, 3, 3, 3]) }
}

fn valid_records(r: &mut Random, lengths: Lengths) -> Vec<RecordPart> {
    let record = |_| {
        let length = lengths.pick(r, 1, LONGEST_RECORD);
        RecordPart { length: length as u8, bytes: r.bytes(length) }
    };
    (0..RECORDS).map(record).collect()
}

/// Not A5h twice; counts that matter more often than others.
fn valid_section(r: &mut Random) -> Vec<u8> {
    let any = r.below(NO_LIMIT as usize) as u8;
    let limited = r.pick(&[0, 0, 1, 1, 2, 2, 3, NO_LIMIT - 1, NO_LIMIT - 1, any]);
    let other = r.pick(&[0, 1, 2, NO_LIMIT - 1, NO_LIMIT, NO_LIMIT, NO_LIMIT, any]);
    if r.percent(50) { vec![2, limited, other] } else { vec![2, other, limited] }
}

#[derive(Clone, Copy, Debug, PartialEq, Eq)]
pub enum Fault {
    CodeCount,
    CodeLength(usize),
    Digit(usize, usize),
    Tries(usize),
    KeyCount,
    UnknownKey(usize),
    KeyOrder(usize),
    KeyTwice(usize),
    NoKeyOf(KeyClass),
    ReferenceCount,
    Reference(KeyClass),
    RecordCount,
    RecordLength(usize),
    SectionCount,
    /// So many bytes of the last section are there.
    SectionEnds(usize),
    /// The place in the last section.
    CountOver(usize),
    NoLimitTwice,
    LeftOver,
}

impl Fault {
    /// Every fault at every place.
    pub fn all() -> Vec<Fault> {
        let mut faults = vec![Fault::CodeCount, Fault::KeyCount, Fault::ReferenceCount, Fault::RecordCount];
        faults.extend(Fault::in_last_section());
        for number in 0..3 {
            faults.extend([Fault::CodeLength(number), Fault::Tries(number)]);
            faults.extend((0..LONGEST_CODE).map(|place| Fault::Digit(number, place)));
            faults.extend([Fault::KeyOrder(number), Fault::KeyTwice(number)]);
        }
        faults.extend((0..4).map(Fault::UnknownKey));
        for class in [KeyClass::Authentication, KeyClass::Signature] {
            faults.extend([Fault::NoKeyOf(class), Fault::Reference(class)]);
        }
        faults.extend((0..RECORDS).map(Fault::RecordLength));
        faults
    }

    /// Those in the last section and behind it.
    fn in_last_section() -> [Fault; 7] {
        [
            Fault::SectionCount,
            Fault::SectionEnds(1),
            Fault::SectionEnds(2),
            Fault::CountOver(1),
            Fault::CountOver(2),
            Fault::NoLimitTwice,
            Fault::LeftOver,
        ]
    }

    /// The load number where this is the image's first fault.
    pub fn number(self) -> u8 {
        match self {
            Fault::SectionEnds(_) => 21,
            Fault::CodeCount | Fault::KeyCount | Fault::ReferenceCount | Fault::RecordCount | Fault::SectionCount => 22,
            Fault::CodeLength(_) | Fault::Digit(..) | Fault::Tries(_) => 23,
            Fault::UnknownKey(_) | Fault::KeyOrder(_) | Fault::KeyTwice(_) | Fault::NoKeyOf(_) => 24,
            Fault::Reference(_) => 25,
            Fault::RecordLength(_) => 26,
            Fault::LeftOver => 27,
            Fault::CountOver(_) | Fault::NoLimitTwice => 28,
        }
    }
}

/// Any image, about one in four of them valid.
pub fn image(r: &mut Random) -> Vec<u8> {
    match r.below(20) {
        0..=3 => Parts::valid(r).bytes(),
        4..=10 => {
            let fault = if r.percent(25) { r.pick(&Fault::in_last_section()) } else { r.pick(&Fault::all()) };
            with_fault(r, fault)
        }
        11..=16 => {
            let image = if r.percent(30) { sample::image() } else { Parts::valid(r).bytes() };
            mutated(r, image)
        }
        17 | 18 if r.percent(5) => filled_up(r, 70_000),
        17 | 18 => cut_short(r),
        _ => {
            let n = r.pick(&[0, 1, 20, 84, 87, 1115, 1118, 1119]);
            let mut image = r.bytes(n);
            if n > 0 && r.percent(60) {
                image[0] = 3;
            }
            image
        }
    }
}

pub fn with_fault(r: &mut Random, fault: Fault) -> Vec<u8> {
    let mut parts = Parts::valid(r);
    parts.damage(r, fault);
    parts.bytes()
}

/// Two fields wrong: the first in reading order counts.
pub fn with_two_faults(r: &mut Random) -> Vec<u8> {
    let mut parts = Parts::valid(r);
    for _ in 0..2 {
        let fault = r.pick(&Fault::all());
        if !matches!(fault, Fault::Digit(number, _) if parts.codes[number].digits.is_empty()) {
            parts.damage(r, fault);
        }
    }
    parts.bytes()
}

/// Ends early, half of the time before the personal records; not after them, where it would load.
pub fn cut_short(r: &mut Random) -> Vec<u8> {
    let parts = Parts::valid(r);
    let mut image = parts.bytes();
    let head = image.len().min(90);
    let most = r.pick(&[head, image.len()]);
    let without_section = image.len() - parts.section.len();
    let length = r.below(most);
    image.truncate(if length == without_section { length - 1 } else { length });
    image
}

/// One or two bytes changed, removed or inserted.
pub fn mutated(r: &mut Random, mut image: Vec<u8>) -> Vec<u8> {
    for _ in 0..r.pick(&[1, 1, 1, 2]) {
        mutate(r, &mut image);
    }
    image
}

/// Mostly before the personal records or at the end.
fn mutate(r: &mut Random, image: &mut Vec<u8>) {
    let head = image.len().min(75);
    let most = r.pick(&[head, head, image.len()]);
    let at = if r.percent(15) { image.len() - 1 - r.below(3) } else { r.below(most) };
    match r.below(4) {
        0 => image[at] = r.byte(),
        1 => image[at] ^= 1 << r.below(8),
        2 => drop(image.remove(at)),
        _ => image.insert(at, r.byte()),
    }
}

/// A valid image with so much left over that it has this length.
pub fn filled_up(r: &mut Random, length: usize) -> Vec<u8> {
    let mut image = Parts::valid(r).bytes();
    image.extend(r.bytes(length - image.len()));
    image
}

/// An input of so many bytes is a very long one.
pub const VERY_LONG: usize = 10_000_000;

/// The shortest and the longest image, each with its last section and without; what comes next to
/// them, and very long inputs: of these, 27 where they begin with an image that has the section and
/// loads, 22 where it is another section, else the number of the fault at their beginning.
pub fn extremes(r: &mut Random) -> Vec<Vec<u8>> {
    let (shortest, longest) = (Parts::shortest(r), Parts::longest(r));
    let ends = [
        sample::image(),
        shortest.bytes(),
        shortest.with_section(r).bytes(),
        longest.bytes(),
        longest.without_section().bytes(),
    ];
    let mut images = vec![vec![]];
    for image in &ends {
        images.push(image.clone());
        images.push(image[..image.len() - 1].to_vec());
        images.push(followed(image, &[0]));
        images.push(followed(image, &[0, 0]));
        images.push(followed(image, image));
        images.push(followed(image, &vec![0; VERY_LONG]));
    }
    images.extend(sections_to_the_end().iter().map(|section| followed(&ends[4], section)));
    for fault in [Fault::CodeCount, Fault::RecordLength(RECORDS - 1), Fault::NoLimitTwice, Fault::LeftOver] {
        images.push(followed(&with_fault(r, fault), &r.bytes(VERY_LONG)));
    }
    images
}

/// Behind the longest records, up to one byte more than the longest image has.
fn sections_to_the_end() -> [Vec<u8>; 9] {
    let sections: [&[u8]; 9] =
        [&[2], &[3], &[2, 0], &[2, 0xA6], &[2, 0, 0xA6], &[2, 0xA5, 0xA5], &[2, 0xA5, 0xA5, 0], &[2, 0, 0, 0], &[2, 0, 0xA6, 0]];
    sections.map(<[u8]>::to_vec)
}

fn followed(image: &[u8], more: &[u8]) -> Vec<u8> {
    [image, more].concat()
}
