//! The calls at the edge, and each command's own rules (step 7).

use crate::digests::is_digest;
use crate::padding;
use crate::request::{self, Request};
use crate::state::*;
use crate::status;

#[derive(Clone, Copy, Debug)]
pub struct Certificates<'a> {
    pub authentication: &'a [u8],
    pub signature: &'a [u8],
}

#[derive(Clone, Copy, Debug, PartialEq, Eq)]
pub enum Outcome {
    /// The length of the response in the buffer, status bytes included.
    Response(usize),
    /// 256 bytes for the key host are in the buffer.
    Job { kind: u8, key: u16 },
    /// Edge refusal 1 to 5; state and buffer stay.
    Refused(u8),
}

pub const SMALLEST_BUFFER: usize = 258;
pub const LONGEST_CERTIFICATE: usize = 1536;

pub fn command(card: &mut CardState, apdu: &[u8], certificates: Certificates, answer: &mut [u8]) -> Outcome {
    let fits = |certificate: &[u8]| (1..=LONGEST_CERTIFICATE).contains(&certificate.len());
    if !card.is_good() {
        return Outcome::Refused(1);
    }
    if answer.len() < SMALLEST_BUFFER {
        return Outcome::Refused(2);
    }
    if !fits(certificates.authentication) || !fits(certificates.signature) {
        return Outcome::Refused(3);
    }
    if card.job.is_some() {
        return Outcome::Refused(4);
    }
    // "Every call here except a GET RESPONSE that yields data drops the held
    // answer. Every one except a 2A 80 86 that passes 1 to 6 drops the chain."
    let held = std::mem::replace(&mut card.held, Bytes::EMPTY);
    let chain = std::mem::replace(&mut card.chain, Bytes::EMPTY);
    let reply = match request::judge(apdu) {
        Ok(Request::GetResponse { le }) => get_response(card, held, le),
        Ok(Request::Decipher { last, data, le }) => decipher(card, chain, last, data, le),
        Ok(request) => execute(card, request, certificates),
        Err(refusal) => Err(refusal),
    };
    answer_with(reply, answer)
}

pub fn delivery(card: &mut CardState, result: &[u8], answer: &mut [u8]) -> Outcome {
    if !card.is_good() {
        return Outcome::Refused(1);
    }
    if answer.len() < SMALLEST_BUFFER {
        return Outcome::Refused(2);
    }
    let Some(job) = card.job else {
        return Outcome::Refused(5);
    };
    card.job = None; // "Delivery ends the job."
    let reply = if result.len() != padding::BLOCK {
        Err(status::BAD_RESULT)
    } else if job.kind == DECIPHER {
        match padding::strip(result) {
            0 => Err(status::BAD_DATA),
            padding::BLOCK => done(), // "9000 alone if empty"
            start => by_le(card, &result[start..], job.le),
        }
    } else {
        by_le(card, result, job.le)
    };
    answer_with(reply, answer)
}

/// Answers 0, or edge refusal 1.
pub fn power_reset(card: &mut CardState) -> u8 {
    if !card.is_good() {
        return 1;
    }
    card.start_session();
    0
}

enum Reply {
    Data(Vec<u8>, u16),
    Job(Job, [u8; padding::BLOCK]),
}

/// Err is a refusal by status word.
type Judged = Result<Reply, u16>;

fn done() -> Judged {
    Ok(Reply::Data(Vec::new(), status::OK))
}

fn answer_with(reply: Judged, answer: &mut [u8]) -> Outcome {
    let (data, word) = match reply {
        Ok(Reply::Job(job, block)) => {
            answer[..padding::BLOCK].copy_from_slice(&block);
            return Outcome::Job { kind: job.kind, key: job.key };
        }
        Ok(Reply::Data(data, word)) => (data, word),
        Err(word) => (Vec::new(), word),
    };
    let n = data.len();
    answer[..n].copy_from_slice(&data);
    answer[n..n + 2].copy_from_slice(&word.to_be_bytes());
    Outcome::Response(n + 2)
}

/// "with Le at least n, all data and 9000; else held, answer 61 and n (256 as
/// 00), no data."
fn by_le(card: &mut CardState, data: &[u8], le: Option<usize>) -> Judged {
    if le.is_some_and(|le| le >= data.len()) {
        return Ok(Reply::Data(data.to_vec(), status::OK));
    }
    card.held = Bytes::of(data);
    Ok(Reply::Data(Vec::new(), more_data(data.len())))
}

fn more_data(n: usize) -> u16 {
    status::MORE_DATA | (n as u16 & 0xFF)
}

fn execute(card: &mut CardState, request: Request, certificates: Certificates) -> Judged {
    match request {
        Request::SelectRoot => select_directory(card, Directory::Root),
        // "EEEEh from the root"
        Request::SelectDirectory(0xEEEE) if card.directory == Directory::Root => {
            select_directory(card, Directory::Eeee)
        }
        Request::SelectDirectory(_) => Err(status::FILE_NOT_FOUND),
        Request::SelectFile(identifier) => {
            let file = file_in(card.directory, identifier).ok_or(status::FILE_NOT_FOUND)?;
            card.file = Some(file);
            done()
        }
        Request::ReadRecord { number, le } => {
            let record = read_record(card, number as usize)?;
            by_le(card, &record, le)
        }
        Request::ReadBinary { offset, le } => read_binary(card, certificates, offset, le),
        // Wish 1: "9000 if verified, 6983 if no tries are left, else 63Cx, and no code
        // changes", and "6983 stays the first of the command's own rules".
        Request::AskCode { code } => match card.codes[code] {
            Code { tries: 0, .. } => Err(status::BLOCKED),
            Code { verified: true, .. } => done(),
            Code { tries, .. } => Err(status::WRONG_CODE | tries as u16),
        },
        Request::Verify { code, value } => verify(&mut card.codes[code], value),
        Request::Change { code, data } => change(&mut card.codes[code], code, data),
        Request::UnblockByMark { pin } => unblock_by_mark(card, pin),
        Request::UnblockByPuk { pin, data } => unblock_by_puk(card, pin, data),
        Request::RestoreEnvironment(number) => {
            if number != 1 && number != 6 {
                return Err(status::REFERENCE_NOT_FOUND);
            }
            card.environment = number;
            card.choices = [0; 3];
            done()
        }
        Request::ChooseKey { kind, data } => choose_key(card, kind, data),
        Request::InternalAuthenticate { data, le } => {
            in_environment(card, 1)?;
            verified(card, PIN1)?;
            hand_out(card, AUTHENTICATE, le, padded(data))
        }
        Request::Sign { data, le } => {
            if !is_digest(data) {
                return Err(status::BAD_DATA);
            }
            in_environment(card, 1)?;
            verified(card, PIN2)?;
            // "PIN2's mark goes off as the job is handed out"
            card.codes[PIN2].verified = false;
            hand_out(card, SIGN, le, padded(data))
        }
        Request::GetResponse { .. } | Request::Decipher { .. } => unreachable!(),
    }
}

/// "Choosing a directory clears the current file."
fn select_directory(card: &mut CardState, directory: Directory) -> Judged {
    card.directory = directory;
    card.file = None;
    done()
}

/// "No file 6986; certificate 6981; beyond the last 6A83; else the record is the data."
fn read_record(card: &CardState, number: usize) -> Result<Vec<u8>, u16> {
    let missing = status::RECORD_NOT_FOUND;
    match card.file.ok_or(status::NO_CURRENT_FILE)? {
        File::AuthenticationCertificate | File::SignatureCertificate => Err(status::WRONG_FILE_KIND),
        File::CodeRecords => {
            let code = *[PIN1, PIN2, PUK].get(number - 1).ok_or(missing)?;
            let mut record = vec![0x80, 0x01, 0x03, 0x90, 0x01, card.codes[code].tries];
            if code != PUK {
                record.extend([0x83, 0x02, 0x00, 0x00]);
            }
            Ok(record)
        }
        File::PersonalRecords => Ok(card.records.get(number - 1).ok_or(missing)?.get().to_vec()),
        File::KeyReferences if number == 1 => Ok(card.references.to_vec()),
        File::KeyReferences => Err(missing),
    }
}

/// "No file 6986; record file 6981; offset at or past the size 6B00. Gives the
/// smaller of Le and what remains, 9000." Wish 2: "With Le from 1 to 255 greater
/// than what remains, READ BINARY gives what remains and 6282. Le 00 keeps 9000."
fn read_binary(card: &CardState, certificates: Certificates, offset: usize, le: usize) -> Judged {
    let certificate = match card.file.ok_or(status::NO_CURRENT_FILE)? {
        File::AuthenticationCertificate => certificates.authentication,
        File::SignatureCertificate => certificates.signature,
        _ => return Err(status::WRONG_FILE_KIND),
    };
    if offset >= certificate.len() {
        return Err(status::BAD_OFFSET);
    }
    let rest = &certificate[offset..];
    if le <= 255 && le > rest.len() {
        return Ok(Reply::Data(rest.to_vec(), status::END_OF_FILE));
    }
    let part = &rest[..rest.len().min(le)];
    Ok(Reply::Data(part.to_vec(), status::OK))
}

/// "Nothing held 6985. Gives the smaller of Le and held; 9000, or 61 and the rest."
fn get_response(card: &mut CardState, held: Bytes<256>, le: usize) -> Judged {
    if held.length == 0 {
        return Err(status::CONDITIONS);
    }
    let (given, rest) = held.get().split_at(le.min(held.length));
    card.held = Bytes::of(rest);
    let word = if rest.is_empty() { status::OK } else { more_data(rest.len()) };
    Ok(Reply::Data(given.to_vec(), word))
}

/// "No tries 6983." "Wrong, by value or by length: one try less, mark off, 63Cx
/// with x left." A right value changes nothing here.
fn present(code: &mut Code, right: bool) -> Result<(), u16> {
    if code.tries == 0 {
        return Err(status::BLOCKED);
    }
    if right {
        return Ok(());
    }
    code.tries -= 1;
    code.verified = false;
    Err(status::WRONG_CODE | code.tries as u16)
}

/// "old then new, the old as long as the stored code." "Old wrong or short: as
/// VERIFY." Gives the new value.
fn present_and_split<'a>(code: &mut Code, data: &'a [u8]) -> Result<&'a [u8], u16> {
    let right = data.starts_with(code.value.get());
    present(code, right)?;
    Ok(&data[code.value.length..])
}

/// "New not of allowed length or not digits: 6A80, codes unchanged."
fn refuse_unless_allowed(number: usize, new: &[u8]) -> Result<(), u16> {
    if code_allowed(number, new) { Ok(()) } else { Err(status::BAD_DATA) }
}

/// "Right: tries 3, mark on, 9000."
fn verify(code: &mut Code, value: &[u8]) -> Judged {
    let right = value == code.value.get();
    present(code, right)?;
    open(code);
    done()
}

/// "Else new stored, tries 3"; and wish 4: "a successful CHANGE leaves the code verified".
fn change(code: &mut Code, number: usize, data: &[u8]) -> Judged {
    let new = present_and_split(code, data)?;
    refuse_unless_allowed(number, new)?;
    code.value = Bytes::of(new);
    open(code);
    done()
}

fn open(code: &mut Code) {
    code.tries = MAX_TRIES;
    code.verified = true;
}

/// "PUK not verified 6982; else tries 3, PIN and PUK marks off, 9000."
fn unblock_by_mark(card: &mut CardState, pin: usize) -> Judged {
    refuse_unless_blocked(card, pin)?;
    refuse_at_limit(card, pin)?;
    verified(card, PUK)?;
    card.codes[pin].tries = MAX_TRIES;
    close_pin_and_puk(card, pin);
    count_unblocking(card, pin);
    done()
}

/// "PUK judged as the old value in CHANGE, 6983 at no tries included; bad new PIN 6A80, codes
/// unchanged; else PIN stored, both tries 3, both marks off, 9000."
fn unblock_by_puk(card: &mut CardState, pin: usize, data: &[u8]) -> Judged {
    refuse_unless_blocked(card, pin)?;
    refuse_at_limit(card, pin)?;
    let new = present_and_split(&mut card.codes[PUK], data)?;
    refuse_unless_allowed(pin, new)?;
    card.codes[pin].value = Bytes::of(new);
    card.codes[pin].tries = MAX_TRIES;
    card.codes[PUK].tries = MAX_TRIES;
    close_pin_and_puk(card, pin);
    count_unblocking(card, pin);
    done()
}

/// Wish 4: "RESET RETRY, however it stores a new value now, keeps the mark off".
fn close_pin_and_puk(card: &mut CardState, pin: usize) {
    card.codes[pin].verified = false;
    card.codes[PUK].verified = false;
}

/// "PIN has tries: 6A86"
fn refuse_unless_blocked(card: &CardState, pin: usize) -> Result<(), u16> {
    if card.codes[pin].tries > 0 { Err(status::BAD_P1_P2) } else { Ok(()) }
}

/// Wish 6: "6983 after "PIN has tries" and before the PUK is looked at".
fn refuse_at_limit(card: &CardState, pin: usize) -> Result<(), u16> {
    if card.unblocking_count(pin) == 0 { Err(status::BLOCKED) } else { Ok(()) }
}

/// Wish 6: "A successful RESET RETRY lowers it by one, unless it is A5h". The caller knows that it is
/// not 0.
fn count_unblocking(card: &mut CardState, pin: usize) {
    let count = &mut card.unblocking_counts[pin - PIN1];
    if *count != NO_LIMIT {
        *count -= 1;
    }
}

fn in_environment(card: &CardState, environment: u8) -> Result<(), u16> {
    if card.environment == environment { Ok(()) } else { Err(status::CONDITIONS) }
}

fn verified(card: &CardState, code: usize) -> Result<(), u16> {
    if card.codes[code].verified { Ok(()) } else { Err(status::NOT_VERIFIED) }
}

/// "83 00 chooses active; 83 03 80 and two bytes a key. Other shape, unknown
/// key or wrong class 6A80; key not on the card 6A88."
fn choose_key(card: &mut CardState, kind: u8, data: &[u8]) -> Judged {
    let choice = match *data {
        [0x83, 0x00] => 0,
        [0x83, 0x03, 0x80, high, low] => {
            let key = u16::from_be_bytes([high, low]);
            if key_class(key) != Some(class_for(kind)) {
                return Err(status::BAD_DATA);
            }
            if !card.has_key(key) {
                return Err(status::REFERENCE_NOT_FOUND);
            }
            key
        }
        _ => return Err(status::BAD_DATA),
    };
    card.choices[kind as usize - 1] = choice;
    done()
}

/// "joins the chain. Over 257: 6700. Class 10h: 9000. Class 00h: total not 257,
/// 6700; first byte not 00, 6A80; environment not 6: 6985; PIN1 not verified
/// 6982; job 3 with the last 256. All but the 9000 empty the chain."
fn decipher(card: &mut CardState, chain: Bytes<257>, last: bool, data: &[u8], le: Option<usize>) -> Judged {
    let joined = [chain.get(), data].concat();
    if joined.len() > 257 {
        return Err(status::WRONG_LENGTH);
    }
    if !last {
        card.chain = Bytes::of(&joined);
        return done();
    }
    if joined.len() != 257 {
        return Err(status::WRONG_LENGTH);
    }
    if joined[0] != 0x00 {
        return Err(status::BAD_DATA);
    }
    in_environment(card, 6)?;
    verified(card, PIN1)?;
    let mut block = [0; padding::BLOCK];
    block.copy_from_slice(&joined[1..]);
    hand_out(card, DECIPHER, le, block)
}

fn hand_out(card: &mut CardState, kind: u8, le: Option<usize>, block: [u8; padding::BLOCK]) -> Judged {
    let job = Job { kind, key: card.key_for(kind), le };
    card.job = Some(job);
    Ok(Reply::Job(job, block))
}

fn padded(data: &[u8]) -> [u8; padding::BLOCK] {
    let mut block = [0; padding::BLOCK];
    padding::pad(data, &mut block);
    block
}
