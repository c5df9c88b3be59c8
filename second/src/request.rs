//! Steps 1 to 6 of the order of judgement: from bytes to a command that only
//! its own rules can still refuse.

use crate::apdu::{self, Apdu};
use crate::state::{AUTHENTICATE, DECIPHER, SIGN};
use crate::status;

#[derive(Clone, Copy, Debug, PartialEq, Eq)]
pub enum Request<'a> {
    SelectRoot,
    SelectDirectory(u16),
    SelectFile(u16),
    ReadRecord { number: u8, le: Option<usize> },
    ReadBinary { offset: usize, le: usize },
    GetResponse { le: usize },
    AskCode { code: usize },
    Verify { code: usize, value: &'a [u8] },
    Change { code: usize, data: &'a [u8] },
    UnblockByMark { pin: usize },
    UnblockByPuk { pin: usize, data: &'a [u8] },
    RestoreEnvironment(u8),
    ChooseKey { kind: u8, data: &'a [u8] },
    InternalAuthenticate { data: &'a [u8], le: Option<usize> },
    Sign { data: &'a [u8], le: Option<usize> },
    Decipher { last: bool, data: &'a [u8], le: Option<usize> },
}

const INSTRUCTIONS: [u8; 10] = [0xA4, 0xB2, 0xB0, 0xC0, 0x20, 0x24, 0x2C, 0x22, 0x88, 0x2A];

pub fn judge(bytes: &[u8]) -> Result<Request<'_>, u16> {
    let apdu = apdu::parse(bytes).ok_or(status::WRONG_LENGTH)?;
    if apdu.class != 0x00 && apdu.class != 0x10 {
        return Err(status::BAD_CLASS);
    }
    if !INSTRUCTIONS.contains(&apdu.instruction) {
        return Err(status::BAD_INSTRUCTION);
    }
    let decipher = (apdu.instruction, apdu.p1, apdu.p2) == (0x2A, 0x80, 0x86);
    if apdu.class == 0x10 && !decipher {
        return Err(status::NO_CHAINING);
    }
    judge_p1_p2_and_lengths(apdu)
}

/// Steps 5 and 6. No arm here refuses a P1 or P2 after it has looked at data or Le.
fn judge_p1_p2_and_lengths(apdu: Apdu<'_>) -> Result<Request<'_>, u16> {
    let Apdu { class, instruction, p1, p2, data, le } = apdu;
    match (instruction, p1, p2) {
        (0xA4, 0x00, 0x0C) => no_data(data).map(|_| Request::SelectRoot),
        (0xA4, 0x01, 0x0C) => Ok(Request::SelectDirectory(two_bytes(data)?)),
        (0xA4, 0x02, 0x0C) => Ok(Request::SelectFile(two_bytes(data)?)),
        (0xB2, 0x01..=0xFF, 0x04) => no_data(data).map(|_| Request::ReadRecord { number: p1, le }),
        (0xB0, 0x00..=0x7F, _) => {
            no_data(data)?;
            let offset = u16::from_be_bytes([p1, p2]) as usize;
            Ok(Request::ReadBinary { offset, le: needed(le)? })
        }
        (0xC0, 0x00, 0x00) => {
            no_data(data)?;
            Ok(Request::GetResponse { le: needed(le)? })
        }
        (0x20, 0x00, 0..=2) if data.is_empty() => Ok(Request::AskCode { code: p2 as usize }),
        (0x20, 0x00, 0..=2) => Ok(Request::Verify { code: p2 as usize, value: data }),
        (0x24, 0x00, 0..=2) => Ok(Request::Change { code: p2 as usize, data: some_data(data)? }),
        (0x2C, 0x03, 1 | 2) => no_data(data).map(|_| Request::UnblockByMark { pin: p2 as usize }),
        (0x2C, 0x00, 1 | 2) => Ok(Request::UnblockByPuk { pin: p2 as usize, data: some_data(data)? }),
        (0x22, 0xF3, _) => no_data(data).map(|_| Request::RestoreEnvironment(p2)),
        (0x22, 0x41, 0xA4) => Ok(Request::ChooseKey { kind: AUTHENTICATE, data: some_data(data)? }),
        (0x22, 0x41, 0xB6) => Ok(Request::ChooseKey { kind: SIGN, data: some_data(data)? }),
        (0x22, 0x41, 0xB8) => Ok(Request::ChooseKey { kind: DECIPHER, data: some_data(data)? }),
        (0x88, 0x00, 0x00) if data.len() > 245 => Err(status::WRONG_LENGTH),
        (0x88, 0x00, 0x00) => Ok(Request::InternalAuthenticate { data: some_data(data)?, le }),
        (0x2A, 0x9E, 0x9A) => Ok(Request::Sign { data: some_data(data)?, le }),
        (0x2A, 0x80, 0x86) => {
            Ok(Request::Decipher { last: class == 0x00, data: some_data(data)?, le })
        }
        _ => Err(status::BAD_P1_P2),
    }
}

fn no_data(data: &[u8]) -> Result<(), u16> {
    if data.is_empty() { Ok(()) } else { Err(status::WRONG_LENGTH) }
}

fn some_data(data: &[u8]) -> Result<&[u8], u16> {
    if data.is_empty() { Err(status::WRONG_LENGTH) } else { Ok(data) }
}

fn two_bytes(data: &[u8]) -> Result<u16, u16> {
    match data {
        [high, low] => Ok(u16::from_be_bytes([*high, *low])),
        _ => Err(status::WRONG_LENGTH),
    }
}

fn needed(le: Option<usize>) -> Result<usize, u16> {
    le.ok_or(status::WRONG_LENGTH)
}
