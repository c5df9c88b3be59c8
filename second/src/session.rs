//! A card with what its calls are lent, and the lines P, C and D, which the
//! transcript program and the stand-in program have in common.

use crate::state::File;
use crate::{command, delivery, hex, power_reset, CardState, Certificates, Outcome};

#[derive(Clone)]
pub struct Session {
    pub card: CardState,
    pub authentication: Vec<u8>,
    pub signature: Vec<u8>,
    /// The answer buffer.
    pub buffer: Vec<u8>,
}

#[derive(Clone, Copy, Debug, PartialEq, Eq)]
pub enum Answer<'a> {
    Reset,
    Response(&'a [u8]),
    Job { kind: u8, key: u16, block: &'a [u8] },
    Refused(u8),
}

impl Session {
    /// "P is a reset, C or D and upper-case hex of whole bytes, perhaps none, a
    /// command or delivery." None for any other line.
    pub fn call(&mut self, line: &[u8]) -> Option<Answer<'_>> {
        let outcome = match line.split_first()? {
            (b'P', []) => return Some(self.reset()),
            (b'C', text) => self.command(&hex::decode(text)?),
            (b'D', text) => delivery(&mut self.card, &hex::decode(text)?, &mut self.buffer),
            _ => return None,
        };
        Some(match outcome {
            Outcome::Response(length) => Answer::Response(&self.buffer[..length]),
            Outcome::Job { kind, key } => Answer::Job { kind, key, block: &self.buffer[..256] },
            Outcome::Refused(number) => Answer::Refused(number),
        })
    }

    /// The current file, if it is a certificate.
    pub fn current_certificate(&self) -> Option<&[u8]> {
        match self.card.file? {
            File::AuthenticationCertificate => Some(&self.authentication),
            File::SignatureCertificate => Some(&self.signature),
            _ => None,
        }
    }

    fn reset(&mut self) -> Answer<'static> {
        match power_reset(&mut self.card) {
            0 => Answer::Reset,
            refusal => Answer::Refused(refusal),
        }
    }

    fn command(&mut self, apdu: &[u8]) -> Outcome {
        let certificates = Certificates { authentication: &self.authentication, signature: &self.signature };
        command(&mut self.card, apdu, certificates, &mut self.buffer)
    }
}

impl Answer<'_> {
    /// "P; R and the response in the same hex; J, kind, space, key as four such
    /// digits; H and the edge number"
    pub fn line(&self) -> String {
        match self {
            Answer::Reset => "P".to_string(),
            Answer::Response(response) => format!("R{}", hex::encode(response)),
            Answer::Job { kind, key, .. } => format!("J{kind} {key:04X}"),
            Answer::Refused(number) => format!("H{number}"),
        }
    }

    /// The same, but a job's line goes on with a space and its 256 bytes.
    pub fn line_with_block(&self) -> String {
        match self {
            Answer::Job { block, .. } => format!("{} {}", self.line(), hex::encode(block)),
            _ => self.line(),
        }
    }
}
