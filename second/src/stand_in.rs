//! The stand-in program: any card, any certificates, any answer buffer; a job's block is shown.

use crate::lines::LineProgram;
use crate::session::Session;
use crate::{hex, load, sample, write_image, CardState};

pub const LARGEST_BUFFER: usize = 4096;

#[derive(Clone)]
pub struct StandIn {
    session: Session,
}

impl StandIn {
    /// The sample card with the built-in certificates.
    pub fn sample() -> Self {
        Self::new(sample::authentication_certificate(), sample::signature_certificate())
    }

    /// The sample card with these certificates and the largest buffer.
    pub fn new(authentication: Vec<u8>, signature: Vec<u8>) -> Self {
        let card = load(&sample::image()).0;
        StandIn { session: Session { card, authentication, signature, buffer: vec![0; LARGEST_BUFFER] } }
    }

    pub fn card(&self) -> &CardState {
        &self.session.card
    }

    /// The current file, if it is a certificate.
    pub fn current_certificate(&self) -> Option<&[u8]> {
        self.session.current_certificate()
    }

    pub fn authentication(&self) -> &[u8] {
        &self.session.authentication
    }

    pub fn signature(&self) -> &[u8] {
        &self.session.signature
    }

    pub fn buffer_length(&self) -> usize {
        self.session.buffer.len()
    }

    /// "the card is what load returns, also where it refuses"
    fn load(&mut self, image: &[u8]) -> String {
        let (card, number) = load(image);
        self.session.card = card;
        if number == 0 { "L".to_string() } else { format!("F{number}") }
    }

    /// I and the image of the card as it stands, or the writer's refusal.
    fn write(&mut self) -> String {
        match write_image(&self.session.card, &mut self.session.buffer) {
            Ok(length) => format!("I{}", hex::encode(&self.session.buffer[..length])),
            Err(refusal) => format!("H{refusal}"),
        }
    }
}

impl LineProgram for StandIn {
    /// "Lines over 4,096 characters are `?`, every letter alike"
    const LONGEST_LINE: usize = 4096;

    fn answer(&mut self, line: &[u8]) -> Option<String> {
        let (letter, text) = line.split_first()?;
        match letter {
            b'L' => return Some(self.load(&hex::decode(text)?)),
            b'I' if text.is_empty() => return Some(self.write()),
            b'A' => self.session.authentication = hex::decode(text)?,
            b'S' => self.session.signature = hex::decode(text)?,
            b'B' => self.session.buffer.resize(buffer_length(text)?, 0),
            _ => return self.session.call(line).map(|answer| answer.line_with_block()),
        }
        Some((*letter as char).to_string())
    }
}

/// "0 to 4,096, without leading zeros", in decimal.
fn buffer_length(text: &[u8]) -> Option<usize> {
    let leading_zero = text.len() > 1 && text[0] == b'0';
    if leading_zero || !(1..=4).contains(&text.len()) || !text.iter().all(u8::is_ascii_digit) {
        return None;
    }
    let length = text.iter().fold(0, |length, digit| length * 10 + (digit - b'0') as usize);
    (length <= LARGEST_BUFFER).then_some(length)
}
