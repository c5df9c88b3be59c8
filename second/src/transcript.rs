//! The transcript program: the sample card.

use crate::lines::LineProgram;
use crate::session::Session;
use crate::{load, sample, CardState};

#[derive(Clone)]
pub struct Transcript {
    session: Session,
}

impl Transcript {
    /// The sample card with the built-in certificates.
    pub fn sample() -> Self {
        Self::new(sample::authentication_certificate(), sample::signature_certificate())
    }

    /// The sample card with these certificates.
    pub fn new(authentication: Vec<u8>, signature: Vec<u8>) -> Self {
        let card = load(&sample::image()).0;
        Transcript { session: Session { card, authentication, signature, buffer: vec![0; 258] } }
    }

    pub fn card(&self) -> &CardState {
        &self.session.card
    }

    /// The current file, if it is a certificate.
    pub fn current_certificate(&self) -> Option<&[u8]> {
        self.session.current_certificate()
    }
}

impl LineProgram for Transcript {
    /// "? for other lines or over 1,024 characters"
    const LONGEST_LINE: usize = 1024;

    fn answer(&mut self, line: &[u8]) -> Option<String> {
        self.session.call(line).map(|answer| answer.line())
    }
}
