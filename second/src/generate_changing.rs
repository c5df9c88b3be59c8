//! CHANGE and RESET RETRY for both generators, case by case in turn: a code is brought to a mark and
//! asked about, then comes the command, then a look at the marks, by a query or by what an open code
//! permits. The lines of a case are not damaged, and no others come between them.

use crate::generate::{Generator, Played};
use crate::state::{MAX_TRIES, PIN1, PIN2, PUK};

/// The cases that two seeds next to each other begin with lie so far apart.
const APART: usize = 40;

/// How a code comes to be open, or the tries that it has closed.
#[derive(Clone, Copy)]
pub(crate) enum Mark {
    Verified,
    Changed,
    Closed(u8),
}

use Mark::{Changed, Closed, Verified};

/// The values in a CHANGE or a RESET RETRY.
#[derive(Clone, Copy)]
pub(crate) enum Values {
    Allowed,
    /// The new value is the old one.
    Same,
    /// The new value is not allowed.
    Refused,
    /// The old value is wrong or short.
    Wrong,
    /// The old value is short, and nothing follows it.
    Short,
}

#[derive(Clone, Copy)]
pub(crate) enum Deed {
    Change(usize, Values),
    /// RESET RETRY for this PIN; without values P1 is 03.
    Unblock(usize, Option<Values>),
}

#[derive(Clone, Copy)]
enum Look {
    Ask(usize),
    AskAfterReset(usize),
    /// RESET RETRY with P1 03, for this PIN.
    Unblock(usize),
    Authenticate,
    Decipher,
    Sign,
}

/// What happens to the marks when `code` is as `mark` says.
#[derive(Clone, Copy)]
struct Case {
    code: usize,
    mark: Mark,
    deed: Deed,
    look: Look,
}

/// What a code permits while it is open.
fn uses(code: usize) -> &'static [Look] {
    match code {
        PUK => &[Look::Unblock(PIN1), Look::Unblock(PIN2)],
        PIN1 => &[Look::Authenticate, Look::Decipher],
        _ => &[Look::Sign],
    }
}

fn cases() -> Vec<Case> {
    let mut cases = Vec::new();
    for code in [PUK, PIN1, PIN2] {
        cases.extend(changes(code));
        cases.extend(changes_beside(code));
    }
    for (pin, other) in [(PIN1, PIN2), (PIN2, PIN1)] {
        cases.extend(unblockings(pin, other));
    }
    cases
}

fn changes(code: usize) -> Vec<Case> {
    let mut looks = vec![Look::Ask(code)];
    looks.extend(uses(code));
    let deed = Deed::Change(code, Values::Allowed);
    let mut cases = vec![Case { code, mark: Closed(3), deed, look: Look::AskAfterReset(code) }];
    for mark in [Verified, Closed(3), Closed(2), Closed(1), Closed(0)] {
        for values in [Values::Allowed, Values::Same, Values::Refused, Values::Wrong] {
            cases.extend(looks.iter().map(|look| Case { code, mark, deed: Deed::Change(code, values), look: *look }));
        }
    }
    cases
}

/// The code is asked about, and another is changed.
fn changes_beside(code: usize) -> Vec<Case> {
    let mut cases = Vec::new();
    for changed in [(code + 1) % 3, (code + 2) % 3] {
        let deed = Deed::Change(changed, Values::Allowed);
        cases.extend([Verified, Changed, Closed(3)].map(|mark| Case { code, mark, deed, look: Look::Ask(code) }));
    }
    cases
}

fn unblockings(pin: usize, other: usize) -> Vec<Case> {
    let mut looks = vec![Look::Ask(pin), Look::Ask(PUK), Look::Unblock(other)];
    looks.extend(uses(pin));
    let mut cases = Vec::new();
    for mark in [Verified, Changed, Closed(3), Closed(2), Closed(1)] {
        for values in [None, Some(Values::Allowed), Some(Values::Refused)] {
            cases.extend(looks.iter().map(|look| Case { code: PUK, mark, deed: Deed::Unblock(pin, values), look: *look }));
        }
    }
    cases
}

/// Where a seed begins among the cases.
pub(crate) fn first_case(seed: u64) -> usize {
    (seed as usize).wrapping_mul(APART)
}

impl<S: Played> Generator<S> {
    /// The next case; a waiting job is ended instead.
    pub(crate) fn change_or_unblock(&mut self) {
        if self.session.card().job.is_some() {
            return self.deliver();
        }
        let cases = cases();
        let case = cases[self.next_case % cases.len()];
        self.next_case = self.next_case.wrapping_add(1);
        self.prepare(&case);
        self.ask_alone(case.code);
        self.act(case.deed);
        self.look(case.look);
        self.look_again(&case);
        self.unblock_if_blocked(PIN1);
        self.unblock_if_blocked(PIN2);
    }

    /// What the case asks for can then be refused only because of a code.
    fn prepare(&mut self, case: &Case) {
        self.unblock_if_blocked(case.code);
        if let Deed::Unblock(pin, _) = case.deed {
            self.block(pin);
        }
        if let Look::Unblock(pin) = case.look {
            self.block(pin);
        }
        if let Closed(tries) = case.mark {
            self.raise_to(case.code, tries);
        }
        match case.look {
            Look::Decipher => self.send_alone([0x00, 0x22, 0xF3, 0x06], &[], None),
            Look::Authenticate | Look::Sign => self.send_alone([0x00, 0x22, 0xF3, 0x01], &[], None),
            _ => {}
        }
        match case.mark {
            Verified => self.present(case.code),
            Changed => self.change_rightly(case.code),
            Closed(tries) => self.lower_to(case.code, tries),
        }
    }

    pub(crate) fn act(&mut self, deed: Deed) {
        match deed {
            Deed::Change(code, values) => {
                let data = self.old_and_new(code, code, values);
                let le = self.random.pick(&[None, None, None, Some(0)]);
                self.send_alone([0x00, 0x24, 0x00, code as u8], &data, le);
            }
            Deed::Unblock(pin, Some(values)) => {
                let data = self.old_and_new(PUK, pin, values);
                self.send_alone([0x00, 0x2C, 0x00, pin as u8], &data, None);
            }
            Deed::Unblock(pin, None) => self.send_alone([0x00, 0x2C, 0x03, pin as u8], &[], None),
        }
    }

    pub(crate) fn change_rightly(&mut self, code: usize) {
        self.act(Deed::Change(code, Values::Allowed));
    }

    /// The value of one code, then a new one for another code or the same.
    fn old_and_new(&mut self, old: usize, new: usize, values: Values) -> Vec<u8> {
        let mut old = self.stored(old);
        let last = old.len() - 1;
        let new = match values {
            Values::Allowed => self.allowed_value(new),
            Values::Same => old.clone(),
            Values::Refused => self.refused_value(new),
            Values::Short => return old[..last].to_vec(),
            Values::Wrong if self.random.percent(30) => return old[..last].to_vec(),
            Values::Wrong => {
                old[self.random.between(0, last)] ^= self.random.pick(&[1, 2, 0x80]);
                self.allowed_value(new)
            }
        };
        [old, new].concat()
    }

    fn look(&mut self, look: Look) {
        match look {
            Look::Ask(code) => self.ask_alone(code),
            Look::AskAfterReset(code) => {
                self.line(b"P".to_vec());
                self.ask_alone(code);
            }
            Look::Unblock(pin) => self.send_alone([0x00, 0x2C, 0x03, pin as u8], &[], None),
            Look::Authenticate => self.send_alone([0x00, 0x88, 0x00, 0x00], &[0x5A], Some(0)),
            Look::Decipher => {
                let first = self.random.between(2, 255);
                self.send_alone([0x10, 0x2A, 0x80, 0x86], &vec![0; first], None);
                self.send_alone([0x00, 0x2A, 0x80, 0x86], &vec![0; 257 - first], Some(0));
            }
            Look::Sign => {
                let digest = self.digest();
                self.send_alone([0x00, 0x2A, 0x9E, 0x9A], &digest, Some(0));
            }
        }
    }

    /// After a job: its result, and then another look, sometimes with the deed done once more.
    fn look_again(&mut self, case: &Case) {
        if self.session.card().job.is_none() {
            return;
        }
        let result = self.random.bytes(256);
        self.call(b'D', &result);
        match self.random.below(3) {
            0 => self.ask_alone(case.code),
            1 => self.look(case.look),
            _ => {
                self.act(case.deed);
                self.look(case.look);
            }
        }
    }

    pub(crate) fn ask_alone(&mut self, code: usize) {
        let le = self.random.pick(&[None, None, None, Some(0)]);
        self.send_alone([0x00, 0x20, 0x00, code as u8], &[], le);
    }

    /// VERIFY with the right value.
    pub(crate) fn present(&mut self, code: usize) {
        let value = self.stored(code);
        self.send_alone([0x00, 0x20, 0x00, code as u8], &value, None);
    }

    /// A PIN, with the right value of PUK.
    fn unblock_if_blocked(&mut self, code: usize) {
        if code != PUK && self.session.card().codes[code].tries == 0 {
            self.act(Deed::Unblock(code, Some(Values::Allowed)));
        }
    }

    /// Wrong values of PUK, in VERIFY or CHANGE, until it has so many tries, with a query at each
    /// number of tries; then the right value.
    pub(crate) fn lower_puk_and_ask(&mut self, left: u8) {
        self.ask_about(PUK);
        for _ in left..self.session.card().codes[PUK].tries {
            if self.random.percent(50) {
                self.verify(PUK, 0);
            } else {
                self.act(Deed::Change(PUK, Values::Wrong));
            }
            self.ask_about(PUK);
        }
        self.verify(PUK, 100);
    }

    /// Wrong values until the code has no tries.
    pub(crate) fn block(&mut self, code: usize) {
        self.lower_to(code, 0);
    }

    /// The right value where the code has fewer tries; a reset where no wrong value is to close it.
    pub(crate) fn raise_to(&mut self, code: usize, tries: u8) {
        if self.session.card().codes[code].tries < tries {
            self.present(code);
        }
        if tries == MAX_TRIES && self.session.card().codes[code].verified {
            self.line(b"P".to_vec());
        }
    }

    /// Wrong values until the code has at most so many tries.
    pub(crate) fn lower_to(&mut self, code: usize, tries: u8) {
        for _ in tries..self.session.card().codes[code].tries {
            self.send_alone([0x00, 0x20, 0x00, code as u8], &[0x00], None);
        }
    }
}
