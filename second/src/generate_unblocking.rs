//! RESET RETRY around a PIN's unblocking count, for the generator of stand-in lines, case by case in
//! turn: a card with a count is loaded, the PIN is blocked and an unblocking tried, then the count is
//! lowered, and the same is tried again. The lines are not damaged, and no others come between them.

use crate::generate::Generator;
use crate::generate_changing::{Deed, Mark, Values};
use crate::generate_stand_in::PlayedStandIn;
use crate::images::Parts;
use crate::sections::COUNTS;
use crate::state::*;

/// The cases that two seeds next to each other begin with lie so far apart.
const APART: usize = 13;
/// So many unblockings lower a count at most.
const MOST_LOWERED: usize = 3;

/// What is tried when PUK is as `puk` says; without values P1 is 03.
#[derive(Clone, Copy)]
struct Case {
    pin: usize,
    /// At load.
    count: u8,
    puk: Mark,
    values: Option<Values>,
}

fn cases() -> Vec<Case> {
    let mut cases = Vec::new();
    for (pin, count) in [PIN1, PIN2].iter().flat_map(|pin| COUNTS.map(|count| (*pin, count))) {
        let marks = [Mark::Verified, Mark::Closed(3), Mark::Closed(2), Mark::Closed(1)];
        // At 0 PUK is not looked at, however it is.
        for puk in if count == 0 { &marks[..] } else { &marks[1..2] } {
            let values = [Values::Allowed, Values::Wrong, Values::Short, Values::Refused];
            cases.extend(values.map(|values| Case { pin, count, puk: *puk, values: Some(values) }));
        }
        cases.extend([Mark::Verified, Mark::Closed(3)].map(|puk| Case { pin, count, puk, values: None }));
        cases.extend([None, Some(Values::Allowed)].map(|values| Case { pin, count, puk: Mark::Closed(0), values }));
    }
    cases
}

/// Where a seed begins among the cases.
pub(crate) fn first_unblocking(seed: u64) -> usize {
    (seed as usize).wrapping_mul(APART)
}

impl Generator<PlayedStandIn> {
    pub(crate) fn unblock_around_limit(&mut self) {
        let cases = cases();
        let case = cases[self.session.next_unblocking % cases.len()];
        self.session.next_unblocking = self.session.next_unblocking.wrapping_add(1);
        self.session.spares_puk = false;
        self.load_with_count(&case);
        // A blocked PUK unblocks nothing, so it is the end of the case.
        let ends_blocked = matches!(case.puk, Mark::Closed(0));
        if !ends_blocked || self.random.percent(50) {
            self.try_unblocking(&case);
        }
        self.lower_count(case.pin);
        self.try_unblocking(&case);
        if self.random.percent(20) {
            self.write_by_size();
        }
        self.session.session_ends = self.made + self.random.below(10);
    }

    fn load_with_count(&mut self, case: &Case) {
        let r = &mut self.random;
        let (own, other) = (case.count, r.pick(&COUNTS));
        let counts = if case.pin == PIN1 { [own, other] } else { [other, own] };
        let parts = Parts::valid(r).with_tries(PUK, r.pick(&[1, 2, 3])).with_tries(case.pin, r.pick(&[0, 1, 3]));
        let parts = if counts == [NO_LIMIT; 2] { parts.without_section() } else { parts.with_counts(counts) };
        self.call(b'L', &parts.bytes());
        self.make_usable();
        self.make_room();
    }

    /// With the PIN blocked, now and then also before that. After it comes the image, where it
    /// succeeded, or a query of PUK.
    fn try_unblocking(&mut self, case: &Case) {
        if self.random.percent(40) {
            self.act(Deed::Unblock(case.pin, case.values));
        }
        self.block(case.pin);
        self.bring_puk_to(case.puk);
        self.act(Deed::Unblock(case.pin, case.values));
        if self.session.stand_in.card().codes[case.pin].tries > 0 {
            self.write();
        } else {
            self.ask_alone(PUK);
        }
    }

    fn bring_puk_to(&mut self, mark: Mark) {
        match mark {
            Mark::Verified => self.present(PUK),
            Mark::Changed => self.change_rightly(PUK),
            Mark::Closed(tries) => {
                self.raise_to(PUK, tries);
                self.lower_to(PUK, tries);
            }
        }
    }

    /// By a few unblockings in either form, to 0 where the count is small. Sometimes a reset comes
    /// after one, or the card is written and loaded.
    fn lower_count(&mut self, pin: usize) {
        for _ in 0..MOST_LOWERED {
            if self.session.stand_in.card().unblocking_count(pin) == 0 {
                return;
            }
            self.block(pin);
            let values = self.random.pick(&[None, Some(Values::Allowed)]);
            if values.is_none() {
                self.present(PUK);
            }
            self.act(Deed::Unblock(pin, values));
            match self.random.below(6) {
                0 => self.line(b"P".to_vec()),
                1 => self.load_what_is_written(),
                2 => self.write(),
                _ => {}
            }
        }
    }
}
