//! The observer: two stored numbers, a last reading in memory, and cuts between the stores.

use crate::fault::Fault;
use crate::messages::{Answer, Message, Status};
use crate::refusal::{bad_counter, bad_reading, bad_ts, lowest, Refusal, LAST_COUNTER, LAST_READING};
use crate::settings::Settings;

#[derive(Clone, Copy, PartialEq, Eq, Debug, Default)]
pub struct Observer {
    pub latest: u64,
    pub deadline: u64,
    pub last_reading: u64,
}

impl Observer {
    pub fn has_form(&self, s: &Settings) -> bool {
        let deadline = match self.deadline {
            0 => self.latest == 0,
            deadline => s.o <= deadline && deadline <= LAST_READING + s.o,
        };
        self.latest <= LAST_COUNTER && deadline && self.last_reading <= LAST_READING
    }

    /// Request c to observer x, cut after so many stores or not at all.
    pub fn request(&mut self, s: &Settings, x: u64, r: u64, c: u64, cut: Option<u64>) -> Result<Answer, Refusal> {
        let most_stores = if s.fault == Fault::CutThree { 3 } else { 2 };
        lowest(
            s.fault,
            &[
                (3, !self.has_form(s)),
                (4, bad_reading(s.fault, r, self.last_reading)),
                (5, x >= s.n),
                (6, c == 0 || bad_counter(s.fault, c)),
                (9, cut.is_some_and(|k| k > most_stores)),
            ],
        )?;
        let silent = c <= self.latest;
        let stores = cut.unwrap_or(2);
        if !silent {
            let deadline_at = if s.fault == Fault::StoreOrder { 2 } else { 1 };
            if stores >= deadline_at {
                self.deadline = r + s.o;
            }
            if stores >= 3 - deadline_at {
                self.latest = c;
            }
        } else if s.fault == Fault::SilentRenews || (s.fault == Fault::SilentCutStores && cut.is_some() && stores > 0) {
            self.deadline = r + s.o;
        }
        if cut.is_some() {
            self.last_reading = if s.fault == Fault::CutReading { r } else { 0 };
            return Ok(Answer::Cut);
        }
        self.last_reading = r;
        if silent {
            Ok(Answer::Silent)
        } else {
            Ok(Answer::Send(Message::LeaseGrant(c)))
        }
    }

    pub fn check(&mut self, s: &Settings, x: u64, r: u64, ts: u64) -> Result<Answer, Refusal> {
        lowest(
            s.fault,
            &[
                (3, !self.has_form(s)),
                (4, bad_reading(s.fault, r, self.last_reading) || bad_ts(s.fault, ts)),
                (5, x >= s.n),
            ],
        )?;
        self.last_reading = r;
        let alive = r < self.deadline || (s.fault == Fault::Deadline && r == self.deadline);
        let status = if alive { Status::Alive } else { Status::Dead };
        Ok(Answer::Send(Message::CheckAck { ts, cnt: self.latest, status }))
    }
}
