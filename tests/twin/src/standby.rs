//! The standby: rounds of checks, and what a query quorum of acks says.

use crate::fault::Fault;
use crate::messages::{Answer, Message, Status};
use crate::recorder::OBSERVERS;
use crate::refusal::{bad_counter, bad_reading, bad_ts, lowest, Refusal, LAST_COUNTER, LAST_READING};
use crate::settings::Settings;

#[derive(Clone, Copy, PartialEq, Eq, Debug, Default)]
pub struct Place {
    pub kept: bool,
    pub counter: u64,
    pub status: Status,
}

#[derive(Clone, Copy, PartialEq, Eq, Debug, Default)]
pub struct Standby {
    pub open: bool,
    pub ts: u64,
    pub last_reading: u64,
    pub places: [Place; OBSERVERS],
}

impl Standby {
    pub fn has_form(&self, s: &Settings) -> bool {
        let empty = |place: &Place| *place == Place::default();
        if !self.open {
            return self.ts == 0 && self.places.iter().all(empty) && self.last_reading <= LAST_READING;
        }
        let (own, strangers) = self.places.split_at(s.n as usize);
        self.ts <= self.last_reading
            && self.last_reading <= LAST_READING
            && self.kept() < s.query_quorum()
            && own.iter().all(|place| if place.kept { place.counter <= LAST_COUNTER } else { empty(place) })
            && strangers.iter().all(empty)
    }

    pub fn begin(&mut self, s: &Settings, r: u64) -> Result<Answer, Refusal> {
        lowest(s.fault, &[(3, !self.has_form(s)), (4, bad_reading(s.fault, r, self.last_reading))])?;
        let keeps = s.fault == Fault::BeginKeeps && self.open && self.ts == r;
        let places = if keeps { self.places } else { Default::default() };
        *self = Standby { open: true, ts: r, last_reading: r, places };
        Ok(Answer::Send(Message::Check(r)))
    }

    pub fn poll(&mut self, s: &Settings, r: u64) -> Result<Answer, Refusal> {
        lowest(s.fault, &[(3, !self.has_form(s)), (4, bad_reading(s.fault, r, self.last_reading)), (7, !self.open)])?;
        self.last_reading = r;
        if self.late(s, r) {
            Ok(self.say_late(s))
        } else {
            Ok(Answer::Waiting)
        }
    }

    pub fn ack(&mut self, s: &Settings, r: u64, x: u64, ts: u64, cnt: u64, status: Status) -> Result<Answer, Refusal> {
        lowest(
            s.fault,
            &[
                (3, !self.has_form(s)),
                (4, bad_reading(s.fault, r, self.last_reading) || bad_ts(s.fault, ts)),
                (5, x >= s.n),
                (6, bad_counter(s.fault, cnt)),
                (7, !self.open),
                (8, self.open && ts != self.ts),
            ],
        )?;
        self.last_reading = r;
        if self.late(s, r) {
            return Ok(self.say_late(s));
        }
        let mut place = x as usize;
        if self.places[place].kept {
            let free = self.places[..s.n as usize].iter().position(|place| !place.kept);
            match free {
                Some(free) if s.fault == Fault::SecondAck => place = free,
                _ => return Ok(Answer::Waiting),
            }
        }
        self.places[place] = Place { kept: true, counter: cnt, status };
        let enough = s.query_quorum() - (s.fault == Fault::QueryQuorum) as usize;
        if self.kept() < enough {
            return Ok(Answer::Waiting);
        }
        let verdict = self.verdict(s);
        self.close();
        Ok(verdict)
    }

    pub fn kept(&self) -> usize {
        self.places.iter().filter(|place| place.kept).count()
    }

    /// What the kept acks say together.
    fn verdict(&self, s: &Settings) -> Answer {
        let kept = || self.places.iter().filter(|place| place.kept);
        let m = kept().map(|place| place.counter).max().unwrap_or(0);
        if m == 0 && s.fault != Fault::UnknownAlive {
            return Answer::Unknown;
        }
        let dead = |place: &&Place| place.status == Status::Dead;
        let is_dead = match s.fault {
            Fault::DeadBelowM => kept().any(|place| dead(&place)),
            Fault::Majority => 2 * kept().filter(dead).count() > kept().count(),
            _ => kept().any(|place| dead(&place) && place.counter == m),
        };
        if is_dead {
            Answer::Dead(m)
        } else {
            Answer::Alive(m)
        }
    }

    fn late(&self, s: &Settings, r: u64) -> bool {
        let window = match s.fault {
            Fault::Window => s.window() + 1,
            Fault::WindowUnrounded => s.o - s.p,
            _ => s.window(),
        };
        r - self.ts > window
    }

    fn say_late(&mut self, s: &Settings) -> Answer {
        if s.fault != Fault::LateStaysOpen {
            self.close();
        }
        Answer::Late
    }

    fn close(&mut self) {
        *self = Standby { last_reading: self.last_reading, ..Standby::default() };
    }
}
