//! The recorder's record and steps, and the steps over its 680 bytes as C calls them.

use crate::fault::Fault;
use crate::messages::{Answer, Message};
use crate::refusal::{bad_reading, lowest, Refusal, LAST_COUNTER, LAST_READING};
use crate::settings::Settings;

pub const LEASES: usize = 64;
pub const OBSERVERS: usize = 16;
pub const WORDS: usize = 5 + LEASES + OBSERVERS;
pub const BYTES: usize = 8 * WORDS;

#[derive(Clone, Copy, PartialEq, Eq, Debug)]
pub struct Recorder {
    pub stopped: u64,
    pub counter: u64,
    pub last_send: u64,
    pub last_reading: u64,
    pub open: u64,
    pub sends: [u64; LEASES],
    pub grants: [u64; OBSERVERS],
}

#[derive(Clone, Copy, PartialEq, Eq, Debug)]
pub enum Event {
    Tick,
    Drive,
    Grant { x: u64, j: u64 },
}

impl Recorder {
    /// The record at the start of a run.
    pub fn new() -> Recorder {
        Recorder {
            stopped: 0,
            counter: 0,
            last_send: 0,
            last_reading: 0,
            open: 0,
            sends: [0; LEASES],
            grants: [0; OBSERVERS],
        }
    }

    pub fn has_form(&self, s: &Settings) -> bool {
        let zero = |places: &[u64]| places.iter().all(|v| *v == 0);
        if self.stopped > 1 || self.counter > LAST_COUNTER || self.last_reading > LAST_READING {
            return false;
        }
        if self.counter == 0 {
            let numbers = [self.stopped, self.last_send, self.open];
            return zero(&numbers) && zero(&self.sends) && zero(&self.grants);
        }
        let most = if s.fault == Fault::Leases63 { 63 } else { LEASES as u64 };
        if self.open < 1 || self.open > most || self.open > self.counter {
            return false;
        }
        let (open, unused) = self.sends.split_at(self.open as usize);
        let (grants, strangers) = self.grants.split_at(s.n as usize);
        zero(unused)
            && zero(strangers)
            && grants.iter().all(|grant| *grant <= self.counter)
            && open.windows(2).all(|w| w[0] <= w[1] && w[1] - w[0] >= s.eta)
            && open[open.len() - 1] == self.last_send
            && self.counter - 1 <= self.last_send
            && self.last_send <= self.last_reading
            && (self.stopped == 1 || open.iter().all(|send| !ended(s, self.last_reading, *send)))
    }

    pub fn step(&mut self, s: &Settings, r: u64, event: Event) -> Result<Answer, Refusal> {
        let refusal = lowest(
            s.fault,
            &[
                (3, !self.has_form(s)),
                (4, bad_reading(s.fault, r, self.last_reading)),
                (5, matches!(event, Event::Grant { x, .. } if x >= s.n)),
                (6, matches!(event, Event::Grant { j, .. } if j == 0 || j > self.counter)),
            ],
        );
        if s.fault == Fault::RefusedBinds && refusal.is_err() && r <= LAST_READING {
            self.last_reading = self.last_reading.max(r);
        }
        refusal?;
        if self.stopped == 1 {
            if s.fault == Fault::StopReading {
                self.last_reading = r;
            }
            return Ok(Answer::Stopped);
        }
        self.last_reading = r;
        if s.fault == Fault::GrantFirst {
            self.take(s, event);
        }
        if !self.end_leases(s, r) {
            self.stopped = 1;
            return Ok(Answer::Stopped);
        }
        let due = self.counter == 0 || r - self.last_send >= s.eta + (s.fault == Fault::Interval) as u64;
        if event == Event::Tick && due {
            self.counter += 1;
            self.last_send = r;
            self.sends[self.open as usize] = r;
            self.open += 1;
            return Ok(Answer::Send(Message::LeaseRequest(self.counter)));
        }
        self.take(s, event);
        if self.granted(s, 1) {
            Ok(Answer::Running)
        } else {
            Ok(Answer::Unregistered)
        }
    }

    /// Have t observers granted i or higher?
    pub fn granted(&self, s: &Settings, i: u64) -> bool {
        let count = self.grants.iter().filter(|grant| **grant >= i).count() as u64;
        count >= s.t - (s.fault == Fault::Survival) as u64
    }

    /// Removes the leases that have ended at r. False, and nothing changed, if one of them ended without its grants.
    fn end_leases(&mut self, s: &Settings, r: u64) -> bool {
        let open = self.open as usize;
        let over = self.sends[..open].iter().filter(|send| ended(s, r, **send)).count();
        let oldest = self.counter + 1 - self.open;
        let needed = if s.fault == Fault::GrantsOfI { 0 } else { 1 };
        let lives = s.fault == Fault::UnregisteredLives && !self.granted(s, 1);
        if !lives && (0..over as u64).any(|k| !self.granted(s, oldest + k + needed)) {
            return false;
        }
        self.sends.copy_within(over..open, 0);
        self.sends[open - over..open].fill(0);
        self.open -= over as u64;
        true
    }

    fn take(&mut self, s: &Settings, event: Event) {
        if let Event::Grant { x, j } = event {
            let place = &mut self.grants[x as usize];
            *place = if s.fault == Fault::GrantReplaces { j } else { j.max(*place) };
        }
    }

    pub fn to_bytes(&self) -> [u8; BYTES] {
        let numbers = [self.stopped, self.counter, self.last_send, self.last_reading, self.open];
        let words = numbers.iter().chain(&self.sends).chain(&self.grants);
        let mut bytes = [0; BYTES];
        for (place, word) in bytes.chunks_exact_mut(8).zip(words) {
            place.copy_from_slice(&word.to_le_bytes());
        }
        bytes
    }

    /// The record in 680 bytes, whatever they hold; none in a buffer of another size.
    pub fn from_bytes(bytes: &[u8]) -> Option<Recorder> {
        if bytes.len() != BYTES {
            return None;
        }
        let word = |i: usize| u64::from_le_bytes(bytes[8 * i..8 * i + 8].try_into().unwrap());
        Some(Recorder {
            stopped: word(0),
            counter: word(1),
            last_send: word(2),
            last_reading: word(3),
            open: word(4),
            sends: std::array::from_fn(|i| word(5 + i)),
            grants: std::array::from_fn(|i| word(5 + LEASES + i)),
        })
    }
}

impl Default for Recorder {
    fn default() -> Recorder {
        Recorder::new()
    }
}

/// Has a lease sent at this reading ended at r?
fn ended(s: &Settings, r: u64, send: u64) -> bool {
    if s.fault == Fault::LeaseEnd {
        r - send > s.p
    } else {
        r - send >= s.p
    }
}

/// A recorder step as C calls it: the refusal number, or 100 unregistered, 101 running, 102 stopped, 103 request to send.
pub fn c_step(settings: [u64; 7], r: u64, event: Event, buffer: &mut [u8], fault: Fault) -> u64 {
    let s = match Settings::accept(settings, fault) {
        Ok(s) => s,
        Err(number) => return number as u64,
    };
    let Some(mut record) = Recorder::from_bytes(buffer) else {
        return 10;
    };
    match record.step(&s, r, event) {
        Err(number) => number as u64,
        Ok(answer) => {
            buffer.copy_from_slice(&record.to_bytes());
            match answer {
                Answer::Unregistered => 100,
                Answer::Running => 101,
                Answer::Stopped => 102,
                _ => 103,
            }
        }
    }
}
