//! Messages, answers, and their lines.

use crate::fault::Fault;
use crate::refusal::{Refusal, LAST_COUNTER, LAST_READING};
use std::fmt;

#[derive(Clone, Copy, PartialEq, Eq, Debug, Default)]
pub enum Status {
    #[default]
    Alive,
    Dead,
}

#[derive(Clone, Copy, PartialEq, Eq, Debug)]
pub enum Message {
    LeaseRequest(u64),
    LeaseGrant(u64),
    Check(u64),
    CheckAck { ts: u64, cnt: u64, status: Status },
}

/// What a step answers when it is not refused.
#[derive(Clone, Copy, PartialEq, Eq, Debug)]
pub enum Answer {
    Send(Message),
    Unregistered,
    Running,
    Stopped,
    Silent,
    Cut,
    Waiting,
    Late,
    Unknown,
    Dead(u64),
    Alive(u64),
}

impl Status {
    pub fn word(self) -> &'static str {
        match self {
            Status::Alive => "Alive",
            Status::Dead => "Dead",
        }
    }

    pub fn read(word: &[u8]) -> Option<Status> {
        match word {
            b"Alive" => Some(Status::Alive),
            b"Dead" => Some(Status::Dead),
            _ => None,
        }
    }
}

impl Message {
    pub fn has_form(&self) -> bool {
        match *self {
            Message::LeaseRequest(cnt) | Message::LeaseGrant(cnt) => (1..=LAST_COUNTER).contains(&cnt),
            Message::Check(ts) => ts <= LAST_READING,
            Message::CheckAck { ts, cnt, .. } => ts <= LAST_READING && cnt <= LAST_COUNTER,
        }
    }
}

/// The message's line without its line feed.
impl fmt::Display for Message {
    fn fmt(&self, f: &mut fmt::Formatter) -> fmt::Result {
        match self {
            Message::LeaseRequest(cnt) => write!(f, "LEASE-REQUEST\t{cnt}"),
            Message::LeaseGrant(cnt) => write!(f, "LEASE-GRANT\t{cnt}"),
            Message::Check(ts) => write!(f, "CHECK\t{ts}"),
            Message::CheckAck { ts, cnt, status } => write!(f, "CHECK-ACK\t{ts}\t{cnt}\t{}", status.word()),
        }
    }
}

impl fmt::Display for Answer {
    fn fmt(&self, f: &mut fmt::Formatter) -> fmt::Result {
        match self {
            Answer::Send(message) => message.fmt(f),
            Answer::Unregistered => f.write_str("unregistered"),
            Answer::Running => f.write_str("running"),
            Answer::Stopped => f.write_str("stopped"),
            Answer::Silent => f.write_str("silent"),
            Answer::Cut => f.write_str("cut"),
            Answer::Waiting => f.write_str("waiting"),
            Answer::Late => f.write_str("late"),
            Answer::Unknown => f.write_str("unknown"),
            Answer::Dead(m) => write!(f, "dead\t{m}"),
            Answer::Alive(m) => write!(f, "alive\t{m}"),
        }
    }
}

/// Writes the message's line into the room and gives its length.
pub fn write_message(message: &Message, room: &mut [u8]) -> Result<usize, Refusal> {
    if !message.has_form() {
        return Err(9);
    }
    let line = format!("{message}\n");
    let room = room.get_mut(..line.len()).ok_or(10)?;
    room.copy_from_slice(line.as_bytes());
    Ok(line.len())
}

/// Reads exactly one message line with its line feed.
pub fn read_message(line: &[u8]) -> Result<Message, Refusal> {
    let fields = Fields::of(line).ok_or(9)?;
    let number = |field: &[u8]| number(field, Fault::None).ok_or(9);
    let message = match *fields.parts() {
        [b"LEASE-REQUEST", cnt] => Message::LeaseRequest(number(cnt)?),
        [b"LEASE-GRANT", cnt] => Message::LeaseGrant(number(cnt)?),
        [b"CHECK", ts] => Message::Check(number(ts)?),
        [b"CHECK-ACK", ts, cnt, status] => {
            Message::CheckAck { ts: number(ts)?, cnt: number(cnt)?, status: Status::read(status).ok_or(9)? }
        }
        _ => return Err(9),
    };
    if message.has_form() {
        Ok(message)
    } else {
        Err(9)
    }
}

/// The parts between the tabs of a line.
pub struct Fields<'a> {
    parts: [&'a [u8]; MOST_FIELDS],
    count: usize,
}

/// No line has more fields than SETTINGS.
const MOST_FIELDS: usize = 8;

impl<'a> Fields<'a> {
    /// None of a line that does not end with its only line feed, or has too many fields.
    pub fn of(line: &'a [u8]) -> Option<Fields<'a>> {
        let mut fields = Fields { parts: [b""; MOST_FIELDS], count: 0 };
        let mut begin = 0;
        for (place, byte) in line.iter().enumerate() {
            if *byte == b'\t' || *byte == b'\n' {
                *fields.parts.get_mut(fields.count)? = &line[begin..place];
                fields.count += 1;
                begin = place + 1;
            }
            if *byte == b'\n' && begin < line.len() {
                return None;
            }
        }
        if line.ends_with(b"\n") {
            Some(fields)
        } else {
            None
        }
    }

    pub fn parts(&self) -> &[&'a [u8]] {
        &self.parts[..self.count]
    }
}

/// A decimal without sign or leading zero, to 2^64 - 1.
pub fn number(field: &[u8], fault: Fault) -> Option<u64> {
    if field.is_empty() || (field[0] == b'0' && field.len() > 1 && fault != Fault::LeadingZero) {
        return None;
    }
    let mut value: u64 = 0;
    for byte in field {
        if !byte.is_ascii_digit() {
            return None;
        }
        let digit = (byte - b'0') as u64;
        if fault == Fault::NumberWraps {
            value = value.wrapping_mul(10).wrapping_add(digit);
        } else {
            value = value.checked_mul(10)?.checked_add(digit)?;
        }
    }
    Some(value)
}
