//! Counts what a step file reached.

use crate::fault::Fault;
use crate::messages::{Answer, Message};
use crate::program::{read_settings, read_step, Rack, Step, LONGEST_INPUT};
use crate::refusal::Refusal;
use crate::settings::Settings;
use std::collections::BTreeMap;

/// The answers a file can get: ten words, four messages, and nine refusals. Refusal 3 is not among them: every record of a
/// run has the form.
pub const ANSWERS: [&str; 23] = [
    "unregistered",
    "running",
    "stopped",
    "silent",
    "cut",
    "waiting",
    "late",
    "unknown",
    "dead",
    "alive",
    "LEASE-REQUEST",
    "LEASE-GRANT",
    "CHECK",
    "CHECK-ACK",
    "refusal 1",
    "refusal 2",
    "refusal 4",
    "refusal 5",
    "refusal 6",
    "refusal 7",
    "refusal 8",
    "refusal 9",
    "refusal 10",
];

/// Steps at exactly a limit, and settings on either side of it.
pub const LIMITS: [&str; 13] = [
    "last ack at W",
    "last ack at W + 1",
    "lacking grant at P - 1",
    "lacking grant at P",
    SLACKS[0][0],
    SLACKS[0][1],
    SLACKS[0][2],
    SLACKS[1][0],
    SLACKS[1][1],
    SLACKS[1][2],
    SLACKS[2][0],
    SLACKS[2][1],
    SLACKS[2][2],
];

const SLACKS: [[&str; 3]; 3] = [
    ["slack a = -1 alone below 0", "slack a = 0", "slack a = 1"],
    ["slack b = -1 alone below 0", "slack b = 0", "slack b = 1"],
    ["slack c = -1 alone below 0", "slack c = 0", "slack c = 1"],
];

#[derive(Default, Clone)]
pub struct Census(pub BTreeMap<&'static str, u64>);

impl Census {
    pub fn count(&self, name: &str) -> u64 {
        self.0.get(name).copied().unwrap_or(0)
    }

    pub fn merge(&mut self, other: &Census) {
        for (name, count) in &other.0 {
            *self.0.entry(name).or_default() += count;
        }
    }

    fn add(&mut self, name: &'static str) {
        *self.0.entry(name).or_default() += 1;
    }

    /// Runs a file and counts its answers and the steps at limits. Gives false if a refusal no file should reach came up.
    pub fn take(&mut self, input: &[u8]) -> bool {
        if input.len() > LONGEST_INPUT {
            return self.add_refusal(10);
        }
        let mut lines = input.split_inclusive(|byte| *byte == b'\n');
        let Some(first) = lines.next() else {
            return true;
        };
        let Some(numbers) = read_settings(first, Fault::None) else {
            return self.add_refusal(9);
        };
        let accepted = Settings::accept(numbers, Fault::None);
        if accepted.is_ok() || accepted.is_err_and(|number| number == 2) {
            self.add_slacks(numbers);
        }
        let settings = match accepted {
            Ok(settings) => settings,
            Err(number) => return self.add_refusal(number),
        };
        let mut rack = Rack::new(settings);
        lines.all(|line| match read_step(line, Fault::None) {
            None => self.add_refusal(9),
            Some(step) => {
                let before = rack.clone();
                match rack.step(step) {
                    Err(number) => self.add_refusal(number),
                    Ok(answer) => {
                        self.add(name(&answer));
                        if let Some(limit) = limit(&before, step, &answer) {
                            self.add(limit);
                        }
                        true
                    }
                }
            }
        })
    }

    /// Counts the slacks of settings in range. Below zero counts only where no other slack is.
    fn add_slacks(&mut self, [n, t, eta, delta, p, o, g]: [u64; 7]) {
        let slacks = Settings { n, t, eta, delta, p, o, g, fault: Fault::None }.slacks();
        let negative = slacks.iter().filter(|slack| **slack < 0).count();
        for (slack, names) in slacks.iter().zip(SLACKS) {
            match slack {
                -1 if negative == 1 => self.add(names[0]),
                0 | 1 if negative == 0 => self.add(names[1 + *slack as usize]),
                _ => {}
            }
        }
    }

    fn add_refusal(&mut self, number: Refusal) -> bool {
        match ANSWERS.iter().find(|name| **name == format!("refusal {number}")) {
            Some(name) => self.add(name),
            None => return false,
        }
        true
    }
}

fn name(answer: &Answer) -> &'static str {
    match answer {
        Answer::Send(Message::LeaseRequest(_)) => "LEASE-REQUEST",
        Answer::Send(Message::LeaseGrant(_)) => "LEASE-GRANT",
        Answer::Send(Message::Check(_)) => "CHECK",
        Answer::Send(Message::CheckAck { .. }) => "CHECK-ACK",
        Answer::Unregistered => "unregistered",
        Answer::Running => "running",
        Answer::Stopped => "stopped",
        Answer::Silent => "silent",
        Answer::Cut => "cut",
        Answer::Waiting => "waiting",
        Answer::Late => "late",
        Answer::Unknown => "unknown",
        Answer::Dead(_) => "dead",
        Answer::Alive(_) => "alive",
    }
}

/// The limit at which an accepted step fell, if any. A last ack is one that completes a query quorum, or would do so if it
/// were in time. A lacking grant is one that the oldest lease lacks, at the last reading before its end, or would have needed
/// there.
fn limit(before: &Rack, step: Step, answer: &Answer) -> Option<&'static str> {
    let s = &before.settings;
    match step {
        Step::Ack { r, x, ts, .. } => {
            let q = &before.standby;
            let last = q.kept() + 1 == s.query_quorum() && !q.places[x as usize].kept;
            match r - ts {
                age if last && age == s.window() => Some("last ack at W"),
                age if last && age == s.window() + 1 && *answer == Answer::Late => Some("last ack at W + 1"),
                _ => None,
            }
        }
        Step::Grant { r, x, j } => {
            let record = &before.recorder;
            if record.stopped == 1 {
                return None;
            }
            let next = record.counter + 2 - record.open;
            let mut with = *record;
            with.grants[x as usize] = with.grants[x as usize].max(j);
            let lacking = !record.granted(s, next) && with.granted(s, next);
            match r - record.sends[0] {
                age if lacking && age == s.p - 1 => Some("lacking grant at P - 1"),
                age if lacking && age == s.p && *answer == Answer::Stopped => Some("lacking grant at P"),
                _ => None,
            }
        }
        _ => None,
    }
}
