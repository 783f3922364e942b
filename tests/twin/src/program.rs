//! The program `rackrun`: lines in, lines out.

use crate::fault::Fault;
use crate::messages::{number, Answer, Fields, Status};
use crate::observer::Observer;
use crate::recorder::{Event, Recorder, OBSERVERS};
use crate::refusal::Refusal;
use crate::settings::Settings;
use crate::standby::Standby;
use std::io::Write;

/// The longest input that is read.
pub const LONGEST_INPUT: usize = 65_536;

#[derive(Clone, Copy, PartialEq, Eq, Debug)]
pub enum Step {
    Tick { r: u64 },
    Drive { r: u64 },
    Grant { r: u64, x: u64, j: u64 },
    Request { x: u64, r: u64, c: u64, cut: Option<u64> },
    Check { x: u64, r: u64, ts: u64 },
    Begin { r: u64 },
    Poll { r: u64 },
    Ack { r: u64, x: u64, ts: u64, cnt: u64, status: Status },
}

/// All three parties.
#[derive(Clone)]
pub struct Rack {
    pub settings: Settings,
    pub recorder: Recorder,
    pub observers: [Observer; OBSERVERS],
    pub standby: Standby,
}

impl Rack {
    pub fn new(settings: Settings) -> Rack {
        Rack {
            settings,
            recorder: Recorder::new(),
            observers: [Observer::default(); OBSERVERS],
            standby: Standby::default(),
        }
    }

    pub fn step(&mut self, step: Step) -> Result<Answer, Refusal> {
        let s = self.settings;
        match step {
            Step::Tick { r } => self.recorder.step(&s, r, Event::Tick),
            Step::Drive { r } => self.recorder.step(&s, r, Event::Drive),
            Step::Grant { r, x, j } => self.recorder.step(&s, r, Event::Grant { x, j }),
            Step::Request { x, r, c, cut } => self.at_observer(x, |observer| observer.request(&s, x, r, c, cut)),
            Step::Check { x, r, ts } => self.at_observer(x, |observer| observer.check(&s, x, r, ts)),
            Step::Begin { r } => self.standby.begin(&s, r),
            Step::Poll { r } => self.standby.poll(&s, r),
            Step::Ack { r, x, ts, cnt, status } => self.standby.ack(&s, r, x, ts, cnt, status),
        }
    }

    /// A number that no observer has meets an empty record, whose step refuses it.
    fn at_observer<A>(&mut self, x: u64, step: impl FnOnce(&mut Observer) -> A) -> A {
        if x < self.settings.n {
            step(&mut self.observers[x as usize])
        } else {
            step(&mut Observer::default())
        }
    }
}

/// The seven numbers of a SETTINGS line, or none if the line is bad.
pub fn read_settings(line: &[u8], fault: Fault) -> Option<[u64; 7]> {
    let num = |field: &[u8]| number(field, fault);
    match *Fields::of(line)?.parts() {
        [b"SETTINGS", n, t, eta, delta, p, o, g] => {
            Some([num(n)?, num(t)?, num(eta)?, num(delta)?, num(p)?, num(o)?, num(g)?])
        }
        _ => None,
    }
}

/// The step of a line, or none if the line is bad.
pub fn read_step(line: &[u8], fault: Fault) -> Option<Step> {
    let num = |field: &[u8]| number(field, fault);
    let step = match *Fields::of(line)?.parts() {
        [b"R", r, b"tick"] => Step::Tick { r: num(r)? },
        [b"R", r, b"drive"] => Step::Drive { r: num(r)? },
        [b"R", r, b"grant", x, j] => Step::Grant { r: num(r)?, x: num(x)?, j: num(j)? },
        [b"O", x, r, b"request", c] => Step::Request { x: num(x)?, r: num(r)?, c: num(c)?, cut: None },
        [b"O", x, r, b"request", c, b"cut", k] => {
            Step::Request { x: num(x)?, r: num(r)?, c: num(c)?, cut: Some(num(k)?) }
        }
        [b"O", x, r, b"check", ts] => Step::Check { x: num(x)?, r: num(r)?, ts: num(ts)? },
        [b"Q", r, b"begin"] => Step::Begin { r: num(r)? },
        [b"Q", r, b"poll"] => Step::Poll { r: num(r)? },
        [b"Q", r, b"ack", x, ts, cnt, status] => {
            Step::Ack { r: num(r)?, x: num(x)?, ts: num(ts)?, cnt: num(cnt)?, status: Status::read(status)? }
        }
        _ => return None,
    };
    Some(step)
}

/// Runs a step file and gives what the program prints.
pub fn rackrun(input: &[u8], fault: Fault) -> Vec<u8> {
    let longest = LONGEST_INPUT - (fault == Fault::InputLimit) as usize;
    if input.len() > longest {
        return b"10\n".to_vec();
    }
    let mut lines = input.split_inclusive(|byte| *byte == b'\n');
    let Some(first) = lines.next() else {
        return Vec::new();
    };
    let settings = match read_settings(first, fault).ok_or(9).and_then(|numbers| Settings::accept(numbers, fault)) {
        Ok(settings) => settings,
        Err(number) => return format!("{number}\n").into_bytes(),
    };
    let [a, b, c] = settings.slacks();
    let mut output = format!("0\t{}\t{a}\t{b}\t{c}\n", settings.window()).into_bytes();
    let mut rack = Rack::new(settings);
    let mut completed;
    for mut line in lines {
        if fault == Fault::LastLine && !line.ends_with(b"\n") {
            completed = [line, b"\n"].concat();
            line = &completed;
        }
        match read_step(line, fault).ok_or(9).and_then(|step| rack.step(step)) {
            Ok(answer) => writeln!(output, "0\t{answer}"),
            Err(number) => writeln!(output, "{number}"),
        }
        .expect("a Vec takes every byte");
    }
    output
}
