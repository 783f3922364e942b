//! Step files of many kinds, the same for the same seed on every machine.

use crate::fault::Fault;
use crate::messages::{Answer, Message, Status};
use crate::program::{Rack, Step, LONGEST_INPUT};
use crate::refusal::{LAST_COUNTER, LAST_READING};
use crate::rng::Rng;
use crate::settings::{Settings, RANGES};
use std::cmp::Reverse;
use std::collections::BinaryHeap;

pub struct File {
    pub kind: &'static str,
    pub bytes: Vec<u8>,
}

type Kind = (u64, &'static str, fn(&mut Rng) -> Vec<u8>);

/// The kinds, each with its share of a hundred files.
const KINDS: &[Kind] = &[
    (26, "rack", |rng| rack(rng, 8, 40)),
    (1, "long rack", |rng| rack(rng, 100, 2_000)),
    (4, "rack at the top reading", top_rack),
    (7, "rounds", rounds),
    (6, "leases", leases),
    (4, "frozen recorder", freeze),
    (2, "many requests", many),
    (6, "deadlines and cuts", deadlines),
    (8, "settings", settings_only),
    (12, "any steps", any_steps),
    (23, "damaged bytes", damaged),
    (1, "length", length),
];

/// The file of this number.
pub fn file(seed: u64, index: u64) -> File {
    let mut rng = Rng::new(seed, index);
    let mut place = index % KINDS.iter().map(|kind| kind.0).sum::<u64>();
    for (share, kind, make) in KINDS {
        if place < *share {
            return File { kind, bytes: make(&mut rng) };
        }
        place -= share;
    }
    unreachable!("the shares cover every place")
}

/// A long run of a sound rack in which every step is accepted, at most so many bytes.
pub fn sound(seed: u64, most: usize) -> Vec<u8> {
    let mut rng = Rng::new(seed, 0);
    let mut w = Writer::new([3, 2, 100, 40, 159, 235, 10]);
    let mut g = 1_000_000_000;
    let mut room = w.bytes.clone();
    while w.bytes.len() <= most {
        room = w.bytes.clone();
        let reading = |g: u64, d: u64| (g + d) / 10 * 10;
        w.send(Step::Tick { r: reading(g, 0) });
        let c = w.rack.recorder.counter;
        for x in 0..3 {
            w.send(Step::Request { x, r: reading(g + 5, x), c, cut: None });
        }
        for x in 0..3 {
            w.send(Step::Grant { r: reading(g + 10, 0), x, j: c });
        }
        w.send(Step::Drive { r: reading(g + 20, 0) });
        let ts = reading(g + 30, 5);
        w.send(Step::Begin { r: ts });
        for x in 0..2 {
            w.send(Step::Check { x, r: reading(g + 35, x), ts });
        }
        for x in 0..2 {
            w.send(Step::Ack { r: reading(g + 40, 5), x, ts, cnt: c, status: Status::Alive });
        }
        w.send(Step::Drive { r: reading(g + 50 + rng.below(40), 0) });
        g += 100;
    }
    // The last round goes, as it ran over the room; of its lines as many come back as fit.
    let kept = room.len();
    for line in w.bytes[kept..].split_inclusive(|byte| *byte == b'\n') {
        if room.len() + line.len() > most {
            break;
        }
        room.extend_from_slice(line);
    }
    room
}

/// A step's line.
fn line(step: Step) -> String {
    match step {
        Step::Tick { r } => format!("R\t{r}\ttick\n"),
        Step::Drive { r } => format!("R\t{r}\tdrive\n"),
        Step::Grant { r, x, j } => format!("R\t{r}\tgrant\t{x}\t{j}\n"),
        Step::Request { x, r, c, cut: None } => format!("O\t{x}\t{r}\trequest\t{c}\n"),
        Step::Request { x, r, c, cut: Some(k) } => format!("O\t{x}\t{r}\trequest\t{c}\tcut\t{k}\n"),
        Step::Check { x, r, ts } => format!("O\t{x}\t{r}\tcheck\t{ts}\n"),
        Step::Begin { r } => format!("Q\t{r}\tbegin\n"),
        Step::Poll { r } => format!("Q\t{r}\tpoll\n"),
        Step::Ack { r, x, ts, cnt, status } => format!("Q\t{r}\tack\t{x}\t{ts}\t{cnt}\t{}\n", status.word()),
    }
}

fn settings_line(numbers: [u64; 7]) -> String {
    let numbers: String = numbers.iter().map(|v| format!("\t{v}")).collect();
    format!("SETTINGS{numbers}\n")
}

/// A file under way, with the rack as its steps leave it.
struct Writer {
    bytes: Vec<u8>,
    rack: Rack,
}

impl Writer {
    fn new(numbers: [u64; 7]) -> Writer {
        let settings = Settings::accept(numbers, Fault::None).expect("good settings");
        Writer { bytes: settings_line(numbers).into_bytes(), rack: Rack::new(settings) }
    }

    /// Writes and takes the step, and gives the message it sends.
    fn send(&mut self, step: Step) -> Option<Message> {
        self.bytes.extend_from_slice(line(step).as_bytes());
        match self.rack.step(step) {
            Ok(Answer::Send(message)) => Some(message),
            _ => None,
        }
    }

    fn s(&self) -> Settings {
        self.rack.settings
    }
}

// Settings.

/// Settings that are accepted, most of them with a slack at 0 or close to it.
fn good_settings(rng: &mut Rng) -> [u64; 7] {
    if rng.percent(10) {
        return [3, 2, 100, 40, 159, 235, 10];
    }
    loop {
        let n = if rng.percent(70) { rng.from_to(1, 4) } else { rng.from_to(1, 16) };
        let t = rng.from_to(1, n);
        let eta = any_size(rng, 30, RANGES[2].1);
        let delta = any_size(rng, 12, RANGES[3].1);
        let g = any_size(rng, 6, RANGES[6].1);
        let least_p = eta + delta + 2 * (g - 1) + 1;
        let p = match rng.below(6) {
            0 | 1 => least_p,
            2 => least_p + 1,
            3 => 64 * eta,
            4 => (64 * eta).saturating_sub(rng.below(eta)),
            _ => least_p + rng.below(6 * eta),
        };
        let least_o = p + delta + 4 * (g - 1);
        let o = least_o + rng.pick(&[0, 0, 1, 2, 10]);
        let numbers = [n, t, eta, delta, p, o, g];
        if Settings::accept(numbers, Fault::None).is_ok() {
            return numbers;
        }
    }
}

/// From 1 on: mostly to a small bound, now and then to the greatest.
fn any_size(rng: &mut Rng, small: u64, greatest: u64) -> u64 {
    match rng.below(20) {
        0 => rng.from_to(1, greatest),
        1 => rng.from_to(1, greatest.min(1_000)),
        2..=6 => 1,
        _ => rng.from_to(1, small),
    }
}

/// Settings on either side of a slack's zero, or of a range's end.
fn any_settings(rng: &mut Rng) -> [u64; 7] {
    let mut v = good_settings(rng);
    let [_, _, eta, delta, p, _, g] = v;
    let near = rng.below(3);
    match rng.below(9) {
        // a from -1 to 1, b held at 0 or above
        0 | 1 => {
            v[4] = eta + delta + 2 * (g - 1) + near;
            v[5] = v[4] + delta + 4 * (g - 1) + rng.below(2);
        }
        // b from -1 to 1
        2 | 3 => v[5] = (p + delta + 4 * (g - 1) + near).saturating_sub(1),
        // c from -1 to 1
        4 | 5 => {
            v[2] = any_size(rng, 30, 262_000);
            v[3] = v[3].min(v[2] * 8).max(1);
            v[6] = v[6].min(v[2] * 4).max(1);
            v[4] = 64 * v[2] + 1 - near;
            v[5] = v[4] + v[3] + 4 * (v[6] - 1) + rng.below(2);
        }
        // one setting at or past an end of its range
        6 | 7 => {
            let place = rng.below(7) as usize;
            let (least, greatest) = RANGES[place];
            v[place] = rng.pick(&[least - 1, least, greatest, greatest + 1, 1 << 32, 1 << 63, u64::MAX]);
            if rng.percent(30) {
                v[1] = v[0].wrapping_add(rng.below(3)).wrapping_sub(1);
            }
        }
        _ => {
            for (place, (least, greatest)) in v.iter_mut().zip(RANGES) {
                *place = rng.pick(&[least, greatest, *place, *place]);
            }
        }
    }
    v
}

fn settings_only(rng: &mut Rng) -> Vec<u8> {
    let mut bytes = settings_line(any_settings(rng)).into_bytes();
    let mut r = 0;
    for _ in 0..rng.below(4) {
        r += rng.below(50);
        let step = rng.pick(&[Step::Tick { r }, Step::Drive { r }, Step::Begin { r }, Step::Poll { r }]);
        bytes.extend_from_slice(line(step).as_bytes());
    }
    bytes
}

// A rack with its clocks and its network.

struct Clock {
    offset: u64,
    grain: u64,
    way: u64,
    last: u64,
}

impl Clock {
    fn new(rng: &mut Rng, grain: u64, widest: u64) -> Clock {
        Clock { offset: rng.below(widest), grain, way: rng.below(3), last: 0 }
    }

    /// A reading r with r <= g + offset < r + grain that does not fall.
    fn read(&mut self, rng: &mut Rng, g: u64) -> u64 {
        let exact = g + self.offset;
        let r = match self.way {
            0 => exact - exact % self.grain,
            1 => exact,
            _ => exact.saturating_sub(rng.below(self.grain)),
        };
        self.last = self.last.max(r);
        self.last
    }
}

#[derive(Clone, Copy, PartialEq, Eq, PartialOrd, Ord)]
enum Due {
    Tick,
    Drive,
    Begin,
    Poll,
    Request { x: u64, c: u64 },
    Check { x: u64, ts: u64 },
    Grant { x: u64, j: u64 },
    Ack { x: u64, ts: u64, cnt: u64, dead: bool },
}

struct Network {
    due: BinaryHeap<Reverse<(u64, u64, Due)>>,
    loss: u64,
    twice: u64,
    delays: [u64; 6],
}

impl Network {
    fn at(&mut self, rng: &mut Rng, time: u64, due: Due) {
        self.due.push(Reverse((time, rng.word(), due)));
    }

    /// Sends a message: lost, delayed, or more than once.
    fn send(&mut self, rng: &mut Rng, g: u64, due: Due) {
        if rng.percent(self.loss) {
            return;
        }
        let copies = if rng.percent(self.twice) { 2 } else { 1 };
        for _ in 0..copies {
            let delay = if rng.percent(50) { rng.below(self.delays[1] + 1) } else { rng.pick(&self.delays) };
            self.at(rng, g + delay, due);
        }
    }
}

fn rack(rng: &mut Rng, fewest: u64, most: u64) -> Vec<u8> {
    let start = if rng.percent(30) { 0 } else { rng.below(100_000) };
    rack_from(rng, start, fewest, most)
}

/// A rack whose readings come to 2^40 - 1, and mostly past it.
fn top_rack(rng: &mut Rng) -> Vec<u8> {
    let back = rng.pick(&[10, 100, 300]);
    let start = LAST_READING - rng.below(back);
    rack_from(rng, start, 8, 40)
}

fn rack_from(rng: &mut Rng, start: u64, fewest: u64, most: u64) -> Vec<u8> {
    let mut w = Writer::new(good_settings(rng));
    let s = w.s();
    let widest = rng.pick(&[1, s.g, 3 * s.g + 5, 1_000]);
    let mut recorder = Clock::new(rng, s.g, widest);
    let mut observers: Vec<Clock> = (0..s.n).map(|_| Clock::new(rng, s.g, widest)).collect();
    let mut standby = Clock::new(rng, s.g, widest);
    // in a sound rack every message comes in time and the recorder is awake
    let sound = rng.percent(40);
    let mut net = Network {
        due: BinaryHeap::new(),
        loss: if sound { 0 } else { rng.pick(&[0, 5, 20, 50]) },
        twice: rng.pick(&[0, 10, 30]),
        delays: match sound {
            true => [0, s.delta, s.delta, s.delta - 1, 0, 0],
            false => [0, s.delta, s.delta + 1, s.window(), 2 * s.delta, s.p],
        },
    };
    let cuts = rng.pick(&[0, 0, 5, 25]);
    let freezes = if sound { 0 } else { rng.pick(&[0, 5, 20]) };
    let crash = if rng.percent(30) { start + rng.below(4 * s.p) } else { u64::MAX };
    let mut asleep = 0;
    net.at(rng, start, Due::Tick);
    let first_drive = start + rng.below(s.eta);
    net.at(rng, first_drive, Due::Drive);
    let first_round = start + rng.below(3 * s.p);
    net.at(rng, first_round, Due::Begin);
    let steps = rng.from_to(fewest, most);
    let mut done = 0;
    while done < steps && w.bytes.len() < LONGEST_INPUT - 100 {
        let Some(Reverse((g, _, due))) = net.due.pop() else {
            break;
        };
        let to_recorder = matches!(due, Due::Tick | Due::Drive | Due::Grant { .. });
        if to_recorder && g >= crash {
            continue;
        }
        if to_recorder && g < asleep {
            net.at(rng, asleep, due);
            continue;
        }
        done += 1;
        match due {
            Due::Tick => {
                if let Some(Message::LeaseRequest(c)) = w.send(Step::Tick { r: recorder.read(rng, g) }) {
                    for x in 0..s.n {
                        net.send(rng, g, Due::Request { x, c });
                    }
                }
                if rng.percent(freezes) {
                    asleep = g + rng.pick(&[s.p - 1, s.p, s.p + 1, 2 * s.p, 3 * s.eta]);
                }
                let next = match sound {
                    true => s.eta,
                    false => rng.pick(&[s.eta, s.eta, s.eta, s.eta + s.g, s.eta - 1, 1, 2 * s.eta]),
                };
                net.at(rng, g + next.max(1), Due::Tick);
            }
            Due::Drive => {
                w.send(Step::Drive { r: recorder.read(rng, g) });
                let any = [s.eta, s.p, rng.below(2 * s.eta), rng.below(s.p)];
                let next = rng.pick(&any).max(1);
                net.at(rng, g + next, Due::Drive);
            }
            Due::Grant { x, j } => {
                w.send(Step::Grant { r: recorder.read(rng, g), x, j });
            }
            Due::Request { x, c } => {
                let cut = if rng.percent(cuts) { Some(rng.below(3)) } else { None };
                let r = observers[x as usize].read(rng, g);
                if let Some(Message::LeaseGrant(j)) = w.send(Step::Request { x, r, c, cut }) {
                    net.send(rng, g, Due::Grant { x, j });
                }
            }
            Due::Check { x, ts } => {
                let r = observers[x as usize].read(rng, g);
                if let Some(Message::CheckAck { ts, cnt, status }) = w.send(Step::Check { x, r, ts }) {
                    net.send(rng, g, Due::Ack { x, ts, cnt, dead: status == Status::Dead });
                }
            }
            Due::Begin => {
                if let Some(Message::Check(ts)) = w.send(Step::Begin { r: standby.read(rng, g) }) {
                    for x in 0..s.n {
                        net.send(rng, g, Due::Check { x, ts });
                    }
                }
                let any = [s.window(), s.window() + 1, rng.below(2 * s.window())];
                let poll = rng.pick(&any);
                net.at(rng, g + poll, Due::Poll);
                let any = [0, 1, s.window() + 1, s.p, s.o, rng.below(2 * s.o)];
                let next = rng.pick(&any);
                net.at(rng, g + next, Due::Begin);
            }
            Due::Poll => {
                w.send(Step::Poll { r: standby.read(rng, g) });
            }
            Due::Ack { x, ts, cnt, dead } => {
                let status = if dead { Status::Dead } else { Status::Alive };
                w.send(Step::Ack { r: standby.read(rng, g), x, ts, cnt, status });
            }
        }
    }
    w.bytes
}

// One party at its limits.

/// Rounds of the standby: last acks around W, second acks, acks of other rounds, rounds begun at one reading.
fn rounds(rng: &mut Rng) -> Vec<u8> {
    let mut w = Writer::new(good_settings(rng));
    let s = w.s();
    let mut r = start(rng);
    for _ in 0..rng.from_to(1, 4) {
        let ts = r;
        w.send(Step::Begin { r });
        let base = rng.pick(&[0, 0, 1, 6, LAST_COUNTER - 1]);
        let mut asked: Vec<u64> = (0..s.n).collect();
        for i in (1..asked.len()).rev() {
            asked.swap(i, rng.below(i as u64 + 1) as usize);
        }
        let quorum = s.query_quorum() as u64;
        let lasts = if rng.percent(75) { quorum } else { rng.from_to(1, s.n) };
        let end = ts + s.window();
        for (k, x) in asked.iter().take(lasts as usize).enumerate() {
            let last = k as u64 + 1 == lasts;
            r = match last {
                true => rng.pick(&[r, end, end, end + 1, end + 1, end - 1, end + 2]).max(r),
                false if rng.percent(25) => r + rng.below(end.saturating_sub(r)),
                false => rng.pick(&[r, r, r + 1]),
            };
            let statuses: &[Status] = rng.pick(&[
                &[Status::Alive, Status::Dead][..],
                &[Status::Alive, Status::Alive, Status::Alive, Status::Dead][..],
            ]);
            let cnt = base + rng.below(2);
            w.send(Step::Ack { r, x: *x, ts, cnt, status: rng.pick(statuses) });
            match rng.below(12) {
                // a second ack of the same observer
                0 | 1 => {
                    w.send(Step::Ack { r, x: *x, ts, cnt: base + rng.below(3), status: rng.pick(statuses) });
                }
                2 => {
                    w.send(Step::Poll { r });
                }
                // an ack of another round
                3 => {
                    let other = rng.pick(&[ts + 1, ts.saturating_sub(1), 0]);
                    w.send(Step::Ack { r, x: *x, ts: other, cnt, status: rng.pick(statuses) });
                }
                // a round begun at the same reading, which forgets what was kept
                4 if r == ts => {
                    w.send(Step::Begin { r });
                }
                _ => {}
            }
        }
        if rng.percent(40) {
            r = rng.pick(&[r, end, end + 1, end + 5]).max(r);
            w.send(Step::Poll { r });
        }
        r += rng.pick(&[0, 0, 1, s.window()]);
    }
    w.bytes
}

/// The recorder alone: grants around the end of the oldest lease, ticks around eta.
fn leases(rng: &mut Rng) -> Vec<u8> {
    let mut w = Writer::new(good_settings(rng));
    let s = w.s();
    let mut r = start(rng);
    w.send(Step::Tick { r });
    for _ in 0..rng.from_to(1, 6) {
        let c = w.rack.recorder.counter;
        let last = w.rack.recorder.last_send;
        let oldest = w.rack.recorder.sends[0];
        // all but one of a survival quorum grant at once
        for x in 0..s.t - 1 {
            r += rng.pick(&[0, 0, 0, 1]);
            w.send(Step::Grant { r, x, j: c });
        }
        if rng.percent(60) {
            r = r.max(last + s.eta);
            w.send(Step::Tick { r });
            let c = w.rack.recorder.counter;
            for x in 0..s.t - 1 {
                w.send(Step::Grant { r, x, j: c });
            }
        }
        // the lacking one around the oldest lease's end, or in time
        let c = w.rack.recorder.counter;
        let x = rng.from_to(s.t - 1, s.n - 1);
        let end = oldest + s.p;
        r = rng.pick(&[end - 1, end - 1, end, end + 1, r, r]).max(r);
        w.send(Step::Grant { r, x, j: rng.pick(&[c, c, c, c.saturating_sub(1).max(1)]) });
        if rng.percent(20) {
            // a lower grant afterwards
            w.send(Step::Grant { r, x, j: rng.from_to(1, c) });
        }
        r = rng.pick(&[r, end - 1, end, end + 1]).max(r);
        w.send(rng.pick(&[Step::Drive { r }, Step::Tick { r }]));
        let due = w.rack.recorder.last_send + s.eta;
        r = rng.pick(&[due - 1, due, due + 1]).max(r);
        w.send(Step::Tick { r });
    }
    w.bytes
}

/// Several leases run, then the recorder freezes over the end of one or more of them.
fn freeze(rng: &mut Rng) -> Vec<u8> {
    let mut numbers = good_settings(rng);
    if rng.percent(80) {
        numbers[4] = (numbers[2] * rng.from_to(3, 12) + rng.below(numbers[2])).max(numbers[4]).min(64 * numbers[2]);
        numbers[5] = numbers[4] + numbers[3] + 4 * (numbers[6] - 1) + rng.below(2);
        if Settings::accept(numbers, Fault::None).is_err() {
            numbers = [3, 2, 10, 4, 75, 83, 2];
        }
    }
    let mut w = Writer::new(numbers);
    let s = w.s();
    let mut r = start(rng);
    let requests = rng.from_to(2, 13);
    for _ in 0..requests {
        w.send(Step::Tick { r });
        for x in 0..s.t {
            if rng.percent(40) {
                let j = rng.from_to(1, w.rack.recorder.counter.max(1));
                w.send(Step::Grant { r, x, j });
            }
        }
        r += s.eta + rng.pick(&[0, 0, 0, 1]);
    }
    let record = w.rack.recorder;
    let open = record.open as usize;
    let end = record.sends[rng.below(record.open) as usize] + s.p;
    if rng.percent(60) {
        // grants as far as some lease needs them, just before the first end
        let j = rng.from_to(record.counter + 1 - record.open, record.counter);
        for x in 0..s.t {
            w.send(Step::Grant { r: r.min(record.sends[0] + s.p - 1).max(record.last_reading), x, j });
        }
    }
    r = rng.pick(&[end - 1, end, end + 1, record.sends[open - 1] + s.p + 5]).max(w.rack.recorder.last_reading);
    for _ in 0..rng.from_to(1, 4) {
        let grant = Step::Grant { r, x: rng.below(s.n), j: record.counter };
        w.send(rng.pick(&[Step::Drive { r }, Step::Tick { r }, grant, grant]));
        r += rng.pick(&[0, 1, s.eta]);
    }
    w.bytes
}

/// More than 64 requests, so close that up to 64 leases are open.
fn many(rng: &mut Rng) -> Vec<u8> {
    let eta = rng.from_to(1, 3);
    let p = rng.pick(&[64 * eta, 64 * eta, 63 * eta + 1, 63 * eta, 10 * eta]);
    let n = rng.from_to(1, 3);
    let t = rng.from_to(1, n);
    let mut w = Writer::new([n, t, eta, 1, p.max(eta + 2), p.max(eta + 2) + 1 + rng.below(3), 1]);
    let mut r = start(rng);
    let requests = rng.from_to(64, 150);
    let silence = if rng.percent(50) { rng.from_to(1, requests) } else { u64::MAX };
    let every = rng.pick(&[1, 1, 5, 30, 60]);
    for k in 0..requests {
        w.send(Step::Tick { r });
        if k < silence && k % every == every - 1 {
            for x in 0..t {
                w.send(Step::Grant { r, x, j: k + 1 });
            }
        }
        if rng.percent(5) {
            w.send(Step::Drive { r });
        }
        r += eta;
    }
    for _ in 0..3 {
        r = rng.pick(&[r - 1, r, w.rack.recorder.sends[0] + p]).max(w.rack.recorder.last_reading);
        w.send(Step::Drive { r });
        r += 1;
    }
    w.bytes
}

/// One or two observers: requests, cuts, and checks around the deadline.
fn deadlines(rng: &mut Rng) -> Vec<u8> {
    let mut w = Writer::new(good_settings(rng));
    let s = w.s();
    let mut r = start(rng);
    let mut c = rng.pick(&[1, 1, 4, LAST_COUNTER - 3]);
    for _ in 0..rng.from_to(4, 14) {
        let x = rng.below(s.n.min(2));
        let observer = w.rack.observers[x as usize];
        match rng.below(10) {
            0..=2 => {
                w.send(Step::Request { x, r, c, cut: None });
                c = (c + rng.below(2)).min(LAST_COUNTER);
            }
            3 | 4 => {
                w.send(Step::Request { x, r, c, cut: Some(rng.below(3)) });
                // after a cut the observer has forgotten its last reading
                let r = rng.pick(&[r, r.saturating_sub(1), 0]);
                if rng.percent(50) {
                    w.send(Step::Check { x, r, ts: 0 });
                }
            }
            5 => {
                let c = rng.pick(&[observer.latest, observer.latest.saturating_sub(1)]).max(1);
                let cut = rng.pick(&[None, None, Some(0), Some(1), Some(2)]);
                w.send(Step::Request { x, r, c, cut });
            }
            _ => {
                let deadline = observer.deadline;
                r = rng.pick(&[deadline, deadline, deadline.saturating_sub(1), deadline + 1, r]).max(r);
                w.send(Step::Check { x, r, ts: rng.pick(&[r, 0, LAST_READING]) });
            }
        }
        r += rng.pick(&[0, 1, s.eta, s.o - 1]);
    }
    w.bytes
}

fn start(rng: &mut Rng) -> u64 {
    match rng.below(10) {
        0 | 1 => 0,
        2 => LAST_READING - rng.below(400),
        _ => rng.below(5_000),
    }
}

// Any steps, good and refused.

/// Steps with each number good, at a limit, or far out.
fn any_steps(rng: &mut Rng) -> Vec<u8> {
    let mut w = Writer::new(good_settings(rng));
    let wild = rng.pick(&[3, 10, 30]);
    let first = start(rng);
    w.send(Step::Begin { r: first });
    w.send(Step::Tick { r: first });
    for _ in 0..rng.from_to(5, 30) {
        if rng.percent(wild / 3) {
            let bad =
                rng.pick(&["\n", "R\n", "SETTINGS\t3\t2\t100\t40\t159\t235\t10\n", "Q\t1\tend\n", "R\ttick\t1\n"]);
            w.bytes.extend_from_slice(bad.as_bytes());
            continue;
        }
        let step = any_step(rng, &w.rack, wild);
        w.send(step);
    }
    w.bytes
}

fn any_step(rng: &mut Rng, rack: &Rack, wild: u64) -> Step {
    let s = rack.settings;
    let record = &rack.recorder;
    let x = if rng.percent(wild) { rng.pick(&[s.n, s.n + 1, 15, 16, 1 << 32, u64::MAX]) } else { rng.below(s.n) };
    let observer = rack.observers.get(x as usize).copied().unwrap_or_default();
    let ts = if rng.percent(wild) { any_ts(rng) } else { rack.standby.ts };
    let status = rng.pick(&[Status::Alive, Status::Dead]);
    let counter = |rng: &mut Rng, near: u64| match rng.percent(wild) {
        true => rng.pick(&[0, LAST_COUNTER, LAST_COUNTER + 1, u64::MAX, near + 1]),
        false => near,
    };
    let for_recorder = any_reading(rng, wild, record.last_reading, s.eta);
    let for_observer = any_reading(rng, wild, observer.last_reading, s.eta);
    let for_standby = any_reading(rng, wild, rack.standby.last_reading, s.window() / 2);
    match rng.below(10) {
        0 => Step::Tick { r: for_recorder },
        1 => Step::Drive { r: for_recorder },
        2 | 3 => Step::Grant { r: for_recorder, x, j: counter(rng, record.counter) },
        4 | 5 => {
            let near = if rng.percent(30) { observer.latest.max(1) } else { observer.latest + 1 };
            let cut = match rng.percent(30) {
                true => Some(if rng.percent(wild) { rng.pick(&[3, 4, u64::MAX]) } else { rng.below(3) }),
                false => None,
            };
            Step::Request { x, r: for_observer, c: counter(rng, near), cut }
        }
        6 => Step::Check { x, r: for_observer, ts },
        7 if rng.percent(60) => Step::Begin { r: for_standby },
        7 => Step::Poll { r: for_standby },
        _ => {
            let cnt = counter(rng, record.counter);
            Step::Ack { r: for_standby, x, ts, cnt, status }
        }
    }
}

fn any_ts(rng: &mut Rng) -> u64 {
    rng.pick(&[0, 1, LAST_READING, LAST_READING + 1, LAST_READING + 2, u64::MAX])
}

fn any_reading(rng: &mut Rng, wild: u64, last: u64, stride: u64) -> u64 {
    if rng.percent(wild) {
        rng.pick(&[last.saturating_sub(1), 0, LAST_READING + 1, LAST_READING + 1, LAST_READING + 2, u64::MAX])
    } else if rng.percent(wild / 5) {
        LAST_READING
    } else {
        last + rng.pick(&[0, 0, 1, stride])
    }
}

// Bytes that are no longer what they were.

fn damaged(rng: &mut Rng) -> Vec<u8> {
    let make = rng.pick(&[settings_only, rounds, leases, freeze, deadlines, any_steps, short_rack, short_rack]);
    let mut bytes = make(rng);
    for _ in 0..rng.pick(&[1, 1, 1, 2, 3]) {
        damage(rng, &mut bytes);
    }
    bytes
}

fn short_rack(rng: &mut Rng) -> Vec<u8> {
    rack(rng, 3, 20)
}

fn damage(rng: &mut Rng, bytes: &mut Vec<u8>) {
    if bytes.is_empty() {
        return;
    }
    let at = rng.below(bytes.len() as u64) as usize;
    match rng.below(18) {
        0 | 1 => bytes[at] ^= 1 << rng.below(8),
        2 | 3 => {
            bytes.remove(at);
        }
        4 | 5 => bytes.insert(at, rng.pick(b"\t\n\r \x00\xff0159-+.AaRQO")),
        6 => bytes[at] = rng.word() as u8,
        7 => {
            bytes.pop();
        }
        8 => bytes.truncate(at),
        // CR before a line feed, or before all
        9 => {
            let end = next(bytes, at, b"\n");
            bytes.insert(end, b'\r');
        }
        10 => *bytes = bytes.iter().flat_map(|b| if *b == b'\n' { vec![b'\r', b'\n'] } else { vec![*b] }).collect(),
        // a tab doubled, at a line's end, or turned into a blank
        11 => {
            let tab = next(bytes, at, b"\t");
            bytes.insert(tab, b'\t');
        }
        12 => {
            let end = next(bytes, at, b"\n");
            bytes.insert(end, rng.pick(b"\t x"));
        }
        13 => {
            let tab = next(bytes, at, b"\t");
            if tab < bytes.len() {
                bytes[tab] = b' ';
            }
        }
        // a number with a zero or a sign before it, or a huge one
        14 => {
            let field = (next(bytes, at, b"\t") + 1).min(bytes.len());
            bytes.insert(field, rng.pick(b"0000-+ "));
        }
        15 | 16 => {
            let field = (next(bytes, at, b"\t") + 1).min(bytes.len());
            let end = next(bytes, field, b"\t\n");
            let huge: &[&[u8]] = &[
                b"18446744073709551615",
                b"18446744073709551616",
                b"18446744073709551617",
                b"18446744073709552616",
                b"36893488147419103233",
                b"99999999999999999999",
                b"184467440737095516160",
                b"100000000000000000000000000000000000000000001",
                b"1099511627775",
                b"1099511627776",
                b"1099511627777",
                b"4294967296",
                b"00",
                b"",
            ];
            bytes.splice(field..end, rng.pick(huge).iter().copied());
        }
        // a whole line twice, gone, or empty
        _ => {
            let from = bytes[..at].iter().rposition(|b| *b == b'\n').map_or(0, |place| place + 1);
            let to = (next(bytes, at, b"\n") + 1).min(bytes.len());
            let line = bytes[from..to].to_vec();
            match rng.below(3) {
                0 => drop(bytes.splice(from..from, line)),
                1 => drop(bytes.drain(from..to)),
                _ => bytes.insert(from, b'\n'),
            }
        }
    }
}

/// The first place from here on that holds one of these bytes, or the end.
fn next(bytes: &[u8], from: usize, these: &[u8]) -> usize {
    bytes[from..].iter().position(|b| these.contains(b)).map_or(bytes.len(), |place| from + place)
}

/// Inputs around the longest that is read, empty ones, and ones without a line.
fn length(rng: &mut Rng) -> Vec<u8> {
    let longest = LONGEST_INPUT;
    let size = match rng.below(20) {
        0 => 0,
        1 | 2 => rng.from_to(1, 3) as usize,
        3 | 4 => longest,
        5 => longest - 1,
        6..=13 => longest + 1,
        14..=17 => longest + rng.from_to(2, 5_000) as usize,
        18 => 2 * longest,
        _ => longest + 200_000,
    };
    if size <= 3 {
        return (0..size).map(|_| rng.pick(b"\n\n\tSR\r")).collect();
    }
    let mut bytes = rack(rng, 20, 200);
    match rng.below(8) {
        // one endless line
        0..=2 => bytes.resize(size - 1, b'7'),
        // empty lines
        3 => bytes.resize(size - 1, b'\n'),
        _ => {
            while bytes.len() + 100 < size {
                bytes.extend_from_slice(line(Step::Poll { r: 1_000_000 + bytes.len() as u64 }).as_bytes());
            }
            bytes.resize(size - 1, b'x');
        }
    }
    bytes.push(rng.pick(b"\n\n\n\nx"));
    bytes
}
