//! Calls the library and the twin on the same buffers and compares the number and every byte:
//! `compare SEED CALLS`. Runs from fresh records, random bytes, records with one field off by one, and every length to 700.

use std::collections::BTreeMap;
use std::process::exit;

use firmware_twin::{call, Settings, USUAL};
use twin::fault::Fault;
use twin::recorder::{c_step, Event, BYTES, WORDS};
use twin::rng::Rng;

const CHOICES: [Settings; 6] = [
    USUAL,
    [1, 1, 1, 1, 64, 65, 1],
    [16, 9, 3, 2, 20, 40, 2],
    [3, 3, 10, 10, 40, 60, 1],
    [3, 2, 100, 40, 158, 235, 10],
    [3, 0, 100, 40, 159, 235, 10],
];

struct Compared {
    calls: u64,
    seen: BTreeMap<u64, u64>,
}

impl Compared {
    fn step(&mut self, settings: &Settings, reading: u64, event: Event, record: &mut Vec<u8>) -> u64 {
        let before = record.clone();
        let mut other = record.clone();
        let ours = call(settings, reading, event, record);
        let theirs = c_step(*settings, reading, event, &mut other, Fault::None);
        if ours != theirs || *record != other {
            eprintln!("mismatch: {settings:?} {reading} {event:?} on {before:?}: library {ours}, twin {theirs}");
            exit(1);
        }
        self.calls += 1;
        *self.seen.entry(ours).or_default() += 1;
        ours
    }
}

fn event(rng: &mut Rng, settings: &Settings, counter: u64) -> Event {
    match rng.below(4) {
        0 => Event::Tick,
        1 => Event::Drive,
        _ => {
            let strangers = u64::from(rng.percent(5));
            let x = rng.below(settings[0] + strangers);
            let j = counter.saturating_sub(rng.below(3)) + u64::from(rng.percent(3));
            Event::Grant { x, j }
        }
    }
}

fn word(record: &[u8], at: usize) -> u64 {
    u64::from_le_bytes(record[8 * at..8 * at + 8].try_into().unwrap())
}

/// A run from a fresh record; the record as it stands after it.
fn run(compared: &mut Compared, rng: &mut Rng, settings: &Settings, steps: u64) -> Vec<u8> {
    let mut record = vec![0; BYTES];
    let mut reading = if rng.percent(10) { (1 << 40) - 1 - rng.below(50 * settings[2]) } else { rng.below(3) };
    for _ in 0..steps {
        let counter = word(&record, 1);
        let event = event(rng, settings, counter);
        let back = u64::from(rng.percent(2));
        compared.step(settings, reading.wrapping_sub(back), event, &mut record);
        let asleep = u64::from(rng.percent(3)) * settings[4];
        reading += rng.below(settings[2].min(8) + asleep);
    }
    record
}

fn main() {
    let arguments: Vec<u64> = std::env::args().skip(1).map(|a| a.parse().expect("a number")).collect();
    let (seed, calls) = (arguments[0], arguments[1]);
    let mut rng = Rng::new(seed, 0);
    let mut compared = Compared { calls: 0, seen: BTreeMap::new() };
    for length in 0..=700 {
        for settings in &CHOICES {
            let mut record = vec![0; length];
            compared.step(settings, 5, Event::Tick, &mut record);
        }
    }
    while compared.calls < calls {
        let settings = rng.pick(&CHOICES);
        let steps = rng.from_to(1, 200);
        let record = run(&mut compared, &mut rng, &settings, steps);
        for _ in 0..40 {
            let mut damaged = record.clone();
            let at = rng.below(WORDS as u64) as usize;
            let value = word(&damaged, at);
            let other = if rng.percent(50) { value.wrapping_add(1) } else { value.wrapping_sub(1) };
            damaged[8 * at..8 * at + 8].copy_from_slice(&other.to_le_bytes());
            let reading = word(&record, 3) + rng.below(settings[4]);
            let event = event(&mut rng, &settings, word(&record, 1));
            compared.step(&settings, reading, event, &mut damaged);
        }
        let mut random: Vec<u8> = (0..BYTES).map(|_| rng.word() as u8).collect();
        let reading = rng.below(1 << 41);
        compared.step(&settings, reading, Event::Drive, &mut random);
    }
    println!("seed {seed}: {} calls, mismatches 0", compared.calls);
    for code in [1, 2, 3, 4, 5, 6, 10, 100, 101, 102, 103] {
        let seen = compared.seen.get(&code).copied().unwrap_or(0);
        println!("{code}: {seen}");
        if calls >= 100_000 && seen < 100 {
            eprintln!("{code} was seen {seen} times, needed 100");
            exit(1);
        }
    }
}
