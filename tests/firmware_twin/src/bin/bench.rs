//! Time of one call, the library's beside the twin's, for records with so many open leases: `bench [CALLS]`. Both make all of
//! document 01's checks. The two take turns, and the least time of many rounds counts.

use std::hint::black_box;
use std::time::Instant;

use firmware_twin::{call, Settings};
use twin::fault::Fault;
use twin::recorder::{c_step, Event, BYTES};

const SETTINGS: Settings = [3, 2, 1, 1, 64, 65, 1];

/// A record with so many open leases, all granted, and its last reading.
fn record(leases: u64) -> (Vec<u8>, u64) {
    let mut record = vec![0; BYTES];
    for reading in 0..leases {
        call(&SETTINGS, reading, Event::Tick, &mut record);
        for x in 0..2 {
            call(&SETTINGS, reading, Event::Grant { x, j: reading + 1 }, &mut record);
        }
    }
    (record, leases.saturating_sub(1))
}

fn time(calls: u32, step: impl Fn(&mut [u8]) -> u64, start: &[u8]) -> f64 {
    let mut buffer = start.to_vec();
    let begin = Instant::now();
    for _ in 0..calls {
        buffer.copy_from_slice(start);
        black_box(step(black_box(&mut buffer)));
    }
    begin.elapsed().as_nanos() as f64 / f64::from(calls)
}

fn main() {
    let calls: u32 = std::env::args().nth(1).map_or(20_000, |a| a.parse().expect("a number"));
    for leases in [0, 1, 10, 64] {
        let (start, reading) = record(leases);
        for (name, event, at) in [("drive", Event::Drive, reading), ("tick", Event::Tick, reading + 1), ("all end", Event::Drive, reading + 64)] {
            if name == "all end" && leases == 0 || name == "tick" && leases == 64 {
                continue;
            }
            let (mut ours, mut theirs) = (f64::MAX, f64::MAX);
            for _ in 0..20 {
                ours = ours.min(time(calls, |b| call(&SETTINGS, at, event, b), &start));
                theirs = theirs.min(time(calls, |b| c_step(SETTINGS, at, event, b, Fault::None), &start));
            }
            println!("{leases:2} leases, {name:7}: library {ours:6.1} ns, twin {theirs:6.1} ns, ratio {:.2}", ours / theirs);
        }
    }
}
