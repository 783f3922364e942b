//! The numbers of refusal: of all that apply, the lowest is given.

use crate::fault::Fault;

pub type Refusal = u8;

/// Readings and a round's ts run from 0 to this.
pub const LAST_READING: u64 = (1 << 40) - 1;

/// Counters run to this.
pub const LAST_COUNTER: u64 = 1 << 40;

/// A reading that is out of range, or below the party's last.
pub fn bad_reading(fault: Fault, r: u64, last: u64) -> bool {
    bad_ts(fault, r) || r < last
}

pub fn bad_ts(fault: Fault, ts: u64) -> bool {
    ts > LAST_READING + (fault == Fault::TopReading) as u64
}

pub fn bad_counter(fault: Fault, c: u64) -> bool {
    c > LAST_COUNTER - (fault == Fault::TopCounter) as u64
}

/// Gives the lowest number whose condition holds.
pub fn lowest(fault: Fault, tests: &[(Refusal, bool)]) -> Result<(), Refusal> {
    let applies = |number: Refusal| tests.contains(&(number, true));
    let swapped = match fault {
        Fault::Order45 => Some((4, 5)),
        Fault::Order56 => Some((5, 6)),
        Fault::Order67 => Some((6, 7)),
        _ => None,
    };
    match tests.iter().filter(|t| t.1).map(|t| t.0).min() {
        None => Ok(()),
        Some(number) => match swapped {
            Some((low, high)) if number == low && applies(high) => Err(high),
            _ => Err(number),
        },
    }
}
