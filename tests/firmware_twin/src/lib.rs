//! The C calls, with the signatures of include/recorder.h.

use twin::recorder::Event;

pub type Settings = [u64; 7];

/// Document 01's whole case.
pub const USUAL: Settings = [3, 2, 100, 40, 159, 235, 10];

#[link(name = "firmware", kind = "static")]
extern "C" {
    fn recorder_tick(settings: *const u64, reading: u64, record: *mut u8, length: usize) -> u32;
    fn recorder_grant(settings: *const u64, reading: u64, x: u64, j: u64, record: *mut u8, length: usize) -> u32;
    fn recorder_drive(settings: *const u64, reading: u64, record: *mut u8, length: usize) -> u32;
}

pub fn call(settings: &Settings, reading: u64, event: Event, record: &mut [u8]) -> u64 {
    let (numbers, bytes, length) = (settings.as_ptr(), record.as_mut_ptr(), record.len());
    let code = unsafe {
        match event {
            Event::Tick => recorder_tick(numbers, reading, bytes, length),
            Event::Drive => recorder_drive(numbers, reading, bytes, length),
            Event::Grant { x, j } => recorder_grant(numbers, reading, x, j, bytes, length),
        }
    };
    code as u64
}
