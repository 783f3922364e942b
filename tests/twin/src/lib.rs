//! A second implementation of document 01, written from the document and from the list of its open places in docs/DECISIONS.md.
//! The proved program is compared with it byte for byte. Names follow the document: n, t, eta, delta, p, o and g are its seven
//! settings, r is a reading.

pub mod census;
pub mod fault;
pub mod generate;
pub mod messages;
pub mod observer;
pub mod program;
pub mod recorder;
pub mod refusal;
pub mod rng;
pub mod settings;
pub mod standby;
