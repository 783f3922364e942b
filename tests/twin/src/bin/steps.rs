//! Prints a generated step file, its kind to standard error.
//!
//! steps SEED NUMBER

use std::io::Write;
use std::process::exit;
use twin::generate::file;

fn main() {
    let words: Vec<u64> = std::env::args().skip(1).filter_map(|word| word.parse().ok()).collect();
    let [seed, number] = words[..] else {
        eprintln!("usage: steps SEED NUMBER");
        exit(1);
    };
    let file = file(seed, number);
    eprintln!("{}", file.kind);
    if std::io::stdout().write_all(&file.bytes).is_err() {
        exit(1);
    }
}
