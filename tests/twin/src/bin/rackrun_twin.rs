//! The twin's `rackrun`: standard input to standard output. `--fault NAME` plants a fault, `--faults` lists them.

use std::io::{Read, Write};
use std::process::exit;
use twin::fault::{Fault, FAULTS};
use twin::program::{rackrun, LONGEST_INPUT};

fn main() {
    let words: Vec<String> = std::env::args().skip(1).collect();
    let words: Vec<&str> = words.iter().map(String::as_str).collect();
    let fault = match words[..] {
        [] => Fault::None,
        ["--faults"] => {
            for (_, name, what) in FAULTS {
                println!("{name}: {what}");
            }
            return;
        }
        ["--fault", name] => Fault::named(name).unwrap_or_else(|| fail("no such fault")),
        _ => fail("usage: rackrun_twin [--fault NAME | --faults] < steps"),
    };
    let mut input = Vec::new();
    let stdin = std::io::stdin().lock().take(LONGEST_INPUT as u64 + 1).read_to_end(&mut input);
    if stdin.is_err() {
        fail("cannot read standard input");
    }
    if std::io::stdout().write_all(&rackrun(&input, fault)).is_err() {
        fail("cannot write to standard output");
    }
}

fn fail(why: &str) -> ! {
    eprintln!("rackrun_twin: {why}");
    exit(1)
}
