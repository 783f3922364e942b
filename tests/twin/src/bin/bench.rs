//! Times two programs on one step file of 64 KiB: the time beyond that of a run over the settings line alone.
//!
//! bench PROGRAM TWIN WORK-DIRECTORY [RUNS]

use std::fs;
use std::path::Path;
use std::process::{exit, Command, Stdio};
use std::time::Instant;
use twin::fault::Fault;
use twin::generate::sound;
use twin::program::{rackrun, LONGEST_INPUT};

fn main() {
    let words: Vec<String> = std::env::args().skip(1).collect();
    let (program, twin, work) = match &words[..] {
        [program, twin, work] | [program, twin, work, _] => (Path::new(program), Path::new(twin), Path::new(work)),
        _ => fail("usage: bench PROGRAM TWIN WORK-DIRECTORY [RUNS]"),
    };
    let runs: usize = words.get(3).map_or(Ok(500), |word| word.parse()).unwrap_or_else(|_| fail("RUNS is a number"));
    let steps = sound(1, LONGEST_INPUT);
    let answers = rackrun(&steps, Fault::None);
    let lines = |bytes: &[u8]| bytes.iter().filter(|byte| **byte == b'\n').count();
    if answers.split_inclusive(|byte| *byte == b'\n').any(|line| !line.starts_with(b"0\t")) {
        fail("a step was refused");
    }
    let settings = steps.split_inclusive(|byte| *byte == b'\n').next().unwrap();
    let full = work.join("full");
    let short = work.join("short");
    let made =
        fs::create_dir_all(work).and_then(|()| fs::write(&full, &steps)).and_then(|()| fs::write(&short, settings));
    made.unwrap_or_else(|why| fail(&format!("{}: {why}", work.display())));
    for candidate in [program, twin] {
        if output(candidate, &full) != answers {
            fail(&format!("{} prints other answers than the twin", candidate.display()));
        }
    }
    println!("{} bytes, {} lines, {runs} runs of each", steps.len(), lines(&steps));

    let tasks = [(program, &full), (twin, &full), (program, &short), (twin, &short)];
    let mut times = [const { Vec::new() }; 4];
    for run in 0..runs.max(1) {
        // every task comes first as often as any other
        for place in 0..4 {
            let task = (run + place) % 4;
            let begun = Instant::now();
            output(tasks[task].0, tasks[task].1);
            times[task].push(begun.elapsed());
        }
    }
    times.iter_mut().for_each(|times| times.sort());
    // the median carries what else the machine does
    let mut ratio = 0.0;
    for (name, part) in [("least", 0), ("tenth", 10), ("median", 50)] {
        let [program_full, twin_full, program_short, twin_short] =
            [0, 1, 2, 3].map(|task| times[task][times[task].len() * part / 100].as_secs_f64() * 1e6);
        let (ours, theirs) = (program_full - program_short, twin_full - twin_short);
        println!(
            "{name}: program {program_full:.0} us, of which {ours:.0} beyond the settings line alone; \
             twin {twin_full:.0} us, {theirs:.0} beyond; ratio {:.2}",
            ours / theirs
        );
        if name == "tenth" {
            ratio = ours / theirs;
        }
    }
    println!("ratio program / twin: {ratio:.2}");
}

fn fail(why: &str) -> ! {
    eprintln!("bench: {why}");
    exit(1)
}

fn output(program: &Path, input: &Path) -> Vec<u8> {
    let file = fs::File::open(input).unwrap_or_else(|why| fail(&format!("{}: {why}", input.display())));
    match Command::new(program).stdin(file).stderr(Stdio::null()).output() {
        Ok(output) => output.stdout,
        Err(why) => fail(&format!("{}: {why}", program.display())),
    }
}
