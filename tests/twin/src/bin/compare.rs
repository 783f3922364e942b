//! Runs a program and the twin on generated step files and compares what they print, byte for byte. Then shows that the files
//! tell each planted fault.
//!
//! compare PROGRAM WORK-DIRECTORY SEED FILES

use std::fs;
use std::io::{self, Write};
use std::panic;
use std::path::Path;
use std::process::{exit, Command, Output, Stdio};
use std::sync::atomic::{AtomicU64, Ordering};
use std::sync::Mutex;
use std::thread;
use std::time::Instant;
use twin::census::{Census, ANSWERS, LIMITS};
use twin::fault::{Fault, FAULTS};
use twin::generate::{file, File};
use twin::program::rackrun;

/// Each answer is to be seen so often.
const LEAST: u64 = 100;

struct Mismatch {
    index: u64,
    file: File,
    expected: Vec<u8>,
    found: io::Result<Output>,
}

fn main() {
    let words: Vec<String> = std::env::args().skip(1).collect();
    let [program, work, seed, count] = &words[..] else {
        fail("usage: compare PROGRAM WORK-DIRECTORY SEED FILES");
    };
    let number = |word: &str| word.parse().unwrap_or_else(|_| fail("SEED and FILES are numbers"));
    let (program, work, seed, count) = (Path::new(program), Path::new(work), number(seed), number(count));
    fs::create_dir_all(work).unwrap_or_else(|why| fail(&format!("{}: {why}", work.display())));
    println!("seed {seed}, {count} files, program {}", program.display());

    let threads = 2 * thread::available_parallelism().map_or(2, |cores| cores.get() as u64);
    let begun = Instant::now();
    let (files, census) = compare(program, work, seed, count, threads);
    let bytes: usize = files.iter().map(|file| file.bytes.len()).sum();
    let mark = fingerprint(&files);
    println!("all {count} outputs equal; {bytes} bytes of steps, fingerprint {mark:016x}, {:.1?}", begun.elapsed());

    let mut good = census_is_full(&census);
    let begun = Instant::now();
    good &= faults_are_shown(&files, threads);
    println!("{} planted faults tried, {:.1?}", FAULTS.len(), begun.elapsed());
    if !good {
        exit(1);
    }
}

fn fail(why: &str) -> ! {
    eprintln!("compare: {why}");
    exit(1)
}

/// Compares on all files. Ends the program at a mismatch.
fn compare(program: &Path, work: &Path, seed: u64, count: u64, threads: u64) -> (Vec<File>, Census) {
    let next = AtomicU64::new(0);
    let first: Mutex<Option<Mismatch>> = Mutex::new(None);
    let worker = |thread: u64| {
        let input = work.join(format!("input-{thread}"));
        let mut files = Vec::new();
        let mut census = Census::default();
        loop {
            let index = next.fetch_add(1, Ordering::Relaxed);
            if index >= count {
                return (files, census);
            }
            let file = file(seed, index);
            let expected = rackrun(&file.bytes, Fault::None);
            if !census.take(&file.bytes) {
                fail(&format!("file {index}: the twin refused with a number that no file should reach"));
            }
            // every eighth file comes in pieces through a pipe
            let found = match index % 8 {
                7 => through_pipe(program, &file.bytes, index),
                _ => through_file(program, &file.bytes, &input),
            };
            let same = found.as_ref().is_ok_and(|output| output.stdout == expected && output.status.code().is_some());
            if same {
                files.push((index, file));
                continue;
            }
            // indices are handed out in order, so the threads still at work may only lower this one
            next.fetch_max(count, Ordering::Relaxed);
            let mut first = first.lock().unwrap();
            if first.as_ref().is_none_or(|mismatch| index < mismatch.index) {
                *first = Some(Mismatch { index, file, expected, found });
            }
        }
    };
    let mut files = Vec::new();
    let mut census = Census::default();
    thread::scope(|scope| {
        let workers: Vec<_> = (0..threads).map(|thread| scope.spawn(move || worker(thread))).collect();
        for worker in workers {
            let (more, counts) = worker.join().unwrap();
            files.extend(more);
            census.merge(&counts);
        }
    });
    if let Some(mismatch) = first.into_inner().unwrap() {
        show(&mismatch, work);
        exit(1);
    }
    files.sort_by_key(|(index, _)| *index);
    (files.into_iter().map(|(_, file)| file).collect(), census)
}

fn through_file(program: &Path, bytes: &[u8], input: &Path) -> io::Result<Output> {
    fs::write(input, bytes)?;
    Command::new(program).stdin(fs::File::open(input)?).output()
}

fn through_pipe(program: &Path, bytes: &[u8], index: u64) -> io::Result<Output> {
    let mut child =
        Command::new(program).stdin(Stdio::piped()).stdout(Stdio::piped()).stderr(Stdio::piped()).spawn()?;
    let mut stdin = child.stdin.take().unwrap();
    let (one, two) = bytes.split_at((index.wrapping_mul(0x9E37_79B9) % (bytes.len() as u64 + 1)) as usize);
    thread::scope(|scope| {
        scope.spawn(move || {
            // a program may close its input as soon as that is too long
            let _ = stdin.write_all(one).and_then(|()| {
                thread::yield_now();
                stdin.write_all(two)
            });
        });
        child.wait_with_output()
    })
}

fn show(mismatch: &Mismatch, work: &Path) {
    let Mismatch { index, file, expected, found } = mismatch;
    eprintln!("file {index} ({}) differs", file.kind);
    let (found, ended) = match found {
        Ok(output) => (output.stdout.clone(), format!("{}", output.status)),
        Err(why) => (Vec::new(), format!("not run: {why}")),
    };
    let ours = expected.split(|byte| *byte == b'\n');
    let line = ours.zip(found.split(|byte| *byte == b'\n')).take_while(|(ours, theirs)| ours == theirs).count();
    eprintln!("program: {ended}; first differing line: {}", line + 1);
    for (name, bytes) in [("steps", &file.bytes), ("program", &found), ("twin", expected)] {
        let path = work.join(format!("mismatch.{name}"));
        if let Err(why) = fs::write(&path, bytes) {
            eprintln!("{}: {why}", path.display());
        }
        eprintln!("--- {name} ({} bytes, in {})", bytes.len(), path.display());
        for (place, text) in bytes.split_inclusive(|byte| *byte == b'\n').enumerate() {
            if bytes.len() < 8_000 || place.abs_diff(line) < 5 {
                eprintln!("{}: {}", place + 1, &text[..text.len().min(400)].escape_ascii());
            }
        }
    }
}

/// FNV-1a over all files.
fn fingerprint(files: &[File]) -> u64 {
    let bytes = files.iter().flat_map(|file| file.bytes.iter().copied().chain([0]));
    bytes.fold(0xcbf2_9ce4_8422_2325, |hash, byte| (hash ^ byte as u64).wrapping_mul(0x100_0000_01b3))
}

fn census_is_full(census: &Census) -> bool {
    let mut good = true;
    for (names, least) in [(&ANSWERS[..], LEAST), (&LIMITS[..], 1)] {
        for name in names {
            let count = census.count(name);
            println!("{name}: {count}");
            if count < least {
                eprintln!("compare: {name} was seen {count} times, needed {least}");
                good = false;
            }
        }
    }
    good
}

/// Does some file tell each planted fault?
fn faults_are_shown(files: &[File], threads: u64) -> bool {
    let outputs: Vec<Vec<u8>> = files.iter().map(|file| rackrun(&file.bytes, Fault::None)).collect();
    let next = AtomicU64::new(0);
    let shown = Mutex::new(vec![None; FAULTS.len()]);
    // a faulty twin may run out of its 64 places, which tells it as well
    panic::set_hook(Box::new(|_| ()));
    thread::scope(|scope| {
        for _ in 0..threads {
            scope.spawn(|| loop {
                let place = next.fetch_add(1, Ordering::Relaxed) as usize;
                let Some((fault, _, _)) = FAULTS.get(place) else {
                    return;
                };
                let differs = |(file, output): (&File, &Vec<u8>)| {
                    panic::catch_unwind(|| rackrun(&file.bytes, *fault)).map_or(true, |faulty| faulty != *output)
                };
                let first = files.iter().zip(&outputs).position(differs);
                shown.lock().unwrap()[place] = first;
            });
        }
    });
    let _ = panic::take_hook();
    let mut good = true;
    for ((_, name, what), shown) in FAULTS.iter().zip(shown.into_inner().unwrap()) {
        match shown {
            Some(index) => println!("fault {name} ({what}): shown by file {index}, '{}'", files[index].kind),
            None => {
                eprintln!("compare: no file shows fault {name} ({what})");
                good = false;
            }
        }
    }
    good
}
