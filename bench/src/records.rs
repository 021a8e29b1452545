//! The record call's ticks beside the Rust's two `run`s, and the whole study beside the Rust's.

use std::fs::{self, File};
use std::io::Write;
use std::process::{Command, Stdio};
use std::time::Instant;

use elevator_core::study::Study;
use ticks::record::Record;

use crate::worlds::{self, Tape, World};

// libbeside_ticks.a: a slice goes as its place and its length.
unsafe extern "C" {
    unsafe fn bench_records(words: *const u32, count: usize, records: u64) -> u64;
    unsafe fn bench_lent_records(words: *const u32, count: usize, records: u64) -> u64;
}

/// Ticks of a round of the record call.
const TICKS: usize = 2_000;
/// Rounds of each side; the best counts. They take turns.
const ROUNDS: usize = 60;
/// Ticks of a tape that is studied whole.
const STUDY_TICKS: usize = 200_000;
const STUDY_ROUNDS: usize = 5;

/// With no word: the record calls. With `OURS .. -- RUST ..`: also the studies, by these two programs. With `once N`: each side
/// once on world N, for a count of instructions. With `tape N TICKS`: writes world N's tape.
pub fn all() {
    let words: Vec<String> = std::env::args().skip(1).collect();
    match words.iter().map(String::as_str).collect::<Vec<_>>()[..] {
        ["once", world] => return once(world.parse().unwrap()),
        ["tape", world, ticks] => return write(world.parse().unwrap(), ticks.parse().unwrap()),
        _ => measure(),
    }
    if let Some(at) = words.iter().position(|word| word == "--") {
        measure_studies(&words[..at], &words[at + 1..]);
    }
}

fn write(number: usize, ticks: usize) {
    let bytes = worlds::all()[number].tape(ticks).bytes();
    std::io::stdout().write_all(&bytes).unwrap();
}

fn once(number: usize) {
    let world = worlds::all()[number];
    let tape = world.tape(TICKS);
    let words = tape.words();
    let records = tape.records.len();
    println!("{}", world.name());
    let sum = by_value(&words, records);
    assert!(sum == lent(&words, records) && sum == two_runs(&tape, world));
}

/// The ticks of every world: the record call by value, lent, the Rust's two runs.
fn measure() {
    println!(
        "\n{:36} {:>8} {:>8} {:>8} {:>6} {:>6}",
        "a tick, by the record call", "ours ns", "lent ns", "Rust ns", "ratio", "lent"
    );
    for world in worlds::all() {
        let tape = world.tape(TICKS);
        let words = tape.words();
        let mut best = [f64::INFINITY; 3];
        for _ in 0..ROUNDS {
            let sums = [
                timed(&mut best[0], || by_value(&words, tape.records.len())),
                timed(&mut best[1], || lent(&words, tape.records.len())),
                timed(&mut best[2], || two_runs(&tape, world)),
            ];
            assert!(sums == [sums[0]; 3], "{}: the ends differ", world.name());
        }
        let [ours, lent, rust] = best.map(|time| time / TICKS as f64);
        println!(
            "{:36} {ours:8.0} {lent:8.0} {rust:8.0} {:6.2} {:6.2}",
            world.name(),
            ours / rust,
            lent / rust
        );
    }
}

fn by_value(words: &[u32], records: usize) -> u64 {
    // SAFETY: the words are read, and they are there.
    unsafe { bench_records(words.as_ptr(), words.len(), records as u64) }
}

fn lent(words: &[u32], records: usize) -> u64 {
    // SAFETY: as above.
    unsafe { bench_lent_records(words.as_ptr(), words.len(), records as u64) }
}

/// Keeps the least time, in nanoseconds.
fn timed<R>(best: &mut f64, run: impl FnOnce() -> R) -> R {
    let start = Instant::now();
    let result = run();
    *best = best.min(start.elapsed().as_nanos() as f64);
    result
}

/// The tape by the Rust, one call of each system a tick; answers what crate test_beside_ticks does.
#[inline(never)]
fn two_runs(tape: &Tape, world: World) -> u64 {
    let mut study = Study::new();
    let mut words = 0;
    for record in &tape.records {
        match record {
            Record::Tick { dt } => words += study.tick_whole(*dt),
            record => worlds::give(&mut study, record),
        }
    }
    (0..world.cars)
        .flat_map(|car| study.place(car))
        .map(f64::to_bits)
        .fold(study.total_moves() + words as u64, u64::wrapping_add)
}

/// The study of each world's long tape, ours and the Rust's, each as a program of its own.
fn measure_studies(ours: &[String], rust: &[String]) {
    println!(
        "\n{:36} {:>8} {:>8} {:>6} {:>11}",
        "a tick of the whole study", "ours ns", "Rust ns", "ratio", "words/tick"
    );
    let file = std::env::temp_dir().join(format!("bench-{}.tape", std::process::id()));
    for world in worlds::all() {
        let tape = world.tape(STUDY_TICKS);
        fs::write(&file, tape.bytes()).unwrap();
        let mut best = [f64::INFINITY; 2];
        for _ in 0..STUDY_ROUNDS {
            best[0] = best[0].min(studied(ours, &file));
            best[1] = best[1].min(studied(rust, &file));
        }
        let [ours, rust] = best.map(|time| time / STUDY_TICKS as f64);
        println!(
            "{:36} {ours:8.0} {rust:8.0} {:6.2} {:11.2}",
            world.name(),
            ours / rust,
            tape.log_words as f64 / STUDY_TICKS as f64
        );
    }
    fs::remove_file(&file).unwrap();
}

/// A study of the tape by a program, its text thrown away: nanoseconds of the processor.
fn studied(program: &[String], tape: &std::path::Path) -> f64 {
    let before = children_time();
    let status = Command::new(&program[0])
        .args(&program[1..])
        .stdin(File::open(tape).unwrap())
        .stdout(Stdio::null())
        .status()
        .unwrap();
    assert!(status.success(), "{program:?}: {status}");
    children_time() - before
}

/// What the programs that were run have used of the processor, in steps of 10 ms.
fn children_time() -> f64 {
    let stat = fs::read_to_string("/proc/self/stat").unwrap();
    let fields: Vec<&str> = stat[stat.rfind(')').unwrap()..].split(' ').collect();
    let ticks: f64 = fields[14..16]
        .iter()
        .map(|n| n.parse::<f64>().unwrap())
        .sum();
    ticks * 1e7
}
