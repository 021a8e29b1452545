//! Our program beside the Rust on the random tapes.

use std::fs;
use std::io::{self, Read, Write};
use std::process::{Command, Stdio};
use std::thread;

use ticks::answer::Answered;
use ticks::reach::Reach;
use ticks::tapes::{self, Tape};

/// Tapes that the program is given at once.
const BATCH: u64 = 1000;
/// How many differing tapes are printed.
const SHOWN: usize = 5;

/// What all tapes had.
#[derive(Default)]
struct Totals {
    tapes: u64,
    ticks: u64,
    log_words: u64,
    bytes: u64,
    reach: Reach,
}

impl Totals {
    fn add(&mut self, answered: &Answered) {
        self.tapes += 1;
        self.ticks += answered.ticks;
        self.log_words += answered.log_words;
        self.bytes += answered.text.len() as u64;
        self.reach.add(&answered.reach);
    }

    fn print(&self) {
        for (name, n) in &self.reach.counts {
            println!("{n:>10}  {name}");
        }
        println!(
            "{} tapes, {} ticks, {} log words, {} bytes of answers",
            self.tapes, self.ticks, self.log_words, self.bytes
        );
    }
}

fn batches(seed: u64, count: u64) -> impl Iterator<Item = Vec<(Tape, Answered)>> {
    (0..count).step_by(BATCH as usize).map(move |first| {
        (first..count.min(first + BATCH))
            .map(|number| {
                let tape = tapes::make(seed, number, tapes::LONG);
                let answered = tape.answer();
                (tape, answered)
            })
            .collect()
    })
}

/// Counts alone.
pub fn reach(seed: u64, count: u64) -> io::Result<bool> {
    let mut totals = Totals::default();
    for batch in batches(seed, count) {
        for (_, answered) in &batch {
            totals.add(answered);
        }
    }
    totals.print();
    Ok(true)
}

/// Compares every byte of the program's answers; true where none differs.
pub fn compare(mut program: Command, seed: u64, count: u64, keep: &str) -> io::Result<bool> {
    let mut totals = Totals::default();
    let mut differing: Vec<String> = Vec::new();
    for batch in batches(seed, count) {
        let input: String = batch.iter().map(|(tape, _)| tape.line()).collect();
        let output = run(&mut program, input)?;
        let mut answers = split(&output).into_iter();
        for (tape, answered) in &batch {
            totals.add(answered);
            let ours = answers.next().unwrap_or("");
            if ours != answered.text {
                if differing.len() < SHOWN {
                    show(&answered.text, ours);
                }
                differing.push(tape.line());
            }
        }
    }
    totals.print();
    println!("seed {seed}: {} tapes differ", differing.len());
    if !differing.is_empty() {
        fs::write(keep, differing.concat())?;
        println!("they are kept in {keep}");
    }
    Ok(differing.is_empty())
}

/// The program's answer to an input.
fn run(program: &mut Command, input: String) -> io::Result<String> {
    let mut child = program
        .stdin(Stdio::piped())
        .stdout(Stdio::piped())
        .spawn()?;
    let mut stdin = child.stdin.take().unwrap();
    let writer = thread::spawn(move || stdin.write_all(input.as_bytes()));
    let mut output = Vec::new();
    child.stdout.take().unwrap().read_to_end(&mut output)?;
    // A program that ends early has an answer that differs.
    let _ = writer.join().unwrap();
    child.wait()?;
    Ok(String::from_utf8_lossy(&output).into_owned())
}

/// The answers of tapes whose names begin with "tape ".
fn split(output: &str) -> Vec<&str> {
    let mut starts: Vec<usize> = output
        .match_indices("\ntape ")
        .map(|(i, _)| i + 1)
        .collect();
    starts.insert(0, 0);
    starts.push(output.len());
    starts.windows(2).map(|w| &output[w[0]..w[1]]).collect()
}

/// The first line that differs.
fn show(rust: &str, ours: &str) {
    println!("{}", rust.lines().next().unwrap_or(""));
    let (mut rust_lines, mut our_lines) = (rust.lines(), ours.lines());
    for at in 1.. {
        let (expected, line) = (rust_lines.next(), our_lines.next());
        if expected != line || expected.is_none() {
            println!("  line {at}, ours {}", line.unwrap_or("(none)"));
            println!("  line {at}, Rust {}", expected.unwrap_or("(none)"));
            return;
        }
    }
}
