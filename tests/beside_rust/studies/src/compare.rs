//! Our study and the Rust's on the random tapes.

use std::collections::BTreeMap;
use std::fs::{self, File};
use std::io;
use std::process::Command;

use crate::study::{Studied, study};
use crate::{limits, tapes};

/// How many differing tapes are printed.
const SHOWN: u64 = 5;

/// What some tapes had.
#[derive(Default)]
struct Sums {
    tapes: u64,
    ticks: u64,
    log_words: u64,
    bytes: u64,
}

impl Sums {
    fn add(&mut self, studied: &Studied) {
        self.tapes += 1;
        self.ticks += studied.ticks;
        self.log_words += studied.log_words;
        self.bytes += studied.text.len() as u64;
    }
}

/// What all tapes had.
#[derive(Default)]
struct Totals {
    all: Sums,
    kinds: BTreeMap<&'static str, Sums>,
    ends: BTreeMap<String, u64>,
    differing: u64,
}

impl Totals {
    fn add(&mut self, kind: &'static str, studied: &Studied) {
        self.all.add(studied);
        self.kinds.entry(kind).or_default().add(studied);
        let end = match studied.refused {
            Some(number) => format!("refused {number:>2}"),
            None => "a report".to_string(),
        };
        *self.ends.entry(end).or_default() += 1;
    }

    fn print(&self, seed: u64) {
        for (kind, sums) in &self.kinds {
            let Sums {
                tapes,
                ticks,
                log_words,
                ..
            } = sums;
            println!("{tapes:>8} tapes {ticks:>9} ticks {log_words:>9} words  {kind}");
        }
        for (end, tapes) in &self.ends {
            println!("{tapes:>8} tapes end with {end}");
        }
        println!(
            "seed {seed}: {} tapes, {} ticks, {} log words, {} bytes compared; {} tapes differ",
            self.all.tapes, self.all.ticks, self.all.log_words, self.all.bytes, self.differing
        );
    }
}

/// Compares every byte that the program prints; true where none differs. Differing tapes are kept in `folder`.
pub fn compare(mut program: Command, seed: u64, count: u64, folder: &str) -> io::Result<bool> {
    let mut totals = Totals::default();
    fs::create_dir_all(folder)?;
    let input = format!("{folder}/now");
    let random = (0..count).map(|number| tapes::make(seed, number));
    for (number, tape) in random.chain(limits::tapes()).enumerate() {
        let studied = study(&tape.bytes, |_, _| {});
        totals.add(tape.kind, &studied);
        fs::write(&input, &tape.bytes)?;
        let output = program.stdin(File::open(&input)?).output()?;
        let told = output.stderr.starts_with(studied.told.as_bytes())
            && output.stderr.is_empty() == studied.told.is_empty();
        if output.stdout != studied.text || !told || !output.status.success() {
            let kept = format!("{folder}/seed-{seed}-number-{number}.tape");
            fs::rename(&input, &kept)?;
            totals.differing += 1;
            if totals.differing <= SHOWN {
                println!("{kept}: {}, ours {}", tape.kind, output.status);
                show(&studied.text, &output.stdout);
                if !told {
                    let ours = String::from_utf8_lossy(&output.stderr);
                    println!(
                        "  on standard error, ours {ours:?}, Rust {:?}",
                        studied.told
                    );
                }
            }
        }
    }
    let _ = fs::remove_file(&input);
    totals.print(seed);
    if totals.differing > 0 {
        println!("they are kept in {folder}");
    }
    Ok(totals.differing == 0)
}

/// The first line that differs.
fn show(rust: &[u8], ours: &[u8]) {
    let lines = |text| <[u8]>::split(text, |&byte| byte == b'\n');
    let (mut rust_lines, mut our_lines) = (lines(rust), lines(ours));
    for at in 1.. {
        let (expected, line) = (rust_lines.next(), our_lines.next());
        if expected != line || expected.is_none() {
            let text = |line: Option<&[u8]>| {
                String::from_utf8_lossy(line.unwrap_or(b"(none)")).into_owned()
            };
            println!("  line {at}, ours {}", text(line));
            println!("  line {at}, Rust {}", text(expected));
            return;
        }
    }
}
