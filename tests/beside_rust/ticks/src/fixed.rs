//! The short tapes that the program of the gate replays.

use ticks::reach::Reach;
use ticks::record::Record;
use ticks::tapes::{self, Tape};

/// In how many tapes of the list each branch is to be, if the random tapes reach it so often.
const WANTED: u64 = 4;

/// Document 01's tape.
const EXAMPLE: &str = "document 01's tape= \
    20000000 00000000 00000000 20010000 3fd00000 00000000 \
    1000ffff 00000000 00000000 00000000 00000000 \
    30000000 00000000 00000000 00000000 00000000 40000000 00000000 3ff00000 00000000 \
    3ff00000 00000000 3ff00000 00000000 00000001 00000001 \
    d0000000 50010000 \
    c0000000 3fe00000 00000000 c0000000 3fe00000 00000000 \
    c0000000 3fe00000 00000000 c0000000 3fe00000 00000000";

/// The tapes and the Rust's answers, as the program's standard input and output.
pub fn choose(seed: u64, count: u64) -> (String, String) {
    let example = Tape::of_line(EXAMPLE).unwrap();
    let heading = format!("# Random tapes, seed {seed}\n");
    let mut stdin = example.line() + &heading;
    let mut stdout = example.answer().text + &heading;
    let mut covered = Reach::default();
    let mut chosen = 0;
    for number in 0..count {
        let tape = tapes::make(seed, number, tapes::SHORT);
        let wanted = tape.answer().reach.below(&covered, WANTED);
        if !wanted.is_empty() {
            let tape = shortened(tape, &wanted);
            let answered = tape.answer();
            covered.add(&answered.reach.once());
            stdin += &tape.line();
            stdout += &answered.text;
            chosen += 1;
        }
    }
    println!("{chosen} tapes of {count}, and the example");
    for (name, n) in covered.counts {
        if n < WANTED {
            println!("in {n} only: {name}");
        }
    }
    (stdin, stdout)
}

/// The tape without the riders, orders and ticks that it does not need to reach what is wanted.
fn shortened(tape: Tape, wanted: &[String]) -> Tape {
    let mut words = tape.words.iter().copied();
    let mut records: Vec<Record> = std::iter::from_fn(|| Record::read(&mut words)).collect();
    let refused = tape.answer().refused;
    for at in (0..records.len()).rev() {
        let mut fewer = records.clone();
        if fewer.remove(at).loads() || !riders_in_order(&fewer) {
            continue;
        }
        let answered = taped(&tape.name, &fewer).answer();
        if answered.reach.has_all(wanted) && answered.refused <= refused {
            records = fewer;
        }
    }
    taped(&tape.name, &records)
}

fn taped(name: &str, records: &[Record]) -> Tape {
    Tape {
        name: name.to_string(),
        words: records.iter().flat_map(Record::words).collect(),
    }
}

/// Whether each rider's number is an old one or the next.
fn riders_in_order(records: &[Record]) -> bool {
    let mut riders = 0;
    records.iter().all(|record| match record {
        Record::Rider { number, .. } => {
            let next = riders;
            riders = riders.max(number + 1);
            *number <= next
        }
        _ => true,
    })
}
