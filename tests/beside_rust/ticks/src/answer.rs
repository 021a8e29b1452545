//! A tape's answer by the Rust, and tapes as lines of text.

use std::fmt::Write;

use crate::player::{Answer, Player};
use crate::reach::{Before, Reach};
use crate::record::Record;
use crate::tapes::Tape;

/// What the Rust answers to a tape.
pub struct Answered {
    pub text: String,
    pub reach: Reach,
    pub ticks: u64,
    pub log_words: u64,
    pub refused: bool,
}

impl Tape {
    /// The tape of a line: a name, '=' and words; none for a heading.
    pub fn of_line(line: &str) -> Option<Self> {
        let (name, words) = line.split_once('=')?;
        let word = |text| u32::from_str_radix(text, 16).expect("a word in hexadecimal");
        Some(Self {
            name: name.to_string(),
            words: words.split_whitespace().map(word).collect(),
        })
    }

    pub fn line(&self) -> String {
        let words: Vec<String> = self.words.iter().map(|word| format!("{word:x}")).collect();
        format!("{}={}\n", self.name, words.join(" "))
    }

    /// From an empty world, record after record, to the end or a refusal.
    pub fn answer(&self) -> Answered {
        let mut player = Player::new();
        let mut answered = Answered {
            text: format!("{}\n", self.name),
            reach: Reach::default(),
            ticks: 0,
            log_words: 0,
            refused: false,
        };
        let mut words = self.words.iter().copied();
        while let Some(record) = Record::read(&mut words) {
            let before = Before::of(&player);
            match (player.take(&record), record) {
                (Answer::Ticked(log), Record::Tick { dt }) => {
                    player.show(&log, &mut answered.text);
                    answered.reach.tick(&before, &player, &log, dt);
                    answered.ticks += 1;
                    answered.log_words += log.len() as u64;
                }
                (Answer::Refused(number), _) => {
                    writeln!(answered.text, "refused {number}").unwrap();
                    answered.reach.refused(number);
                    answered.refused = true;
                    break;
                }
                _ => {}
            }
        }
        answered
    }
}
