//! The words of a command: options, then a mode and what it takes.

use std::process::ExitCode;

pub struct Words {
    pub plain: Vec<String>,
    pub seed: u64,
    pub tapes: u64,
    pub keep: String,
}

/// The program's words, with these where an option is not given.
pub fn words(tapes: u64, keep: &str) -> Result<Words, String> {
    let mut words = Words {
        plain: Vec::new(),
        seed: 1,
        tapes,
        keep: keep.to_string(),
    };
    let mut arguments = std::env::args().skip(1);
    while let Some(word) = arguments.next() {
        if !word.starts_with("--") {
            words.plain.push(word);
            words.plain.extend(arguments);
            break;
        }
        let next = arguments.next().ok_or(format!("{word}: what follows?"))?;
        let number = next.parse().map_err(|_| format!("{next}: not a number"));
        match word.as_str() {
            "--seed" => words.seed = number?,
            "--tapes" => words.tapes = number?,
            "--keep" => words.keep = next,
            _ => return Err(format!("{word}: not known")),
        }
    }
    Ok(words)
}

/// The status of a comparison: 1 where something differs, 2 where it could not be made.
pub fn status(alike: std::io::Result<bool>) -> ExitCode {
    match alike {
        Ok(true) => ExitCode::SUCCESS,
        Ok(false) => ExitCode::FAILURE,
        Err(error) => {
            eprintln!("{error}");
            ExitCode::from(2)
        }
    }
}
