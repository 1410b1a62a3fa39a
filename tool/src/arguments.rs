//! The words of a command.

use std::collections::VecDeque;
use std::ffi::{OsStr, OsString};
use std::str::FromStr;

use crate::escape::{printable, printable_path};
use crate::fault::Fault;

/// A word: an option with its dashes, or anything else.
pub enum Word {
    Option(String),
    Plain(OsString),
}

/// The words that are still to be taken.
pub struct Arguments {
    words: VecDeque<OsString>,
    /// Behind `--` no word is an option.
    ended: bool,
}

impl Arguments {
    pub fn new(words: impl IntoIterator<Item = OsString>) -> Self {
        Arguments {
            words: words.into_iter().collect(),
            ended: false,
        }
    }

    /// The next word.
    pub fn word(&mut self) -> Option<Word> {
        let word = self.words.pop_front()?;
        if !self.ended && word == "--" {
            self.ended = true;
            return self.word();
        }
        match word.to_str() {
            Some(text) if !self.ended && text.len() > 1 && text.starts_with('-') => {
                Some(Word::Option(text.to_string()))
            }
            _ => Some(Word::Plain(word)),
        }
    }

    /// The word behind an option, whatever it is.
    pub fn value(&mut self, option: &str) -> Result<OsString, Fault> {
        let missing = || Fault::usage(format!("{option} needs a word more"));
        self.words.pop_front().ok_or_else(missing)
    }

    /// All words, where none is an option.
    pub fn plain(mut self) -> Result<Vec<OsString>, Fault> {
        let mut words = Vec::new();
        while let Some(word) = self.word() {
            match word {
                Word::Plain(word) => words.push(word),
                Word::Option(option) => return Err(other(&option)),
            }
        }
        Ok(words)
    }
}

/// An option that a command does not have; every command has `--help`.
pub fn other(option: &str) -> Fault {
    match option {
        "--help" | "-h" => Fault::help(),
        _ => {
            let option = printable(option.as_bytes());
            Fault::usage(format!("there is no option {option} here"))
        }
    }
}

/// A number, of which `what` says what it is.
pub fn number<T: FromStr>(word: &OsStr, what: &str) -> Result<T, Fault> {
    let number = word.to_str().and_then(|word| word.parse().ok());
    number.ok_or_else(|| Fault::usage(format!("{what}: {} is no number", printable_path(word))))
}

/// Two numbers with a sign between them, as in 200x150 or 10,-20.
pub fn pair<T: FromStr>(word: &OsStr, sign: char, what: &str) -> Result<(T, T), Fault> {
    let parts = word.to_str().and_then(|word| word.split_once(sign));
    let numbers = parts.and_then(|(a, b)| Some((a.parse().ok()?, b.parse().ok()?)));
    let wrong = || {
        let word = printable_path(word);
        Fault::usage(format!(
            "{what}: {word} is not two numbers with {sign} between"
        ))
    };
    numbers.ok_or_else(wrong)
}
