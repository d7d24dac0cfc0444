//! The words behind a command: those with a place, then options.

use crate::commands::Command;
use crate::{unusable, Stop};
use std::collections::VecDeque;
use std::str::FromStr;

pub struct Arguments {
    command: &'static Command,
    words: VecDeque<String>,
    /// With their values; a switch has none.
    options: Vec<(&'static str, Option<String>)>,
}

impl Arguments {
    pub fn of(command: &'static Command, given: &[String]) -> Result<Arguments, Stop> {
        let mut arguments = Arguments { command, words: VecDeque::new(), options: Vec::new() };
        let mut rest = given.iter();
        while let Some(word) = rest.next() {
            if !word.starts_with("--") {
                arguments.words.push_back(word.clone());
                continue;
            }
            let Some(&(name, takes)) = command.options.iter().find(|(name, _)| name == word) else {
                return Err(arguments.wrong(&format!("there is no option {word}")));
            };
            let value = takes.then(|| rest.next().cloned());
            if let Some(None) = value {
                return Err(arguments.wrong(&format!("{word} needs a value")));
            }
            arguments.options.push((name, value.flatten()));
        }
        Ok(arguments)
    }

    /// The next word; `what` says what is missing where there is none.
    pub fn word(&mut self, what: &str) -> Result<String, Stop> {
        self.words.pop_front().ok_or_else(|| self.wrong(&format!("{what} is missing")))
    }

    /// The next word, if there is one.
    pub fn optional(&mut self) -> Option<String> {
        self.words.pop_front()
    }

    /// The next word as a number.
    pub fn number<T: FromStr>(&mut self, what: &str) -> Result<T, Stop> {
        let word = self.word(what)?;
        self.parsed(&word, what)
    }

    /// The value of an option, if it is given.
    pub fn option<T: FromStr>(&self, name: &str) -> Result<Option<T>, Stop> {
        let given = self.options.iter().rev().find(|(option, _)| *option == name);
        let value = given.and_then(|(_, value)| value.as_deref());
        value.map(|value| self.parsed(value, name)).transpose()
    }

    /// Is a switch given?
    pub fn switch(&self, name: &str) -> bool {
        self.options.iter().any(|(option, _)| *option == name)
    }

    /// No word may be left.
    pub fn end(&self) -> Result<(), Stop> {
        match self.words.front() {
            Some(word) => Err(self.wrong(&format!("what is {word}?"))),
            None => Ok(()),
        }
    }

    fn parsed<T: FromStr>(&self, word: &str, what: &str) -> Result<T, Stop> {
        word.parse().map_err(|_| self.wrong(&format!("{what} cannot be {word}")))
    }

    fn wrong(&self, why: &str) -> Stop {
        unusable(format!("{why}; usage: gridctl {}", self.command.usage))
    }
}
