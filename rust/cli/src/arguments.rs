//! The words of the command line after a subcommand's name: options and operands.

use crate::stop::Stop;
use std::ffi::{OsStr, OsString};

/// What a subcommand takes. An option begins with `-`; `-` by itself is an operand, and so
/// is every word after `--`.
pub struct Accepts {
    /// The most operands.
    pub operands: usize,
    /// The options that stand by themselves.
    pub flags: &'static [&'static str],
    /// The options with a value: `--format json` or `--format=json`.
    pub valued: &'static [&'static str],
}

/// What a subcommand is given.
#[derive(Debug, Default, PartialEq)]
pub struct Arguments {
    operands: Vec<OsString>,
    /// Each at most once; the value of a flag is empty.
    options: Vec<(&'static str, OsString)>,
}

impl Arguments {
    /// The operand with this number, counted from 0.
    pub fn operand(&self, number: usize) -> Option<&OsStr> {
        self.operands.get(number).map(OsString::as_os_str)
    }

    /// The value of an option, if it is given.
    pub fn value(&self, option: &str) -> Option<&OsStr> {
        let mut options = self.options.iter();
        let given = options.find(|(name, _)| *name == option)?;
        Some(&given.1)
    }

    /// Whether an option is given.
    pub fn has(&self, option: &str) -> bool {
        self.value(option).is_some()
    }
}

/// A word that is one too many.
pub fn too_many(word: &OsStr) -> Stop {
    Stop::usage(format!("'{}' is one word too many", word.display()))
}

impl Accepts {
    /// Reads the words that follow the name.
    pub fn read(&self, words: &[OsString]) -> Result<Arguments, Stop> {
        let mut arguments = Arguments::default();
        let mut words = words.iter();
        while let Some(word) = words.next() {
            match word.to_str() {
                Some("--") => {
                    arguments.operands.extend(words.by_ref().cloned());
                }
                Some(option) if option.starts_with('-') && option != "-" => {
                    let (name, value) = self.option(option, || words.next())?;
                    if arguments.has(name) {
                        return Err(Stop::usage(format!("{name} is given twice")));
                    }
                    arguments.options.push((name, value));
                }
                _ => arguments.operands.push(word.clone()),
            }
        }
        self.counted(arguments)
    }

    /// An option's name and its value, which may be the next word.
    fn option<'a>(
        &self,
        word: &str,
        next: impl FnOnce() -> Option<&'a OsString>,
    ) -> Result<(&'static str, OsString), Stop> {
        let (name, value) = match word.split_once('=') {
            Some((name, value)) => (name, Some(OsString::from(value))),
            None => (word, None),
        };
        let known = |names: &[&'static str]| names.iter().find(|one| **one == name).copied();
        if let Some(flag) = known(self.flags) {
            return match value {
                None => Ok((flag, OsString::new())),
                Some(_) => Err(Stop::usage(format!("{flag} takes no value"))),
            };
        }
        let Some(valued) = known(self.valued) else {
            return Err(Stop::usage(format!("there is no option {name}")));
        };
        let value = value.or_else(|| next().cloned());
        let value = value.ok_or_else(|| Stop::usage(format!("{valued} needs a value")))?;
        Ok((valued, value))
    }

    /// The arguments, if there are no more operands than are taken.
    fn counted(&self, arguments: Arguments) -> Result<Arguments, Stop> {
        match arguments.operand(self.operands) {
            None => Ok(arguments),
            Some(more) => Err(too_many(more)),
        }
    }
}
