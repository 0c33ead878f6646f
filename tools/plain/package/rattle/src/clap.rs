//! `clap`: subcommands, whose arguments are flags by their long names and words that have to be there.

use crate::alloc::{AllocError, Global};
use crate::{Box, Vec};
use error::ErrorKind;

pub mod error {
    /// Why words are no command.
    #[derive(Clone, Copy)]
    pub enum ErrorKind {
        /// Memory ran out.
        OutOfMemory,
        /// They are no command.
        WrongWords,
    }
}

impl ErrorKind {
    /// The kind of an error, which is the error itself.
    pub fn kind(self) -> ErrorKind {
        self
    }
}

impl From<AllocError> for ErrorKind {
    fn from(_: AllocError) -> ErrorKind {
        ErrorKind::OutOfMemory
    }
}

/// What an argument does.
pub enum ArgAction {
    /// It is a flag.
    SetTrue,
}

/// An argument: a flag where it has a long name, else a word.
pub struct Arg<'a> {
    id: &'a str,
    long: Option<&'a str>,
}

impl<'a> Arg<'a> {
    /// A word with this id.
    pub fn new(_: Global, id: &'a str) -> Arg<'a> {
        Arg { id, long: None }
    }
    /// Makes it a flag with this name.
    pub fn long(self, name: &'a str) -> Arg<'a> {
        Arg {
            long: Some(name),
            ..self
        }
    }
}

macro_rules! asked_for_always {
    ($type:ident: $($method:ident)*) => { impl<'a> $type<'a> { $(
        /// What holds of every command here.
        pub fn $method<T>(self, _: T) -> $type<'a> { self }
    )* } };
}

// A flag is set, each word has to be there, the words begin with a subcommand, and there is no help.
asked_for_always! { Arg: action required }
asked_for_always! { Command: no_binary_name disable_help_flag disable_help_subcommand subcommand_required }

/// A command with its arguments, or with its subcommands.
pub struct Command<'a> {
    name: &'a str,
    args: Vec<Arg<'a>>,
    subcommands: Vec<Command<'a>>,
}

impl<'a> Command<'a> {
    /// A command without arguments.
    pub fn new(alloc: Global, name: &'a str) -> Command<'a> {
        Command {
            name,
            args: Vec::new(alloc),
            subcommands: Vec::new(alloc),
        }
    }

    /// Adds an argument.
    pub fn arg(mut self, arg: Arg<'a>) -> Result<Command<'a>, AllocError> {
        self.args.push(arg)?;
        Ok(self)
    }

    /// Adds a subcommand.
    pub fn subcommand(mut self, subcommand: Command<'a>) -> Result<Command<'a>, AllocError> {
        self.subcommands.push(subcommand)?;
        Ok(self)
    }

    /// What the words give, of which the first is a subcommand.
    pub fn try_get_matches_from(self, words: &'a [&'a str]) -> Result<ArgMatches<'a>, ErrorKind> {
        let (first, rest) = words.split_first().ok_or(ErrorKind::WrongWords)?;
        let found = self
            .subcommands
            .iter()
            .find(|command| command.name == *first);
        let command = found.ok_or(ErrorKind::WrongWords)?;
        let given = ArgMatches {
            subcommand: None,
            values: command.values_of(rest)?,
        };
        let subcommand = Some((command.name, Box::new(Global, given)?));
        Ok(ArgMatches {
            subcommand,
            values: Vec::new(Global),
        })
    }

    // The values that the words after a subcommand give its arguments, each with its id.
    fn values_of(&self, words: &[&'a str]) -> Result<Vec<(&'a str, &'a str)>, ErrorKind> {
        let mut values = Vec::new(Global);
        let mut wanted = self.args.iter().filter(|arg| arg.long.is_none());
        let mut may_be_flag = true;
        for word in words {
            if may_be_flag && *word == "--" {
                may_be_flag = false;
                continue;
            }
            let value = if may_be_flag && word.starts_with('-') && *word != "-" {
                let name = word.strip_prefix("--");
                let flag = self
                    .args
                    .iter()
                    .find(|arg| name.is_some() && arg.long == name);
                let id = flag.ok_or(ErrorKind::WrongWords)?.id;
                if values.iter().any(|(given, _)| *given == id) {
                    return Err(ErrorKind::WrongWords);
                }
                (id, "true")
            } else {
                (wanted.next().ok_or(ErrorKind::WrongWords)?.id, *word)
            };
            values.push(value).map_err(AllocError::from)?;
        }
        match wanted.next() {
            Some(_) => Err(ErrorKind::WrongWords),
            None => Ok(values),
        }
    }
}

/// The subcommand that was found with what was found of it, and the values of arguments, each with its id.
pub struct ArgMatches<'a> {
    subcommand: Option<(&'a str, Box<ArgMatches<'a>>)>,
    values: Vec<(&'a str, &'a str)>,
}

impl<'a> ArgMatches<'a> {
    /// The subcommand that was found, with what was found of it.
    pub fn subcommand(&self) -> Option<(&'a str, &ArgMatches<'a>)> {
        self.subcommand
            .as_ref()
            .map(|(name, given)| (*name, &**given))
    }

    /// The value of an argument.
    pub fn get_str(&self, id: &str) -> Option<&'a str> {
        self.values
            .iter()
            .find(|(given, _)| *given == id)
            .map(|(_, value)| *value)
    }
}
