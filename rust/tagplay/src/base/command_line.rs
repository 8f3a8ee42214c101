//! A command line with subcommands, as far as the program needs one: options with a number, flags, help and the version.
//! Want of memory is answered, but where a text is made: help, and what is said of a mistake.

mod parsing;
mod texts;

use crate::base::boxed::Box;
use crate::base::rights::{Eprint, Print};
use crate::base::vec::{AllocError, Global, Vec};

/// Why a command line is not carried out.
#[derive(Clone, Copy, PartialEq, Eq)]
pub enum ErrorKind {
    /// Help or the version was asked for.
    Shown,
    Usage,
    OutOfMemory,
}

/// What an option without a value does.
pub enum ArgAction {
    SetTrue,
}

/// What the value of an option is.
#[derive(Clone, Copy)]
pub enum Parser {
    U32,
    U64,
    /// It has none.
    Flag,
}

macro_rules! value_parser {
    (u32) => {
        crate::base::command_line::Parser::U32
    };
    (u64) => {
        crate::base::command_line::Parser::U64
    };
}
pub(crate) use value_parser;

/// An option.
pub struct Arg<'a> {
    name: &'a str,
    value: &'a str,
    help: &'a str,
    default: Option<&'a str>,
    is_required: bool,
    parser: Parser,
}

impl<'a> Arg<'a> {
    pub fn new(_: Global, name: &'a str) -> Self {
        Arg {
            name,
            value: "",
            help: "",
            default: None,
            is_required: false,
            parser: Parser::Flag,
        }
    }

    pub fn long(self, name: &'a str) -> Self {
        Arg { name, ..self }
    }

    pub fn value_name(self, value: &'a str) -> Self {
        Arg { value, ..self }
    }

    pub fn value_parser(self, parser: Parser) -> Self {
        Arg { parser, ..self }
    }

    pub fn required(self, is_required: bool) -> Self {
        Arg { is_required, ..self }
    }

    pub fn default_value(self, default: &'a str) -> Self {
        let default = Some(default);
        Arg { default, ..self }
    }

    pub fn action(self, action: ArgAction) -> Self {
        let parser = match action {
            ArgAction::SetTrue => Parser::Flag,
        };
        Arg { parser, ..self }
    }

    pub fn help(self, help: &'a str) -> Self {
        Arg { help, ..self }
    }
}

/// A program or one of its subcommands.
pub struct Command<'a> {
    name: &'a str,
    version: &'a str,
    about: &'a str,
    after: &'a str,
    args: Vec<Arg<'a>>,
    commands: Vec<Command<'a>>,
}

impl<'a> Command<'a> {
    pub fn new(alloc: Global, name: &'a str) -> Self {
        Command {
            name,
            version: "",
            about: "",
            after: "",
            args: Vec::new(alloc),
            commands: Vec::new(alloc),
        }
    }

    pub fn version(self, version: &'a str) -> Self {
        Command { version, ..self }
    }

    pub fn about(self, about: &'a str) -> Self {
        Command { about, ..self }
    }

    pub fn after_help(self, after: &'a str) -> Self {
        Command { after, ..self }
    }

    /// One is required of every command that has some.
    pub fn subcommand_required(self, _: bool) -> Self {
        self
    }

    pub fn subcommand(mut self, command: Command<'a>) -> Result<Self, AllocError> {
        self.commands.push(command)?;
        Ok(self)
    }

    pub fn arg(mut self, arg: Arg<'a>) -> Result<Self, AllocError> {
        self.args.push(arg)?;
        Ok(self)
    }
}

/// What a command line says.
pub struct ArgMatches<'a> {
    /// The options that have a value, and the flags, whose value is 1.
    values: Vec<(&'a str, u64)>,
    /// The subcommand, and what is said to it.
    below: Option<(&'a str, Box<ArgMatches<'a>>)>,
}

impl<'a> ArgMatches<'a> {
    fn value(&self, name: &str) -> Option<u64> {
        self.values.iter().find(|it| it.0 == name).map(|it| it.1)
    }

    pub fn get_one<T: TryFrom<u64>>(&self, name: &str) -> Option<T> {
        self.value(name).and_then(|value| T::try_from(value).ok())
    }

    pub fn get_flag(&self, name: &str) -> bool {
        self.value(name).is_some()
    }

    pub fn subcommand(&self) -> Option<(&'a str, &ArgMatches<'a>)> {
        self.below.as_ref().map(|(name, below)| (*name, &**below))
    }
}

/// Help, the version, or why the command line was not accepted.
pub struct Error {
    kind: ErrorKind,
    text: String,
}

impl From<AllocError> for Error {
    fn from(_: AllocError) -> Error {
        Error {
            kind: ErrorKind::OutOfMemory,
            text: String::new(),
        }
    }
}

impl Error {
    pub fn kind(&self) -> ErrorKind {
        self.kind
    }

    /// Prints help and the version to standard output, and a mistake to standard error.
    pub fn print<P: Print + Eprint>(&self, rt: &P) -> std::io::Result<()> {
        match self.kind {
            ErrorKind::Shown => rt.print(&self.text),
            _ => rt.eprintln(format_args!("{}", self.text.trim_end())),
        }
    }

    pub fn exit_code(&self) -> i32 {
        match self.kind {
            ErrorKind::Shown => 0,
            _ => 2,
        }
    }
}
