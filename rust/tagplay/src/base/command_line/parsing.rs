//! How a command line is read.

use super::texts::Above;
use super::{Arg, ArgMatches, Command, Error, Parser};
use crate::base::boxed::Box;
use crate::base::rights::AsStr;
use crate::base::vec::{Global, Vec};

type Parsed<'a> = Result<ArgMatches<'a>, Error>;

impl Arg<'_> {
    fn number(&self, word: &str) -> Option<u64> {
        match self.parser {
            Parser::U32 => word.parse::<u32>().ok().map(u64::from),
            _ => word.parse().ok(),
        }
    }
}

impl<'a> Command<'a> {
    /// Reads the words of a command line, of which the first is the program's name.
    pub fn try_get_matches_from<S: AsStr>(&self, words: &[S]) -> Parsed<'a> {
        self.parse("", words.get(1..).unwrap_or_default())
    }

    fn parse<S: AsStr>(&self, above: Above, words: &[S]) -> Parsed<'a> {
        let mut found = ArgMatches {
            values: Vec::new(Global),
            below: None,
        };
        let mut rest = words.iter().map(AsStr::text);
        while let Some(word) = rest.next() {
            match word {
                "-h" | "--help" => return Err(self.help(above)),
                "-V" | "--version" if !self.version.is_empty() => return Err(self.version_line()),
                "help" if !self.commands.is_empty() => return Err(self.help_of(above, rest.next())),
                _ if word.starts_with("--") => self.option(above, word, &mut rest, &mut found)?,
                _ if self.commands.is_empty() => {
                    return Err(self.mistake(above, &format!("unexpected argument '{word}' found")));
                }
                _ => {
                    let after = &words[words.len() - rest.len()..];
                    let command = self.named(above, word)?;
                    let inner = command.parse(&self.above(above), after)?;
                    found.below = Some((command.name, Box::new(Global, inner)?));
                    return Ok(found);
                }
            }
        }
        self.complete(above, found)
    }

    fn above(&self, above: Above) -> String {
        format!("{above}{} ", self.name)
    }

    fn named(&self, above: Above, name: &str) -> Result<&Command<'a>, Error> {
        let found = self.commands.iter().find(|it| it.name == name);
        found.ok_or_else(|| self.mistake(above, &format!("unrecognized subcommand '{name}'")))
    }

    fn help_of(&self, above: Above, name: Option<&str>) -> Error {
        match name.map(|it| self.named(above, it)) {
            None => self.help(above),
            Some(Ok(command)) => command.help(&self.above(above)),
            Some(Err(mistake)) => mistake,
        }
    }

    /// Reads an option, whose value stands behind `=` or is the next word.
    fn option<'w>(
        &self,
        above: Above,
        word: &str,
        rest: &mut impl Iterator<Item = &'w str>,
        found: &mut ArgMatches<'a>,
    ) -> Result<(), Error> {
        let (name, given) = match word[2..].split_once('=') {
            Some((name, given)) => (name, Some(given)),
            None => (&word[2..], None),
        };
        let mistake = |what: String| Err(self.mistake(above, &what));
        let Some(arg) = self.args.iter().find(|arg| arg.name == name) else {
            return mistake(format!("unexpected argument '{word}' found"));
        };
        if found.get_flag(name) {
            return mistake(format!("the argument '{}' cannot be used multiple times", arg.usage()));
        }
        let text = match (arg.parser, given) {
            (Parser::Flag, None) => "1",
            (Parser::Flag, Some(_)) => return mistake(format!("unexpected value for '{}' found", arg.usage())),
            (_, Some(given)) => given,
            (_, None) => match rest.next() {
                Some(next) if !next.starts_with('-') => next,
                _ => {
                    return mistake(format!(
                        "a value is required for '{}' but none was supplied",
                        arg.usage()
                    ))
                }
            },
        };
        match arg.number(text) {
            Some(value) => Ok(found.values.push((arg.name, value))?),
            None => mistake(format!("invalid value '{text}' for '{}'", arg.usage())),
        }
    }

    /// Adds what has a default, once all words are read.
    fn complete(&self, above: Above, mut found: ArgMatches<'a>) -> Parsed<'a> {
        if !self.commands.is_empty() {
            return Err(self.mistake(above, "a subcommand is required but one was not provided"));
        }
        for arg in self.args.iter().filter(|arg| found.value(arg.name).is_none()) {
            if arg.is_required {
                let usage = arg.usage();
                let what = format!("the following required arguments were not provided: {usage}");
                return Err(self.mistake(above, &what));
            }
        }
        for arg in self.args.iter() {
            let default = arg.default.and_then(|it| arg.number(it));
            if let (None, Some(value)) = (found.value(arg.name), default) {
                found.values.push((arg.name, value))?;
            }
        }
        Ok(found)
    }
}
