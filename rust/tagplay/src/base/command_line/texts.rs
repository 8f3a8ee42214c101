//! Help, and what is said of a mistake.

use super::{Arg, Command, Error, ErrorKind, Parser};

impl Arg<'_> {
    /// How it is written.
    pub(super) fn usage(&self) -> String {
        match self.parser {
            Parser::Flag => format!("--{}", self.name),
            _ => format!("--{} <{}>", self.name, self.value),
        }
    }
}

/// The names of the commands above one, each with a space.
pub(super) type Above<'a> = &'a str;

impl Command<'_> {
    fn usage(&self, above: Above) -> String {
        let rest = if self.commands.is_empty() { "" } else { " <COMMAND>" };
        let required = self.args.iter().filter(|arg| arg.is_required);
        let needed: String = required.map(|arg| format!(" {}", arg.usage())).collect();
        format!("Usage: {above}{} [OPTIONS]{needed}{rest}", self.name)
    }

    pub(super) fn help(&self, above: Above) -> Error {
        let mut text = format!("{}\n\n{}\n", self.about, self.usage(above));
        if !self.commands.is_empty() {
            text += "\nCommands:\n";
        }
        for command in self.commands.iter() {
            text += &format!("  {}  {}\n", command.name, command.about);
        }
        text += "\nOptions:\n";
        for arg in self.args.iter() {
            let default = arg.default.map_or(String::new(), |it| format!(" [default: {it}]"));
            text += &format!("  {}  {}{default}\n", arg.usage(), arg.help);
        }
        text += "  -h, --help  Print help\n";
        if !self.version.is_empty() {
            text += "  -V, --version  Print version\n";
        }
        if !self.after.is_empty() {
            text += &format!("\n{}\n", self.after);
        }
        shown(text)
    }

    pub(super) fn version_line(&self) -> Error {
        shown(format!("{} {}\n", self.name, self.version))
    }

    /// A mistake, and how the command is used.
    pub(super) fn mistake(&self, above: Above, what: &str) -> Error {
        let usage = self.usage(above);
        let text = format!("error: {what}\n\n{usage}\n\nFor more information, try '--help'.\n");
        let kind = ErrorKind::Usage;
        Error { kind, text }
    }
}

fn shown(text: String) -> Error {
    let kind = ErrorKind::Shown;
    Error { kind, text }
}
