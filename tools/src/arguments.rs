//! The program's arguments: a subcommand, its operands and its options.

use crate::answers::Format;
use crate::fault::{nearest, quoted};
use crate::source::is_input;
use crate::subcommands::{ProgramOption, Subcommand, EXCLUSIVE, GATE, JSON, OPTIONS, SUBCOMMANDS};
use crate::trouble::Trouble;
use std::ffi::OsString;

/// Arguments told apart.
#[derive(Clone, Debug, Default)]
pub struct Arguments {
    /// The subcommand and its operands.
    plain: Vec<OsString>,
    /// Options, with their values if they have one.
    options: Vec<(String, Option<String>)>,
}

/// What the program is asked for.
#[derive(Clone, Debug)]
pub enum Asked {
    Help,
    Version,
    Manual,
    Completion,
    Done(&'static Subcommand, Arguments),
}

/// Reads the arguments.
pub fn read(given: impl IntoIterator<Item = OsString>) -> Result<Asked, Trouble> {
    let arguments = sort(given)?;
    if arguments.is_help() {
        return Ok(Asked::Help);
    }
    for (option, asked) in [
        ("--help", Asked::Help),
        ("-h", Asked::Help),
        ("--version", Asked::Version),
        ("--man", Asked::Manual),
        ("--completion", Asked::Completion),
    ] {
        if arguments.has(option) {
            return Ok(asked);
        }
    }
    let subcommand = arguments.subcommand()?;
    arguments.fit(subcommand)?;
    Ok(Asked::Done(subcommand, arguments))
}

/// How the faults of arguments that cannot be read are written.
pub fn format_of(given: &[OsString]) -> Format {
    let options = given.iter().take_while(|argument| *argument != "--");
    match options.into_iter().any(|argument| argument == JSON.name) {
        true => Format::Json,
        false => Format::Words,
    }
}

/// A fault of the arguments.
pub fn fault(message: impl std::fmt::Display) -> Trouble {
    Trouble::faulty(format!("{message} (`wegbaro --help` has the calls)"))
}

/// The fault of an option that is none of the known ones, with the nearest of them.
fn unknown_option(who: &str, given: &str, known: &[ProgramOption]) -> Trouble {
    let known = known.iter().map(|option| option.name).chain(["--help", "--version"]);
    let hint = nearest(given, known).map(|near| format!(", did you mean `{near}`?"));
    fault(format!("{who} no option `{}`{}", quoted(given), hint.unwrap_or_default()))
}

/// Tells options from the rest; behind `--` there are none.
fn sort(given: impl IntoIterator<Item = OsString>) -> Result<Arguments, Trouble> {
    let mut arguments = Arguments::default();
    let mut given = given.into_iter();
    while let Some(argument) = given.next() {
        let text = argument.to_string_lossy().into_owned();
        if text == "--" {
            arguments.plain.extend(given);
            break;
        }
        if !text.starts_with('-') || text == "-" {
            arguments.plain.push(argument);
            continue;
        }
        if text == "--expand" {
            arguments.plain.insert(0, "expand".into());
            continue;
        }
        let (name, value) = match text.split_once('=') {
            Some((name, value)) => (name.to_string(), Some(value.to_string())),
            None => (text, None),
        };
        // What is no option is told later, with the nearest one.
        let option = OPTIONS.iter().find(|option| option.name == name);
        let has_value = option.is_some_and(|option| option.value.is_some());
        let value = match value {
            None if has_value => {
                let next = given.next();
                let next = next.ok_or_else(|| fault(format!("{name} needs a number")))?;
                Some(next.to_string_lossy().into_owned())
            }
            Some(_) if !has_value && option.is_some() => {
                return Err(fault(format!("`{}` takes no value", quoted(&name))));
            }
            value => value,
        };
        arguments.options.push((name, value));
    }
    Ok(arguments)
}

impl Arguments {
    fn subcommand(&self) -> Result<&'static Subcommand, Trouble> {
        let Some(name) = self.plain.first() else {
            let is_known = |given: &str| OPTIONS.iter().any(|option| option.name == given);
            let unknown = self.options.iter().find(|(given, _)| !is_known(given));
            return Err(match unknown {
                Some((given, _)) => unknown_option("there is", given, OPTIONS),
                None => fault("expected a command"),
            });
        };
        let name = name.to_string_lossy();
        let row = SUBCOMMANDS.iter().find(|subcommand| subcommand.name == name);
        row.ok_or_else(|| {
            let known = SUBCOMMANDS.iter().map(|subcommand| subcommand.name);
            let hint = nearest(&name, known).map(|near| format!(", did you mean `{near}`?"));
            fault(format!("`{}` is no command{}", quoted(&name), hint.unwrap_or_default()))
        })
    }

    /// Whether help is asked for by the word.
    fn is_help(&self) -> bool {
        self.plain.first().is_some_and(|first| first == "help")
    }

    /// The operands and options are such as the subcommand has.
    fn fit(&self, subcommand: &Subcommand) -> Result<(), Trouble> {
        let Subcommand { name, operands, options, reads, .. } = subcommand;
        let is_known = |given: &str| options.iter().any(|option| option.name == given);
        if let Some((given, _)) = self.options.iter().find(|(given, _)| !is_known(given)) {
            return Err(unknown_option(&format!("`{name}` has"), given, options));
        }
        if !operands.count.contains(&self.operands().len()) {
            return Err(fault(format!("`{name}` takes {}", operands.told)));
        }
        if let Some(what) = reads.filter(|_| is_input(self.file())) {
            let message = format!("`{name}` reads {what} from standard input, so FILE is not `-`");
            return Err(fault(message));
        }
        let mut exclusive = EXCLUSIVE.iter().filter(|option| self.has(option.name));
        match (exclusive.next(), exclusive.next()) {
            (Some(one), Some(other)) => {
                Err(fault(format!("{} and {} exclude each other", one.name, other.name)))
            }
            _ => Ok(()),
        }
    }

    fn operands(&self) -> &[OsString] {
        self.plain.get(1..).unwrap_or_default()
    }

    /// The first operand.
    pub fn file(&self) -> &OsString {
        &self.plain[1]
    }

    /// The operands from a place on, as one text: a state may be one argument or several.
    pub fn joined(&self, from: usize) -> String {
        let operands = self.operands().iter().skip(from);
        let operands: Vec<_> = operands.map(|operand| operand.to_string_lossy()).collect();
        operands.join(" ")
    }

    pub fn has(&self, option: &str) -> bool {
        self.options.iter().any(|(name, _)| name == option)
    }

    /// How answers are written.
    pub fn format(&self) -> Format {
        match [JSON, GATE].map(|option| self.has(option.name)) {
            [true, _] => Format::Json,
            [_, true] => Format::Gate,
            _ => Format::Words,
        }
    }

    /// The value of an option that is a number; if it is given twice, the later one counts.
    pub fn number(&self, option: &str, otherwise: u64) -> Result<u64, Trouble> {
        let given = self.options.iter().rfind(|(name, _)| name == option);
        let Some((_, Some(value))) = given else { return Ok(otherwise) };
        value.parse().map_err(|_| fault(format!("{option} `{}` is no number", quoted(value))))
    }
}
