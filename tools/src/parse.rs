//! Text to records.
//!
//! What a record's own fields can get wrong is a fault with its line and column, and so is every
//! statement that would mean something else than it says. What else is wrong between records, such
//! as a point linked twice, is left to the gate, which refuses it by a row.

use crate::fault::{quoted, Fault};
use crate::formula::{Formula, Node};
use crate::kind::{self, action};
use crate::misses::MissAll;
use crate::names::{Names, Point};
use crate::policies::Split;
use crate::questions::QUESTIONS;
use crate::tokens::{statements, Place, Statement, Token};
use crate::version::read_version;
use crate::widths::Widths;
use crate::{record, Record, RECORD};

/// The most actions of a rule.
const MOST_ACTIONS: usize = 4;
/// What starts an action.
const ACTIONS: [&str; 4] = ["output", "set", "in_port", "group"];
/// The most faults that are told at once.
pub const MOST_FAULTS: usize = 20;

/// What starts a statement.
pub(crate) const STATEMENTS: [&str; 12] = [
    "widths", "name", "ward", "link", "miss", "rule", "policy", "group", "add", "modify", "delete",
    "bytes",
];

/// What a text says.
#[derive(Clone, Debug, Default, PartialEq, Eq)]
pub struct Parsed {
    pub bytes: Vec<u8>,
    /// The line of each record's statement.
    pub lines: Vec<usize>,
    pub names: Names,
    pub policies: Vec<PolicyText>,
    /// What is to be said of the text though it is no fault.
    pub notes: Vec<String>,
}

/// A policy as it stands in a text.
#[derive(Clone, Debug, PartialEq, Eq)]
pub struct PolicyText {
    pub number: u8,
    pub name: Option<String>,
    pub line: usize,
    /// The policy as written, on one line.
    pub source: String,
    pub formula: Formula,
    /// The nodes of the policy as written, where those of its records are a shorter form or a part.
    pub whole: Option<Vec<Node>>,
}

/// The records of a text, or its first twenty faults.
pub fn parse(text: &str) -> Result<Parsed, Vec<Fault>> {
    let mut reader = Reader::default();
    let mut parsed = Parsed::default();
    let mut faults = vec![];
    for mut statement in statements(text) {
        if faults.len() == MOST_FAULTS {
            break;
        }
        if !parsed.bytes.len().is_multiple_of(RECORD) {
            let message = "only the last statement may have fewer than 24 bytes";
            faults.push(statement.peek().fault(message));
            break;
        }
        if ["group", "add", "modify", "delete", "bytes"].contains(&statement.peek().text) {
            faults.extend(parsed.end_policies(&mut reader).err());
        }
        let line = statement.line();
        match reader.statement(&mut statement) {
            Ok(bytes) => parsed.extend(&bytes, line),
            Err(Unread::Fault(fault)) if reader.follows(&statement, &fault) => {}
            Err(Unread::Fault(fault)) => faults.push(fault),
            Err(Unread::WithoutWidths) => {}
        }
    }
    faults.extend(parsed.end_policies(&mut reader).err());
    if faults.is_empty() {
        faults.extend(parsed.settle_misses(&reader).err());
    }
    if !faults.is_empty() {
        faults.sort_by_key(|fault| (fault.line, fault.column));
        faults.truncate(MOST_FAULTS);
        return Err(faults);
    }
    let Reader { names, policies, notes, .. } = reader;
    Ok(Parsed { names, policies, notes, ..parsed })
}

impl Parsed {
    fn extend(&mut self, bytes: &[u8], line: usize) {
        self.bytes.extend(bytes);
        self.lines.resize(self.bytes.len().div_ceil(RECORD), line);
    }

    /// Puts the parts of policies that are too long for one behind the last policy.
    fn end_policies(&mut self, reader: &mut Reader) -> Result<(), Fault> {
        for (bytes, line) in reader.rest_of_policies()? {
            self.extend(&bytes, line);
        }
        Ok(())
    }
}

/// What starts a command.
const COMMANDS: [&str; 4] = ["add", "modify", "delete", "bytes"];

/// What the text of one command says.
#[derive(Clone, Debug, PartialEq, Eq)]
pub struct CommandText {
    pub record: Record,
    /// What is to be said of it though it is no fault.
    pub notes: Vec<String>,
}

/// The record of one command.
pub fn parse_command(text: &str, widths: Widths, names: &Names) -> Result<CommandText, Vec<Fault>> {
    let mut reader = Reader::with(widths, names.clone());
    let mut found = statements(text);
    let place = Place { line: 1, column: 1 };
    let [statement] = &mut found[..] else {
        return Err(vec![place.fault(1, "expected one command")]);
    };
    statement.sound().map_err(|fault| vec![fault])?;
    let keyword = statement.peek();
    if !COMMANDS.contains(&keyword.text) {
        let fault = statement.expected(&format!("a command ({})", list(&COMMANDS)));
        let known = COMMANDS.into_iter().chain(QUESTIONS);
        return Err(vec![match STATEMENTS.contains(&keyword.text) {
            true => fault,
            false => fault.with_nearest(keyword.text, known),
        }]);
    }
    match reader.statement(statement) {
        Ok(bytes) if bytes.len() == RECORD => {
            Ok(CommandText { record: record(&bytes), notes: reader.notes })
        }
        Ok(bytes) => {
            let message = format!("a record has {RECORD} bytes, these are {}", bytes.len());
            Err(vec![keyword.fault(message)])
        }
        Err(Unread::Fault(fault)) => Err(vec![fault]),
        Err(Unread::WithoutWidths) => unreachable!("the widths are given"),
    }
}

/// The two states of an argument, each by its number or its fields.
pub fn parse_states(text: &str, widths: Widths, names: &Names) -> Result<[usize; 2], Fault> {
    let reader = Reader::with(widths, names.clone());
    let mut found = statements(text);
    let [statement] = &mut found[..] else {
        return Err(Place { line: 1, column: 1 }.fault(1, "expected two states on one line"));
    };
    statement.sound()?;
    let states = [reader.state(widths, statement)?, reader.state(widths, statement)?];
    statement.finish()?;
    Ok(states)
}

/// Why a statement was not read.
#[derive(Clone, Debug)]
pub enum Unread {
    Fault(Fault),
    /// The widths statement is faulty, so nothing more can be said of this one.
    WithoutWidths,
}

impl From<Fault> for Unread {
    fn from(fault: Fault) -> Unread {
        Unread::Fault(fault)
    }
}

/// Where the widths of a text stand.
#[derive(Clone, Copy, Debug, Default)]
enum WidthsLine {
    #[default]
    NotYet,
    Faulty,
    At(usize),
}

/// Reads statements one after the other.
#[derive(Clone, Debug, Default)]
pub struct Reader {
    pub widths: Option<Widths>,
    widths_line: WidthsLine,
    pub names: Names,
    pub(crate) policies: Vec<PolicyText>,
    /// Number and line of each policy, in the order of the text.
    pub(crate) numbers: Vec<(u8, usize)>,
    /// The line of the first command.
    command: Option<usize>,
    /// The number of the policy statement that ends just here.
    pub(crate) open: Option<u8>,
    /// The ends of links, and their lines.
    pub(crate) links: Vec<(Point, usize)>,
    /// Names that faulty statements would have given.
    lost: Vec<String>,
    pub(crate) miss_all: Option<MissAll>,
    /// Parts of policies that stand after the last one.
    pub(crate) parts: Vec<Split>,
    notes: Vec<String>,
}

impl Reader {
    /// A reader for statements after a network of these widths and names.
    pub fn with(widths: Widths, names: Names) -> Reader {
        Reader { widths: Some(widths), names, ..Reader::default() }
    }

    /// The bytes of one statement.
    pub fn statement(&mut self, statement: &mut Statement) -> Result<Vec<u8>, Unread> {
        statement.sound()?;
        let keyword = statement.peek();
        if !STATEMENTS.contains(&keyword.text) {
            let what = format!("a statement ({})", list(&STATEMENTS));
            return Err(statement.expected(&what).with_nearest(keyword.text, STATEMENTS).into());
        }
        self.in_place(keyword)?;
        statement.take();
        let bytes = match keyword.text {
            "widths" => self.read_widths(keyword, statement)?,
            "bytes" => self.read_bytes(keyword, statement)?,
            _ => {
                let of = self.widths(keyword)?;
                self.with_widths(keyword, of, statement)?
            }
        };
        statement.finish()?;
        self.note_record(&bytes, keyword.place.line);
        if !bytes.is_empty() {
            self.open = bytes.get(1).filter(|_| keyword.text == "policy").copied();
        }
        Ok(bytes)
    }

    /// The bytes of a statement that needs the widths.
    fn with_widths(
        &mut self,
        keyword: Token,
        of: Widths,
        statement: &mut Statement,
    ) -> Result<Vec<u8>, Fault> {
        match keyword.text {
            "name" => self.name(of, statement),
            "ward" => self.ward(of, statement),
            "link" => self.link(of, statement),
            "miss" => self.miss(of, statement),
            "rule" => self.rule(of, statement, kind::RULE),
            "add" => self.rule(of, statement, kind::ADD),
            "modify" => self.rule(of, statement, kind::MODIFY),
            "delete" => self.rule(of, statement, kind::DELETE),
            "group" => self.group_statement(of, statement),
            _ => self.policy(of, statement),
        }
    }

    /// A part of the network after a command would be taken for a command, and not be judged.
    fn in_place(&self, keyword: Token) -> Result<(), Fault> {
        let of_network =
            ["widths", "link", "miss", "rule", "policy", "group"].contains(&keyword.text);
        match self.command {
            Some(line) if of_network => {
                let message = format!("`{}` stands after a command (line {line})", keyword.text);
                let hint = "the network comes first, then the commands";
                Err(keyword.fault(message).hint(hint).earlier(line))
            }
            _ => Ok(()),
        }
    }

    /// Keeps what later statements are held against.
    pub(crate) fn note_record(&mut self, bytes: &[u8], line: usize) {
        match bytes {
            [kind::LINK, one, two, three, four, ..] => {
                self.links.extend([([*one, *two], line), ([*three, *four], line)]);
            }
            [kind::ADD..=kind::DELETE, ..] => self.command = self.command.or(Some(line)),
            [kind::POLICY, number, ..]
                if self.numbers.last().is_none_or(|(last, _)| last != number) =>
            {
                self.numbers.push((*number, line));
            }
            _ => {}
        }
    }

    fn read_widths(&mut self, keyword: Token, statement: &mut Statement) -> Result<Vec<u8>, Fault> {
        if let WidthsLine::At(line) = self.widths_line {
            let message = format!("the widths are given already, in line {line}");
            return Err(keyword.fault(message).earlier(line));
        }
        self.widths_line = WidthsLine::Faulty;
        statement.expect("H")?;
        let h = statement.byte_within("the header width", 1..=6)?;
        statement.expect("P")?;
        let p = statement.byte_within("the port width", 2..=4)?;
        statement.expect("W")?;
        let w = statement.byte("the switch width", 4)?;
        let version = read_version(statement)?;
        let widths = Widths { h, p, w };
        if !widths.within_limits() {
            let message =
                "the limits are H 1 to 6, P 2 to 4, W 0 to 4, and 1 + H + P + W at most 10";
            return Err(keyword.fault(message));
        }
        self.widths_line = WidthsLine::At(keyword.place.line);
        self.widths = Some(widths);
        self.names.widths = Some(widths);
        Ok(record(&[kind::WIDTHS, h, p, w, version]).to_vec())
    }

    /// The widths for the statement that starts with the keyword. That they are missing is told once.
    fn widths(&mut self, keyword: Token) -> Result<Widths, Unread> {
        match (self.widths, self.widths_line) {
            (Some(widths), _) => Ok(widths),
            (None, WidthsLine::Faulty) => Err(Unread::WithoutWidths),
            (None, _) => {
                self.widths_line = WidthsLine::Faulty;
                Err(keyword.fault("expected `widths` before this statement").into())
            }
        }
    }

    /// Whether a fault is there only because a name was not given in a faulty statement. If the faulty
    /// statement itself gives a name, that is kept.
    fn follows(&mut self, statement: &Statement, fault: &Fault) -> bool {
        let name = match statement.first() {
            "name" => statement.texts().last(),
            "ward" => statement.texts().nth(1),
            _ => None,
        };
        let place = Place { line: fault.line, column: fault.column };
        let word = statement.word_at(place);
        let follows = word.is_some_and(|word| self.lost.iter().any(|lost| lost == word));
        self.lost.extend(name.filter(|name| self.names.named(name).is_none()).map(String::from));
        follows
    }

    fn link(&self, of: Widths, statement: &mut Statement) -> Result<Vec<u8>, Fault> {
        let [switch, port] = self.point(of, statement)?;
        statement.expect("-")?;
        let [other_switch, other_port] = self.point(of, statement)?;
        Ok(record(&[kind::LINK, switch, port, other_switch, other_port]).to_vec())
    }

    fn rule(&mut self, of: Widths, statement: &mut Statement, kind: u8) -> Result<Vec<u8>, Fault> {
        let switch = self.switch(of, statement)?;
        statement.expect("priority")?;
        let [low, high] = statement.number("a priority", u16::MAX)?.to_le_bytes();
        let port = match statement.accept("port") {
            true => self.port_pattern(of, Some(switch), statement)?,
            false => [0, 0],
        };
        let header = match statement.accept("header") {
            true => self.header_pattern(of, statement)?,
            false => [0, 0],
        };
        let mut bytes = vec![kind, switch, low, high, port[0], port[1], header[0], header[1]];
        if kind != kind::DELETE {
            bytes.extend(self.actions(of, switch, statement)?);
        }
        let rule = record(&bytes);
        self.note_unsent(of, &rule, statement.line());
        Ok(rule.to_vec())
    }

    /// Says of an output to the one port that its rule is for that it sends nothing; of every such
    /// line, as each is to be looked at.
    fn note_unsent(&mut self, of: Widths, rule: &Record, line: usize) {
        let [switch, port, care] = [rule[1], rule[4], rule[5]];
        let back = [action::OUTPUT, port, care];
        if care == of.controller() && rule[9..21].chunks(3).any(|action| action == back) {
            let port = quoted(&self.names.port(switch, port));
            self.notes.push(format!(
                "line {line}: `output {port}` sends nothing here, as the rule is for frames that \
                 arrive at this port, and an output never sends a frame back to where it came \
                 from; `in_port` does"
            ));
        }
    }

    /// Says a thing once for all lines.
    pub(crate) fn note(&mut self, note: String) {
        let about = |note: &str| note.split_once(": ").map(|(_, rest)| rest.to_string());
        if !self.notes.iter().any(|other| about(other) == about(&note)) {
            self.notes.push(note);
        }
    }

    /// Action count and actions, from the colon on; the last is no `set`.
    pub(crate) fn actions(
        &mut self,
        of: Widths,
        switch: u8,
        statement: &mut Statement,
    ) -> Result<Vec<u8>, Fault> {
        statement.expect(":")?;
        let mut bytes = vec![0];
        loop {
            let start = statement.peek();
            if usize::from(bytes[0]) == MOST_ACTIONS {
                return Err(start.fault(format!("there are more than {MOST_ACTIONS} actions")));
            }
            let (kind, [value, care]) = if statement.accept("output") {
                (action::OUTPUT, self.output(of, switch, statement)?)
            } else if statement.accept("set") {
                (action::SET, self.header_pattern(of, statement)?)
            } else if statement.accept("in_port") {
                (action::IN_PORT, in_port(statement)?)
            } else if statement.accept("group") {
                (action::GROUP, [self.group(switch, statement)?, 0])
            } else {
                let fault = statement.expected("an action (`output`, `set`, `in_port` or `group`)");
                return Err(fault.with_nearest(start.text, ACTIONS));
            };
            bytes[0] += 1;
            bytes.extend([kind, value, care]);
            if !statement.accept(",") {
                return match kind {
                    action::SET => {
                        Err(start.fault("the last action must be `output`, `in_port` or `group`"))
                    }
                    _ => Ok(bytes),
                };
            }
        }
    }

    /// Value and care of the ports behind `output`.
    fn output(
        &mut self,
        of: Widths,
        switch: u8,
        statement: &mut Statement,
    ) -> Result<[u8; 2], Fault> {
        let ports = self.port_pattern(of, Some(switch), statement);
        ports.map_err(|fault| match statement.peek().text {
            "in_port" => fault.hint("`in_port` is an action of its own, without `output`"),
            _ => fault,
        })
    }

    /// One record, or a part of one, byte by byte.
    fn read_bytes(&mut self, keyword: Token, statement: &mut Statement) -> Result<Vec<u8>, Fault> {
        let mut bytes = vec![];
        while bytes.len() < RECORD {
            let text = statement.peek().text;
            if text.is_empty() && !bytes.is_empty() {
                break;
            }
            match u8::from_str_radix(text, 16) {
                Ok(byte) if text.len() == 2 => bytes.push(byte),
                _ => return Err(statement.expected("a byte as two hexadecimal digits")),
            }
            statement.take();
        }
        let is_node = bytes.len() == RECORD && bytes[0] == kind::POLICY;
        let goes_on = is_node && self.open == Some(bytes[1]);
        match self.policies.last() {
            Some(policy) if goes_on && Some(policy.number) == self.open => {
                let message = format!(
                    "these bytes would go on with policy {} of line {}",
                    policy.number, policy.line
                );
                Err(keyword.fault(message).earlier(policy.line))
            }
            _ => Ok(bytes),
        }
    }
}

/// Value and care behind `in_port`, which has no port of its own.
fn in_port(statement: &Statement) -> Result<[u8; 2], Fault> {
    match statement.peek().text {
        "" | "," => Ok([0, 0]),
        _ => {
            let fault = statement.expected("`,` or the end of the statement");
            Err(fault.hint("`in_port` stands alone: it sends back to where the frame arrived"))
        }
    }
}

/// Words as a list in a sentence.
fn list(items: &[&str]) -> String {
    match items {
        [first @ .., last] if !first.is_empty() => format!("{} or {last}", first.join(", ")),
        _ => items.join(""),
    }
}
