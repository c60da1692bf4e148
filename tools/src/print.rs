//! Records to text. Every statement printed is read back; what would not give the same bytes is
//! printed byte by byte, so nothing is lost whatever the bytes are.

use crate::fault::quoted;
use crate::formula::{node_of, print_formula, print_nodes, Node};
use crate::groups::{buckets, Bucket, Target};
use crate::kind::{self, action};
use crate::names::{Names, Point};
use crate::parse::Reader;
use crate::tokens::statements;
use crate::widths::{pattern, Widths};
use crate::{actions, Record, RECORD};

/// The most characters of a printed line.
const LINE: usize = 100;

/// The text of any bytes.
pub fn print(bytes: &[u8]) -> String {
    let mut reader = Reader::default();
    let mut text = String::new();
    let (records, rest) = whole_records(bytes);
    let mut place = 0;
    let mut kind_before = None;
    while place < records.len() {
        let (count, statement) = first_statement(&mut reader, &records[place..]);
        let kind = records[place][0];
        if kind_before.is_some_and(|before| before != kind) {
            text.push('\n');
        }
        text.push_str(&statement);
        kind_before = Some(kind);
        place += count;
    }
    if !rest.is_empty() {
        text.push_str(&print_bytes(rest));
    }
    text
}

/// The whole records of some bytes, and the bytes behind them.
pub fn whole_records(bytes: &[u8]) -> (Vec<Record>, &[u8]) {
    let chunks = bytes.chunks_exact(RECORD);
    let rest = chunks.remainder();
    (chunks.map(crate::record).collect(), rest)
}

/// One record in the words of its statement, with the names of a text, or byte by byte.
pub fn print_record(widths: Option<Widths>, names: &Names, record: &Record) -> String {
    named(widths, names, record, false)
}

/// The same where it stands within its switch, which is left out.
pub fn print_within(widths: Option<Widths>, names: &Names, record: &Record) -> String {
    named(widths, names, record, true)
}

fn named(widths: Option<Widths>, names: &Names, record: &Record, within: bool) -> String {
    let mut reader = widths.map_or_else(Reader::default, |of| Reader::with(of, Names::default()));
    let is_sound = plain(widths, record).is_some_and(|text| gives(&mut reader, &text, record));
    let printer = widths.map(|of| Printer { of, names: Some(names), within });
    let statement = printer.and_then(|printer| printer.statement(record));
    let statement = statement.filter(|_| is_sound);
    statement.unwrap_or_else(|| print_bytes(record).trim_end().to_string())
}

/// The first statement of some records, and how many records it covers.
fn first_statement(reader: &mut Reader, records: &[Record]) -> (usize, String) {
    let first = &records[0];
    if first[0] == kind::POLICY {
        let same = |record: &&Record| record[..2] == first[..2];
        let policy: Vec<Record> = records.iter().take_while(same).copied().collect();
        let title = format!("policy {}", first[1]);
        if let Some(text) = print_policy(reader, &title, &policy) {
            return (policy.len(), text);
        }
    }
    match plain(reader.widths, first) {
        Some(text) if gives(reader, &text, first) => (1, format!("{text}\n")),
        _ => {
            reader.note_record(first, 0);
            (1, print_bytes(first))
        }
    }
}

/// Whether the text is read as these bytes; if so, the reader goes on from there.
fn gives(reader: &mut Reader, text: &str, bytes: &[u8]) -> bool {
    let mut next = reader.clone();
    let mut found = statements(text);
    let [statement] = &mut found[..] else { return false };
    let same = next.statement(statement).is_ok_and(|read| read == bytes);
    if same {
        *reader = next;
    }
    same
}

fn print_bytes(bytes: &[u8]) -> String {
    let digits: Vec<String> = bytes.iter().map(|byte| format!("{byte:02X}")).collect();
    format!("bytes {}\n", digits.join(" "))
}

/// A record other than a policy node in words, read as if it were well formed.
fn plain(widths: Option<Widths>, record: &Record) -> Option<String> {
    match (record[0], widths) {
        (kind::WIDTHS, _) => Some(print_widths(record)),
        (_, Some(of)) => Printer { of, names: None, within: false }.statement(record),
        (_, None) => None,
    }
}

fn print_widths(record: &Record) -> String {
    let [_, h, p, w, version, ..] = *record;
    let widths = format!("widths H {h} P {p} W {w}");
    match version {
        0 => widths,
        _ => format!("{widths} version {version}"),
    }
}

/// Prints records of these widths.
#[derive(Clone, Copy)]
struct Printer<'a> {
    of: Widths,
    /// The names of a text; without them all goes by its number.
    names: Option<&'a Names>,
    /// Whether the switch is left out.
    within: bool,
}

impl Printer<'_> {
    fn statement(self, record: &Record) -> Option<String> {
        let [kind, switch, two, three, four, ..] = *record;
        match kind {
            kind::WIDTHS => Some(print_widths(record)),
            kind::LINK => {
                let [one, other] = [self.point([switch, two]), self.point([three, four])];
                Some(format!("link {one} - {other}"))
            }
            kind::MISS => Some(format!("{}: {}", self.of_switch(record), self.actions(record)?)),
            kind::RULE | kind::ADD | kind::MODIFY => {
                Some(format!("{}: {}", self.match_of(record), self.actions(record)?))
            }
            kind::DELETE => Some(self.match_of(record)),
            kind::GROUP => {
                let group = self.group(switch, two);
                let group = match self.within {
                    true => group,
                    false => format!("{}/{group}", self.switch(switch)),
                };
                Some(format!("group {group}: {}", self.buckets(record)))
            }
            _ => None,
        }
    }

    /// The word that starts a statement, and its switch.
    fn of_switch(self, record: &Record) -> String {
        let word = kind::words(record[0]);
        match self.within {
            true => word,
            false => format!("{word} {}", self.switch(record[1])),
        }
    }

    /// A rule or a command up to its actions.
    fn match_of(self, record: &Record) -> String {
        let priority = u16::from_le_bytes([record[2], record[3]]);
        let port = self.ports(record[1], [record[4], record[5]]);
        let header = self.headers([record[6], record[7]]);
        format!("{} priority {priority} port {port} header {header}", self.of_switch(record))
    }

    fn actions(self, record: &Record) -> Option<String> {
        let switch = record[1];
        let action = |[kind, value, care]: [u8; 3]| match kind {
            action::OUTPUT => Some(format!("output {}", self.ports(switch, [value, care]))),
            action::SET => Some(format!("set {}", self.headers([value, care]))),
            action::IN_PORT => Some("in_port".to_string()),
            action::GROUP => Some(format!("group {}", self.group(switch, value))),
            _ => None,
        };
        let actions: Option<Vec<String>> = actions(record).map(action).collect();
        Some(actions?.join(", "))
    }

    fn buckets(self, record: &Record) -> String {
        let switch = record[1];
        let bucket = |Bucket { header: [value, care], target }: Bucket| {
            let set = match care {
                0 => String::new(),
                _ => format!("set {}, ", self.headers([value, care])),
            };
            match target {
                Target::Port(port) => format!("{set}output {}", self.port(switch, port)),
                Target::Group(group) => format!("{set}group {}", self.group(switch, group)),
            }
        };
        let buckets: Vec<String> = buckets(record).map(bucket).collect();
        buckets.join("; ")
    }

    fn named(self, number: u8, name: impl FnOnce(&Names) -> String) -> String {
        match self.names {
            Some(names) => quoted(&name(names)),
            None => number.to_string(),
        }
    }

    fn switch(self, switch: u8) -> String {
        self.named(switch, |names| names.switch(switch))
    }

    fn port(self, switch: u8, port: u8) -> String {
        self.named(port, |names| names.port(switch, port))
    }

    fn point(self, [switch, port]: Point) -> String {
        format!("{}:{}", self.switch(switch), self.port(switch, port))
    }

    fn group(self, switch: u8, group: u8) -> String {
        self.named(group, |names| names.group(switch, group))
    }

    /// A port pattern of a switch; one without stars is a port.
    fn ports(self, switch: u8, [value, care]: [u8; 2]) -> String {
        match care == self.of.controller() {
            true => self.port(switch, value),
            false => pattern(value, care, self.of.p),
        }
    }

    /// A header pattern, by its name if it has one; one without stars is a header.
    fn headers(self, [value, care]: [u8; 2]) -> String {
        match self.names.and_then(|names| names.header_pattern([value, care])) {
            Some(name) => quoted(name),
            None if care == self.of.last_header() => value.to_string(),
            None => pattern(value, care, self.of.h),
        }
    }
}

/// The nodes of one policy under its title: as a formula if that gives the same nodes, otherwise as a
/// node list with the formula as a comment.
pub fn print_policy(reader: &mut Reader, title: &str, records: &[Record]) -> Option<String> {
    let nodes: Vec<Node> = records.iter().map(node_of).collect();
    let bytes = records.concat();
    let formula = print_formula(&nodes);
    if let Some(formula) = &formula {
        let text = wrapped("", &format!("{title}: {formula}"), " ");
        if gives(reader, &text, &bytes) {
            return Some(text);
        }
    }
    let list = wrapped("", &format!("{title} nodes: {}", print_nodes(&nodes)?), "; ");
    let number = records[0][1];
    let comment =
        formula.map(|formula| wrapped("# ", &format!("policy {number} is {formula}"), " "));
    gives(reader, &list, &bytes).then(|| comment.unwrap_or_default() + &list)
}

/// Text broken after separators into lines, each with the prefix, those after the first indented.
fn wrapped(prefix: &str, text: &str, separator: &str) -> String {
    let mut lines = String::new();
    let mut line = prefix.to_string();
    for (place, piece) in text.split_inclusive(separator).enumerate() {
        if place > 0 && line.len() + piece.trim_end().len() > LINE {
            lines.push_str(line.trim_end());
            lines.push('\n');
            line = format!("{prefix}    ");
        }
        line.push_str(piece);
    }
    lines + &line + "\n"
}
