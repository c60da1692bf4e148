//! Texts with their policies in the raw forms.

use crate::kind;
use crate::names::Names;
use crate::parse::{Parsed, Reader};
use crate::print::{print_policy, whole_records};
use crate::tokens::statements;
use crate::{record, Record};

/// The text with every policy of fields or a sentence as a comment, and below it the formula of raw
/// forms that it becomes. It gives the same records.
pub fn expand(text: &str, parsed: &Parsed) -> String {
    let (records, _) = whole_records(&parsed.bytes);
    let Some(widths) = parsed.names.widths else { return text.to_string() };
    let raw = |number: u8, name: Option<&str>| {
        let is_its = |record: &&Record| record[..2] == [kind::POLICY, number];
        let nodes: Vec<Record> = records.iter().filter(is_its).copied().collect();
        let name = name.map_or_else(String::new, |name| format!(" \"{name}\""));
        let mut reader = Reader::with(widths, Names::default());
        if let Some(before) = number.checked_sub(1) {
            reader.note_record(&record(&[kind::POLICY, before]), 0);
        }
        print_policy(&mut reader, &format!("policy {number}{name}"), &nodes)
    };
    let mut lines: Vec<String> = text.lines().map(String::from).collect();
    let mut last = 0;
    let mut own = vec![];
    for statement in statements(text).iter().filter(|it| it.peek().text == "policy") {
        let first = statement.line() - 1;
        last = statement.last_line() - 1;
        let Ok(number) = statement.ahead(1).text.parse::<u8>() else { continue };
        own.push(number);
        let name = parsed.names.policy(number);
        let is_list = statement.ahead(2 + usize::from(name.is_some())).text == "nodes";
        let Some(below) = raw(number, name).filter(|_| !is_list) else { continue };
        if !is_as_written(&lines[first..=last], &below) {
            lines[first..=last].iter_mut().for_each(|line| *line = format!("# {line}"));
            lines[last] += &format!("\n{}", below.trim_end());
        }
    }
    for part in parsed.policies.iter().filter(|policy| !own.contains(&policy.number)) {
        let below = raw(part.number, None).unwrap_or_default();
        let more = format!("\n# More of the policy in line {}\n{}", part.line, below.trim_end());
        lines[last] += &more;
    }
    lines.join("\n") + "\n"
}

/// Whether lines of a text say the same as others but for spaces.
fn is_as_written(lines: &[String], below: &str) -> bool {
    let words = |text: &str| text.split_whitespace().collect::<String>();
    words(&lines.concat()) == words(below)
}
