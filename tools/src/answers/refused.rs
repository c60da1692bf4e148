//! A refusal: the row, which of its causes it is, and where the record stands.

use super::Standing;
use crate::causes::{network_cause, Cause, Telling};
use crate::fault::{shown_line, whole};
use crate::json::Object;
use crate::kind;
use crate::source::TextFile;
use crate::trouble::Status;
use wegbaro::Refusal;

/// The row and its cause; without one, what the row refuses.
pub fn refused_words(refusal: Refusal, cause: Option<&Cause>) -> String {
    format!("refused: row {}, {}", refusal.row, cause_words(refusal, cause))
}

/// The same as fields of an object.
pub fn refused_object(object: Object, refusal: Refusal, cause: Option<&Cause>) -> Object {
    object
        .text("answer", "refused")
        .number("row", refusal.row)
        .number("place", refusal.place)
        .text("cause", cause_words(refusal, cause))
}

/// The status of a refused network. It was not judged, and what its file says is to be mended; but
/// for row 11, where the file is sound and the work of the program `gate` too short.
pub fn refused_status(refusal: Refusal) -> Status {
    match refusal.row {
        11 => Status::Bad,
        _ => Status::Faulty,
    }
}

fn cause_words(refusal: Refusal, cause: Option<&Cause>) -> &str {
    cause.map_or(refusal.meaning(), |cause| &cause.words)
}

impl Standing<'_> {
    /// A refused network: the row, its cause, and where the record stands.
    pub fn refused_network_words(self, refusal: Refusal) -> String {
        let cause = self.network_cause(refusal);
        let place = self.place_words(refusal, cause.as_ref());
        refused_words(refusal, cause.as_ref()) + &place
    }

    /// The same as fields of an object.
    pub fn refused_network_object(self, object: Object, refusal: Refusal) -> Object {
        let cause = self.network_cause(refusal);
        let object = refused_object(object, refusal, cause.as_ref());
        self.place_object(object, refusal, cause.as_ref())
    }

    /// Why a row refuses the network.
    pub fn network_cause(self, refusal: Refusal) -> Option<Cause> {
        let at = |place: usize| self.book.origin(place).to_string();
        let telling = Telling { at: &at, names: &self.source.names };
        network_cause(&self.book.records, refusal, telling)
    }

    /// Where a refused record stands, and below that its statement in the text.
    pub fn place_words(self, refusal: Refusal, cause: Option<&Cause>) -> String {
        self.record_place(refusal) + &self.statements(refusal, cause)
    }

    /// The statement of a refused record, or of the last one, and of the other record that is part
    /// of the cause, each with its file and line, as a fault shows them.
    fn statements(self, refusal: Refusal, cause: Option<&Cause>) -> String {
        let Some(TextFile { file, text }) = &self.source.text else { return String::new() };
        let file = whole(file);
        let line = |place: usize| self.book.origin(place).line();
        let shown = |title: &str, line: usize| {
            format!("\n  {title}{file}:{line}:\n    {}", shown_line(text, line))
        };
        let last = self.book.records.len().checked_sub(1);
        let place = last.filter(|_| refusal.has_record()).map(|last| last.min(refusal.place));
        let own = match place.and_then(line) {
            Some(line) => shown("", line),
            None => format!("\n  {file}"),
        };
        let other = cause.and_then(|cause| cause.other).and_then(line);
        own + &other.map(|line| shown("earlier: ", line)).unwrap_or_default()
    }

    fn record_place(self, refusal: Refusal) -> String {
        let place = refusal.place;
        if !refusal.has_record() {
            return String::new();
        }
        let Some(record) = self.book.records.get(place) else {
            return format!(", at the end of the network, after {place} records");
        };
        let earlier = |same: usize| {
            let before = self.book.records[..place].iter().rev();
            before.take_while(|other| other[..same] == record[..same]).count()
        };
        let names = &self.source.names;
        let name = match record[0] {
            kind @ (kind::LINK | kind::RULE) => format!("{} {}", kind::words(kind), earlier(1)),
            kind::MISS => format!("miss of switch {}", names.switch_words(record[1])),
            kind::POLICY => format!("policy {}, node {}", record[1], earlier(2)),
            kind::GROUP => {
                let [group, switch] =
                    [names.group_words(record[1], record[2]), names.switch_words(record[1])];
                format!("group {group} of switch {switch}")
            }
            kind => kind::words(kind),
        };
        match self.book.origin(place).line() {
            Some(line) => format!(", at record {place} ({name}), line {line}"),
            None => format!(", at record {place} ({name})"),
        }
    }

    /// The same as fields of an object, with the other record that is part of the cause.
    pub fn place_object(self, object: Object, refusal: Refusal, cause: Option<&Cause>) -> Object {
        let line = |place: usize| self.book.origin(place).line();
        let place = refusal.has_record().then_some(refusal.place);
        let other = cause.and_then(|cause| cause.other);
        let file = self.source.text.as_ref().map(|text| &text.file);
        object
            .maybe(file, |object, file| object.text("file", file))
            .maybe(place.and_then(line), |object, line| object.number("line", line))
            .maybe(other, |object, other| object.number("other", other))
            .maybe(other.and_then(line), |object, line| object.number("other_line", line))
    }
}
