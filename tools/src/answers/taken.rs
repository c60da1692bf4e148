//! What takes a frame on from state to state, in words and as objects.

use super::Standing;
use crate::book::Book;
use crate::json::Object;
use crate::kind;
use crate::steps::{Carrier, Network, Step, Taken, Way};
use crate::trouble::Trouble;

/// The most records that are told in a row.
const MOST_TOLD: usize = 4;

impl Standing<'_> {
    /// A record with where it comes from.
    pub fn origin_words(self, place: usize) -> String {
        let words = self.record_words(&self.book.records[place]);
        format!("{}: {words}", self.book.origins[place])
    }

    /// A record that takes a frame on, with its action or its bucket.
    pub fn carrier_words(self, carrier: &Carrier) -> String {
        let record = &self.book.records[carrier.place];
        self.record_words(record) + &part_words(carrier, record[0])
    }

    /// A line for each state of a walk, and between them what takes the one to the next.
    pub fn walk_words(self, network: Network, walk: &[usize]) -> Result<String, Trouble> {
        let state =
            |number: usize| format!("\n    {}", self.numbered_words(network.widths, number));
        let mut words = String::new();
        for step in network.walked(walk)? {
            words += &state(step.from);
            for line in self.taken_lines(&step.taken) {
                words += &format!("\n    - {line}");
            }
        }
        let end = walk.last().map(|end| state(*end));
        Ok(words + &end.unwrap_or_default())
    }

    /// A line for each record that takes a frame on, and one for rules that act beside them.
    fn taken_lines(self, taken: &Taken) -> Vec<String> {
        let line = |carrier: &Carrier| {
            format!("{}: {}", self.book.origins[carrier.place], self.carrier_words(carrier))
        };
        let mut lines: Vec<String> = vec![];
        for way in &taken.by {
            let equal = if lines.is_empty() { "" } else { "with the same priority, " };
            lines.extend(way.iter().take(1).map(|rule| format!("{equal}{}", line(rule))));
            lines.extend(way.iter().skip(1).map(line));
        }
        lines.extend(beside_words(self.book, taken));
        lines
    }

    /// What takes a frame on, in one line: the first record that does, with the groups behind it, and
    /// which rules of the same priority act as well.
    pub fn taken_words(self, taken: &Taken) -> String {
        let way = taken.by.first().into_iter().flatten();
        let way: Vec<String> = way.map(|it| self.origin_words(it.place)).collect();
        let others = [also_words(self.book, taken), beside_words(self.book, taken)];
        let words = [Some(way.join(", then "))].into_iter().chain(others);
        words.flatten().collect::<Vec<String>>().join("; ")
    }

    /// The numbers of a walk, and its states, each but the last with what takes it on.
    pub fn walk_object(
        self,
        object: Object,
        network: Network,
        walk: &[usize],
    ) -> Result<Object, Trouble> {
        let state = |number: usize| self.state_object(network.widths, number);
        let moved = |step: Step| state(step.from).and(self.taken_object(&step.taken));
        let moved = network.walked(walk)?.into_iter().map(moved);
        let states: Vec<Object> = moved.chain(walk.last().map(|end| state(*end))).collect();
        Ok(object.numbers("route", walk).objects("states", &states))
    }

    /// What takes a frame on: the first record that does, the others, and rules that act beside them.
    fn taken_object(self, taken: &Taken) -> Object {
        let mut ways = taken.by.iter().map(|way| self.way_object(way));
        let first = ways.next().unwrap_or_default();
        let also: Vec<Object> = ways.collect();
        let also = Some(also).filter(|also| !also.is_empty());
        let beside = Some(&taken.beside).filter(|beside| !beside.is_empty());
        first
            .maybe(also, |object, also| object.objects("also", &also))
            .maybe(beside, |object, beside| object.numbers("beside", beside))
    }

    /// A record that takes a frame on, and the groups behind it.
    fn way_object(self, way: &Way) -> Object {
        let mut by = way.iter().map(|carrier| self.carrier_object(carrier));
        let first = by.next().unwrap_or_default();
        let groups: Vec<Object> = by.collect();
        let groups = Some(groups).filter(|groups| !groups.is_empty());
        first.maybe(groups, |object, groups| object.objects("groups", &groups))
    }

    /// A record that takes a frame on, with where it comes from.
    fn carrier_object(self, carrier: &Carrier) -> Object {
        let object = Object::new().text("by", &self.carrier_words(carrier));
        self.origin_object(object, "by", carrier.place)
    }

    /// The place of a record under a name, and the line or the command that it comes from.
    pub fn origin_object(self, object: Object, name: &str, place: usize) -> Object {
        let field = |part: &str| format!("{name}_{part}");
        let origin = self.book.origins[place];
        object
            .number(&field("record"), place)
            .maybe(origin.line(), |object, line| object.number(&field("line"), line))
            .maybe(origin.command(), |object, number| object.number(&field("command"), number))
    }
}

/// The action or the bucket of a record of this kind that takes a frame on, where it has several.
pub fn part_words(carrier: &Carrier, kind: u8) -> String {
    let part = if kind == kind::GROUP { "bucket" } else { "action" };
    carrier.part.map_or_else(String::new, |number| format!(" ({part} {number})"))
}

/// The rules that send a frame to the same state as the one before them, in words.
fn also_words(book: &Book, taken: &Taken) -> Option<String> {
    let also: Vec<usize> = taken.by.iter().skip(1).map(|way| way[0].place).collect();
    too_words(book, &also, ["sends it there", "send it there"])
}

/// The rules that act on a frame beside those that send it there, in words.
fn beside_words(book: &Book, taken: &Taken) -> Option<String> {
    too_words(book, &taken.beside, ["acts", "act"])
}

fn too_words(book: &Book, places: &[usize], [one, several]: [&str; 2]) -> Option<String> {
    let verb = match places.len() {
        0 => return None,
        1 => one,
        _ => several,
    };
    Some(format!("{} {verb} too, with the same priority", places_words(book, places)))
}

/// Where the records at these places come from, the first few of them.
pub fn places_words(book: &Book, places: &[usize]) -> String {
    let told = places.iter().take(MOST_TOLD);
    let mut words: Vec<String> = told.map(|place| book.origins[*place].to_string()).collect();
    if places.len() > MOST_TOLD {
        words.push(format!("{} more", places.len() - MOST_TOLD));
    }
    match words.pop() {
        Some(last) if !words.is_empty() => format!("{} and {last}", words.join(", ")),
        last => last.unwrap_or_default(),
    }
}
