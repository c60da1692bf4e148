//! Notes on sentences, or areas in them, that say nothing: no rules could break them.

use super::Sentence;
use crate::names::Area;
use crate::reach::{idle, Idle, Reach};

impl Sentence<'_, '_, '_> {
    pub(super) fn reach(&self) -> Reach<'_> {
        Reach { of: self.of, links: &self.reader.links }
    }

    fn note(&mut self, what: &str) {
        if let Some((policy, line)) = self.reader.numbers.last() {
            self.reader.note(format!("line {line}: policy {policy} {what}"));
        }
    }

    fn note_whole(&mut self, why: &str) {
        self.note(&format!("can never be broken, whatever the rules are: {why}"));
    }

    fn note_area(&mut self, area: &Area, why: &str) {
        let name = self.area_name(area);
        self.note(&format!("says nothing of {name}, whatever the rules are: {why}"));
    }

    /// The areas that are named, or else the switches at which a frame enters.
    fn or_entries(&self, named: &[Area]) -> Vec<Area> {
        match named {
            [] => self.reach().entries(),
            _ => named.to_vec(),
        }
    }

    /// Says that no frame enters; whether that is so.
    pub(super) fn note_closed(&mut self) -> bool {
        let is_closed = self.reach().entries().is_empty();
        if is_closed {
            self.note_whole("every ordinary port has a link, so that no frame enters");
        }
        is_closed
    }

    /// `no loops` is about every state, also of frames that never entered.
    pub(super) fn note_no_loops(&mut self) {
        if self.reader.links.is_empty() {
            self.note_whole("there are no links, so that nothing goes round");
        }
    }

    /// A sentence about frames that enter and go over links.
    pub(super) fn note_no_links(&mut self) {
        if !self.note_closed() && self.reach().has_no_links_inside() {
            self.note_whole("no switch at which a frame enters has a link");
        }
    }

    /// What enters shall reach areas. Frames of which no copy is sent never do, so that some rules break
    /// this; where each copy is there at once, no others do.
    pub(super) fn note_there(&mut self, from: &[Area], there: &[Area]) {
        if self.note_closed() {
            return;
        }
        let is_there = |area: &&Area| self.reach().is_there(area, there);
        let entries = self.or_entries(from);
        let at_once: Vec<Area> = entries.iter().filter(is_there).copied().collect();
        let why = "than that a copy of it is sent: every copy is there at once";
        if at_once.len() == entries.len() {
            return self.note(&format!("says no more of what enters {why}"));
        }
        for area in at_once.iter().filter(|area| from.contains(area)) {
            let name = self.area_name(area);
            self.note(&format!("says no more of what enters at {name} {why}"));
        }
    }

    /// Frames that enter shall not get to areas without passing switches.
    pub(super) fn note_ways(&mut self, from: &[Area], there: &[Area], passed: &[Area]) {
        if self.note_closed() {
            return;
        }
        let [entries, exits] = [from, there].map(|named| self.or_entries(named));
        let reach = self.reach();
        let found = idle(&entries, &exits, |one, other| reach.leads(one, other, passed));
        let without = idle(&entries, &exits, |one, other| reach.leads(one, other, &[]));
        let names: Vec<String> = passed.iter().map(|area| self.area_name(area)).collect();
        let why = match found == without {
            true => "no links lead there".to_string(),
            false => format!("every such way passes {} in any case", names.join(" or ")),
        };
        self.note_idle(found, &[from, there].concat(), &why);
    }

    /// Frames that enter shall leave at areas alone.
    pub(super) fn note_elsewhere(&mut self, from: &[Area], areas: &[Area]) {
        if self.note_closed() {
            return;
        }
        let entries = self.or_entries(from);
        let reach = self.reach();
        let found = idle(&entries, &entries, |one, other| {
            one == other && reach.leaves_elsewhere(one, areas)
        });
        self.note_idle(found, from, "links lead to no other place to leave");
    }

    /// Frames that enter in areas shall not get to others, and the other way round.
    pub(super) fn note_apart(&mut self, one: &[Area], other: &[Area]) {
        let reach = self.reach();
        let found = idle(one, other, |one, other| reach.meet(one, other));
        let why = "no frame enters at the one and finds links to the other";
        self.note_idle(found, &[one, other].concat(), why);
    }

    /// Says what is idle, of areas if they are named.
    fn note_idle(&mut self, found: Option<Idle>, named: &[Area], why: &str) {
        match found {
            None => {}
            Some(Idle::Whole) => self.note_whole(why),
            Some(Idle::Areas(areas)) => {
                for area in areas.iter().filter(|area| named.contains(area)) {
                    self.note_area(area, why);
                }
            }
        }
    }
}
