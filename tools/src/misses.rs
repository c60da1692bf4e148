//! Misses: those of one switch each, and `miss all` for every switch that has none of its own.

use crate::fault::Fault;
use crate::kind;
use crate::names::Named;
use crate::parse::{Parsed, Reader};
use crate::print::whole_records;
use crate::tokens::Statement;
use crate::widths::Widths;
use crate::{record, RECORD};

/// The word for every switch.
const ALL: &str = "all";

/// The statement `miss all`.
#[derive(Clone, Debug)]
pub(crate) struct MissAll {
    line: usize,
    /// Switches that cannot have its miss, and why.
    without: Vec<(u8, Fault)>,
}

impl Reader {
    /// The record of a switch's miss, or of every switch's.
    pub(crate) fn miss(&mut self, of: Widths, statement: &mut Statement) -> Result<Vec<u8>, Fault> {
        let is_switch = matches!(self.names.named(ALL), Some(Named::Switch(_)));
        if statement.peek().text == ALL && !is_switch {
            return self.miss_all(of, statement);
        }
        let switch = self.switch(of, statement)?;
        self.miss_of(of, switch, statement)
    }

    fn miss_of(
        &mut self,
        of: Widths,
        switch: u8,
        statement: &mut Statement,
    ) -> Result<Vec<u8>, Fault> {
        let mut bytes = vec![kind::MISS, switch, 0, 0, 0, 0, 0, 0];
        bytes.extend(self.actions(of, switch, statement)?);
        Ok(record(&bytes).to_vec())
    }

    /// The misses of all switches. A name may stand for another port or group at each, and for none
    /// at some: that is a fault only where such a switch has no miss of its own.
    fn miss_all(&mut self, of: Widths, statement: &mut Statement) -> Result<Vec<u8>, Fault> {
        let word = statement.take();
        if let Some(MissAll { line, .. }) = self.miss_all {
            let message = format!("`miss all` is given already, in line {line}");
            return Err(word.fault(message).earlier(line));
        }
        let start = statement.clone();
        let mut misses = vec![];
        let mut without = vec![];
        for switch in 0..=of.last_switch() {
            let mut actions = start.clone();
            match self.miss_of(of, switch, &mut actions) {
                Ok(miss) => {
                    misses.extend(miss);
                    *statement = actions;
                }
                Err(fault) => without.push((switch, fault)),
            }
        }
        match without.first() {
            Some((_, fault)) if misses.is_empty() => Err(fault.clone()),
            _ => {
                self.miss_all = Some(MissAll { line: statement.line(), without });
                Ok(misses)
            }
        }
    }
}

impl Parsed {
    /// Takes the misses of `miss all` out for switches that have one of their own beside it, and puts
    /// all of them into the order of the switches.
    pub(crate) fn settle_misses(&mut self, reader: &Reader) -> Result<(), Fault> {
        let Some(all) = &reader.miss_all else { return Ok(()) };
        let (records, _) = whole_records(&self.bytes);
        let is_of_all = |place: &usize| self.lines[*place] == all.line;
        let Some(first) = (0..records.len()).find(is_of_all) else { return Ok(()) };
        let is_miss = |place: &usize| records[*place][0] == kind::MISS;
        let start = (0..first).rev().take_while(is_miss).last().unwrap_or(first);
        let end = (first..records.len()).take_while(is_miss).last().map_or(first, |it| it + 1);
        let switch = |place: usize| records[place][1];
        let own: Vec<u8> = (start..end).filter(|it| !is_of_all(it)).map(switch).collect();
        if let Some((switch, fault)) = all.without.iter().find(|(it, _)| !own.contains(it)) {
            let name = reader.names.switch(*switch);
            let hint = format!("`miss all` is for switch {name} too: give it a miss of its own");
            return Err(fault.clone().hint(hint));
        }
        let is_kept = |it: &usize| !is_of_all(it) || !own.contains(&switch(*it));
        let mut kept: Vec<usize> = (start..end).filter(is_kept).collect();
        kept.sort_by_key(|place| switch(*place));
        let lines: Vec<usize> = kept.iter().map(|place| self.lines[*place]).collect();
        self.bytes.splice(
            start * RECORD..end * RECORD,
            kept.into_iter().flat_map(|place| records[place]),
        );
        self.lines.splice(start..end, lines);
        Ok(())
    }
}
