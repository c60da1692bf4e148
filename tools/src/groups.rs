//! Groups, whose buckets each send a copy of a frame to a port or on to a lower
//! group.

use crate::fault::Fault;
use crate::kind::{self, target};
use crate::parse::Reader;
use crate::tokens::Statement;
use crate::widths::Widths;
use crate::{record, Record};

/// The highest number of a group.
pub const LAST_GROUP: u8 = 15;

/// The most groups of a network.
pub const MOST_GROUPS: usize = 16;

/// The most buckets of a group.
pub const MOST_BUCKETS: usize = 3;

/// Bytes of a bucket.
pub const BUCKET_BYTES: usize = 4;

/// What ends a bucket.
const ENDS: [&str; 2] = ["output", "group"];

/// Where a bucket sends its copy.
#[derive(Clone, Copy, Debug, PartialEq, Eq)]
pub enum Target {
    Port(u8),
    /// A lower group of the same switch.
    Group(u8),
}

/// A bucket of a group.
#[derive(Clone, Copy, Debug, PartialEq, Eq)]
pub struct Bucket {
    /// Value and care of what is set in the header.
    pub header: [u8; 2],
    pub target: Target,
}

impl Bucket {
    fn of(bytes: &[u8]) -> Bucket {
        let target = match bytes[2] {
            target::PORT => Target::Port(bytes[3]),
            _ => Target::Group(bytes[3]),
        };
        Bucket { header: [bytes[0], bytes[1]], target }
    }

    /// The four bytes of a bucket.
    pub fn bytes(self) -> [u8; BUCKET_BYTES] {
        let [value, care] = self.header;
        let [kind, number] = match self.target {
            Target::Port(port) => [target::PORT, port],
            Target::Group(group) => [target::GROUP, group],
        };
        [value, care, kind, number]
    }
}

/// The buckets of a group whose fields are sound.
pub fn buckets(group: &Record) -> impl Iterator<Item = Bucket> + '_ {
    group[9..21].chunks(BUCKET_BYTES).take(group[8].into()).map(Bucket::of)
}

/// The place of a switch's group.
pub fn place_of(records: &[Record], switch: u8, group: u8) -> Option<usize> {
    records.iter().position(|record| record[..3] == [kind::GROUP, switch, group])
}

impl Reader {
    /// The record of a group.
    pub(crate) fn group_statement(
        &mut self,
        of: Widths,
        statement: &mut Statement,
    ) -> Result<Vec<u8>, Fault> {
        let [switch, group] = self.group_of_switch(of, statement)?;
        statement.expect(":")?;
        let mut bytes = vec![kind::GROUP, switch, group, 0, 0, 0, 0, 0, 0];
        loop {
            if usize::from(bytes[8]) == MOST_BUCKETS {
                let message = format!("there are more than {MOST_BUCKETS} buckets");
                let hint = "a bucket may go on to a lower group, which has buckets of its own";
                return Err(statement.peek().fault(message).hint(hint));
            }
            bytes[8] += 1;
            bytes.extend(self.bucket(of, [switch, group], statement)?.bytes());
            match statement.peek().text {
                ";" => statement.take(),
                "," => {
                    let fault = statement.expected("`;` or the end of the statement");
                    let hint =
                        "a bucket ends with its `output` or `group`; the next stands behind `;`";
                    return Err(fault.hint(hint));
                }
                _ => return Ok(record(&bytes).to_vec()),
            };
        }
    }

    /// A bucket of a group: what it sets in the header, then its port or a lower group.
    fn bucket(
        &mut self,
        of: Widths,
        [switch, group]: [u8; 2],
        statement: &mut Statement,
    ) -> Result<Bucket, Fault> {
        let mut header = [0, 0];
        let mut expected = "a bucket (`set`, `output` or `group`)";
        if statement.accept("set") {
            header = self.header_pattern(of, statement)?;
            statement.expect(",")?;
            expected = "`output` or `group`";
        }
        let target = match statement.peek().text {
            "output" => {
                statement.take();
                Target::Port(self.one_port(of, switch, statement)?)
            }
            "group" => {
                statement.take();
                Target::Group(self.lower_group(switch, group, statement)?)
            }
            word => {
                let fault = statement.expected(expected).with_nearest(word, ENDS);
                return Err(never_back(statement, fault));
            }
        };
        Ok(Bucket { header, target })
    }

    /// The one port behind a bucket's `output`.
    fn one_port(&mut self, of: Widths, switch: u8, statement: &mut Statement) -> Result<u8, Fault> {
        let token = statement.peek();
        let ports = self.port_pattern(of, Some(switch), statement);
        let [port, care] = ports.map_err(|fault| never_back(statement, fault))?;
        match care == of.controller() {
            true => Ok(port),
            false => {
                let fault = token.fault("a bucket sends to one port, and this pattern has a star");
                Err(fault.hint("write a bucket for each port"))
            }
        }
    }

    /// The group behind a bucket's `group`, which is lower than the bucket's own.
    fn lower_group(&self, switch: u8, group: u8, statement: &mut Statement) -> Result<u8, Fault> {
        let token = statement.peek();
        let lower = self.group(switch, statement)?;
        match lower < group {
            true => Ok(lower),
            false => {
                let message = format!("a bucket of group {group} goes on to lower groups alone");
                Err(token.fault(message).hint(format!("this is group {lower}")))
            }
        }
    }
}

/// The fault at a word, with a hint if the word is `in_port`, which no bucket has.
fn never_back(statement: &Statement, fault: Fault) -> Fault {
    match statement.peek().text {
        "in_port" => fault.hint("no bucket sends a frame back; `in_port` is an action of a rule"),
        _ => fault,
    }
}
