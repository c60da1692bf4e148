//! A network: its records parted by kind.

use crate::records::Record;
use crate::second::states::Widths;

/// The records of a network that no row refuses.
pub struct Network<'a> {
    pub widths: Widths,
    /// Whether its switches run OpenFlow 1.0.
    pub is_old: bool,
    pub links: &'a [Record],
    pub misses: &'a [Record],
    pub rules: &'a [Record],
    pub nodes: &'a [Record],
    pub groups: &'a [Record],
}

impl Network<'_> {
    /// The network of records whose kinds ascend.
    pub fn of(records: &[Record]) -> Network<'_> {
        let [_, header, port, switch, version, ..] = records[0];
        let first = |kind: u8| records.partition_point(|record| record[0] < kind);
        let of_kind = |kind: u8| &records[first(kind)..first(kind + 1)];
        Network {
            widths: Widths { header, port, switch },
            is_old: version == 1,
            links: of_kind(2),
            misses: of_kind(3),
            rules: of_kind(4),
            nodes: of_kind(5),
            groups: of_kind(9),
        }
    }

    /// The nodes of each policy.
    pub fn policies(&self) -> impl Iterator<Item = &[Record]> {
        self.nodes.chunk_by(|one, next| one[1] == next[1])
    }

    /// How many nodes the longest policy has.
    pub fn most_nodes(&self) -> usize {
        self.policies().map(|nodes| nodes.len()).max().unwrap_or(0)
    }

    /// The bytes of work that a verdict needs.
    pub fn work_needed(&self) -> usize {
        (self.most_nodes() + 2) * self.widths.plane_bytes()
    }
}

/// The actions of a rule or miss: kind, value, care.
pub fn actions(record: &Record) -> impl Iterator<Item = [u8; 3]> + '_ {
    let (actions, _) = record[9..21].as_chunks::<3>();
    actions[..usize::from(record[8])].iter().copied()
}

/// The buckets of a group: header value and care, target kind and number.
pub fn buckets(record: &Record) -> impl Iterator<Item = [u8; 4]> + '_ {
    let (buckets, _) = record[9..21].as_chunks::<4>();
    buckets[..usize::from(record[8])].iter().copied()
}

/// What makes two rules the same rule, bytes 1 to 7, as one number.
pub fn match_of(rule: &Record) -> u64 {
    let [_, a, b, c, d, e, f, g, ..] = *rule;
    u64::from_le_bytes([0, a, b, c, d, e, f, g])
}

/// The bits with those under the care mask replaced.
pub fn put_into(bits: u8, value: u8, care: u8) -> u8 {
    bits & !care | value
}
