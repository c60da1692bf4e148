//! What groups send, as tables worked out from the lowest group up: for each header with which a
//! frame enters a group, the departing states of all copies, before the port of arrival is left out.

use super::network::{Group, Network, Target};
use super::states::{Direction, Point, State, StateSet, Widths};
use std::collections::HashMap;

/// For the switch and the number of a group, what it sends of a frame with each header.
pub struct Tables(HashMap<(u8, u8), Vec<StateSet>>);

impl Tables {
    pub fn of(network: &Network) -> Tables {
        let mut tables = Tables(HashMap::new());
        // The groups ascend, so that those to which a bucket goes on are there before it.
        for group in &network.groups {
            let headers = 0..1 << network.widths.header;
            let table = headers.map(|header| tables.by_buckets(network.widths, group, header));
            let table = table.collect();
            tables.0.insert((group.switch, group.number), table);
        }
        tables
    }

    /// The departing states of the copies of a frame that enters a group with this header.
    pub fn sent(&self, switch: u8, number: u8, header: u8) -> &StateSet {
        &self.0[&(switch, number)][usize::from(header)]
    }

    fn by_buckets(&self, widths: Widths, group: &Group, header: u8) -> StateSet {
        let mut sent = StateSet::empty();
        for bucket in &group.buckets {
            let header = bucket.header.put_into(header);
            match bucket.target {
                Target::Port(port) => {
                    let point = Point { switch: group.switch, port };
                    let copy = State { direction: Direction::Departing, point, header };
                    sent.insert(copy.number(widths));
                }
                Target::Group(number) => sent.extend(self.sent(group.switch, number, header)),
            }
        }
        sent
    }
}
