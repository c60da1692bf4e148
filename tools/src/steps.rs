//! The network behind an answer: which records act on a packet state, and where it goes from there.
//!
//! The gate's verdicts do not depend on this; it finds what the words beside a verdict tell. The
//! records are those of a network that no row refuses.

use crate::groups::{buckets, place_of, Target};
use crate::kind::{self, action};
use crate::names::Point;
use crate::trouble::Trouble;
use crate::widths::Widths;
use crate::{actions, Record};

/// Port 0 is drop.
pub const DROP: u8 = 0;

/// A packet state.
#[derive(Clone, Copy, Debug, PartialEq, Eq)]
pub struct State {
    pub departing: bool,
    pub point: Point,
    pub header: u8,
}

impl State {
    pub fn numbered(number: usize, of: Widths) -> State {
        let field = |from: u8, width: u8| (number >> from & ((1 << width) - 1)) as u8;
        State {
            departing: field(of.bits() - 1, 1) == 1,
            point: [field(of.h + of.p, of.w), field(of.h, of.p)],
            header: field(0, of.h),
        }
    }

    pub fn number(self, of: Widths) -> usize {
        let [switch, port] = self.point.map(usize::from);
        usize::from(self.departing) << (of.bits() - 1)
            | switch << (of.h + of.p)
            | port << of.h
            | usize::from(self.header)
    }
}

/// A record that takes a frame on: a link, a rule or a miss, or a group that a frame goes through.
#[derive(Clone, Copy, Debug, PartialEq, Eq)]
pub struct Carrier {
    pub place: usize,
    /// The number, from 1, of the action or the bucket that does, where the record has several.
    pub part: Option<usize>,
}

/// How a frame is taken on: by a link, or by a rule or a miss and then the groups that it goes
/// through.
pub type Way = Vec<Carrier>;

/// What takes a frame from one state to the next.
#[derive(Clone, Debug, PartialEq, Eq)]
pub struct Taken {
    /// The ways, one for each record that sends the frame there, in the order of the file. There are
    /// several where rules of equal priority do.
    pub by: Vec<Way>,
    /// The places of the rules that act on the frame too, of the same priority, and do not send it
    /// there.
    pub beside: Vec<usize>,
}

/// A step of a walk, and what takes the frame on.
#[derive(Clone, Debug, PartialEq, Eq)]
pub struct Step {
    pub from: usize,
    pub to: usize,
    pub taken: Taken,
}

/// A copy that a switch sends of a frame, and what sends it.
struct Sent {
    by: Way,
    copy: State,
}

impl Sent {
    /// The copy, with one more record before those that send it.
    fn behind(mut self, carrier: Carrier) -> Sent {
        self.by.insert(0, carrier);
        self
    }
}

/// A frame within a switch.
#[derive(Clone, Copy)]
struct Frame {
    switch: u8,
    arrival: u8,
    header: u8,
}

impl Frame {
    /// The frame with the header that a pattern makes of its own.
    fn set(self, [value, care]: [u8; 2]) -> Frame {
        Frame { header: self.header & !care | value, ..self }
    }

    /// A copy of it that departs at a port.
    fn sent_to(self, port: u8) -> Sent {
        let point = [self.switch, port];
        Sent { by: vec![], copy: State { departing: true, point, header: self.header } }
    }
}

/// A network that no row refuses.
#[derive(Clone, Copy, Debug)]
pub struct Network<'a> {
    pub widths: Widths,
    pub records: &'a [Record],
}

impl<'a> Network<'a> {
    pub fn new(records: &'a [Record]) -> Option<Network<'a>> {
        let widths = Widths::of(records.first()?)?;
        Some(Network { widths, records })
    }

    /// How many states there are.
    pub fn states(&self) -> usize {
        self.widths.states().into()
    }

    /// The other end of the link at a point.
    pub fn other_end(&self, point: Point) -> Option<Point> {
        let links = self.records.iter().filter(|record| record[0] == kind::LINK);
        let mut ends = links.flat_map(|link| {
            let [one, other] = [[link[1], link[2]], [link[3], link[4]]];
            [(one, other), (other, one)]
        });
        ends.find(|(end, _)| *end == point).map(|(_, other)| other)
    }

    /// Whether a point is external: ordinary, and no link ends there.
    pub fn is_external(&self, point: Point) -> bool {
        self.is_ordinary(point[1]) && self.other_end(point).is_none()
    }

    fn is_ordinary(&self, port: u8) -> bool {
        port != DROP && port != self.widths.controller()
    }

    /// The places of the records that act on an arriving state: all matching rules of the highest
    /// priority, in the order of the file, or else the switch's miss.
    pub fn acting(&self, state: State) -> Vec<usize> {
        let [switch, port] = state.point;
        if state.departing || port == DROP {
            return vec![];
        }
        let is_match = |place: &usize| is_matching_rule(&self.records[*place], state);
        let matching: Vec<usize> = (0..self.records.len()).filter(is_match).collect();
        let priority = |place: &usize| priority_of(&self.records[*place]);
        let Some(highest) = matching.iter().map(priority).max() else {
            let is_miss = |record: &Record| record[..2] == [kind::MISS, switch];
            return self.records.iter().position(is_miss).into_iter().collect();
        };
        matching.into_iter().filter(|place| priority(place) == highest).collect()
    }

    /// The states that a state steps to. Each record that acts starts from the header of the arrival.
    pub fn next(&self, state: State) -> Vec<State> {
        if state.departing {
            let arrive = |point| State { departing: false, point, ..state };
            return self.other_end(state.point).map(arrive).into_iter().collect();
        }
        let sent = self.acting(state).into_iter().flat_map(|place| self.sent(place, state));
        sent.map(|sent| sent.copy).collect()
    }

    /// What the actions of the record at a place send of an arriving state.
    fn sent(&self, place: usize, state: State) -> Vec<Sent> {
        let [switch, arrival] = state.point;
        let mut frame = Frame { switch, arrival, header: state.header };
        let mut all = vec![];
        for (number, [kind, value, care]) in (1..).zip(actions(&self.records[place])) {
            let sent = match kind {
                action::OUTPUT => {
                    let ports = self.output_ports([value, care], arrival);
                    ports.into_iter().map(|port| frame.sent_to(port)).collect()
                }
                action::SET => {
                    frame = frame.set([value, care]);
                    vec![]
                }
                action::IN_PORT => vec![frame.sent_to(arrival)],
                _ => self.sent_by_group(value, frame, &mut vec![]),
            };
            let carrier = self.carrier(place, number);
            all.extend(sent.into_iter().map(|sent| sent.behind(carrier)));
        }
        all
    }

    /// What a group sends of a frame. Groups that have run with a header are kept, as they would send
    /// the same again: with 16 groups of three buckets, each of which goes on to the next group, the
    /// lowest would run 3^15 times.
    fn sent_by_group(&self, group: u8, frame: Frame, run: &mut Vec<(u8, u8)>) -> Vec<Sent> {
        let place = place_of(self.records, frame.switch, group);
        let is_new = !run.contains(&(group, frame.header));
        let Some(place) = place.filter(|_| is_new) else { return vec![] };
        run.push((group, frame.header));
        let mut all = vec![];
        for (number, bucket) in (1..).zip(buckets(&self.records[place])) {
            let frame = frame.set(bucket.header);
            let sent = match bucket.target {
                Target::Port(port) if port == frame.arrival => vec![],
                Target::Port(port) => vec![frame.sent_to(port)],
                Target::Group(lower) => self.sent_by_group(lower, frame, run),
            };
            let carrier = self.carrier(place, number);
            all.extend(sent.into_iter().map(|sent| sent.behind(carrier)));
        }
        all
    }

    /// A record with the action or the bucket of a number, which is told if there are several.
    fn carrier(&self, place: usize, number: usize) -> Carrier {
        Carrier { place, part: Some(number).filter(|_| self.records[place][8] > 1) }
    }

    /// The ports that an output reaches: never the port of arrival, and by stars ordinary ones only.
    fn output_ports(&self, [value, care]: [u8; 2], arrival: u8) -> Vec<u8> {
        let last = self.widths.controller();
        let ports = (0..=last).filter(|port| port & care == value && *port != arrival);
        ports.filter(|port| care == last || self.is_ordinary(*port)).collect()
    }

    /// What takes one state to the next.
    pub fn taken(&self, from: State, to: State) -> Option<Taken> {
        let mut taken = Taken { by: vec![], beside: vec![] };
        if from.departing {
            let place = self.records.iter().position(|record| ends_at(record, from.point))?;
            taken.by.push(vec![Carrier { place, part: None }]);
            return Some(taken).filter(|_| self.next(from) == [to]);
        }
        for place in self.acting(from) {
            match self.sent(place, from).into_iter().find(|sent| sent.copy == to) {
                Some(sent) => taken.by.push(sent.by),
                None => taken.beside.push(place),
            }
        }
        Some(taken).filter(|taken| !taken.by.is_empty())
    }

    /// The steps of a walk in this network.
    pub fn walked(&self, walk: &[usize]) -> Result<Vec<Step>, Trouble> {
        walk.windows(2).map(|pair| self.step(pair[0], pair[1])).collect()
    }

    fn step(&self, from: usize, to: usize) -> Result<Step, Trouble> {
        let [one, other] = [from, to].map(|number| State::numbered(number, self.widths));
        match self.taken(one, other) {
            Some(taken) => Ok(Step { from, to, taken }),
            None => {
                let message = format!("no record takes a frame from state {from} to state {to}");
                Err(Trouble::internal(message))
            }
        }
    }

    /// Whether one state steps to another.
    pub fn steps(&self, from: usize, to: usize) -> bool {
        let next = self.next(State::numbered(from, self.widths));
        next.iter().any(|state| state.number(self.widths) == to)
    }
}

/// Whether a record is a link that ends at a point.
fn ends_at(record: &Record, point: Point) -> bool {
    record[0] == kind::LINK && (record[1..3] == point || record[3..5] == point)
}

/// Whether a record is a rule that matches an arriving state.
fn is_matching_rule(record: &Record, state: State) -> bool {
    let [switch, port] = state.point;
    record[..2] == [kind::RULE, switch]
        && port & record[5] == record[4]
        && state.header & record[7] == record[6]
}

/// The priority of a rule.
pub fn priority_of(record: &Record) -> u16 {
    u16::from_le_bytes([record[2], record[3]])
}
