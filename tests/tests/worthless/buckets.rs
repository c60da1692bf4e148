//! Gates whose steps through groups are wrong in one way each. Groups and buckets are run here one by
//! one, and not by tables as in the second implementation.

use std::collections::BTreeSet;
use wegbaro_tests::gate::{Answer, Call, Gate, Lent};
use wegbaro_tests::second::answer_by;
use wegbaro_tests::second::network::{Action, Bucket, Group, Network, Pattern, Target};
use wegbaro_tests::second::states::{Direction, Point, State, StateSet, DROP};
use wegbaro_tests::second::steps::{acting, all_steps, ports_reached};

#[derive(Clone, Copy, Debug, PartialEq, Eq)]
pub enum BucketVice {
    SetsTheNextBucket,
    KeepsTheHeader,
    SendsToTheArrivalPort,
    SendsNothingToTheController,
    SendsNothingToDrop,
    RunsTheFirstBucket,
    RunsTheLastBucket,
    FollowsNoGroup,
    GoesOnWithTheOldHeader,
    EntersWithTheFirstHeader,
    TakesTheFirstSwitch,
    StopsBehindAGroup,
    SetsStarsToZero,
    RunsAGroupForOneStateOnly,
}

pub const BUCKET_VICES: [BucketVice; 14] = [
    BucketVice::SetsTheNextBucket,
    BucketVice::KeepsTheHeader,
    BucketVice::SendsToTheArrivalPort,
    BucketVice::SendsNothingToTheController,
    BucketVice::SendsNothingToDrop,
    BucketVice::RunsTheFirstBucket,
    BucketVice::RunsTheLastBucket,
    BucketVice::FollowsNoGroup,
    BucketVice::GoesOnWithTheOldHeader,
    BucketVice::EntersWithTheFirstHeader,
    BucketVice::TakesTheFirstSwitch,
    BucketVice::StopsBehindAGroup,
    BucketVice::SetsStarsToZero,
    BucketVice::RunsAGroupForOneStateOnly,
];

/// A gate with a vice, if any, in the steps through groups by which it answers, else as the second
/// implementation.
pub struct Spilling(pub Option<BucketVice>);

impl Gate for Spilling {
    fn answer(&self, call: &Call, lent: &mut Lent) -> Answer {
        answer_by(&|network| self.steps(network), call, lent)
    }
}

impl Spilling {
    /// The steps, those of arriving states by actions and buckets run one by one.
    fn steps(&self, network: &Network) -> Vec<StateSet> {
        let mut steps = all_steps(network);
        let mut marks = BTreeSet::new();
        for (number, set) in steps.iter_mut().enumerate() {
            let State { direction, point, header } = State::numbered(number, network.widths);
            if direction == Direction::Arriving && point.port != DROP {
                let (vice, marks, sent) = (self.0, &mut marks, StateSet::empty());
                *set = Frame { vice, network, point, marks, sent }.act(header);
            }
        }
        steps
    }
}

/// A frame at its point of arrival, and the copies that have been sent.
struct Frame<'a> {
    vice: Option<BucketVice>,
    network: &'a Network,
    point: Point,
    /// The groups that were run for this state or one before, each with the header that entered it.
    marks: &'a mut BTreeSet<[u8; 3]>,
    sent: StateSet,
}

impl Frame<'_> {
    /// The copies sent by all that acts on the frame with a header.
    fn act(mut self, header: u8) -> StateSet {
        for actions in acting(self.network, self.point, header) {
            self.act_by(actions, header);
        }
        self.sent
    }

    fn act_by(&mut self, actions: &[Action], header: u8) {
        let first = header;
        let mut header = header;
        for action in actions {
            match action {
                Action::Set(pattern) => header = pattern.put_into(header),
                Action::Output(ports) => {
                    for port in ports_reached(self.network, *ports, self.point.port) {
                        self.depart(port, header);
                    }
                }
                Action::InPort => self.depart(self.point.port, header),
                Action::Group(number) => {
                    let entered =
                        if self.has(BucketVice::EntersWithTheFirstHeader) { first } else { header };
                    let left = self.run(*number, entered);
                    if self.has(BucketVice::StopsBehindAGroup) {
                        break;
                    }
                    if self.has(BucketVice::KeepsTheHeader) {
                        header = left;
                    }
                }
            }
        }
    }

    fn has(&self, vice: BucketVice) -> bool {
        self.vice == Some(vice)
    }

    fn depart(&mut self, port: u8, header: u8) {
        let point = Point { port, ..self.point };
        let copy = State { direction: Direction::Departing, point, header };
        self.sent.insert(copy.number(self.network.widths));
    }

    /// Runs a group, and tells the header of its last copy.
    fn run(&mut self, number: u8, header: u8) -> u8 {
        let is_new = self.marks.insert([self.point.switch, number, header]);
        if !is_new && self.has(BucketVice::RunsAGroupForOneStateOnly) {
            return header;
        }
        let mut entered = header;
        let mut set = header;
        for bucket in self.buckets_run(number) {
            set = self.read(bucket.header).put_into(entered);
            self.pour(bucket.target, entered, set);
            if self.has(BucketVice::SetsTheNextBucket) {
                entered = set;
            }
        }
        set
    }

    /// Sends a bucket's copy to its port or on to its group.
    fn pour(&mut self, target: Target, entered: u8, set: u8) {
        match target {
            Target::Port(port) if self.is_sent(port) => self.depart(port, set),
            Target::Port(_) => {}
            Target::Group(_) if self.has(BucketVice::FollowsNoGroup) => {}
            Target::Group(lower) if self.has(BucketVice::GoesOnWithTheOldHeader) => {
                self.run(lower, entered);
            }
            Target::Group(lower) => {
                self.run(lower, set);
            }
        }
    }

    fn is_sent(&self, port: u8) -> bool {
        let controller = self.network.widths.controller();
        match self.vice {
            Some(BucketVice::SendsToTheArrivalPort) => true,
            Some(BucketVice::SendsNothingToDrop) if port == DROP => false,
            Some(BucketVice::SendsNothingToTheController) if port == controller => false,
            _ => port != self.point.port,
        }
    }

    fn buckets_run(&self, number: u8) -> Vec<Bucket> {
        let buckets = &self.group(number).buckets;
        match self.vice {
            Some(BucketVice::RunsTheFirstBucket) => buckets[..1].to_vec(),
            Some(BucketVice::RunsTheLastBucket) => buckets[buckets.len() - 1..].to_vec(),
            _ => buckets.clone(),
        }
    }

    fn group(&self, number: u8) -> &Group {
        let any_switch = self.has(BucketVice::TakesTheFirstSwitch);
        let is_meant = |group: &&Group| {
            group.number == number && (any_switch || group.switch == self.point.switch)
        };
        self.network.groups.iter().find(is_meant).unwrap()
    }

    /// A bucket's pattern as it is read.
    fn read(&self, pattern: Pattern) -> Pattern {
        match self.vice {
            Some(BucketVice::SetsStarsToZero) => {
                Pattern { care: (1 << self.network.widths.header) - 1, ..pattern }
            }
            _ => pattern,
        }
    }
}
