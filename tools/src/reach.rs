//! Sentences that no rules can break: how far frames could get with these links if every switch sent
//! them on everywhere, in and out at any port and with any header.

use crate::names::{Area, Point};
use crate::steps::DROP;
use crate::widths::Widths;

/// What the widths and links settle, whatever the rules are.
#[derive(Clone, Copy, Debug)]
pub struct Reach<'r> {
    pub of: Widths,
    /// The ends of links, each beside the other end, with their lines.
    pub links: &'r [(Point, usize)],
}

/// What can never be so.
#[derive(Clone, Debug, PartialEq, Eq)]
pub enum Idle {
    /// What the whole sentence forbids.
    Whole,
    /// What it forbids for these areas, each of them.
    Areas(Vec<Area>),
}

impl<'r> Reach<'r> {
    /// The switches at which a frame may enter, and leave.
    pub fn entries(self) -> Vec<Area> {
        let switches = (0..=self.of.last_switch()).map(Area::Switch);
        switches.filter(|switch| self.is_entry(switch)).collect()
    }

    /// Whether an area has an external point.
    pub fn is_entry(self, area: &Area) -> bool {
        match *area {
            Area::Switch(switch) => {
                (1..self.of.controller()).any(|port| self.is_open([switch, port]))
            }
            Area::Point(point) => self.is_open(point),
        }
    }

    /// Whether a point is external.
    fn is_open(self, point: Point) -> bool {
        point[1] != DROP && point[1] != self.of.controller() && self.other_end(point).is_none()
    }

    fn other_end(self, point: Point) -> Option<Point> {
        self.both_ways().find(|[one, _]| *one == point).map(|[_, other]| other)
    }

    /// Each link from either end.
    fn both_ways(self) -> impl Iterator<Item = [Point; 2]> + 'r {
        let links = self.links.chunks_exact(2).map(|ends| [ends[0].0, ends[1].0]);
        links.flat_map(|[one, other]| [[one, other], [other, one]])
    }

    /// The switches that a frame may come to from one of them without passing some; none if the first
    /// is among those.
    fn switches_from(self, first: u8, passed: &[Area]) -> Vec<u8> {
        let is_free = |switch: &u8| !passed.contains(&Area::Switch(*switch));
        let mut found: Vec<u8> = Some(first).filter(is_free).into_iter().collect();
        let mut done = 0;
        while let Some(switch) = found.get(done).copied() {
            done += 1;
            for [one, other] in self.both_ways() {
                if one[0] == switch && is_free(&other[0]) && !found.contains(&other[0]) {
                    found.push(other[0]);
                }
            }
        }
        found
    }

    /// Whether links lead from one area to another without passing some switches.
    pub fn leads(self, from: &Area, there: &Area, passed: &[Area]) -> bool {
        self.switches_from(switch_of(from), passed).contains(&switch_of(there))
    }

    /// Whether a frame that enters in one of two areas could get to the other.
    pub fn meet(self, one: &Area, other: &Area) -> bool {
        (self.is_entry(one) || self.is_entry(other)) && self.leads(one, other, &[])
    }

    /// Whether no frame can go over a link, once it has entered.
    pub fn has_no_links_inside(self) -> bool {
        !self.both_ways().any(|[one, _]| self.is_entry(&Area::Switch(one[0])))
    }

    /// Whether a frame that enters in an area could leave outside of others.
    pub fn leaves_elsewhere(self, from: &Area, areas: &[Area]) -> bool {
        let is_else = |point: Point| self.is_open(point) && !is_within(point, areas);
        let switches = self.switches_from(switch_of(from), &[]);
        let mut points = switches
            .into_iter()
            .flat_map(|switch| (1..self.of.controller()).map(move |port| [switch, port]));
        points.any(is_else)
    }

    /// Whether each copy that the first switch sends is in the areas as it departs, or as it comes to
    /// the next switch: the frame gets there unless no copy of it is sent.
    pub fn is_there(self, from: &Area, areas: &[Area]) -> bool {
        let gets_there = |point: Point| {
            let onward = self.other_end(point);
            is_within(point, areas) || onward.is_some_and(|point| is_within(point, areas))
        };
        (0..=self.of.controller()).all(|port| gets_there([switch_of(from), port]))
    }
}

/// What is idle of a sentence over pairs of areas that may be so or not.
pub fn idle(one: &[Area], other: &[Area], may: impl Fn(&Area, &Area) -> bool) -> Option<Idle> {
    let is_idle_here = |area: &&Area| !other.iter().any(|it| may(area, it));
    let is_idle_there = |area: &&Area| !one.iter().any(|it| may(it, area));
    let mut areas: Vec<Area> = one.iter().filter(is_idle_here).copied().collect();
    if areas.len() == one.len() {
        return Some(Idle::Whole);
    }
    areas.extend(other.iter().filter(is_idle_there));
    Some(Idle::Areas(areas)).filter(|idle| *idle != Idle::Areas(vec![]))
}

fn switch_of(area: &Area) -> u8 {
    match *area {
        Area::Switch(switch) | Area::Point([switch, _]) => switch,
    }
}

fn is_within(point: Point, areas: &[Area]) -> bool {
    areas.contains(&Area::Point(point)) || areas.contains(&Area::Switch(point[0]))
}
