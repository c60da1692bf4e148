//! Policies as sentences. Each says what shall be so; its formula is what is then forbidden.

mod idle;

use crate::fault::Fault;
use crate::formula::Variable::{self, X, Y};
use crate::names::Area;
use crate::parse::Reader;
use crate::steps::DROP;
use crate::tokens::{Statement, Token};
use crate::widths::Widths;
use crate::written::{Field, Written};

/// The most hops that a route may be held to: the formula of more has more than 32 nodes.
pub const MOST_HOPS: u16 = 7;

/// Reads a sentence, if the statement goes on with one: the formula that it forbids, and for some a
/// second one that is true for the same states in every network with these links, and is shorter.
pub fn read_sentence(
    reader: &mut Reader,
    statement: &mut Statement,
    of: Widths,
) -> Result<Option<Vec<Written>>, Fault> {
    let [first, second] = [0, 1].map(|by| statement.ahead(by).text);
    let is_area = ["ward", "switch"].contains(&first) && second != "("
        || second == ":"
        || reader.names.named(first).is_some();
    let mut sentence = Sentence { reader, statement, of };
    Ok(Some(match first {
        "no" => vec![sentence.no()?],
        "nothing" => vec![sentence.nothing()?],
        "what" | "everything" => sentence.what()?,
        "header" if second != "(" => vec![sentence.header()?],
        _ if is_area => sentence.apart()?,
        _ => return Ok(None),
    }))
}

struct Sentence<'r, 's, 'a> {
    reader: &'r mut Reader,
    statement: &'s mut Statement<'a>,
    of: Widths,
}

impl Sentence<'_, '_, '_> {
    /// `no loops`, `no loop over states`, `no frame comes back ...`, `no route of more than ...`.
    fn no(&mut self) -> Result<Written, Fault> {
        self.statement.take();
        if self.statement.accept("loops") {
            self.note_no_loops();
            return Ok(Written::reaches(X, X));
        }
        if self.statement.accept("loop") {
            self.statement.expect_all(&["over", "states"])?;
            self.note_no_links();
            let walk = Written::And(vec![Written::reaches(X, Y), Written::reaches(Y, Y)]);
            return Ok(Written::And(vec![Written::External(X), walk.exists(Y)]));
        }
        if self.statement.accept("frame") {
            self.statement.expect_all(&["comes", "back", "to", "a", "switch", "it", "left"])?;
            self.note_no_links();
            return Ok(comes_back());
        }
        if self.statement.accept("route") {
            self.statement.expect_all(&["of", "more", "than"])?;
            let hops = self.statement.number_within("a number of hops", 1..=MOST_HOPS)?;
            self.statement.expect_all(&[if hops == 1 { "hop" } else { "hops" }])?;
            self.note_no_links();
            return Ok(longer_than(hops));
        }
        Err(self.statement.expected("`loops`, `loop`, `frame` or `route`"))
    }

    /// `nothing [from AREAS] [with header PATTERN] is dropped`.
    fn nothing(&mut self) -> Result<Written, Fault> {
        self.statement.take();
        let (frames, _) = self.frames("from")?;
        self.statement.expect_all(&["is", "dropped"])?;
        self.note_closed();
        let dropped = Written::Fits(Field::Port, Y, [DROP, self.of.controller()]);
        let walk = Written::And(vec![Written::reaches(X, Y), dropped]);
        Ok(Written::And([&frames[..], &[walk.exists(Y)]].concat()))
    }

    /// `header PATTERN never leaves [at AREAS]`.
    fn header(&mut self) -> Result<Written, Fault> {
        self.statement.take();
        let pattern = self.reader.header_pattern(self.of, self.statement)?;
        self.statement.expect_all(&["never", "leaves"])?;
        let mut out = vec![Written::reaches(X, Y), Written::External(Y), departing(Y)];
        if self.statement.accept("at") {
            let areas = self.outside()?;
            out.extend(self.at(Y, &areas));
        }
        out.push(Written::Fits(Field::Header, Y, pattern));
        self.note_closed();
        let enters = [Written::External(X), arriving(X)];
        Ok(Written::And([&enters[..], &[Written::And(out).exists(Y)]].concat()))
    }

    /// `what enters [at AREAS] [with header PATTERN]`, and what is then said of it; also with
    /// `everything that` for `what`.
    fn what(&mut self) -> Result<Vec<Written>, Fault> {
        if self.statement.take().text == "everything" {
            self.statement.expect_all(&["that"])?;
        }
        self.statement.expect_all(&["enters"])?;
        let (mut frames, from) = self.frames("at")?;
        let walks = if self.statement.accept("reaches") {
            // A departing state at an external point gets nowhere, and is not meant.
            frames.push(arriving(X));
            let there = self.reader.areas(self.of, self.statement)?;
            self.note_there(&from, &there);
            let walks = self.walks(Written::Steps(X, Y), &from, &there);
            walks.into_iter().map(Written::negated).collect()
        } else if self.statement.accept("never") {
            self.statement.expect_all(&["reaches"])?;
            let there = self.reader.areas(self.of, self.statement)?;
            self.note_ways(&from, &there, &[]);
            self.walks(Written::Steps(X, Y), &from, &there)
        } else if self.statement.accept("leaves") {
            self.leaves(&from)?
        } else {
            return Err(self.statement.expected("`reaches`, `never reaches` or `leaves`"));
        };
        let with_frames = |walk| Written::And([&frames[..], &[walk]].concat());
        Ok(walks.into_iter().map(with_frames).collect())
    }

    /// `leaves only at AREAS`, `leaves [at AREAS] only by way of SWITCHES`.
    fn leaves(&mut self, from: &[Area]) -> Result<Vec<Written>, Fault> {
        if self.statement.accept_all(&["only", "at"]) {
            let areas = self.outside()?;
            self.note_elsewhere(from, &areas);
            let elsewhere = Written::And(self.at(Y, &areas)).negated();
            let out = vec![Written::reaches(X, Y), Written::External(Y), elsewhere];
            return Ok(vec![Written::And(out).exists(Y)]);
        }
        let there = match self.statement.accept("at") {
            true => self.outside()?,
            false => vec![],
        };
        self.statement.expect_all(&["only", "by", "way", "of"])?;
        let start = self.statement.peek();
        let switches = self.reader.areas(self.of, self.statement)?;
        if switches.iter().any(|area| matches!(area, Area::Point(_))) {
            return Err(start.fault("a way leads over switches, not over a point alone"));
        }
        self.note_ways(from, &there, &switches);
        // A walk to a departing state ends at the switch of the state before, so the first state of
        // each pair is enough.
        let passed = Written::within(X, &switches, self.of).negated();
        let step = Written::And(vec![Written::Steps(X, Y), passed]);
        if are_points(&there) {
            return Ok(self.walks(step, from, &there));
        }
        let walk = Written::Closure(Box::new(step), X, Y);
        let out = match there.is_empty() {
            true => vec![Written::External(Y)],
            false => self.at(Y, &there),
        };
        Ok(vec![Written::And([&[walk], &out[..]].concat()).exists(Y)])
    }

    /// A walk of such steps from X to the areas. Where X is at external points apart from these there
    /// is a second form: a state in the areas is followed by every state, and X lies on a loop. No
    /// step leads to X, so that the loop passes the areas.
    fn walks(&self, step: Written, from: &[Area], there: &[Area]) -> Vec<Written> {
        let walk = Written::Closure(Box::new(step.clone()), X, Y);
        let walk = Written::And(vec![walk, Written::within(Y, there, self.of)]).exists(Y);
        let apart = from.iter().all(|one| there.iter().all(|other| !overlap(one, other)));
        if !are_points(from) || !apart {
            return vec![walk];
        }
        let onward = Written::Or(vec![step, Written::within(X, there, self.of)]);
        vec![walk, Written::Closure(Box::new(onward), X, X)]
    }

    /// `AREAS and AREAS never meet`.
    fn apart(&mut self) -> Result<Vec<Written>, Fault> {
        let one = self.reader.areas(self.of, self.statement)?;
        self.statement.expect_all(&["and"])?;
        let start = self.statement.peek();
        let other = self.reader.areas(self.of, self.statement)?;
        self.statement.expect_all(&["never", "meet"])?;
        if let Some(area) = one.iter().find(|area| other.iter().any(|it| overlap(area, it))) {
            let message = format!("{} is in both", self.area_name(area));
            return Err(start.fault(message));
        }
        self.note_apart(&one, &other);
        let within = |variable, areas| Written::within(variable, areas, self.of);
        let there = Written::And(vec![within(X, &one), within(Y, &other)]);
        let back = Written::And(vec![within(X, &other), within(Y, &one)]);
        let met = Written::And(vec![Written::reaches(X, Y), Written::Or(vec![there, back])]);
        let met = Written::And(vec![Written::External(X), met.exists(Y)]);
        let ways = [self.ways_on(&one, &other), self.ways_on(&other, &one)];
        let [Some(there), Some(back)] = ways else { return Ok(vec![met]) };
        Ok(vec![met, Written::Or(vec![there, back])])
    }

    /// A walk from external points to areas apart from them, in the second form.
    fn ways_on(&self, from: &[Area], there: &[Area]) -> Option<Written> {
        let is_open = |area: &Area| self.reach().is_entry(area);
        let second = self.walks(Written::Steps(X, Y), from, there).into_iter().nth(1);
        let walk = second.filter(|_| from.iter().all(is_open))?;
        Some(Written::And(vec![Written::within(X, from, self.of), walk]))
    }

    /// What is so of a frame that enters, after the word at the areas named, with the header named, and
    /// the areas. A state at an external point that steps is arriving, so its direction need not be
    /// said.
    fn frames(&mut self, word: &str) -> Result<(Vec<Written>, Vec<Area>), Fault> {
        let (mut frames, mut areas) = (vec![Written::External(X)], vec![]);
        if self.statement.accept(word) {
            areas = self.outside()?;
            frames = self.at(X, &areas);
        }
        if self.statement.accept("with") {
            self.statement.expect_all(&["header"])?;
            let pattern = self.reader.header_pattern(self.of, self.statement)?;
            frames.push(Written::Fits(Field::Header, X, pattern));
        }
        Ok((frames, areas))
    }

    /// Areas at which something enters or leaves; points among them are external.
    fn outside(&mut self) -> Result<Vec<Area>, Fault> {
        let start = self.statement.peek();
        let areas = self.reader.areas(self.of, self.statement)?;
        for area in &areas {
            self.is_outside(area, start)?;
        }
        Ok(areas)
    }

    /// The state is external and in one of the areas.
    fn at(&self, variable: Variable, areas: &[Area]) -> Vec<Written> {
        let within = Written::within(variable, areas, self.of);
        match are_points(areas) {
            true => vec![within],
            false => vec![Written::External(variable), within],
        }
    }

    /// At a linked point, at drop and at the controller nothing enters or leaves, so a sentence about
    /// that would hold whatever the network does.
    fn is_outside(&self, area: &Area, start: Token) -> Result<(), Fault> {
        let name = self.area_name(area);
        let point = match area {
            Area::Point(point) => point,
            Area::Switch(switch) if self.reader.is_linked_whole(self.of, *switch) => {
                let message = format!("nothing enters or leaves at {name}: its ports are linked");
                return Err(start.fault(message));
            }
            Area::Switch(_) => return Ok(()),
        };
        if point[1] == DROP || point[1] == self.of.controller() {
            let message = format!("nothing enters or leaves at {name}, which is no ordinary port");
            return Err(start.fault(message));
        }
        match self.reader.link_line(*point) {
            Some(line) => {
                let message =
                    format!("nothing enters or leaves at {name}, which is linked in line {line}");
                Err(start.fault(message).earlier(line))
            }
            None => Ok(()),
        }
    }

    fn area_name(&self, area: &Area) -> String {
        let names = &self.reader.names;
        match *area {
            Area::Switch(switch) => format!("switch {}", names.switch(switch)),
            Area::Point([switch, port]) => {
                format!("{}:{}", names.switch(switch), names.port(switch, port))
            }
        }
    }
}

/// Whether there are areas, and all of them are points.
fn are_points(areas: &[Area]) -> bool {
    !areas.is_empty() && areas.iter().all(|area| matches!(area, Area::Point(_)))
}

fn overlap(one: &Area, other: &Area) -> bool {
    match (one, other) {
        (Area::Switch(switch), Area::Point([its, _]))
        | (Area::Point([its, _]), Area::Switch(switch)) => switch == its,
        _ => one == other,
    }
}

fn arriving(variable: Variable) -> Written {
    Written::Fits(Field::Direction, variable, [0, 1])
}

fn departing(variable: Variable) -> Written {
    Written::Fits(Field::Direction, variable, [1, 1])
}

/// A state in which a frame from outside departs, and from which it gets to the same switch again. An
/// external state that steps is arriving, so its direction need not be said.
fn comes_back() -> Written {
    let from_outside = Written::And(vec![Written::External(Y), Written::reaches(Y, X)]);
    let again = Written::And(vec![Written::reaches(X, Y), Written::Same(Field::Switch, X, Y)]);
    Written::And(vec![departing(X), from_outside.exists(Y), again.exists(Y)])
}

/// A frame that enters comes to one switch more than the hops: a walk of two steps for each hop,
/// through a switch and over a link.
fn longer_than(hops: u16) -> Written {
    let step = |from, to| Written::Steps(from, to);
    let [mut from, mut to] = [Y, X];
    let mut walk = step(from, to).exists(to);
    for _ in 1..2 * hops {
        [from, to] = [to, from];
        walk = Written::And(vec![step(from, to), walk]).exists(to);
    }
    Written::And(vec![Written::External(X), walk])
}
