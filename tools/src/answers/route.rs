//! The route call's answer, told and drawn.

use super::refused::refused_status;
use super::short::ShortAnswer;
use super::taken::part_words;
use super::{note, told, Answer, Standing};
use crate::after::network_after;
use crate::arguments::Arguments;
use crate::fault::quoted;
use crate::json::Object;
use crate::parse::parse_states;
use crate::picture::{escaped, graph, within_words, Line, Marks, Passed};
use crate::route::{find, Found};
use crate::source::{fault_trouble, Source};
use crate::standard::{self, say};
use crate::steps::{Carrier, Network, State, Step};
use crate::subcommands::DOT;
use crate::trouble::{Status, Trouble};
use wegbaro::Refusal;

/// `wegbaro route`: finds a route from state to state, and tells or draws it.
pub fn route(arguments: &Arguments) -> Result<Status, Trouble> {
    let format = arguments.format();
    let source = Source::noted(arguments.file(), format)?;
    let (book, which) = network_after(arguments, &source)?;
    which.iter().try_for_each(|message| note(format, message))?;
    let standing = Standing { source: &source, book: &book };
    let states = arguments.joined(1);
    match arguments.has(DOT.name) {
        true => drawn(standing, &states),
        false => {
            let answer: Box<dyn Answer> = match source.is_network_cut() {
                true => Box::new(ShortAnswer::Record),
                false => Box::new(RouteAnswer::of(standing, &states)?),
            };
            let told = told(answer.as_ref(), standing, format)?;
            standard::write(told.as_bytes())?;
            Ok(answer.status())
        }
    }
}

/// How a frame gets from the first state to the second.
#[derive(Clone, Debug, PartialEq, Eq)]
pub struct RouteAnswer {
    pub ends: [usize; 2],
    pub found: Found,
}

impl RouteAnswer {
    /// The library's answer for the states that an argument names.
    pub fn of(standing: Standing, states: &str) -> Result<RouteAnswer, Trouble> {
        let ends = ends(standing.source, states)?;
        Ok(RouteAnswer { ends, found: find(&standing.book.records, ends) })
    }
}

impl Answer for RouteAnswer {
    fn words(&self, standing: Standing) -> Result<String, Trouble> {
        Ok(match &self.found {
            Ok(Some(route)) => {
                let count = route.len() - 1;
                let steps = if count == 1 { "step" } else { "steps" };
                let states = standing.walk_words(standing.network()?, route)?;
                format!("route: found, {count} {steps}{states}")
            }
            Ok(None) => {
                let of = standing.network()?.widths;
                let [start, end] = self.ends.map(|state| standing.numbered_words(of, state));
                format!("route: none, no frame gets from {start} to {end}")
            }
            Err(refusal) => format!("route: {}", standing.refused_network_words(*refusal)),
        })
    }

    fn object(&self, standing: Standing) -> Result<Object, Trouble> {
        let object = Object::new().text("subject", "route");
        Ok(match &self.found {
            Ok(Some(route)) => {
                let object = object.text("answer", "found");
                standing.walk_object(object, standing.network()?, route)?
            }
            Ok(None) => {
                let of = standing.network()?.widths;
                let [start, end] = self.ends.map(|state| standing.state_object(of, state));
                object.text("answer", "none").object("from", start).object("to", end)
            }
            Err(refusal) => standing.refused_network_object(object, *refusal),
        })
    }

    fn status(&self) -> Status {
        match self.found {
            Ok(Some(_)) => Status::Good,
            Ok(None) => Status::Bad,
            Err(refusal) => refused_status(refusal),
        }
    }
}

/// The two states that an argument names. Where the widths are refused, no state can be named, and
/// any will do to be told why.
fn ends(source: &Source, states: &str) -> Result<[usize; 2], Trouble> {
    let Some(of) = source.widths() else { return Ok([0, 0]) };
    let hint = || {
        let last = of.states() - 1;
        format!("a state is its number, 0 to {last}, or as `0:1 in header 0`, `0:1 out header 0`")
    };
    parse_states(states, of, &source.names).map_err(|mut fault| {
        fault.hint.get_or_insert_with(hint);
        fault_trouble("FROM TO", states, &[fault])
    })
}

/// Finds a route from state to state and draws it.
fn drawn(standing: Standing, states: &str) -> Result<Status, Trouble> {
    if standing.source.is_network_cut() {
        say("no picture, as the input ends within a record\n");
        return Ok(Status::Faulty);
    }
    let answer = RouteAnswer::of(standing, states)?;
    match &answer.found {
        Ok(Some(route)) => standard::write(route_picture(standing, route)?.as_bytes())?,
        Ok(None) => say("no picture, as there is no route\n"),
        Err(Refusal { .. }) => {
            say("no picture, as the network is refused; `wegbaro check` tells why\n");
        }
    }
    Ok(answer.status())
}

/// The network with a route: a step within a switch is a line there, and a step over a link colours
/// that link.
pub fn route_picture(standing: Standing, route: &[usize]) -> Result<String, Trouble> {
    let network = standing.network()?;
    let mut marks = Marks::default();
    for (number, step) in (1..).zip(network.walked(route)?) {
        let from = State::numbered(step.from, network.widths);
        match from.departing {
            true => marks.links.extend(passed(standing, number, from, &step)),
            false => marks.lines.extend(lines_within(standing, number, from, &step)),
        }
    }
    let [start, end] = [("from", route.first()), ("to", route.last())];
    marks.edges =
        [start, end].map(|(end, state)| end_edges(standing, network, end, state)).concat();
    Ok(graph(standing, network, &marks))
}

/// A step over a link.
fn passed(standing: Standing, number: usize, from: State, step: &Step) -> Option<Passed> {
    let place = step.taken.by.first()?.first()?.place;
    let link = &standing.book.records[place];
    let header = quoted(&standing.source.names.header(from.header));
    let words = format!("step {number}, header {header}");
    Some(Passed { place, back: link[1..3] != from.point, words })
}

/// A step within a switch: a line for each record that takes the frame on.
fn lines_within(standing: Standing, number: usize, from: State, step: &Step) -> Vec<Line> {
    let [switch, _] = from.point;
    let line = |carrier: &Carrier| {
        let record = &standing.book.records[carrier.place];
        let words = within_words(standing, record) + &part_words(carrier, record[0]);
        (switch, format!("step {number}: {words}"))
    };
    step.taken.by.iter().flatten().map(line).collect()
}

/// The start or the end of a route, beside its switch.
fn end_edges(standing: Standing, network: Network, end: &str, state: Option<&usize>) -> String {
    let Some(state) = state else { return String::new() };
    let words = escaped(&standing.state_words(network.widths, *state));
    let [switch, _] = State::numbered(*state, network.widths).point;
    let edge = match end {
        "from" => format!("from -- s{switch}"),
        _ => format!("s{switch} -- {end}"),
    };
    format!(
        "    {end} [shape=plain, label=\"{end} state {state}\\n{words}\"];\n    \
         {edge} [color=red, dir=forward];\n"
    )
}
