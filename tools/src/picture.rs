//! A network as a graph for Graphviz.

use crate::answers::refused::refused_status;
use crate::answers::Standing;
use crate::arguments::Arguments;
use crate::book::Book;
use crate::fault::quoted;
use crate::kind;
use crate::print::print_within;
use crate::source::Source;
use crate::standard::{self, say};
use crate::steps::Network;
use crate::subcommands::RULES;
use crate::trouble::{Status, Trouble};
use crate::Record;
use wegbaro::Gate;

/// A line inside a switch.
pub type Line = (u8, String);

/// A step over a link.
#[derive(Clone, Debug, PartialEq, Eq)]
pub struct Passed {
    /// The place of the link.
    pub place: usize,
    /// Whether it leads from the link's second end to its first.
    pub back: bool,
    pub words: String,
}

/// What is drawn in a network.
#[derive(Clone, Debug, Default, PartialEq, Eq)]
pub struct Marks {
    pub lines: Vec<Line>,
    pub links: Vec<Passed>,
    /// More nodes and edges.
    pub edges: String,
}

/// `wegbaro picture`: the picture of a network that no row refuses.
pub fn picture(arguments: &Arguments) -> Result<Status, Trouble> {
    let source = Source::noted(arguments.file(), arguments.format())?;
    if let Err(refusal) = Gate::new(&source.network) {
        say("no picture, as the network is refused; `wegbaro check` tells why\n");
        return Ok(refused_status(refusal));
    }
    let book = Book::new(&source.network, &source.lines);
    let standing = Standing { source: &source, book: &book };
    let graph = network_picture(standing, arguments.has(RULES.name))?;
    standard::write(graph.as_bytes())?;
    Ok(Status::Good)
}

/// The switches and links; with `rules`, each switch lists its miss, its rules and its groups.
fn network_picture(standing: Standing, rules: bool) -> Result<String, Trouble> {
    let network = standing.network()?;
    let is_shown =
        |record: &&Record| rules && matches!(record[0], kind::MISS | kind::RULE | kind::GROUP);
    let shown = network.records.iter().filter(is_shown);
    let lines: Vec<Line> =
        shown.map(|record| (record[1], within_words(standing, record))).collect();
    Ok(graph(standing, network, &Marks { lines, ..Marks::default() }))
}

/// The switches, the links, the external ports that have names, and the marks.
pub fn graph(standing: Standing, network: Network, marks: &Marks) -> String {
    let mut graph = String::from("graph network {\n    node [shape=box];\n");
    for switch in 0..=network.widths.last_switch() {
        let label = switch_label(standing.source, switch, &marks.lines);
        graph += &format!("    s{switch} [label=\"{label}\"];\n");
        graph += &external_ports(standing.source, network, switch);
    }
    for (place, link) in network.records.iter().enumerate() {
        if link[0] == kind::LINK {
            let passed = marks.links.iter().filter(|passed| passed.place == place);
            graph += &link_edge(standing.source, link, &passed.collect::<Vec<_>>());
        }
    }
    graph + &marks.edges + "}\n"
}

/// The named ports of a switch to which no link leads, beside it.
fn external_ports(source: &Source, network: Network, switch: u8) -> String {
    let node = |port: u8| {
        let name = source.names.port(switch, port);
        let is_shown = network.is_external([switch, port]) && name != port.to_string();
        is_shown.then(|| {
            let label = escaped(&format!("{port} {}", quoted(&name)));
            format!(
                "    s{switch}p{port} [shape=ellipse, label=\"{label}\"];\n    \
                 s{switch} -- s{switch}p{port};\n"
            )
        })
    };
    (0..=network.widths.controller()).filter_map(node).collect()
}

fn switch_label(source: &Source, switch: u8, lines: &[Line]) -> String {
    let name = source.names.switch(switch);
    let mut label = match name == switch.to_string() {
        true => format!("switch {switch}"),
        false => format!("switch {switch}\\n{}", escaped(&name)),
    };
    let mut lines = lines.iter().filter(|(of, _)| *of == switch).peekable();
    if lines.peek().is_some() {
        label += "\\n";
    }
    for (_, line) in lines {
        // Lines end with the mark for the left side.
        label += &format!("{}\\l", escaped(line));
    }
    label
}

/// A rule, a miss or a group for inside its switch, which stands above already.
pub fn within_words(standing: Standing, record: &Record) -> String {
    print_within(standing.source.widths(), &standing.source.names, record)
}

/// A link with its two ends, and the steps of a route that pass it. The label stands at its middle,
/// where Graphviz keeps room for it, so that those of links side by side do not overlap.
fn link_edge(source: &Source, link: &Record, passed: &[&Passed]) -> String {
    let [_, switch, port, other_switch, other_port, ..] = *link;
    let end = |switch: u8, port: u8| {
        let [name, of] = [source.names.port(switch, port), source.names.switch(switch)];
        match name == port.to_string() {
            true => escaped(&format!("{}:{port}", quoted(&of))),
            false => escaped(&format!("{}:{port} {}", quoted(&of), quoted(&name))),
        }
    };
    let mut label = format!("{}\\n{}", end(switch, port), end(other_switch, other_port));
    for step in passed {
        label += &format!("\\n{}", escaped(&step.words));
    }
    let colour = match direction(passed) {
        Some(direction) => format!(", color=red, fontcolor=red, dir={direction}"),
        None => String::new(),
    };
    format!("    s{switch} -- s{other_switch} [label=\"{label}\"{colour}];\n")
}

/// The arrows of a link that is passed.
fn direction(passed: &[&Passed]) -> Option<&'static str> {
    match [false, true].map(|back| passed.iter().any(|step| step.back == back)) {
        [false, false] => None,
        [true, false] => Some("forward"),
        [false, true] => Some("back"),
        [true, true] => Some("both"),
    }
}

/// A text within a quoted string of Graphviz.
pub fn escaped(text: &str) -> String {
    text.replace('\\', "\\\\").replace('"', "\\\"")
}
