//! What the program makes of a network is held against the library's answer: where it cannot explain
//! a step, that is an internal error, and is told.

mod running;

use running::expect;
use wegbaro::{Checked, Commanded};
use wegbaro_tests::k::{k, second_add};
use wegbaro_tools::answers::command::CommandAnswer;
use wegbaro_tools::answers::route::{route_picture, RouteAnswer};
use wegbaro_tools::answers::start::StartAnswer;
use wegbaro_tools::answers::{told, Answer, Format, Standing};
use wegbaro_tools::book::{Book, Origin};
use wegbaro_tools::formula::Node;
use wegbaro_tools::kind::node;
use wegbaro_tools::priorities::{notes_on_equals, Noted};
use wegbaro_tools::route::find;
use wegbaro_tools::source::{Command, Source};
use wegbaro_tools::steps::Network;
use wegbaro_tools::trouble::{Status, Trouble};
use wegbaro_tools::truth::Truth;

/// The trouble is an internal error with this message, and the line of the answer is beside it.
fn is_beside<T: std::fmt::Debug>(found: Result<T, Trouble>, message: &str, line: Option<String>) {
    let trouble = found.unwrap_err();
    let message = format!("internal error: {message}; please report this");
    let beside = line.as_ref().map(|line| format!("the library's answer is `{line}`\n"));
    let words = format!("{message}\n{}", beside.unwrap_or_default());
    assert_eq!((trouble.status, trouble.message), (Status::Internal, words));
    let line = line.map_or_else(String::new, |line| format!(r#","gate_line":"{line}""#));
    let object = format!(r#"{{"answer":"internal","message":"{message}"{line}}}"#);
    assert_eq!(trouble.objects[0].to_string(), object);
}

fn is_internal<T: std::fmt::Debug>(found: Result<T, Trouble>, message: &str) {
    is_beside(found, message, None);
}

/// An answer that is told in no form.
fn is_unexplained(answer: &dyn Answer, standing: Standing, message: &str) {
    for format in [Format::Words, Format::Json] {
        is_beside(told(answer, standing, format), message, answer.line());
    }
}

#[test]
fn answers_that_are_not_the_librarys() {
    let source = Source::of_records(&k().concat());
    let book = Book::new(&source.network, &source.lines);
    let standing = Standing { source: &source, book: &book };
    // State 2 reaches state 28 by three steps, and is the start of no policy's walk.
    let message = "no record takes a frame from state 2 to state 28";
    let route = RouteAnswer { ends: [2, 28], found: Ok(Some(vec![2, 28])) };
    is_unexplained(&route, standing, message);
    is_internal(route_picture(standing, &[2, 28]), message);
    // A link leads from state 20 to state 10 alone.
    is_internal(
        route_picture(standing, &[20, 11]),
        "no record takes a frame from state 20 to state 11",
    );
    let message = "state 3 does not break the policy here";
    let verdict = Ok(Checked::Violated { policy: 0, state: 3 });
    is_unexplained(&StartAnswer { verdict, work: None }, standing, message);
    let command = Command { record: second_add(), line: None };
    let verdict = Ok(Commanded::Blocked { policy: 0, state: 3 });
    is_unexplained(&CommandAnswer { number: 1, command, verdict }, standing, message);
}

#[test]
fn a_network_without_widths() {
    let (source, book) = (Source::default(), Book::default());
    let standing = Standing { source: &source, book: &book };
    let message = "a network that is not refused has no widths";
    let verdict = Ok(Checked::Violated { policy: 0, state: 0 });
    is_unexplained(&StartAnswer { verdict, work: None }, standing, message);
    for found in [None, Some(vec![0, 1])] {
        is_unexplained(&RouteAnswer { ends: [0, 1], found: Ok(found) }, standing, message);
    }
    is_internal(route_picture(standing, &[0, 1]), message);
    is_internal(notes_on_equals(standing, true, &mut Noted::default()), message);
}

/// An answer tells the records as they stand after the commands so far, not as the file has them.
#[test]
fn a_route_after_commands() {
    let text = "widths H 1 P 2 W 0\nname port 2 line\nmiss 0: output drop\n\
                rule 0 priority 1: output drop\n";
    let source = Source::of_text(wegbaro_tools::parse::parse(text).unwrap());
    let mut book = Book::new(&source.network, &source.lines);
    let add = |priority: u8, output: u8| {
        wegbaro_tools::record(&[6, 0, priority, 0, 0, 0, 0, 0, 1, 1, output, 3])
    };
    book = book.after(&add(1, 1), Origin::Command(1));
    book = book.after(&add(2, 2), Origin::Command(2));
    let standing = Standing { source: &source, book: &book };
    let answer = RouteAnswer { ends: [2, 12], found: find(&book.records, [2, 12]) };
    let words = "\
route: found, 1 step
    state 2 (switch 0, port 1, arriving, header 0)
    - command 2: rule 0 priority 2 port ** header *: output line
    state 12 (switch 0, port line (2), departing, header 0)";
    assert_eq!(answer.words(standing).unwrap(), words);
    let object = answer.object(standing).unwrap().to_string();
    let by =
        r#""by":"rule 0 priority 2 port ** header *: output line","by_record":3,"by_command":2}"#;
    assert!(object.contains(by), "{object}");
    let picture = route_picture(standing, &[2, 12]).unwrap();
    let line = "step 1: rule priority 2 port ** header *: output line\\l";
    assert!(picture.contains(line), "{picture}");
    // The file's network has no such route.
    let none = "route: none, no frame gets from state 2 (switch 0, port 1, arriving, header 0) to \
                state 12 (switch 0, port line (2), departing, header 0)\n";
    expect(&["route", "-", "2", "12"], text.as_bytes(), 1, none);
}

/// So many `exists Y.` over one long formula, joined by AND: each looks at all of it anew.
fn repeated(count: u8) -> Vec<Node> {
    const LONG: u8 = 100;
    let mut nodes: Vec<Node> = vec![[node::BIT, 0, 0]];
    nodes.extend((0..LONG).map(|last| [node::AND, last, last]));
    nodes.extend((0..count).map(|_| [node::SOME, LONG, 1]));
    let first = LONG + 1;
    let mut joined = first;
    for other in first + 1..first + count {
        nodes.push([node::AND, joined, other]);
        joined = nodes.len() as u8 - 1;
    }
    nodes
}

#[test]
fn reasons_that_are_not_all_looked_at() {
    let records = k();
    let network = Network::new(&records).unwrap();
    // State 1 has bit 0, so that every node is true for it.
    let nodes = repeated(9);
    assert_eq!(Truth::of(network, &nodes).reasons(1).unwrap().len(), 10);
    let nodes = repeated(10);
    let message = "the reasons are at more than 1000 places, and are not looked for";
    is_internal(Truth::of(network, &nodes).reasons(1), message);
}
