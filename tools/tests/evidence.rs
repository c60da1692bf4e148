//! Why a policy is broken, in words and as objects: every reason, with its Y and its walks.

mod running;

use running::{expect, wegbaro};

/// A state of header 0 as an object, with what takes the frame on.
fn state(number: usize, [switch, port]: [u8; 2], direction: &str, by: &str) -> String {
    format!(
        r#"{{"number":{number},"switch":{switch},"port":{port},"direction":"{direction}","header":0,"words":"switch {switch}, port {port}, {direction}, header 0"{by}}}"#
    )
}

fn by(words: &str, record: usize, line: usize) -> String {
    format!(r#","by":"{words}","by_record":{record},"by_line":{line}"#)
}

/// A frame from port 1 of switch 0 goes to switch 1 and comes back.
const BACK: &str = "\
widths H 1 P 3 W 1
link 0:2 - 1:2
link 0:3 - 1:3
miss 0: output drop
miss 1: output drop
rule 0 priority 1 port 1: output 2
rule 1 priority 1 port 2: output 3
policy 0: no frame comes back to a switch it left
";

/// Both halves of coming back: how the frame got there, and how it gets to the switch again.
#[test]
fn every_reason() {
    let words = "\
start: violated: policy 0, line 8, is broken by state 36 (switch 0, port 2, departing, header 0)
    with Y = state 2 (switch 0, port 1, arriving, header 0), from there by this way:
    - switch 0: in at port 1, out at port 2, header 0 (line 6: rule 0 priority 1 port 1 header *: output 2)
    with Y = state 6 (switch 0, port 3, arriving, header 0), by this way:
    - switch 1: in at port 2, out at port 3, header 0 (line 7: rule 1 priority 1 port 2 header *: output 3)
    - switch 0: in at port 3, header 0
";
    expect(&["check", "-"], BACK.as_bytes(), 1, words);
    let there = [
        state(2, [0, 1], "arriving", &by("rule 0 priority 1 port 1 header *: output 2", 5, 6)),
        state(36, [0, 2], "departing", ""),
    ];
    let again = [
        state(36, [0, 2], "departing", &by("link 0:2 - 1:2", 1, 2)),
        state(20, [1, 2], "arriving", &by("rule 1 priority 1 port 2 header *: output 3", 6, 7)),
        state(54, [1, 3], "departing", &by("link 0:3 - 1:3", 2, 3)),
        state(6, [0, 3], "arriving", ""),
    ];
    let reasons = format!(
        r#"[{{"y":{},"walks":[{}]}},{{"y":{},"walks":[{}]}}]"#,
        state(2, [0, 1], "arriving", ""),
        format_args!(r#"{{"route":[2,36],"states":[{}]}}"#, there.join(",")),
        state(6, [0, 3], "arriving", ""),
        format_args!(r#"{{"route":[36,20,54,6],"states":[{}]}}"#, again.join(",")),
    );
    let object = format!(
        r#"{{"subject":"start","answer":"violated","policy":0,"policy_line":8,"state":{},"y":{},"route":[2,36],"reasons":{reasons}}}"#,
        state(36, [0, 2], "departing", ""),
        state(2, [0, 1], "arriving", ""),
    );
    expect(&["check", "--json", "-"], BACK.as_bytes(), 1, &format!("{object}\n"));
}

/// What frames do at the one switch of a ward, and the policy.
fn ward(policy: &str) -> String {
    format!("widths H 1 P 2 W 0\nlink 0:1 - 0:2\nmiss 0: output **\npolicy 0: {policy}\n")
}

/// The part of an object from a field on.
fn from<'a>(text: &'a str, field: &str) -> &'a str {
    let place = text.find(&format!(r#""{field}":"#)).unwrap_or_else(|| panic!("{text}"));
    &text[place..]
}

/// A reason with two walks has both, and `route` is the first.
#[test]
fn two_walks_of_one_reason() {
    let text = ward("bit(X,3) & exists Y. R(X,Y) & tc(R(X,Y))(X,X)");
    let step = state(10, [0, 1], "departing", &by("link 0:1 - 0:2", 1, 2));
    let miss = state(4, [0, 2], "arriving", &by("miss 0: output **", 2, 3));
    let [end, back] = [state(4, [0, 2], "arriving", ""), state(10, [0, 1], "departing", "")];
    let walks = [
        format!(r#"{{"route":[10,4],"states":[{step},{end}]}}"#),
        format!(r#"{{"route":[10,4,10],"states":[{step},{miss},{back}]}}"#),
    ];
    let fields =
        format!(r#""route":[10,4],"reasons":[{{"y":{end},"walks":[{}]}}]}}"#, walks.join(","));
    let ran = wegbaro(&["check", "--json", "-"], text.as_bytes());
    assert_eq!(from(ran.text(), "route"), fields + "\n");
    let words = "\
start: violated: policy 0, line 4, is broken by state 10 (switch 0, port 1, departing, header 0)
    with Y = state 4 (switch 0, port 2, arriving, header 0), by this way:
    - switch 0: in at port 2, header 0
    - switch 0: in at port 2, out at port 1, header 0 (line 3: miss 0: output **)
";
    expect(&["check", "-"], text.as_bytes(), 1, words);
}

/// Two reasons that rest on the same walk both have it.
#[test]
fn one_walk_of_two_reasons() {
    let there = "exists Y. tc(R(X,Y))(X,Y)";
    let text = ward(&format!("bit(X,3) & ({there} & bit(Y,2)) & ({there} & !bit(Y,3))"));
    let words = "\
start: violated: policy 0, line 4, is broken by state 10 (switch 0, port 1, departing, header 0)
    with Y = state 4 (switch 0, port 2, arriving, header 0), by this way:
    - switch 0: in at port 2, header 0
    with Y = state 4 (switch 0, port 2, arriving, header 0), by this way:
    - switch 0: in at port 2, header 0
";
    expect(&["check", "-"], text.as_bytes(), 1, words);
    let ran = wegbaro(&["check", "--json", "-"], text.as_bytes());
    assert_eq!(ran.text().matches(r#""walks":[{"route":[10,4],"#).count(), 2, "{}", ran.text());
}

/// A closure may be about other pairs than steps. Its walk is no way of a frame, and is not told.
#[test]
fn walks_that_are_no_ways() {
    let text = ward("exists Y. tc(bit(X,0) & !bit(Y,0))(X,Y) & bit(Y,3)");
    let words = "\
start: violated: policy 0, line 4, is broken by state 1 (switch 0, port drop (0), arriving, header 1)
    with Y = state 8 (switch 0, port drop (0), departing, header 0)
";
    expect(&["check", "-"], text.as_bytes(), 1, words);
    let ran = wegbaro(&["check", "--json", "-"], text.as_bytes());
    assert!(ran.text().ends_with("\"walks\":[]}]}\n"), "{}", ran.text());
    assert!(!ran.text().contains("route"), "{}", ran.text());
}
