//! Routes: what is told and drawn of them, and how the states of a call are read.

mod running;
mod seeded;

use running::{complains, expect, file, program, run, wegbaro, K};
use seeded::seeded;
use std::ffi::OsStr;
use std::os::unix::ffi::OsStrExt;
use wegbaro_tests::k::k;
use wegbaro_tests::networks::{all_widths, random_network, MODEST};
use wegbaro_tools::route::find;
use wegbaro_tools::steps::Network;

/// What is noted of a file with commands, as an object.
const BEFORE_COMMANDS: &str =
    "{\"answer\":\"note\",\"message\":\"the route is that of the network \
                               before the file's commands; `--after` takes a later one\"}\n";

const K_ROUTE: &str = "\
route: found, 3 steps
    state 2 (switch 0, port 1, arriving, header 0)
    - line 8: rule 0 priority 10 port 1 header 0: output 2
    state 20 (switch 0, port 2, departing, header 0)
    - line 3: link 0:2 - 1:1
    state 10 (switch 1, port 1, arriving, header 0)
    - line 9: rule 1 priority 10 port 1 header *: output 2
    state 28 (switch 1, port 2, departing, header 0)
";

/// Two switches with names. What the pump sends goes out at the line and, with header 1, to core.
const NAMED: &str = "\
widths H 2 P 3 W 1
name switch 0 icu
name switch 1 core
name port icu:1 pump
name port 2 line
name header 1 private
name header 1* odd
link icu:4 - core:5
miss icu: output drop
miss core: output drop
rule icu priority 10 port pump: output line, set private, output 4, output 5
rule core priority 10 port 5: output line
policy 0 \"private stays\": header private never leaves at core:line
";

fn named() -> String {
    file("named", NAMED.as_bytes())
}

#[test]
fn the_route_of_k() {
    for states in [
        &["2", "28"][..],
        &["0:1 in header 0", "1:2 out header 0"],
        &["0:1", "in", "header", "0", "1:2", "out", "header", "0"],
        &["2", "1:2 out header 0"],
        &[" 0 : 1 in header 0 ", "28"],
    ] {
        let ran = wegbaro(&[&["route", K], states].concat(), b"");
        assert_eq!((ran.status, ran.text()), (Some(0), K_ROUTE), "{states:?}: {}", ran.said);
        let note = "note: the route is that of the network before the file's commands; `--after` \
                    takes a later one\n";
        assert_eq!(ran.said, note);
    }
    let of_records = K_ROUTE.replace("line 8", "record 4").replace("line 3", "record 1");
    let of_records = of_records.replace("line 9", "record 5");
    expect(&["route", "-", "2", "28"], &k().concat(), 0, &of_records);
}

#[test]
fn one_step_by_a_miss() {
    let words = "\
route: found, 1 step
    state 3 (switch 0, port 1, arriving, header 1)
    - line 4: miss 0: output drop
    state 17 (switch 0, port drop (0), departing, header 1)
";
    expect(&["route", K, "3", "17"], b"", 0, words);
}

#[test]
fn no_route() {
    let words = "route: none, no frame gets from state 28 (switch 1, port 2, departing, header 0) \
                 to state 2 (switch 0, port 1, arriving, header 0)\n";
    expect(&["route", K, "28", "2"], b"", 1, words);
    let object = r#"{"subject":"route","answer":"none","from":{"number":28,"switch":1,"port":2,"direction":"departing","header":0,"words":"switch 1, port 2, departing, header 0"},"to":{"number":2,"switch":0,"port":1,"direction":"arriving","header":0,"words":"switch 0, port 1, arriving, header 0"}}"#;
    expect(&["route", "--json", K, "28", "2"], b"", 1, &format!("{BEFORE_COMMANDS}{object}\n"));
    complains(&["route", "--dot", K, "28", "2"], b"", 1, "no picture, as there is no route\n");
    // Standing still is no route.
    let words = "route: none, no frame gets from state 2 (switch 0, port 1, arriving, header 0) \
                 to state 2 (switch 0, port 1, arriving, header 0)\n";
    expect(&["route", K, "2", "2"], b"", 1, words);
}

#[test]
fn a_route_back_to_its_start() {
    let ring = b"widths H 1 P 2 W 0\nlink 0:1 - 0:2\nmiss 0: output 1\n";
    let words = "\
route: found, 2 steps
    state 4 (switch 0, port 2, arriving, header 0)
    - line 3: miss 0: output 1
    state 10 (switch 0, port 1, departing, header 0)
    - line 2: link 0:1 - 0:2
    state 4 (switch 0, port 2, arriving, header 0)
";
    expect(&["route", "-", "4", "4"], ring, 0, words);
}

/// Names stand for states and are told. Where a rule has several actions, the one that sends the
/// frame on is told. The policy is broken, and that does not matter.
#[test]
fn with_names_and_actions() {
    let words = "\
route: found, 3 steps
    state 4 (switch icu (0), port pump (1), arriving, header 0)
    - line 11: rule icu priority 10 port pump header **: output line, set private, output 4, output 5 (action 3)
    state 81 (switch icu (0), port 4, departing, header private (1))
    - line 8: link icu:4 - core:5
    state 53 (switch core (1), port 5, arriving, header private (1))
    - line 12: rule core priority 10 port 5 header **: output line
    state 105 (switch core (1), port line (2), departing, header private (1))
";
    let named = named();
    let states = ["pump in header 0", "core:line out header private"];
    expect(&[&["route", &named], &states[..]].concat(), b"", 0, words);
    expect(&["route", &named, "icu:pump in header 0", "1:2 out header 1"], b"", 0, words);
    expect(&["check", "--gate", &named], b"", 1, "start violated 0 4\n");
}

/// What comes to switch 1 is sent back with header 1.
const BACK: &str = "\
widths H 1 P 2 W 1
link 0:2 - 1:1
miss 0: output 1, output 2
miss 1: output 1, set 1, in_port
";

/// A frame goes back by `in_port` alone, and the number of that action is told.
#[test]
fn a_route_through_in_port() {
    let words = "\
route: found, 5 steps
    state 2 (switch 0, port 1, arriving, header 0)
    - line 3: miss 0: output 1, output 2 (action 2)
    state 20 (switch 0, port 2, departing, header 0)
    - line 2: link 0:2 - 1:1
    state 10 (switch 1, port 1, arriving, header 0)
    - line 4: miss 1: output 1, set 1, in_port (action 3)
    state 27 (switch 1, port 1, departing, header 1)
    - line 2: link 0:2 - 1:1
    state 5 (switch 0, port 2, arriving, header 1)
    - line 3: miss 0: output 1, output 2 (action 1)
    state 19 (switch 0, port 1, departing, header 1)
";
    let back = BACK.as_bytes();
    expect(&["route", "-", "0:1 in header 0", "0:1 out header 1"], back, 0, words);
    let ran = wegbaro(&["route", "--json", "-", "10", "27"], back);
    let by = r#""by":"miss 1: output 1, set 1, in_port (action 3)","by_record":3,"by_line":4"#;
    assert!(ran.text().contains(by), "{}", ran.text());
    let ran = wegbaro(&["route", "--dot", "-", "10", "27"], back);
    let line = "step 1: miss: output 1, set 1, in_port (action 3)\\l";
    assert!(ran.text().contains(line), "{}", ran.text());
    // An output to the port of arrival sends nothing.
    let none =
        "route: none, no frame gets from state 10 (switch 1, port 1, arriving, header 0) to \
                state 26 (switch 1, port 1, departing, header 0)\n";
    expect(&["route", "-", "10", "26"], back, 1, none);
}

/// Two wards, each with groups. The pump's frames go to port 2, and by group 2 through group 1, which
/// sets header 1, to ports 3 and 4.
const GROUPS: &str = "\
widths H 1 P 3 W 1
name switch 0 icu
name port icu:1 pump
name group icu/1 uplinks
link icu:4 - 1:4
miss icu: output drop
miss 1: group 0
rule icu priority 10 port pump: output 2, group 2
group icu/uplinks: output 3; output 4
group icu/2: set 1, group uplinks
group 1/0: output 5
";

/// Groups that a frame goes through are told behind the rule or the miss, with the number of the
/// bucket where there are several.
#[test]
fn a_route_through_groups() {
    let words = "\
route: found, 3 steps
    state 2 (switch icu (0), port pump (1), arriving, header 0)
    - line 8: rule icu priority 10 port pump header *: output 2, group 2 (action 2)
    - line 10: group icu/2: set 1, group uplinks
    - line 9: group icu/uplinks: output 3; output 4 (bucket 2)
    state 41 (switch icu (0), port 4, departing, header 1)
    - line 5: link icu:4 - 1:4
    state 25 (switch 1, port 4, arriving, header 1)
    - line 7: miss 1: group 0
    - line 11: group 1/0: output 5
    state 59 (switch 1, port 5, departing, header 1)
";
    let ward = GROUPS.as_bytes();
    expect(&["route", "-", "pump in header 0", "1:5 out header 1"], ward, 0, words);
    let object = r#""by":"rule icu priority 10 port pump header *: output 2, group 2 (action 2)","by_record":4,"by_line":8,"groups":[{"by":"group icu/2: set 1, group uplinks","by_record":6,"by_line":10},{"by":"group icu/uplinks: output 3; output 4 (bucket 2)","by_record":5,"by_line":9}]}"#;
    let ran = wegbaro(&["route", "--json", "-", "2", "59"], ward);
    assert!(ran.text().contains(object), "{}", ran.text());
    let lines = "step 1: rule priority 10 port pump header *: output 2, group 2 (action 2)\\l\
                 step 1: group 2: set 1, group uplinks\\l\
                 step 1: group uplinks: output 3; output 4 (bucket 2)\\l";
    let ran = wegbaro(&["route", "--dot", "-", "2", "59"], ward);
    assert!(ran.text().contains(lines), "{}", ran.text());
    let listed = "s0 [label=\"switch 0\\nicu\\nmiss: output drop\\l\
                  rule priority 10 port pump header *: output 2, group 2\\l\
                  group uplinks: output 3; output 4\\lgroup 2: set 1, group uplinks\\l\"];";
    let ran = wegbaro(&["picture", "--rules", "-"], ward);
    assert!(ran.text().contains(listed), "{}", ran.text());
}

#[test]
fn a_route_as_json() {
    let state = |number, switch, port, direction, by: &str| {
        format!(
            r#"{{"number":{number},"switch":{switch},"port":{port},"direction":"{direction}","header":0,"words":"switch {switch}, port {port}, {direction}, header 0"{by}}}"#
        )
    };
    let by = |words: &str, record, line| {
        format!(r#","by":"{words}","by_record":{record},"by_line":{line}"#)
    };
    let states = [
        state(2, 0, 1, "arriving", &by("rule 0 priority 10 port 1 header 0: output 2", 4, 8)),
        state(20, 0, 2, "departing", &by("link 0:2 - 1:1", 1, 3)),
        state(10, 1, 1, "arriving", &by("rule 1 priority 10 port 1 header *: output 2", 5, 9)),
        state(28, 1, 2, "departing", ""),
    ];
    let object = format!(
        r#"{{"subject":"route","answer":"found","route":[2,20,10,28],"states":[{}]}}"#,
        states.join(",")
    );
    expect(&["route", "--json", K, "2", "28"], b"", 0, &format!("{BEFORE_COMMANDS}{object}\n"));
}

#[test]
fn a_route_drawn() {
    let graph = r#"graph network {
    node [shape=box];
    s0 [label="switch 0\nstep 1: rule priority 10 port 1 header 0: output 2\l"];
    s1 [label="switch 1\nstep 3: rule priority 10 port 1 header *: output 2\l"];
    s0 -- s1 [label="0:2\n1:1\nstep 2, header 0", color=red, fontcolor=red, dir=forward];
    from [shape=plain, label="from state 2\nswitch 0, port 1, arriving, header 0"];
    from -- s0 [color=red, dir=forward];
    to [shape=plain, label="to state 28\nswitch 1, port 2, departing, header 0"];
    s1 -- to [color=red, dir=forward];
}
"#;
    expect(&["route", "--dot", K, "2", "28"], b"", 0, graph);
    let graph = r#"graph network {
    node [shape=box];
    s0 [label="switch 0\nicu"];
    s0p1 [shape=ellipse, label="1 pump"];
    s0 -- s0p1;
    s0p2 [shape=ellipse, label="2 line"];
    s0 -- s0p2;
    s1 [label="switch 1\ncore\nstep 2: rule priority 10 port 5 header **: output line\l"];
    s1p2 [shape=ellipse, label="2 line"];
    s1 -- s1p2;
    s0 -- s1 [label="icu:4\ncore:5\nstep 1, header private", color=red, fontcolor=red, dir=forward];
    from [shape=plain, label="from state 81\nswitch icu (0), port 4, departing, header private (1)"];
    from -- s0 [color=red, dir=forward];
    to [shape=plain, label="to state 105\nswitch core (1), port line (2), departing, header private (1)"];
    s1 -- to [color=red, dir=forward];
}
"#;
    expect(&["route", "--dot", &named(), "81", "core:2 out header 1"], b"", 0, graph);
}

/// A state that is not read is shown with a mark under it.
#[test]
fn faulty_states() {
    let k = "a state is its number, 0 to 31, or as `0:1 in header 0`, `0:1 out header 0`";
    for (states, column, message, hint) in [
        (["2", "32"], 3, "expected a state (0 to 31), found `32`", k),
        (["02", "28"], 1, "expected a state (0 to 31), found `02`", "a number has no leading zero"),
        (
            ["99999999999999999999", "28"],
            1,
            "expected a state (0 to 31), found `99999999999999999999`",
            k,
        ),
        (["2:1 in header 0", "28"], 1, "expected a switch (0 to 1), found `2`", k),
        (["0:4 in header 0", "28"], 3, "expected a port (0 to 3), found `4`", k),
        (["0:1 in header 2", "28"], 15, "expected a header (0 to 1), found `2`", k),
        (["0:1 in header *", "28"], 15, "expected a header (0 to 1), found `*`", k),
        (["0:1 header 0", "28"], 5, "expected `in` or `out`, found `header`", k),
        (["0:1 in", "28"], 8, "expected `header`, found `28`", k),
        (["2", "28 3"], 6, "expected the end of the statement, found `3`", k),
        (["2", ""], 2, "expected a state, found the end of the statement", k),
        (["", ""], 1, "expected two states on one line", k),
        (
            ["2", "\u{202e}28"],
            3,
            "the character `\\u{202e}` may not stand in a text",
            "it is not seen on a screen, or it hides what follows; take it out",
        ),
    ] {
        let ran =
            wegbaro(&[&["route", "-"], &states[..]].concat(), &wegbaro_tests::k::k().concat());
        assert_eq!((ran.status, ran.text()), (Some(2), ""), "{states:?}: {}", ran.said);
        let start = format!("FROM TO:1:{column}: {message}\n");
        assert!(ran.said.starts_with(&start), "{states:?}: {}", ran.said);
        assert!(ran.said.ends_with(&format!("\n  hint: {hint}\n")), "{states:?}: {}", ran.said);
    }
    let shown = "FROM TO:1:3: expected a state (0 to 31), found `32`\n    2 32\n      ^^\n";
    complains(&["route", K, "2", "32"], b"", 2, shown);
    complains(&["route", K, "2\n28", ""], b"", 2, "FROM TO:1:1: expected two states on one line\n");
    let named = named();
    complains(&["route", &named, "pmup in header 0", "2"], b"", 2, "hint: did you mean `pump`?");
    let several = "FROM TO:1:16: `odd` stands for several headers\n";
    complains(&["route", &named, "0:1 in header  odd", "2"], b"", 2, several);
    let elsewhere = "switch core has no port with the name `pump`";
    complains(&["route", &named, "core:pump in header 0", "2"], b"", 2, elsewhere);
    let mut bytes = program(&["route", K, "2"]);
    bytes.arg(OsStr::from_bytes(b"\xFF28"));
    let ran = run(bytes, b"");
    assert_eq!((ran.status, ran.text()), (Some(2), ""), "{}", ran.said);
    let object = r#"{"answer":"faulty","file":"FROM TO","line":1,"column":3,"message":"expected a state (0 to 31), found `32`""#;
    let ran = wegbaro(&["route", "--json", K, "2", "32"], b"");
    let start = format!("{BEFORE_COMMANDS}{object}");
    assert!(ran.status == Some(2) && ran.text().starts_with(&start), "{ran:?}");
}

#[test]
fn faulty_calls() {
    for call in [&["route"][..], &["route", K], &["route", K, "2"]] {
        complains(
            call,
            b"",
            2,
            "`route` takes FILE, FROM and TO (`wegbaro --help` has the calls)\n",
        );
    }
    complains(&["route", "--gate", K, "2", "28"], b"", 2, "`route` has no option `--gate`");
    let both = wegbaro(&["route", "--json", "--dot", K, "2", "28"], b"");
    let exclude = "--json and --dot exclude each other";
    assert!(both.status == Some(2) && both.said.starts_with(exclude), "{both:?}");
    complains(&["route", "no such file", "2", "28"], b"", 3, "no such file: No such file");
    complains(&["route", "-", "2", "28"], b"widths H 1\n", 2, "standard input:1:");
}

/// A network that is refused has no routes, whatever the states are.
#[test]
fn refused_networks() {
    let words = "route: refused: row 7, switch 1 has no miss, at the end of the network, after 3 \
                 records\n";
    expect(&["route", "-", "2", "28"], &k()[..3].concat(), 2, words);
    let object = r#"{"subject":"route","answer":"refused","row":7,"place":3,"cause":"switch 1 has no miss"}"#;
    expect(&["route", "--json", "-", "2", "28"], &k()[..3].concat(), 2, &format!("{object}\n"));
    let refused = "no picture, as the network is refused; `wegbaro check` tells why\n";
    complains(&["route", "--dot", "-", "2", "28"], &k()[..3].concat(), 2, refused);
    let none = "route: refused: row 1, there are no records\n  standard input\n";
    expect(&["route", "-", "2", "x"], b"", 2, none);
    let cut = &k().concat()[..470];
    expect(&["route", "-", "2", "28"], cut, 2, "end: the input ends within a record\n");
    let short = "no picture, as the input ends within a record\n";
    complains(&["route", "--dot", "-", "2", "28"], cut, 2, short);
}

/// The way by which a blocked command breaks a policy is the route in the network that the command
/// would leave: of two with as many steps the one with the smaller state.
#[test]
fn the_route_of_a_blocked_command() {
    let network = "\
widths H 1 P 3 W 1
link 0:2 - 1:2
link 0:3 - 1:3
miss 0: output drop
miss 1: output drop
rule 1 priority 1 port 2: output 4
rule 1 priority 1 port 3: output 4
policy 0: header 1 never leaves
";
    let blocked = "\
start: the network holds, no policy is broken
command 1 (add 0 priority 1 port 1 header *: output 3, output 2), line 9: blocked: policy 0, line 8, is broken by state 3 (switch 0, port 1, arriving, header 1)
    with Y = state 57 (switch 1, port 4, departing, header 1), by this way:
    - switch 0: in at port 1, out at port 2, header 1 (line 9: rule 0 priority 1 port 1 header *: output 3, output 2)
    - switch 1: in at port 2, out at port 4, header 1 (line 6: rule 1 priority 1 port 2 header *: output 4)
";
    let rule = "0 priority 1 port 1: output 3, output 2\n";
    expect(&["run", "-"], format!("{network}add {rule}").as_bytes(), 1, blocked);
    let ran = wegbaro(&["run", "--json", "-"], format!("{network}add {rule}").as_bytes());
    assert!(ran.text().contains(r#","route":[3,37,21,57],"reasons":["#), "{}", ran.text());
}

/// Every step of every route has a rule, a miss or a link that takes the frame on.
#[test]
fn routes_of_random_networks() {
    let mut random = seeded(14);
    let mut longest = 0;
    for of in all_widths().into_iter().filter(|of| of.bits() <= 8) {
        let records = random_network(&mut random, of, MODEST);
        let network = Network::new(&records).unwrap();
        for _ in 0..50 {
            let ends = [random.below(network.states()), random.below(network.states())];
            let Some(route) = find(&records, ends).unwrap() else { continue };
            assert_eq!([route[0], route[route.len() - 1]], ends);
            assert!(route.windows(2).all(|pair| network.steps(pair[0], pair[1])), "{route:?}");
            assert_eq!(network.walked(&route).unwrap().len(), route.len() - 1, "{route:?}");
            longest = longest.max(route.len());
        }
    }
    assert!(longest > 3, "{longest}");
}
