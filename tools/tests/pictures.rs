//! Pictures of a ward with paired uplinks: what Graphviz is given so that it draws what is meant.

mod running;

use running::wegbaro;

/// Sixteen switches: each ward's switch has two uplinks to one of two cores. A frame goes up by the
/// second uplink of switch 2, and comes down by the first of switch 3.
fn ward() -> String {
    let mut text = String::from("widths H 1 P 4 W 4\nname switch 0 core\nname port 2:1 pump\n");
    for ward in 0..14 {
        let (switch, core, port) = (ward + 2, ward / 7, ward % 7 * 2 + 1);
        text +=
            &format!("link {core}:{port} - {switch}:13\nlink {switch}:14 - {core}:{}\n", port + 1);
    }
    for switch in 0..16 {
        text += &format!("miss {switch}: output drop\n");
    }
    text + "rule 2 priority 1 port pump: output 14\nrule 0 priority 1 port 2: output 3\n\
            rule 3 priority 1: output 1\n"
}

/// The lines of a graph that draw a link between two switches.
fn links<'a>(graph: &'a str, ends: &str) -> Vec<&'a str> {
    graph.lines().map(str::trim).filter(|line| line.starts_with(ends)).collect()
}

/// The labels of links side by side are those that Graphviz keeps room for: none stands at an end.
#[test]
fn labels_do_not_overlap() {
    let ran = wegbaro(&["picture", "-"], ward().as_bytes());
    assert_eq!(ran.text().matches(" -- ").count(), 28 + 1);
    assert!(!ran.text().contains("taillabel") && !ran.text().contains("headlabel"));
    assert_eq!(links(ran.text(), "s0 -- s2 "), [r#"s0 -- s2 [label="core:1\n2:13"];"#]);
    assert_eq!(links(ran.text(), "s2 -- s0 "), [r#"s2 -- s0 [label="2:14\ncore:2"];"#]);
}

#[test]
fn named_external_ports() {
    let graph = wegbaro(&["picture", "-"], ward().as_bytes()).text().to_string();
    let pump = "    s2p1 [shape=ellipse, label=\"1 pump\"];\n    s2 -- s2p1;\n";
    assert!(graph.contains(pump), "{graph}");
    // A port that a link ends at is named there alone.
    let linked = ward().replace("name port 2:1 pump", "name port 2:1 pump\nname port 2:13 up");
    let graph = wegbaro(&["picture", "-"], linked.as_bytes()).text().to_string();
    assert!(graph.contains("2:13 up") && !graph.contains("s2p13"), "{graph}");
}

/// A route colours the links that it takes, each in the direction that it takes it, and draws no
/// others beside them.
#[test]
fn a_route_over_one_of_two_links() {
    let states = ["pump in header 0", "3:1 out header 0"];
    let ran = wegbaro(&[&["route", "--dot", "-"], &states[..]].concat(), ward().as_bytes());
    let graph = ran.text();
    let red = "color=red, fontcolor=red";
    assert_eq!(links(graph, "s0 -- s2 "), [r#"s0 -- s2 [label="core:1\n2:13"];"#]);
    assert_eq!(
        links(graph, "s2 -- s0 "),
        [format!(r#"s2 -- s0 [label="2:14\ncore:2\nstep 2, header 0", {red}, dir=forward];"#)]
    );
    assert_eq!(
        links(graph, "s0 -- s3 "),
        [format!(r#"s0 -- s3 [label="core:3\n3:13\nstep 4, header 0", {red}, dir=forward];"#)]
    );
    // The 28 links, the pump's port, the start and the end.
    assert_eq!(graph.matches(" -- ").count(), 28 + 1 + 2);
    // Against the order of the link's statement, and both ways.
    let back =
        "widths H 1 P 2 W 1\nlink 0:2 - 1:1\nmiss 0: output 1, output 2\nmiss 1: set 1, in_port\n";
    let drawn = |from: &str, to: &str| {
        let ran = wegbaro(&["route", "--dot", "-", from, to], back.as_bytes());
        links(ran.text(), "s0 -- s1 ").concat()
    };
    let one = drawn("1:1 in header 0", "0:1 out header 1");
    assert!(one.ends_with("step 2, header 1\", color=red, fontcolor=red, dir=back];"), "{one}");
    let both = drawn("0:1 in header 0", "0:1 out header 1");
    let steps = "step 2, header 0\\nstep 4, header 1\", color=red, fontcolor=red, dir=both];";
    assert!(both.ends_with(steps), "{both}");
}
