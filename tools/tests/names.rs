//! Names, wards, and single commands.

mod common;

use common::parsed;
use wegbaro_tools::fault::Fault;
use wegbaro_tools::parse::{parse, parse_command};
use wegbaro_tools::widths::Widths;

const NAMES: &str = "\
widths H 2 P 3 W 2
name switch 2 core
name switch 3 edge
name port core:3 pump
name port 1:5 pump
name port edge:2 server
name port 4 uplink
name header 1 urgent
name header 1* slow
name group core/3 uplinks
name group 1/5 uplinks
name group edge/0 pair
ward near: switch 0, 1:pump
ward far: edge, ward near, core:pump
";

/// Checks that statements with names give the records of those with numbers.
fn same(with_names: &str, with_numbers: &str) {
    let named = parsed(&format!("{NAMES}{with_names}\n")).bytes;
    let plain = parsed(&format!("widths H 2 P 3 W 2\n{with_numbers}\n")).bytes;
    assert_eq!(named, plain, "{with_names}");
}

#[test]
fn names_stand_for_numbers() {
    same("link core:uplink - edge:4", "link 2:4 - 3:4");
    same("link server - core:pump", "link 3:2 - 2:3");
    same("miss core: output pump", "miss 2: output 3");
    same("miss 1: output pump, set urgent, output drop", "miss 1: output 5, set 1, output 0");
    same(
        "rule core priority 7 port pump header urgent: set slow, output uplink",
        "rule 2 priority 7 port 3 header 1: set 1*, output 4",
    );
    same("miss core: set urgent, in_port, output pump", "miss 2: set 1, in_port, output 3");
    same("miss core: group uplinks, output pump", "miss 2: group 3, output 3");
    same("miss 1: set urgent, group uplinks", "miss 1: set 1, group 5");
    same(
        "group core/uplinks: output pump; set urgent, output uplink",
        "group 2/3: output 3; set 1, output 4",
    );
    same(
        "group core/4: set slow, group uplinks; output drop",
        "group 2/4: set 1*, group 3; output 0",
    );
    same("group pair: output server; output controller", "group 3/0: output 2; output 7");
    same("group 1/uplinks: output 010", "group 1/5: output 2");
    same("delete edge priority 7 port server header slow", "delete 3 priority 7 port 2 header 1*");
    same(
        "policy 0: switch(X) = core & port(X) != uplink & header(X) = urgent",
        "policy 0: switch(X) = 2 & port(X) != 4 & header(X) = 1",
    );
    same("policy 0: at(X, core:pump)", "policy 0: at(X, 2:3)");
    same("policy 0: at(X, server)", "policy 0: at(X, 3:2)");
    same("policy 0: at(X, core, near)", "policy 0: at(X, switch 2, switch 0, 1:5)");
    same("policy 0: at(X, ward far)", "policy 0: at(X, switch 3, switch 0, 1:5, 2:3)");
    same(
        "policy 0: far and 1:1 never meet",
        "policy 0: switch 3, switch 0, 1:5, 2:3 and 1:1 never meet",
    );
}

/// Checks the fault of a statement below the names.
fn fault(statement: &str, message: &str, hint: Option<&str>) {
    let text = format!("{NAMES}{statement}\n");
    let faults = parse(&text).unwrap_err();
    let told: Vec<String> = faults.iter().map(Fault::to_string).collect();
    assert_eq!(told, [format!("line 15, {message}")], "{statement}");
    assert_eq!(faults[0].hint.as_deref(), hint, "{statement}");
}

#[test]
fn names_that_do_not_fit() {
    fault(
        "miss edge: output pump",
        "column 19: switch edge has no port with the name `pump`",
        Some("`pump` is port 3 of switch core"),
    );
    fault(
        "policy 0: port(X) = server",
        "column 21: `server` is a port of one switch, not of every switch",
        Some("`server` is port 2 of switch edge"),
    );
    fault(
        "policy 0: at(X, pump)",
        "column 17: `pump` is a port of several switches",
        Some("write the switch, `:` and the name"),
    );
    fault(
        "miss cor: output drop",
        "column 6: expected a switch (0 to 3), found `cor`; there is no such name",
        Some("did you mean `core`?"),
    );
    fault(
        "policy 0: ward nea and switch 2 never meet",
        "column 16: expected a ward's name, found `nea`; there is no such name",
        Some("did you mean `near`?"),
    );
    fault(
        "miss edge: group uplinks",
        "column 18: switch edge has no group with the name `uplinks`",
        Some("`uplinks` is group 3 of switch core"),
    );
    fault(
        "group uplinks: output 1",
        "column 7: `uplinks` is a group of several switches",
        Some("write the switch, `/` and the name"),
    );
    fault(
        "group core/uplink: output 1",
        "column 12: expected a group (0 to 15), found `uplink`; this is a port",
        Some("did you mean `uplinks`?"),
    );
    fault(
        "miss core: group uplnks",
        "column 18: expected a group (0 to 15), found `uplnks`; there is no such name",
        Some("did you mean `uplinks`?"),
    );
    fault(
        "group core/3: group uplinks",
        "column 21: a bucket of group 3 goes on to lower groups alone",
        Some("this is group 3"),
    );
    fault("name group core/3 both", "column 19: this group has the name `uplinks` (line 10)", None);
    fault("name group core/4 uplinks", "column 19: the name `uplinks` is given in line 10", None);
    fault("name group 0/1 pump", "column 16: the name `pump` is given in line 4", None);
    fault("name port 1:1 pair", "column 15: the name `pair` is given in line 12", None);
    fault(
        "name group 0/1 Group",
        "column 16: `group` is a word of the language and cannot be a name",
        None,
    );
    fault("name group 3 pairs", "column 14: expected `/`, found `pairs`", None);
    fault("name switch 1 core", "column 15: the name `core` is given in line 2", None);
    fault("name port core:5 pump", "column 18: the name `pump` is given in line 4", None);
    fault("name switch 2 centre", "column 15: this switch has the name `core` (line 2)", None);
    fault("name port core:3 drip", "column 18: this port has the name `pump` (line 4)", None);
    fault(
        "name header 0 Exists",
        "column 15: `exists` is a word of the language and cannot be a name",
        None,
    );
    fault(
        "name port 1 In_Port",
        "column 13: `in_port` is a word of the language and cannot be a name",
        None,
    );
    fault(
        "name switch 0 Version",
        "column 15: `version` is a word of the language and cannot be a name",
        None,
    );
    for name in ["1st", "a*", "\"a\""] {
        let message = "expected a name (a letter, then letters, digits or `_`)";
        fault(
            &format!("name switch 0 {name}"),
            &format!("column 15: {message}, found `{name}`"),
            None,
        );
    }
    fault(
        "name rule 0 first",
        "column 6: expected `switch`, `port`, `header` or `group`, found `rule`",
        None,
    );
    fault("policy 0 \"\": E(X)", "column 10: a policy's name has 1 to 60 characters", None);
}

#[test]
fn names_of_numbers() {
    let text = format!("{NAMES}policy 0 \"no # loops\": no loops\npolicy 1: E(X)\n");
    let parsed = parsed(&text);
    let names = &parsed.names;
    assert_eq!([0, 2].map(|switch| names.switch(switch)), ["0", "core"]);
    let ports = [[2, 3], [1, 5], [0, 5], [0, 4], [0, 0], [0, 7], [3, 3]];
    let words = ["pump", "pump", "5", "uplink", "drop", "controller", "3"];
    assert_eq!(ports.map(|[switch, port]| names.port(switch, port)), words);
    assert_eq!([1, 2].map(|header| names.header(header)), ["urgent", "2"]);
    let groups = [[2, 3], [1, 5], [2, 5], [3, 0], [0, 0]];
    let words = ["uplinks", "uplinks", "5", "pair", "0"];
    assert_eq!(groups.map(|[switch, group]| names.group(switch, group)), words);
    assert_eq!([0, 1, 2].map(|policy| names.policy(policy)), [Some("no # loops"), None, None]);
    let policy = &parsed.policies[0];
    assert_eq!((policy.number, policy.line, policy.source.as_str()), (0, 15, "no loops"));
    assert_eq!(policy.name.as_deref(), Some("no # loops"));
    assert_eq!(parsed.policies[1].source, "E(X)");
}

#[test]
fn one_command() {
    let names = parsed(NAMES).names;
    let widths = Widths { h: 2, p: 3, w: 2 };
    let read = |line: &str| parse_command(line, widths, &names).map(|text| text.record);
    let text = format!("{NAMES}add core priority 1 port pump: set urgent, output uplink");
    let add = read("add core priority 1 port pump: set urgent, output uplink\n").unwrap();
    assert_eq!(parsed(&text).bytes[24..], add);
    let through = read("modify 1 priority 1: group uplinks").unwrap();
    assert_eq!(through[8..12], [1, 4, 5, 0]);
    assert_eq!(read("  delete edge priority 2 # gone").unwrap()[..3], [8, 3, 2]);
    let bytes = format!("bytes 09{}", " 00".repeat(23));
    assert_eq!(read(&bytes).unwrap()[0], 9);

    let fault = |line: &str| read(line).unwrap_err()[0].to_string();
    let command = "expected a command (add, modify, delete or bytes), found";
    assert_eq!(fault("rule 0 priority 1: output 1"), format!("line 1, column 1: {command} `rule`"));
    assert_eq!(fault("group 0/1: output 1"), format!("line 1, column 1: {command} `group`"));
    assert_eq!(fault(""), "line 1, column 1: expected one command");
    assert_eq!(
        fault("delete 0 priority 1\ndelete 0 priority 2"),
        "line 1, column 1: expected one command"
    );
    assert_eq!(fault("bytes 06 00"), "line 1, column 1: a record has 24 bytes, these are 2");
    assert_eq!(
        fault("add 0 priority 1\u{1}"),
        "line 1, column 17: the character `\\x01` may not stand in a text"
    );
    assert_eq!(fault("add 0 priority 1: output 9"), "line 1, column 26: expected a port pattern (0, 1 or *, 3 long) or a number to 7, found `9`");
}

/// A policy that is too long is split; its parts stand behind the last policy, with its name and line.
#[test]
fn policies_that_are_split() {
    let misses: String = (0..8).map(|switch| format!("miss {switch}: output drop\n")).collect();
    let links: String = (0..7).map(|it| format!("link {it}:2 - {}:4\n", it + 1)).collect();
    let ward = format!("widths H 1 P 3 W 3\n{links}{misses}");
    let long = "what enters at 0:1, 6:3 never reaches 7:1, 3:6, 4:5, 2:3";
    let text =
        format!("{ward}policy 0 \"apart\": {long}\npolicy 1: no loops\ndelete 0 priority 1\n");
    let whole = parsed(&text);
    let policies: Vec<(u8, Option<&str>, usize)> =
        whole.policies.iter().map(|it| (it.number, it.name.as_deref(), it.line)).collect();
    assert_eq!(policies[..3], [(0, Some("apart"), 17), (1, None, 18), (2, Some("apart"), 17)]);
    assert!(policies[3..].iter().all(|(_, name, line)| *name == Some("apart") && *line == 17));
    assert_eq!(whole.names.policy(2), Some("apart"));
    assert_eq!(whole.notes.len(), 1);
    let note = "line 17: policy 0 has ";
    assert!(
        whole.notes[0].starts_with(note) && whole.notes[0].contains("policy 2"),
        "{:?}",
        whole.notes
    );
    // Records and lines go together, and the command is last.
    let records: Vec<&[u8]> = whole.bytes.chunks(24).collect();
    assert_eq!(records.len(), whole.lines.len());
    for (record, line) in records.iter().zip(&whole.lines) {
        match record[..2] {
            [5, 1] => assert_eq!(*line, 18),
            [5, _] => assert_eq!(*line, 17),
            [8, _] => assert_eq!(*line, 19),
            _ => assert!(*line < 17),
        }
    }
    assert_eq!(records[records.len() - 1][0], 8);
    let numbers: Vec<u8> = records.iter().filter(|it| it[0] == 5).map(|it| it[1]).collect();
    assert!(numbers.windows(2).all(|pair| pair[1] == pair[0] || pair[1] == pair[0] + 1));

    // Without room for the parts it is a fault at the policy, and so is one that cannot be split.
    let others: String = (1..8).map(|number| format!("policy {number}: E(X)\n")).collect();
    let faults = parse(&format!("{ward}policy 0: {long}\n{others}")).unwrap_err();
    assert_eq!((faults.len(), faults[0].line, faults[0].column), (1, 17, 11));
    assert!(faults[0].message.contains("there would be more than 8"), "{}", faults[0]);
    let never = "what enters at 0:1, 6:3 reaches 7:1, 3:6, 4:5, 2:3, 1:6, 0:4, 5:5";
    let faults = parse(&format!("{ward}policy 0: {never}\n")).unwrap_err();
    assert!(faults[0].message.ends_with(" nodes; the most is 32"), "{}", faults[0]);
}

#[test]
fn policies_that_say_nothing() {
    let notes = |policy: &str| {
        parsed(&format!("widths H 1 P 2 W 0\nmiss 0: output 0\npolicy 0: {policy}\n")).notes
    };
    assert_eq!(
        notes("switch(X) = 0"),
        ["line 3: policy 0 is broken by every state, in any network"]
    );
    let nothing = ["line 3: policy 0 forbids nothing, in any network"];
    assert_eq!(notes("header(X) = 1 & header(X) = 0"), nothing);
    assert_eq!(notes("header(X) != *"), nothing);
    assert_eq!(notes("header(X) = 1"), Vec::<String>::new());
    assert_eq!(
        notes("header(X) = 1 & exists Y. loops(X)"),
        ["line 3: `exists Y` says nothing, as nothing in it is about Y"]
    );
    let text = "widths H 1 P 2 W 0\nmiss 0: output 0\npolicy 0 nodes: E X; BIT X 1; NOT 1\n";
    assert_eq!(parsed(text).notes, ["line 3: policy 0 has nodes that are no part of its last one"]);
}
