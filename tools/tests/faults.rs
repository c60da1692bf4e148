//! Where a fault is found, and what is said of it.

use wegbaro_tools::fault::Fault;
use wegbaro_tools::parse::parse;

/// Checks the fault of a text.
fn fault(text: &str, message: &str) {
    match parse(text) {
        Ok(_) => panic!("no fault in\n{text}"),
        Err(faults) => {
            let told: Vec<String> = faults.iter().map(Fault::to_string).collect();
            assert_eq!(told, [message], "in\n{text}");
        }
    }
}

/// Checks the fault of a statement that stands on line 2, after widths H 2, P 2, W 1.
fn second_line(statement: &str, message: &str) {
    fault(&format!("widths H 2 P 2 W 1\n{statement}\n"), message);
}

#[test]
fn statements() {
    fault(
        "# K\nwidth H 1",
        "line 2, column 1: expected a statement (widths, name, ward, link, miss, rule, policy, \
         group, add, modify, delete or bytes), found `width`",
    );
    fault("link 0:1 - 0:2", "line 1, column 1: expected `widths` before this statement");
    fault("widths H 1 P 2", "line 1, column 15: expected `W`, found the end of the statement");
    fault("widths H 7", "line 1, column 10: expected the header width (1 to 6), found `7`");
    let limits = "the limits are H 1 to 6, P 2 to 4, W 0 to 4, and 1 + H + P + W at most 10";
    fault("widths H 4 P 4 W 2", &format!("line 1, column 1: {limits}"));
    second_line("link 0:1 @ 1:1", "line 2, column 10: `@` has no meaning here");
    second_line("link 0:1 1:1", "line 2, column 10: expected `-`, found `1`");
    second_line("link 0:1 - 2:1", "line 2, column 12: expected a switch (0 to 1), found `2`");
    second_line("link 0:1 - 1:4", "line 2, column 14: expected a port (0 to 3), found `4`");
    second_line(
        "link 0:1 - 1:1 link",
        "line 2, column 16: expected the end of the statement, found `link`",
    );
    second_line(
        "miss 0:\n  # more\n  outpt 0",
        "line 4, column 3: expected an action (`output`, `set`, `in_port` or `group`), found \
         `outpt`",
    );
    second_line(
        "bytes 06 1",
        "line 2, column 10: expected a byte as two hexadecimal digits, found `1`",
    );
    second_line(
        "bytes",
        "line 2, column 6: expected a byte as two hexadecimal digits, found the end of the \
         statement",
    );
    second_line(
        "bytes 06\nmiss 0: output 0",
        "line 3, column 1: only the last statement may have fewer than 24 bytes",
    );
}

#[test]
fn versions() {
    let widths = |end: &str, message: &str| {
        fault(&format!("widths H 1 P 2 W 1 {end}"), &format!("line 1, column {message}"));
    };
    let version = "a version (1 for OpenFlow 1.0, or 4 for OpenFlow 1.3)";
    for wrong in ["2", "3", "5", "255", "256", "01", "04", "X"] {
        widths(&format!("version {wrong}"), &format!("28: expected {version}, found `{wrong}`"));
    }
    widths("version", &format!("27: expected {version}, found the end of the statement"));
    widths("version 1 4", "30: expected the end of the statement, found `4`");
    widths("1", "20: expected `version` or the end of the statement, found `1`");
    fault("widths H 1 P 2 version 1", "line 1, column 16: expected `W`, found `version`");
    let limits = "the limits are H 1 to 6, P 2 to 4, W 0 to 4, and 1 + H + P + W at most 10";
    fault("widths H 4 P 4 W 2 version 1", &format!("line 1, column 1: {limits}"));

    let hint = |end: &str, column: usize, hint: &str| {
        let faults = parse(&format!("widths H 1 P 2 W 1 {end}")).unwrap_err();
        assert_eq!((faults.len(), faults[0].column), (1, column), "{}", faults[0]);
        assert_eq!(faults[0].hint.as_deref(), Some(hint), "{}", faults[0]);
    };
    let wire = "it is the version on the wire: 1 for OpenFlow 1.0, 4 for OpenFlow 1.3";
    hint("version 1.0", 29, wire);
    hint("version 1.3", 29, wire);
    hint("Version 1", 20, "did you mean `version`?");
    hint("verson 1", 20, "did you mean `version`?");
}

#[test]
fn rules_and_commands() {
    second_line("rule 0 port 1", "line 2, column 8: expected `priority`, found `port`");
    second_line(
        "rule 0 priority 65536",
        "line 2, column 17: expected a priority (0 to 65535), found `65536`",
    );
    second_line(
        "add 0 priority 1 port 001: output 1",
        "line 2, column 23: expected a port pattern (0, 1 or *, 2 long) or a number \
         to 3, found `001`",
    );
    second_line(
        "add 0 priority 1 header 1x: output 1",
        "line 2, column 25: expected a header pattern (0, 1 or *, 2 long) or a number \
         to 3, found `1x`",
    );
    second_line(
        "add 0 priority 1: output 4",
        "line 2, column 26: expected a port pattern (0, 1 or *, 2 long) or a number \
         to 3, found `4`",
    );
    second_line(
        "add 0 priority 1",
        "line 2, column 17: expected `:`, found the end of the statement",
    );
    second_line(
        "delete 0 priority 1: output 1",
        "line 2, column 20: expected the end of the statement, found `:`",
    );
    second_line(
        "modify 0 priority 1: output 1, set 1*",
        "line 2, column 32: the last action must be `output`, `in_port` or `group`",
    );
    second_line(
        "miss 0: in_port, set 1",
        "line 2, column 18: the last action must be `output`, `in_port` or `group`",
    );
    second_line(
        "miss 0: output 1, in_port 1",
        "line 2, column 27: expected `,` or the end of the statement, found `1`",
    );
    second_line(
        "miss 0: output in_port",
        "line 2, column 16: expected a port pattern (0, 1 or *, 2 long) or a number \
         to 3, found `in_port`",
    );
    second_line(
        "miss 0: in_port, in_port, in_port, in_port, in_port",
        "line 2, column 45: there are more than 4 actions",
    );
    second_line(
        "miss 0: output 1, output 1, output 1, output 1, output 1",
        "line 2, column 49: there are more than 4 actions",
    );
    // A number has no leading zero, so that a pattern cut short is not read as one.
    fault(
        "widths H 2 P 4 W 1\nmiss 0: output 010",
        "line 2, column 16: expected a port pattern (0, 1 or *, 4 long) or a number \
         to 15, found `010`",
    );
}

#[test]
fn groups() {
    second_line("group 0", "line 2, column 8: expected `/`, found the end of the statement");
    second_line("group 0:1: output 1", "line 2, column 8: expected `/`, found `:`");
    second_line("group 2/1: output 1", "line 2, column 7: expected a switch (0 to 1), found `2`");
    second_line("group 0/16: output 1", "line 2, column 9: expected a group (0 to 15), found `16`");
    second_line("group 0/01: output 1", "line 2, column 9: expected a group (0 to 15), found `01`");
    second_line("group 0/1 output 1", "line 2, column 11: expected `:`, found `output`");
    let bucket = "expected a bucket (`set`, `output` or `group`), found";
    second_line("group 0/1:", &format!("line 2, column 11: {bucket} the end of the statement"));
    second_line(
        "group 0/1: output 1;",
        &format!("line 2, column 21: {bucket} the end of the statement"),
    );
    second_line(
        "group 0/1: set 1, set 1, output 1",
        "line 2, column 19: expected `output` or `group`, found `set`",
    );
    second_line("group 0/1: in_port", &format!("line 2, column 12: {bucket} `in_port`"));
    second_line(
        "group 0/1: set 1*",
        "line 2, column 18: expected `,`, found the end of the statement",
    );
    second_line("group 0/1: set 1*; output 1", "line 2, column 18: expected `,`, found `;`");
    second_line(
        "group 0/1: output 4",
        "line 2, column 19: expected a port pattern (0, 1 or *, 2 long) or a number to 3, found `4`",
    );
    let star = "a bucket sends to one port, and this pattern has a star";
    second_line("group 0/1: output 1; output **", &format!("line 2, column 29: {star}"));
    second_line("group 0/1: output 1*", &format!("line 2, column 19: {star}"));
    for higher in ["3", "4", "15"] {
        let lower = "a bucket of group 3 goes on to lower groups alone";
        second_line(
            &format!("group 0/3: output 1; group {higher}"),
            &format!("line 2, column 28: {lower}"),
        );
    }
    second_line(
        "group 0/1: output 1; output 1; output 1; output 1",
        "line 2, column 42: there are more than 3 buckets",
    );
    second_line(
        "group 0/1: output 1, output 2",
        "line 2, column 20: expected `;` or the end of the statement, found `,`",
    );
    second_line(
        "group 0/1: output 1 output 2",
        "line 2, column 21: expected the end of the statement, found `output`",
    );
    second_line("miss 0: group 16", "line 2, column 15: expected a group (0 to 15), found `16`");
    second_line(
        "miss 0: group",
        "line 2, column 14: expected a group (0 to 15), found the end of the statement",
    );
    second_line(
        "miss 0: group 0/1",
        "line 2, column 16: expected the end of the statement, found `/`",
    );
    second_line(
        "miss 0: group 1, set 1",
        "line 2, column 18: the last action must be `output`, `in_port` or `group`",
    );
    let lower = parse("widths H 2 P 2 W 1\ngroup 0/2: group 1; group 0; set 1, group 1\n");
    assert_eq!(
        lower.unwrap().bytes[24..45],
        [9, 0, 2, 0, 0, 0, 0, 0, 3, 0, 0, 2, 1, 0, 0, 2, 0, 1, 3, 2, 1]
    );
}

#[test]
fn policies() {
    second_line(
        "policy 8: E(X)",
        "line 2, column 8: expected the number of a policy (0 to 7), found `8`",
    );
    second_line("policy 0: E(Z)", "line 2, column 13: expected a variable, `X` or `Y`, found `Z`");
    second_line("policy 0: E(X) &\n  & E(X)", "line 3, column 3: expected a formula, found `&`");
    second_line("policy 0: (E(X)", "line 2, column 11: this parenthesis is not closed");
    second_line("policy 0: exists Y E(Y)", "line 2, column 20: expected `.`, found `E`");
    second_line(
        "policy 0: bit(X,6)",
        "line 2, column 17: expected a bit of a state (0 to 5), found `6`",
    );
    second_line(
        "policy 0: tc(R(X,Y))",
        "line 2, column 21: expected `(`, found the end of the statement",
    );
    second_line(
        "policy 0: E(X) & R(X,Y)",
        "line 2, column 11: Y is free in this policy; only X may be",
    );
    second_line(
        "policy 0: exists X. tc(R(X,Y))(Y,Y)",
        "line 2, column 11: Y is free in this policy; only X may be",
    );
    second_line(
        "policy 0 nodes: E X; NOR 0",
        "line 2, column 22: expected a node (BIT, R, E, NOT, AND, OR, SOME, ALL, TC), \
         found `NOR`",
    );
    second_line(
        "policy 0 nodes: NOT 256",
        "line 2, column 21: expected the number of a node (0 to 255), found `256`",
    );
    let deep = format!("policy 0: {}E(X)", "!".repeat(100_000));
    second_line(&deep, "line 2, column 111: the formula is nested too deep");
}

#[test]
fn columns_count_characters() {
    fault("widths H 1 P 2 W 1 # ä\n\u{e4}", "line 2, column 1: `ä` has no meaning here");
    second_line(
        "\tlink",
        "line 2, column 2: expected `version` or the end of the statement, found `link`",
    );
}

/// The hint of the one fault of a statement on line 2.
fn hinted(statement: &str, column: usize, hint: &str) {
    let text = format!("widths H 2 P 2 W 1\n{statement}\n");
    let faults = parse(&text).unwrap_err();
    assert_eq!(faults.len(), 1, "{faults:?}");
    assert_eq!((faults[0].line, faults[0].column), (2, column), "{}", faults[0]);
    assert_eq!(faults[0].hint.as_deref(), Some(hint), "{}", faults[0]);
}

#[test]
fn hints() {
    hinted("lnik 0:1 - 1:1", 1, "did you mean `link`?");
    hinted("miss 0: outpt 1", 9, "did you mean `output`?");
    hinted("miss 0: IN_PORT", 9, "did you mean `in_port`?");
    hinted("miss 0: inport", 9, "did you mean `in_port`?");
    let alone = "`in_port` stands alone: it sends back to where the frame arrived";
    hinted("miss 0: in_port 1", 17, alone);
    hinted("miss 0: in_port output 1", 17, alone);
    let its_own = "`in_port` is an action of its own, without `output`";
    hinted("miss 0: output in_port", 16, its_own);
    hinted("miss 0: groop 1", 9, "did you mean `group`?");
    hinted("group 0/1: outptu 1", 12, "did you mean `output`?");
    let never_back = "no bucket sends a frame back; `in_port` is an action of a rule";
    hinted("group 0/1: output 1; in_port", 22, never_back);
    hinted("group 0/1: output in_port", 19, never_back);
    hinted("group 0/1: set 1, in_port", 19, never_back);
    let next = "a bucket ends with its `output` or `group`; the next stands behind `;`";
    hinted("group 0/1: output 1, output 2", 20, next);
    hinted("group 0/1: group 0, group 0", 19, next);
    hinted("group 0/1: output *1", 19, "write a bucket for each port");
    hinted("group 0/1: group 2", 18, "this is group 2");
    let more = "a bucket may go on to a lower group, which has buckets of its own";
    hinted("group 0/1: output 1; output 1; output 1; output 1", 42, more);
    hinted("policy 0: E(X) && E(X)", 16, "write `&` or `and`");
    hinted("policy 0: E(X) || E(X)", 16, "write `|` or `or`");
    hinted("policy 0: (E(X) || E(X))", 17, "write `|` or `or`");
    hinted("policy 0: E(X) -> E(X)", 16, "write `!a | b` for `a -> b`");
    hinted("policy 0: TC(R(X,Y))(X,X)", 11, "did you mean `tc`?");
    hinted("policy 0: NOT E(X)", 11, "did you mean `not`?");
    hinted("policy 0: E(X) AND E(X)", 16, "did you mean `and`?");
    hinted("policy 0: ariving(X)", 11, "did you mean `arriving`?");
    hinted("policy 0: nothin from 0:1 is dropped", 11, "did you mean `nothing`?");
    hinted("policy 0: E(x)", 13, "write `X`");
    hinted("policy 0: R(X,y)", 15, "write `Y`");
    hinted("policy 0: header(X) == 1", 21, "write `=`");
    hinted("policy 0: port(X) <> 1", 19, "write `!=`");
    hinted("policy 0: (E(X) E(X))", 17, "the parenthesis was opened in line 2, column 11");
    let parts = "put parentheses round the parts that belong together";
    hinted("policy 0: E(X) & E(X) | E(X)", 23, parts);
    hinted("policy 0: exists Y. E(Y) or E(X) and E(X)", 34, parts);
    let far = "a quantifier reaches to the end; put it, or what it is about, in parentheses";
    hinted("policy 0: E(X) & exists Y. E(Y) | E(X)", 33, far);
    hinted("policy 0: E(X) | !forall Y. E(Y) & E(X)", 34, far);
}

#[test]
fn parentheses() {
    second_line("policy 0: (E(X) & (E(X))", "line 2, column 11: this parenthesis is not closed");
    second_line("policy 0: tc(R(X,Y)", "line 2, column 13: this parenthesis is not closed");
    second_line("policy 0: exists Y. R(X,Y", "line 2, column 22: this parenthesis is not closed");
    second_line("policy 0: E(X))", "line 2, column 15: this parenthesis was not opened");
}

/// Checks a fault that names an earlier line.
fn against_earlier(text: &str, earlier: usize, message: &str) {
    let faults = parse(text).unwrap_err();
    let told: Vec<String> = faults.iter().map(Fault::to_string).collect();
    assert_eq!(told, [message], "in\n{text}");
    assert_eq!(faults[0].earlier, Some(earlier));
    let shown = faults[0].show("ward", text);
    assert!(shown.contains(&format!("  earlier: ward:{earlier}:\n")), "{shown}");
}

const ONE: &str = "widths H 1 P 2 W 0\nmiss 0: output 0\n";

/// Statements that would mean something else than they say.
#[test]
fn statements_against_earlier_ones() {
    against_earlier(
        &format!("{ONE}policy 0: E(X) & !E(X)\npolicy 0: E(X)\n"),
        3,
        "line 4, column 8: policy 0 is given already, in line 3",
    );
    against_earlier(
        &format!("{ONE}policy 0: E(X)\n\npolicy 2: E(X)\n"),
        3,
        "line 5, column 8: policy 2 stands after policy 0 (line 3), where 1 is next",
    );
    against_earlier(
        &format!("{ONE}policy 0 \"a\": E(X)\npolicy 1 \"a\": E(X)\n"),
        3,
        "line 4, column 10: policy 0 has this name (line 3)",
    );
    let node = format!("bytes 05 00 02{}", " 00".repeat(21));
    against_earlier(
        &format!("{ONE}policy 0: E(X)\n{node}\n"),
        3,
        "line 4, column 1: these bytes would go on with policy 0 of line 3",
    );
    against_earlier(
        &format!("{ONE}{node}\npolicy 0: E(X)\n"),
        3,
        "line 4, column 8: policy 0 is given already, in line 3",
    );
    let third = format!("bytes 05 03 02{}", " 00".repeat(21));
    against_earlier(
        &format!("{ONE}{third}\npolicy 4 \"a\": E(X)\npolicy 5 \"a\": E(X)\n"),
        4,
        "line 5, column 10: policy 4 has this name (line 4)",
    );
    against_earlier(
        &format!("{ONE}add 0 priority 1: output 0\npolicy 0: E(X)\n"),
        3,
        "line 4, column 1: `policy` stands after a command (line 3)",
    );
    against_earlier(
        &format!("{ONE}delete 0 priority 1\ngroup 0/1: output 0\n"),
        3,
        "line 4, column 1: `group` stands after a command (line 3)",
    );
    against_earlier(
        &format!("{ONE}widths H 1 P 3 W 0\n"),
        1,
        "line 3, column 1: the widths are given already, in line 1",
    );
    // A comment was put before the first of two lines.
    against_earlier(
        &format!("{ONE}delete 0 priority 1\n# delete 0 priority 2\n  port 1\n"),
        3,
        "line 5, column 3: this line starts with a space, but the line before it is no statement",
    );
    against_earlier(
        &format!("{ONE}delete 0 priority 1\n\n  port 1\n"),
        3,
        "line 5, column 3: this line starts with a space, but the line before it is no statement",
    );
    fault(&format!("{ONE}policy 1: E(X)\n"), "line 3, column 8: the first policy has the number 0");
}

#[test]
fn numbers_and_patterns() {
    second_line(
        "rule 01 priority 1: output 0",
        "line 2, column 6: expected a switch (0 to 1), found `01`",
    );
    second_line(
        "policy 0: switch(X) = 01",
        "line 2, column 23: expected a switch (0 to 1), found `01`",
    );
    let notes = |statement: &str, p: u8| {
        parse(&format!("widths H 1 P {p} W 0\n{statement}\n")).unwrap().notes
    };
    for (word, port) in [("10", 2), ("11", 3)] {
        let statements = format!("miss 0: output {word}\nadd 0 priority 1 port {word}: output 1");
        let note = format!(
            "line 2: `{word}` is read as two bits, port {port}; the number {port} is plainer, as \
             `{word}` is a number in a ward with more port bits"
        );
        assert_eq!(notes(&statements, 2), [note]);
    }
    for (statement, p) in
        [("miss 0: output 2", 2), ("miss 0: output 01", 2), ("miss 0: output 10", 4)]
    {
        assert_eq!(notes(statement, p), Vec::<String>::new());
    }
}

/// An output to the one port that its rule is for is told, in every line.
#[test]
fn outputs_that_send_nothing() {
    let notes = |statements: &str| {
        parse(&format!("widths H 1 P 3 W 1\nname port 1:4 pump\n{statements}\n")).unwrap().notes
    };
    let note = |line: usize, port: &str| {
        format!(
            "line {line}: `output {port}` sends nothing here, as the rule is for frames that \
             arrive at this port, and an output never sends a frame back to where it came from; \
             `in_port` does"
        )
    };
    assert_eq!(notes("rule 0 priority 1 port 4: output 4"), [note(3, "4")]);
    assert_eq!(notes("add 1 priority 1 port 4: set 1, output 100, in_port"), [note(3, "pump")]);
    assert_eq!(
        notes("rule 0 priority 1 port 7: output 7\nmodify 0 priority 1 port 7:\n  output 7"),
        [note(3, "controller"), note(4, "controller")]
    );
    for fine in [
        "rule 0 priority 1 port 4: in_port",
        "rule 0 priority 1 port 4: output 5, output 10*, output ***",
        "rule 0 priority 1 port 10*: output 4, output 10*",
        "rule 0 priority 1: output 0",
        "rule 0 priority 1 port 4: set 0, output 0",
        "miss 0: output 4",
        "delete 0 priority 1 port 4",
    ] {
        assert_eq!(notes(fine), Vec::<String>::new(), "{fine}");
    }
}

/// Each statement is read whatever is wrong with the others, up to twenty faults.
#[test]
fn several_faults() {
    let text = format!("{ONE}miss\nrule 0: output 0\n\u{7}\npolicy 0: E(Z)\npolicy 1: E(X)\nno\n");
    let places: Vec<[usize; 2]> =
        parse(&text).unwrap_err().iter().map(|fault| [fault.line, fault.column]).collect();
    assert_eq!(places, [[3, 5], [4, 7], [5, 1], [6, 13], [8, 1]]);
    let many = format!("{ONE}{}", "link\n".repeat(50));
    let lines: Vec<usize> = parse(&many).unwrap_err().iter().map(|fault| fault.line).collect();
    assert_eq!(lines, (3..23).collect::<Vec<usize>>());
    // Without the widths, no more is said of what needs them.
    let places = |text: &str| parse(text).unwrap_err().len();
    assert_eq!(places("widths H 9\nlink 0:1 - 0:2\npolicy 0: E(Z)\nlnik\n"), 2);
    assert_eq!(places("link 0:1 - 0:2\npolicy 0: E(Z)\nmiss 0: output 0\n"), 1);
    // A name that a faulty statement would have given is not missed again.
    let names =
        "name switch 9 core\nward far: switch 9\nmiss core: output 0\npolicy 0: at(X, far)\n";
    assert_eq!(places(&format!("{ONE}{names}miss cora: output 0\n")), 3);
}

#[test]
fn faults_are_shown_with_their_line() {
    let shown = |text: &str| -> String {
        parse(text).unwrap_err().iter().map(|fault| fault.show("a ward", text)).collect()
    };
    assert_eq!(
        shown("widths H 1 P 2 W 1\nlink 0:1\t- 2:1 # to the core\n"),
        "a ward:2:12: expected a switch (0 to 1), found `2`\n    \
             link 0:1 - 2:1 # to the core\n               \
                        ^\n"
    );
    assert_eq!(
        shown("widths H 1 P 2 W 1\npolicy 0: TC\n"),
        "a ward:2:11: expected a formula, found `TC`\n    policy 0: TC\n              ^^\n  \
         hint: did you mean `tc`?\n"
    );
    // No control character gets through, neither from the text nor from the file's name.
    let bell = "widths H 1\u{7} P 2\n";
    let fault = &parse(bell).unwrap_err()[0];
    assert_eq!(
        fault.show("a\u{1b}[2J", bell),
        "a\\x1b[2J:1:11: the character `\\x07` may not stand in a text\n    \
         widths H 1\\x07 P 2\n              ^\n  \
         hint: it is not seen on a screen, or it hides what follows; take it out\n"
    );
    let hidden = ["# \u{202e}\n", "# a\rwidths\n", "widths\u{a0}H\n", "\u{200b}widths\n"];
    for text in hidden {
        assert!(!parse(text).unwrap_err().is_empty(), "{text:?}");
        assert!(shown(text).chars().all(|c| c == '\n' || !c.is_control()), "{}", shown(text));
    }
    // A word of a megabyte is cut, and so is its line, also round a column far to the right.
    let long = "a".repeat(1_000_000);
    for text in [format!("{long}\n"), format!("widths{}{long}\n", " ".repeat(10_000))] {
        let shown = shown(&text);
        assert!(shown.len() < 600, "{} bytes", shown.len());
        assert!(shown.contains("aaa…") && shown.contains('^'), "{shown}");
    }
}
