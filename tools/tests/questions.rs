//! Questions about the network after commands: `route --after`, and those of a session.

mod running;

use running::{complains, expect, file, wegbaro, K};

/// A frame that enters at 0:1 leaves at 0:2 once the second command is forwarded; the first is
/// blocked.
const WARD: &str = "\
widths H 1 P 3 W 0
name port 0:1 pump
name port 0:2 server
miss 0: output drop
policy 0 \"inside\": what enters at pump never reaches 0:3
add 0 priority 5 port pump: output 3
add 0 priority 5 port pump: output server
delete 0 priority 5 port pump
";

fn ward() -> String {
    file("questions", WARD.as_bytes())
}

const NONE: &str = "route: none, no frame gets from state 2 (switch 0, port pump (1), arriving, \
                    header 0) to state 20 (switch 0, port server (2), departing, header 0)\n";

const FOUND: &str = "\
route: found, 1 step
    state 2 (switch 0, port pump (1), arriving, header 0)
    - line 7: rule 0 priority 5 port pump header *: output server
    state 20 (switch 0, port server (2), departing, header 0)
";

#[test]
fn routes_after_commands() {
    let ward = ward();
    let ends = ["pump in header 0", "0:server out header 0"];
    for (after, status, words, forwarded) in
        [("0", 1, NONE, 0), ("1", 1, NONE, 0), ("2", 0, FOUND, 1), ("3", 1, NONE, 2)]
    {
        let ran = wegbaro(&[&["route", "--after", after, &ward], &ends[..]].concat(), b"");
        assert_eq!((ran.status, ran.text()), (Some(status), words), "{after}");
        let note = format!(
            "note: the route is that of the network after {after} of the file's 3 commands, of \
             which {forwarded} were forwarded\n"
        );
        assert_eq!(ran.said, note);
    }
    let ran = wegbaro(&["route", "--after", "2", "--dot", &ward, "2", "20"], b"");
    assert!(ran.text().contains("step 1: rule priority 5 port pump"), "{}", ran.text());
    let most = "--after is 0 to 3, the file's commands";
    complains(&["route", "--after", "4", &ward, "2", "20"], b"", 2, most);
    complains(&["check", "--after", "1", &ward], b"", 2, "`check` has no option `--after`");
    // Commands are judged only if the network holds.
    let broken = WARD.replace("miss 0: output drop", "miss 0: output 3");
    let holds = "--after: the network does not hold, so that its commands are not judged";
    complains(&["route", "--after", "1", "-", "2", "20"], broken.as_bytes(), 2, holds);
    let refused = WARD.replace("miss 0: output drop\n", "");
    let ran = wegbaro(&["route", "--after", "1", "-", "2", "20"], refused.as_bytes());
    assert!(ran.text().starts_with("route: refused: row 7"), "{}", ran.text());
}

/// Questions are answered from the network as it stands, are no commands, and change nothing.
#[test]
fn questions_of_a_session() {
    let ward = file("session-questions", WARD.split("add").next().unwrap().as_bytes());
    let input = "\
show
route pump in header 0 server out header 0
check
add 0 priority 5 port pump: output server
route pump in header 0
    server out header 0
show
check # once more
add 0 priority 6 port pump: output 3
delete 0 priority 5 port pump

route 2 20
";
    let shown = "    line 1: widths H 1 P 3 W 0\n    line 4: miss 0: output drop\n";
    let rule = "    command 1: rule 0 priority 5 port pump header *: output server\n";
    let policy = "    line 5: policy 0 \"inside\": what enters at pump never reaches 0:3\n";
    let ran = wegbaro(&["session", &ward], input.as_bytes());
    let answers: Vec<&str> = ran.text().split_inclusive('\n').collect();
    let text = answers.concat();
    let records = |words: &str| -> usize {
        let rest = text.split_once(words).expect(words).1;
        rest.split(' ').next().unwrap().parse().unwrap()
    };
    let count = records("show: ");
    let found = FOUND.replace("line 7", "command 1");
    let expected = format!(
        "start: the network holds, no policy is broken\n\
         show: {count} records\n{shown}{policy}{NONE}\
         check: the network holds, it has {count} records\n\
         command 1 (add 0 priority 5 port pump header *: output server): forwarded, the network \
         then has {} records\n{found}\
         show: {} records\n{shown}{rule}{policy}\
         check: the network holds, it has {} records\n\
         command 2 (add 0 priority 6 port pump header *: output 3): blocked",
        count + 1,
        count + 1,
        count + 1
    );
    assert!(text.starts_with(&expected), "{text}\n{expected}");
    let end = format!("the network then has {count} records\n{NONE}");
    assert!(text.contains("\ncommand 3 (delete") && text.ends_with(&end), "{text}");
    assert_eq!((ran.status, ran.said.as_str()), (Some(1), ""));
}

/// What a question answers is no part of the exit status, but a faulty one is.
#[test]
fn statuses_and_faults() {
    let ward = file("question-faults", WARD.split("add").next().unwrap().as_bytes());
    assert_eq!(wegbaro(&["session", &ward], b"route 2 20\n").status, Some(0));
    let start = "start: the network holds, no policy is broken\n";
    let words = "question:1:7: expected the end of the statement, found `now`\n    check now\n          ^^^\n";
    expect(&["session", &ward], b"check now\n", 2, &format!("{start}{words}"));
    let ran = wegbaro(&["session", &ward], b"route 2 99\nadd 0 priority 1: output 1\n");
    assert!(ran.text().contains("FROM TO:1:3: expected a state (0 to 31), found `99`"));
    assert!(ran.text().contains("\ncommand 1 (add"), "{}", ran.text());
    assert_eq!(ran.status, Some(2));
    let ran = wegbaro(&["session", &ward], b"shwo\n");
    assert!(ran.text().ends_with("  hint: did you mean `show`?\n"), "{}", ran.text());
    // The gate has no questions, and a reader of its lines counts commands.
    expect(&["session", "--gate", &ward], b"check\n", 2, "start holds\n1 refused 12 0\n");
}

#[test]
fn as_objects() {
    let input = "check\nshow\nroute 2 99\n";
    let ran = wegbaro(&["session", "--json", K], input.as_bytes());
    let last: Vec<&str> = ran.text().lines().rev().take(3).collect();
    assert_eq!(last[2], r#"{"subject":"check","answer":"holds","records":21,"policies":1}"#);
    let shown = r#"{"subject":"show","answer":"shown","records":21,"statements":[{"words":"widths H 1 P 2 W 1","by_record":0,"by_line":2},"#;
    assert!(last[1].starts_with(shown), "{}", last[1]);
    assert!(last[0].starts_with(r#"{"subject":"question","answer":"faulty","#), "{}", last[0]);
}
