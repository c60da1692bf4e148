//! Sessions through pipes, one command at a time: its answer comes before the next is sent.

mod running;

use running::{complains, expect, file, program, wegbaro, K, K_LINES};
use std::io::{BufRead, BufReader, Read, Write};
use std::process::{Child, ChildStdin, ChildStdout};
use std::sync::mpsc::{channel, Receiver};
use std::thread;
use std::time::Duration;
use wegbaro_tests::k::{first_add, k, k_with_d, second_add};
use wegbaro_tests::records::in_version;

/// How long an answer may take.
const PATIENCE: Duration = Duration::from_secs(20);

/// A session that is going on.
struct Session {
    child: Child,
    input: Option<ChildStdin>,
    lines: Receiver<String>,
}

/// Hands on each line as it comes.
fn listen(output: ChildStdout) -> Receiver<String> {
    let (to, lines) = channel();
    thread::spawn(move || {
        for line in BufReader::new(output).lines() {
            if to.send(line.unwrap()).is_err() {
                return;
            }
        }
    });
    lines
}

impl Session {
    fn new(arguments: &[&str]) -> Session {
        let mut child = program(&[&["session"], arguments].concat()).spawn().unwrap();
        let lines = listen(child.stdout.take().unwrap());
        let input = child.stdin.take();
        Session { child, input, lines }
    }

    /// The next line of an answer.
    fn line(&self) -> String {
        self.lines.recv_timeout(PATIENCE).expect("an answer in time")
    }

    fn send(&mut self, bytes: &[u8]) {
        let input = self.input.as_mut().unwrap();
        input.write_all(bytes).unwrap();
        input.flush().unwrap();
    }

    /// Sends a command and waits for the first line of its answer.
    fn ask(&mut self, bytes: &[u8]) -> String {
        self.send(bytes);
        self.line()
    }

    /// Ends the input: the exit status, and what was said on standard error.
    fn end(mut self) -> (Option<i32>, String) {
        drop(self.input.take());
        let mut said = String::new();
        self.child.stderr.take().unwrap().read_to_string(&mut said).unwrap();
        assert!(self.lines.recv_timeout(PATIENCE).is_err(), "no more lines");
        (self.child.wait().unwrap().code(), said)
    }
}

/// K without commands, as a file of records.
fn k_file(name: &str) -> String {
    file(name, &k().concat())
}

#[test]
fn a_line_and_its_answer() {
    let mut session = Session::new(&[&k_file("lines")]);
    assert_eq!(session.line(), "start: the network holds, no policy is broken");
    let first = session.ask(b"add 0 priority 5: output 2\n\n");
    assert!(first
        .starts_with("command 1 (add 0 priority 5 port ** header *: output 2): blocked: policy 0"));
    assert!(session.line().starts_with("    with Y = state 29 "));
    let own = "    - switch 0: in at port 1, out at port 2, header 1 (command 1: rule 0 priority 5";
    assert!(session.line().starts_with(own));
    assert!(session.line().starts_with("    - switch 1: "));
    // Empty lines and comments have no answer.
    session.send(b"\n# a comment\n   \n  # an indented one\n");
    let second = session.ask(b"add 0 priority 5 header 0: output 2\r\n\n");
    assert!(second.ends_with("forwarded, the network then has 21 records"), "{second}");
    // Half a line has no answer until the rest comes.
    session.send(b"delete 0 prior");
    assert!(session.lines.recv_timeout(Duration::from_millis(200)).is_err());
    let third = session.ask(b"ity 5 header 0\n\n");
    assert!(third.ends_with("forwarded, the network then has 20 records"), "{third}");
    assert_eq!(session.end(), (Some(1), String::new()));
}

/// In OpenFlow 1.0 a modify without its rule adds it, and is judged as an add.
#[test]
fn a_modify_that_adds() {
    let mut session = Session::new(&[&file("adds", &in_version(&k(), 1).concat())]);
    assert_eq!(session.line(), "start: the network holds, no policy is broken");
    let first = session.ask(b"modify 0 priority 5: output 2\n\n");
    let blocked =
        "command 1 (modify 0 priority 5 port ** header *: output 2): blocked: policy 0 is \
                   broken by state 3 (switch 0, port 1, arriving, header 1)";
    assert_eq!(first, blocked);
    assert!(session.line().starts_with("    with Y = state 29 "));
    let own = "    - switch 0: in at port 1, out at port 2, header 1 (command 1: rule 0 priority 5";
    assert!(session.line().starts_with(own));
    assert!(session.line().starts_with("    - switch 1: "));
    let mut count = |command: &[u8], records: usize| {
        let answer = session.ask(command);
        let words = format!("the network then has {records} records");
        assert!(answer.ends_with(&words) && answer.contains("): forwarded, "), "{answer}");
    };
    count(b"modify 0 priority 5 header 0: output 2\n\n", 21);
    count(b"modify 0 priority 5 header 0: output drop\n\n", 21);
    count(b"modify 1 priority 5: output drop\n\n", 22);
    count(b"delete 0 priority 5 header 0\n\n", 21);
    count(b"delete 0 priority 5 header 0\n\n", 21);
    // A rule that a modify added is told by that command.
    session.ask(b"delete 1 priority 10 port 1\n\n");
    session.ask(b"modify 1 priority 5: set 1, output 2\n\n");
    session.line();
    session.line();
    let added = session.line();
    let rule = "(command 8: rule 1 priority 5 port ** header *: set 1, output 2)";
    assert!(added.starts_with("    - switch 1: ") && added.ends_with(rule), "{added}");
    assert_eq!(session.end(), (Some(1), String::new()));
}

/// In OpenFlow 1.3 it changes nothing.
#[test]
fn a_modify_that_changes_nothing() {
    for version in [0, 4] {
        let file = file("changes-nothing", &in_version(&k(), version).concat());
        let mut session = Session::new(&["--gate", &file]);
        assert_eq!(session.line(), "start holds");
        assert_eq!(session.ask(b"modify 0 priority 5: output 2\n\n"), "1 forwarded 20");
        assert_eq!(session.ask(b"add 0 priority 5: output 2\n\n"), "2 blocked 0 3");
        assert_eq!(session.end(), (Some(1), String::new()));
    }
}

/// The 256th rule has room, and the next has not; rules that are there can be modified.
#[test]
fn a_modify_that_finds_the_table_full() {
    let mut text = "widths H 1 P 2 W 0 version 1\nmiss 0: output drop\n".to_string();
    for priority in 0..255 {
        text += &format!("rule 0 priority {priority}: output drop\n");
    }
    let mut session = Session::new(&["--gate", &file("full", text.as_bytes())]);
    assert_eq!(session.line(), "start holds");
    assert_eq!(session.ask(b"modify 0 priority 255: output 1\n\n"), "1 forwarded 258");
    assert_eq!(session.ask(b"modify 0 priority 256: output 1\n\n"), "2 refused 13 0");
    assert_eq!(session.ask(b"modify 0 priority 255: output 2\n\n"), "3 forwarded 258");
    assert_eq!(session.ask(b"modify 0 priority 256: group 0\n\n"), "4 refused 16 0");
    assert_eq!(session.ask(b"delete 0 priority 0\n\n"), "5 forwarded 257");
    assert_eq!(session.ask(b"modify 0 priority 256: output 1\n\n"), "6 forwarded 258");
    assert_eq!(session.end(), (Some(1), String::new()));
}

#[test]
fn a_faulty_line_is_told_and_passed_over() {
    let mut session = Session::new(&[&k_file("faulty")]);
    session.line();
    let first = session.ask(b"add 0 priority 5 output 2\n\n");
    assert!(first.starts_with("command 1:1:"), "{first}");
    assert_eq!(session.line(), "    add 0 priority 5 output 2");
    assert_eq!(session.line().trim_matches([' ', '^']), "");
    let second = session.ask(b"rule 0 priority 5: output 2\n\n");
    assert!(second.starts_with("command 2:1:1: expected a command"), "{second}");
    session.line();
    session.line();
    let third = session.ask(b"add 0 priority 5 header 0: output 2\n\n");
    assert!(third.starts_with("command 3 (add 0 "), "{third}");
    assert_eq!(session.end(), (Some(2), String::new()));
}

#[test]
fn lines_of_the_gate_and_objects() {
    let mut session = Session::new(&["--gate", &k_file("gate")]);
    assert_eq!(session.line(), "start holds");
    assert_eq!(session.ask(b"add 0 priority 5: output 2\n\n"), "1 blocked 0 3");
    assert_eq!(session.ask(b"ad\n\n"), "2 refused 12 0");
    assert_eq!(session.ask(b"add 0 priority 5 header 0: output 2\n\n"), "3 forwarded 21");
    // The end of the input ends the last command too.
    session.send(b"delete 0 priority 5\n");
    drop(session.input.take());
    assert_eq!(session.line(), "4 forwarded 21");
    let (status, said) = session.end();
    assert_eq!(status, Some(2));
    assert!(said.starts_with("command 2:1:1: "), "{said}");

    let mut session = Session::new(&["--json", &k_file("json")]);
    session.line();
    let first = session.ask(b"add 0 priority 5: output 2\n\n");
    assert!(first.starts_with(r#"{"subject":"command","number":1,"command":"add "#), "{first}");
    let second = session.ask(b"\x07\n\n");
    let faulty =
        r#"{"subject":"command","number":2,"answer":"faulty","file":"command 2","line":1,"#;
    assert!(second.starts_with(faulty), "{second}");
    assert_eq!(session.end(), (Some(2), String::new()));
}

#[test]
fn records_one_at_a_time() {
    let mut session = Session::new(&["--records", "--gate", &k_file("records")]);
    assert_eq!(session.line(), "start holds");
    assert_eq!(session.ask(&first_add()), "1 blocked 0 3");
    session.send(&second_add()[..10]);
    assert!(session.lines.recv_timeout(Duration::from_millis(200)).is_err());
    assert_eq!(session.ask(&second_add()[10..]), "2 forwarded 21");
    assert_eq!(session.ask(&[9; 24]), "3 refused 12 0");
    assert_eq!(session.end(), (Some(1), String::new()));

    let mut session = Session::new(&["--records", &k_file("cut")]);
    session.line();
    session.send(&[6, 0]);
    drop(session.input.take());
    assert_eq!(session.line(), "end: the input ends within a record");
    assert_eq!(session.end(), (Some(2), String::new()));
}

/// The commands of the file are judged first, and numbers and the network go on from there.
#[test]
fn commands_of_the_file_come_first() {
    let mut session = Session::new(&["--gate", K]);
    for line in K_LINES.lines() {
        assert_eq!(session.line(), line);
    }
    assert_eq!(session.ask(b"delete 0 priority 5 header 0\n\n"), "3 forwarded 20");
    assert_eq!(session.end().0, Some(1));
}

#[test]
fn a_network_that_does_not_hold_and_a_cut_file_have_no_session() {
    let mut broken = k_with_d();
    broken.remove(7);
    let add = b"add 0 priority 8 header 1: output 0\n";
    let broken = file("broken", &broken.concat());
    expect(&["session", "--gate", &broken], add, 1, "start violated 0 3\n");
    let refused = file("refused", &k().concat()[..48]);
    expect(&["session", "--gate", &refused], add, 2, "start refused 7 2\n");
    let cut = file("cut-network", &k().concat()[..50]);
    expect(&["session", "--gate", &cut], add, 2, "end short\n");
    let cut = file("cut-command", &[&k().concat()[..], &[6]].concat());
    expect(&["session", "--gate", &cut], add, 2, "start holds\nend short\n");
    complains(&["session", &file("text-fault", b"widths")], add, 2, ":1:7: expected `H`");
}

#[test]
fn without_commands() {
    expect(&["session", "--gate", &k_file("none")], b"", 0, "start holds\n");
}

/// Names of the text can be used in the session.
#[test]
fn names_of_the_text() {
    let text = "widths H 2 P 2 W 1\nname switch 1 core\nname header 01 pump\nlink 0:2 - 1:1\n\
                miss 0: output drop\nmiss 1: output drop\n\
                policy 0 \"pumps stay\": exists Y. R(X,Y) & E(Y) & bit(Y,0)\n";
    let file = file("names", text.as_bytes());
    let ran = wegbaro(&["session", &file], b"add core priority 3 header pump: output 2\n");
    let line = ran.text().lines().nth(1).unwrap();
    let words = "command 1 (add core priority 3 port ** header pump: output 2): blocked: policy 0 \
                 \"pumps stay\", line 7, is broken by state 21 (switch core (1), port 1, arriving, \
                 header pump (1))";
    assert_eq!(line, words, "{}", ran.said);
}

/// Lines are continued as in a file: the command is the one that the text says.
#[test]
fn continued_lines() {
    let mut session = Session::new(&["--gate", &k_file("continued")]);
    assert_eq!(session.line(), "start holds");
    session.send(b"add 0 priority 5\n");
    session.send(b"    # the header that may pass\n");
    session.send(b"\theader 0:\n    output 2\n");
    assert!(session.lines.recv_timeout(Duration::from_millis(200)).is_err());
    // An empty line, a comment and the next command end it.
    assert_eq!(session.ask(b"\n"), "1 forwarded 21");
    assert_eq!(session.ask(b"delete 0 priority 5\n    header 0\n# done\n"), "2 forwarded 20");
    assert_eq!(
        session.ask(b"delete 0 priority 10\n  port 1\nadd 0 priority 5:\n"),
        "3 forwarded 20"
    );
    session.send(b"  output 2\n");
    drop(session.input.take());
    assert_eq!(session.line(), "4 blocked 0 3");
    assert_eq!(session.end(), (Some(1), String::new()));
    // The rule for one port and header alone is deleted.
    let words = wegbaro(
        &["session", &k_file("deleted")],
        b"delete 0 priority 10\n    port 1 header 0\ndelete 0 priority 10\n",
    );
    let lines: Vec<&str> = words.text().lines().skip(1).collect();
    let deleted = "command 1 (delete 0 priority 10 port 1 header 0): forwarded, the network then";
    assert!(lines.len() == 2 && lines[0].starts_with(deleted), "{lines:?}");
    assert!(
        lines[1].starts_with("command 2 (delete 0 priority 10 port ** header *): "),
        "{lines:?}"
    );
}

/// A line that continues nothing is told, as in a file, and its columns count its spaces.
#[test]
fn lines_that_continue_nothing() {
    let apart = "command 1:1:5: this line starts with a space, but the line before it is no \
                 statement\n        port 1 header 0\n        ^\n";
    let after = b"\n    port 1 header 0\ndelete 0 priority 5\n";
    let ran = wegbaro(&["session", &k_file("apart")], after);
    assert_eq!(ran.status, Some(2));
    let told = ran.text().split_once('\n').unwrap().1;
    assert!(told.starts_with(apart), "{told}");
    assert!(told.contains("\ncommand 2 (delete 0 "), "{told}");
    let ran = wegbaro(&["session", &k_file("columns")], b"delete 0 priority 5\n    prot 1\n");
    let fault = "command 1:2:5: expected the end of the statement, found `prot`\n        prot 1\n";
    assert!(ran.text().contains(fault), "{}", ran.text());
    let ran = wegbaro(&["session", &k_file("misspelt")], b"dlete 0 priority 5\n");
    assert!(ran.text().contains("\n  hint: did you mean `delete`?\n"), "{}", ran.text());
}

/// A last line without a line break may be cut: it is told, and its command is not run.
#[test]
fn a_cut_line() {
    let words = "end: the input ends within a line, and the command that it belongs to is not run";
    for (input, answers) in [
        (&b"delete 0 priority 10"[..], vec![]),
        (b"delete 0 priority 10\n    port 1", vec![]),
        (b"delete 0 priority 10\n ", vec![]),
        (b"delete 0 priority 5\ndelete 0 priority 10", vec!["1 forwarded 20"]),
    ] {
        let file = k_file("cut-line");
        let lines = [&["start holds"], &answers[..], &["end short"]].concat();
        expect(&["session", "--gate", &file], input, 2, &(lines.join("\n") + "\n"));
        let ran = wegbaro(&["session", &file], input);
        assert_eq!(ran.text().lines().last(), Some(words));
        let ran = wegbaro(&["session", "--json", &file], input);
        assert_eq!(ran.text().lines().last(), Some(r#"{"subject":"end","answer":"short"}"#));
    }
    // A comment is nothing that could be cut.
    let comment = b"delete 0 priority 5\n# done";
    expect(&["session", "--gate", &k_file("comment")], comment, 0, "start holds\n1 forwarded 20\n");
}

/// The session shown in README.md, on K.
#[test]
fn the_session_of_the_readme() {
    let readme = include_str!("../README.md");
    let block = &readme[readme.find("    wegbaro session ward.txt\n").unwrap()..];
    let lines: Vec<&str> = block.lines().take(5).map(str::trim).collect();
    let [_, start, command, "", answer] = lines[..] else { panic!("{lines:?}") };
    let mut session = Session::new(&[&k_file("readme")]);
    assert_eq!(session.line(), start);
    assert_eq!(session.ask(format!("{command}\n\n").as_bytes()), answer);
    assert_eq!(session.end(), (Some(0), String::new()));
}
