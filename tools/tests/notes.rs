//! Notes: what is said though it is no fault, on standard error and with `--json` as objects too.

mod running;

use running::{file, wegbaro, K};

/// A ward with a policy that becomes two, and an output that sends nothing.
fn ward() -> String {
    let misses: String = (0..8).map(|switch| format!("miss {switch}: output drop\n")).collect();
    let links: String = (0..7).map(|it| format!("link {it}:2 - {}:4\n", it + 1)).collect();
    format!(
        "widths H 1 P 3 W 3\n{links}{misses}rule 0 priority 1 port 1: output 1\n\
         policy 0: what enters at 0:1, 6:3 never reaches 7:1, 3:6, 4:5, 2:3\n"
    )
}

/// The messages of the notes on standard error.
fn said(said: &str) -> Vec<&str> {
    said.lines()
        .map(|line| line.strip_prefix("note: ").unwrap_or_else(|| panic!("{said}")))
        .collect()
}

/// The messages of the notes among objects.
fn objects(text: &str) -> Vec<&str> {
    let start = r#"{"answer":"note","message":""#;
    let notes = text.lines().filter_map(|line| line.strip_prefix(start));
    notes.map(|rest| rest.strip_suffix("\"}").unwrap()).collect()
}

/// Every subcommand that reads a text for its policies says that one was split.
#[test]
fn a_policy_that_is_split() {
    let text = ward();
    let file = file("split", text.as_bytes());
    // The program `gate` has too little work for these policies.
    let answers = b"start refused 11 0\n";
    for subcommand in ["check", "run", "session", "records", "expand", "explain", "picture"] {
        let (input, status) = match subcommand {
            "explain" => (&answers[..], 1),
            _ => (&b""[..], 0),
        };
        let ran = wegbaro(&[subcommand, &file], input);
        assert_eq!(ran.status, Some(status), "{subcommand}: {}", ran.said);
        let notes = said(&ran.said);
        assert_eq!(notes.len(), 2, "{subcommand}: {}", ran.said);
        assert!(notes[0].starts_with("line 17: `output 1` sends nothing here"), "{}", ran.said);
        assert!(notes[1].starts_with("line 18: policy 0 has "), "{}", ran.said);
    }
    for call in [&["check"][..], &["run"], &["session"]] {
        let ran = wegbaro(&[call, &["--json", &file]].concat(), b"");
        assert_eq!(objects(ran.text()), said(&ran.said), "{call:?}");
        assert_eq!(objects(ran.text()).len(), 2, "{call:?}");
    }
    let ran = wegbaro(&["explain", "--json", &file], answers);
    assert_eq!((objects(ran.text()).len(), objects(ran.text())), (2, said(&ran.said)));
    let ran = wegbaro(&["route", "--json", &file, "2", "3"], b"");
    assert_eq!((objects(ran.text()).len(), objects(ran.text())), (2, said(&ran.said)));
}

/// A command of a session has its notes too.
#[test]
fn a_command_that_sends_nothing() {
    let ward = b"widths H 1 P 2 W 0\nmiss 0: output drop\n";
    let file = file("sends-nothing", ward);
    let commands = b"delete 0 priority 1\nadd 0 priority 1\n  port 1: output 1\n";
    let ran = wegbaro(&["session", "--json", &file], commands);
    let notes = said(&ran.said);
    assert_eq!(notes.len(), 1, "{}", ran.said);
    assert!(notes[0].starts_with("command 2, line 1: `output 1` sends nothing here"), "{notes:?}");
    let answers: Vec<&str> = ran.text().lines().collect();
    assert_eq!((answers.len(), objects(ran.text())), (4, notes));
    assert!(answers[2].starts_with(r#"{"answer":"note","#), "{answers:?}");
    assert!(answers[3].starts_with(r#"{"subject":"command","number":2,"#), "{answers:?}");
}

/// Notes on what is left alone, and on rules that act together, are objects too.
#[test]
fn notes_on_answers() {
    let ran = wegbaro(&["check", "--json", K], b"");
    let left = "the file's commands are not judged; `wegbaro run` judges them too";
    assert_eq!((objects(ran.text()), said(&ran.said)), (vec![left], vec![left]));
    let equals = concat!(env!("CARGO_MANIFEST_DIR"), "/../examples/equals/network.txt");
    let ran = wegbaro(&["run", "--json", equals], b"");
    assert!(objects(ran.text()).len() > 2, "{}", ran.text());
    let messages: Vec<String> =
        said(&ran.said).iter().map(|note| note.replace('"', "\\\"")).collect();
    assert_eq!(objects(ran.text()), messages);
    let broken = "widths H 1 P 2 W 0\nmiss 0: output drop\npolicy 0: E(X)\ndelete 0 priority 1\n";
    let ran = wegbaro(&["run", "--json", "-"], broken.as_bytes());
    assert_eq!(objects(ran.text()), ["the commands are not judged, as the network does not hold"]);
    // The lines of the gate have no notes among them.
    let ran = wegbaro(&["check", "--gate", K], b"");
    assert_eq!((ran.text(), said(&ran.said)), ("start holds\n", vec![left]));
}

/// Faulty arguments are an object where objects are asked for.
#[test]
fn faulty_arguments() {
    for arguments in
        [&["check", "--json"][..], &["chekc", "--json", K], &["run", "--json", "--x", K]]
    {
        let ran = wegbaro(arguments, b"");
        assert_eq!(ran.status, Some(2), "{arguments:?}");
        let message = ran.said.trim_end().to_string();
        let object = format!("{{\"answer\":\"faulty\",\"message\":\"{message}\"}}\n");
        assert_eq!(ran.text(), object, "{arguments:?}");
    }
    // Behind `--` it is a file's name.
    let ran = wegbaro(&["chekc", "--", "--json"], b"");
    assert_eq!((ran.status, ran.text()), (Some(2), ""));
}
