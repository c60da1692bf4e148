//! Faults lead somewhere: near sentences and names, ranges, and characters that are not seen.

mod running;

use running::wegbaro;
use wegbaro_tools::parse::parse;

/// A ward with a name of each kind; line 9 is the first behind them.
const NAMES: &str = "\
widths H 2 P 2 W 1
name switch 0 icu
name port icu:1 pump
name port 1:2 server
name header 1* alarm
ward both: 0:1, 1:1
miss icu: output drop
miss 1: output drop
";

/// Checks the message and the hint of the one fault of a statement.
fn hinted(statement: &str, message: &str, hint: &str) {
    let faults = parse(&format!("{NAMES}{statement}\n")).unwrap_err();
    let told: Vec<_> =
        faults.iter().map(|fault| (fault.message.as_str(), fault.hint.as_deref())).collect();
    assert_eq!(told, [(message, Some(hint))], "{statement}");
}

#[test]
fn near_sentences() {
    hinted(
        "policy 0: pump reaches server",
        "expected `and`, found `reaches`",
        "the nearest sentences are `what enters at AREAS reaches AREAS`, \
         `what enters at AREAS never reaches AREAS`",
    );
    hinted(
        "policy 0: monitor reaches server",
        "expected a formula, found `monitor`; there is no such name",
        "the nearest sentences are `what enters at AREAS reaches AREAS`, \
         `what enters at AREAS never reaches AREAS`",
    );
    hinted(
        "policy 0: no loop",
        "expected `over`, found the end of the statement",
        "the nearest sentences are `no loops`, `no loop over states`",
    );
    hinted(
        "policy 0: nothing from pump gets dropped",
        "expected `is`, found `gets`",
        "the nearest sentence is `nothing from AREAS is dropped`",
    );
    hinted(
        "policy 0: no loops.",
        "expected the end of the statement, found `.`",
        "leave the full stop out",
    );
    hinted(
        "policy 0: what enters at the pump reaches server",
        "expected a switch (0 to 1), found `the`; there is no such name",
        "leave `the` out: names stand without it",
    );
    hinted(
        "policy 0: wibble",
        "expected a formula, found `wibble`; there is no such name",
        "a policy is a sentence, as `no loops`, or a formula",
    );
}

/// The sentences that hints list are sentences.
#[test]
fn listed_sentences_are_read() {
    for sentence in wegbaro_tools::advice::SENTENCES {
        let sentence = sentence.replacen("AREAS", "0:2", 1).replace("AREAS", "switch 1");
        parse(&format!("{NAMES}policy 0: {sentence}\n")).unwrap();
    }
}

#[test]
fn unknown_names() {
    hinted(
        "policy 0: what enters at ward icu reaches server",
        "expected a ward's name, found `icu`; this is a switch",
        "the name is given in line 2",
    );
    hinted(
        "rule pumpe priority 1: output 1",
        "expected a switch (0 to 1), found `pumpe`; there is no such name",
        "did you mean `pump`?",
    );
    hinted(
        "rule icu priority 1: output far",
        "expected a port pattern (0, 1 or *, 2 long) or a number to 3, found `far`; there is no \
         such name",
        "the names are `alarm`, `both`, `icu`, `pump`, `server`",
    );
    hinted(
        "rule icu priority 1: group far",
        "expected a group (0 to 15), found `far`; there is no such name",
        "no such names are given before this line",
    );
    hinted(
        "policy 0: pmup and server never meet",
        "expected a formula, found `pmup`; there is no such name",
        "did you mean `pump`?",
    );
    // Several may be near.
    let text = format!("{NAMES}name port 1:1 pumps\nmiss pumpx: output 1\n");
    let faults = parse(&text).unwrap_err();
    assert_eq!(faults[0].hint.as_deref(), Some("did you mean `pump` or `pumps`?"));
}

#[test]
fn numbers_and_spaces() {
    let widths = |text: &str| parse(text).unwrap_err()[0].message.clone();
    assert_eq!(widths("widths H 0"), "expected the header width (1 to 6), found `0`");
    assert_eq!(widths("widths H 1 P 1"), "expected the port width (2 to 4), found `1`");
    assert_eq!(
        widths(&format!("{NAMES}policy 0: no route of more than 8 hops")),
        "expected a number of hops (1 to 7), found `8`"
    );
    let zero = "a number has no leading zero";
    hinted("rule 010 priority 1: output 1", "expected a switch (0 to 1), found `010`", zero);
    hinted(
        "rule 0 priority 1: output 010",
        "expected a port pattern (0, 1 or *, 2 long) or a number to 3, found `010`",
        zero,
    );
    let plain = "write a plain space";
    let no_break = "this is a no-break space (U+00A0), not a plain one";
    hinted("rule\u{a0}0 priority 1: output 1", no_break, plain);
    let other = "this is a space of another kind (U+3000), not a plain one";
    hinted("rule\u{3000}0 priority 1: output 1", other, plain);
}

#[test]
fn named_patterns() {
    let text = format!("{NAMES}add icu priority 1 header alarm: set alarm, output 1\n");
    let ran = wegbaro(&["run", "-"], text.as_bytes());
    let words = "command 1 (add icu priority 1 port ** header alarm: set alarm, output pump), ";
    assert!(ran.text().contains(words), "{}", ran.text());
}
