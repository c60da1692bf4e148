//! Each row in words: which of its causes it is, and the other line or record.

mod common;
mod running;

use common::group;
use running::{expect, wegbaro};
use wegbaro::Refusal;
use wegbaro_tests::formulas::{and, bit, external, not, policy, r, some, tc, Node, X, Y};
use wegbaro_tests::k::{k, k_set};
use wegbaro_tests::networks::full_switch;
use wegbaro_tests::records::{add, link, miss, modify, output, record, rule, set, widths, with};
use wegbaro_tests::records::{Action, Record, ANY, IN_PORT, VERSIONS};
use wegbaro_tools::answers::start::StartAnswer;
use wegbaro_tools::answers::{Answer, Standing};
use wegbaro_tools::book::Book;
use wegbaro_tools::source::Source;

/// Checks what is said of records that a row refuses.
fn refused(records: &[Record], words: &str) {
    let file = if records.is_empty() { "  standard input\n" } else { "" };
    let words = format!("start: refused: row {words}\n{file}");
    expect(&["check", "-"], &records.concat(), 2, &words);
}

/// Checks what is said of a text that a row refuses, without the statements that are shown below.
fn refused_text(text: &str, words: &str) {
    let ran = wegbaro(&["check", "-"], text.as_bytes());
    let (first, shown) = ran.text().split_once('\n').unwrap();
    assert_eq!((ran.status, first), (Some(2), format!("start: refused: row {words}").as_str()));
    assert!(shown.starts_with("  standard input:"), "{shown}");
}

/// Checks all that is said of a text with names that a row refuses; line 5 is the first behind them.
fn refused_statement(statements: &str, words: &str) {
    let names = "widths H 1 P 2 W 1\nname switch 0 icu\nname port icu:1 pump\n\
                 name group icu/3 uplinks\n";
    let text = format!("{names}{statements}");
    expect(&["check", "-"], text.as_bytes(), 2, &format!("start: refused: row {words}"));
}

/// A refusal of a text shows file, line and statement as a fault does, and tells names.
#[test]
fn statements_are_shown() {
    refused_statement(
        "link icu:1 - 1:1\nlink 1:2\n    - icu:pump  # again\n",
        "6, port pump (1) of switch icu (0) is linked already, line 5, at record 2 (link 1), line 6\n  \
         standard input:6:\n    link 1:2\n  earlier: standard input:5:\n    link icu:1 - 1:1\n",
    );
    refused_statement(
        "miss 1: output drop\n",
        "7, the miss of switch icu (0) comes before that of switch 1, at record 1 (miss of switch \
         1), line 5\n  standard input:5:\n    miss 1: output drop\n",
    );
    refused_statement(
        "miss icu: output drop\n# nothing more\n",
        "7, switch 1 has no miss, at the end of the network, after 2 records\n  \
         standard input:5:\n    miss icu: output drop\n",
    );
    refused_statement(
        "miss icu: group uplinks\nmiss 1: output drop\n",
        "16, action 1 is group uplinks (3), which switch icu (0) does not have, at record 1 (miss \
         of switch icu (0)), line 5\n  standard input:5:\n    miss icu: group uplinks\n",
    );
    // Where no record is to blame, the file alone is told.
    let empty = "start: refused: row 1, there are no records\n  standard input\n";
    expect(&["check", "-"], b"# nothing\n", 2, empty);
}

/// Where the network as such is refused nothing was judged, and the status is that of a faulty text;
/// no note says that it does not hold.
#[test]
fn statuses() {
    let refused = "widths H 1 P 2 W 0\nadd 0 priority 1: output 1\n";
    for subcommand in ["check", "run"] {
        assert_eq!(wegbaro(&[subcommand, "-"], refused.as_bytes()).status, Some(2));
    }
    for arguments in [&["route", "-", "0", "1"][..], &["picture", "-"]] {
        assert_eq!(wegbaro(arguments, refused.as_bytes()).status, Some(2), "{arguments:?}");
    }
    let ran = wegbaro(&["run", "-"], refused.as_bytes());
    assert_eq!(ran.said, "note: the commands are not judged, as the network is refused\n");
    // A command is refused by a network that was judged.
    let judged = "widths H 1 P 2 W 0\nmiss 0: output 1\nadd 0 priority 1: group 1\n";
    assert_eq!(wegbaro(&["run", "-"], judged.as_bytes()).status, Some(1));
}

/// A network of one switch without rules and policies.
fn one() -> Vec<Record> {
    vec![widths(1, 2, 0), miss(0, &[output(0, 3)])]
}

/// K with some bytes set: record, byte, value.
fn k_refused(changes: &[(usize, usize, u8)], words: &str) {
    refused(&k_set(changes), words);
}

#[test]
fn row_1() {
    refused(&[], "1, there are no records");
    refused(&vec![[1; 24]; 658], "1, there are more than 657 records");
}

/// The store is always long enough here; the row's meaning is told.
#[test]
fn row_2() {
    let source = Source::default();
    let standing = Standing { source: &source, book: &Book::default() };
    let answer = StartAnswer { verdict: Err(Refusal { row: 2, place: 0 }), work: None };
    let words = "start: refused: row 2, the store has fewer than 15,768 bytes";
    assert_eq!(answer.words(standing).unwrap(), words);
}

#[test]
fn row_3() {
    let first =
        "3, the first record is a miss, and must be the widths, at record 0 (miss of switch 0)";
    refused(&one()[1..], first);
    let kinds = "and kinds are 1 to 5 and 9";
    k_refused(&[(0, 0, 0)], &format!("3, its kind is 0, {kinds}, at record 0 (kind 0)"));
    k_refused(&[(19, 0, 10)], &format!("3, its kind is 10, {kinds}, at record 19 (kind 10)"));
    let twice = "3, the widths are there already, record 0, at record 1 (widths)";
    refused(&[widths(1, 2, 0), widths(1, 2, 0)], twice);
    refused_text(
        "# one switch\nwidths H 1 P 2 W 0\nmiss 0: output drop\nlink 0:1 - 0:2\n",
        "3, a link stands after a miss (line 3), at record 2 (link 0), line 4",
    );
    refused_text(
        "widths H 1 P 2 W 0\nmiss 0: output drop\ngroup 0/0: output 1\npolicy 0: no loops\n",
        "3, a policy stands after a group (line 3), at record 3 (policy 0, node 0), line 4",
    );
}

#[test]
fn row_4() {
    let wrong = |h, p, w, words: &str| {
        refused(&[widths(h, p, w)], &format!("4, {words}, at record 0 (widths)"));
    };
    wrong(0, 2, 1, "the header width H is 0, outside 1 to 6");
    wrong(7, 2, 1, "the header width H is 7, outside 1 to 6");
    wrong(1, 1, 1, "the port width P is 1, outside 2 to 4");
    wrong(1, 5, 1, "the port width P is 5, outside 2 to 4");
    wrong(1, 2, 5, "the switch width W is 5, outside 0 to 4");
    wrong(6, 2, 2, "1 + H + P + W is 11, and 10 is the most");
    wrong(255, 255, 255, "the header width H is 255, outside 1 to 6");
}

/// What a version must be.
const VERSION_MUST_BE: &str = "must be 1 (OpenFlow 1.0) or 4 (OpenFlow 1.3; 0 reads as 4)";

/// A faulty version of a text can only be given by bytes.
#[test]
fn row_5_of_a_version() {
    let text = format!("# an old ward\nbytes 01 01 02 00 02{}\n", " 00".repeat(19));
    let cause = format!("the version is 2, and {VERSION_MUST_BE}");
    refused_text(&text, &format!("5, {cause}, at record 0 (widths), line 2"));
    let object = format!(
        r#"{{"subject":"start","answer":"refused","row":5,"place":0,"cause":"{cause}","file":"standard input","line":2}}"#
    );
    expect(&["check", "--json", "-"], text.as_bytes(), 2, &format!("{object}\n"));
    let sound = |version| [with(widths(1, 2, 0), 4, version), miss(0, &[output(0, 3)])].concat();
    for version in VERSIONS {
        expect(&["check", "--gate", "-"], &sound(version), 0, "start holds\n");
    }
}

#[test]
fn row_5_in_widths_links_and_matches() {
    let widths = |byte, value, words: &str| {
        k_refused(&[(0, byte, value)], &format!("5, {words}, at record 0 (widths)"));
    };
    for version in [2, 3, 5, 255] {
        widths(4, version, &format!("the version is {version}, and {VERSION_MUST_BE}"));
    }
    widths(5, 1, "byte 5 is 1, and must be zero");
    widths(23, 1, "byte 23 is 1, and must be zero");
    let first = "4, the header width H is 7, outside 1 to 6, at record 0 (widths)";
    k_refused(&[(0, 1, 7), (0, 4, 2)], first);
    let link = |byte, value, words: &str| {
        k_refused(&[(1, byte, value)], &format!("5, {words}, at record 1 (link 0)"));
    };
    link(1, 2, "there is no switch 2, the last is 1");
    link(2, 4, "there is no port 4, the last is 3");
    link(3, 9, "there is no switch 9, the last is 1");
    link(4, 255, "there is no port 255, the last is 3");
    link(5, 7, "byte 5 is 7, and must be zero");
    let rule = |byte, value, words: &str| {
        k_refused(&[(4, byte, value)], &format!("5, {words}, at record 4 (rule 0)"));
    };
    rule(1, 2, "there is no switch 2, the last is 1");
    rule(4, 4, "the port has value 4, with a bit that care 3 leaves open");
    rule(5, 7, "the port has care 7, which does not fit its width 2");
    rule(6, 2, "the header has value 2, with a bit that care 1 leaves open");
    rule(7, 2, "the header has care 2, which does not fit its width 1");
    rule(21, 3, "byte 21 is 3, and must be zero");
    let misses = "5, byte 2 is 1, and must be zero, at record 2 (miss of switch 0)";
    k_refused(&[(2, 2, 1)], misses);
    let none = "5, there is no switch 2, the last is 1, at record 3 (miss of switch 2)";
    k_refused(&[(3, 1, 2)], none);
}

#[test]
fn row_5_in_actions_and_nodes() {
    let actions = |actions: &[Action], change: (usize, u8), words: &str| {
        let rule = with(rule(0, 1, ANY, ANY, actions), change.0, change.1);
        let words = format!("5, {words}, at record 2 (rule 0)");
        refused(&[one(), vec![rule]].concat(), &words);
    };
    let out = output(1, 3);
    actions(&[out], (8, 0), "the action count is 0, and must be 1 to 4");
    actions(&[out], (8, 5), "the action count is 5, and must be 1 to 4");
    for kind in [0, 5, 7, 255] {
        let kinds = "not 1 (output), 2 (set), 3 (in_port) or 4 (group)";
        actions(&[out], (9, kind), &format!("action 1 has kind {kind}, {kinds}"));
    }
    actions(&[out], (11, 4), "action 1 has care 4, which does not fit its width 2");
    actions(&[out], (10, 4), "action 1 has value 4, with a bit that care 3 leaves open");
    actions(&[out], (12, 1), "byte 12 is 1, and must be zero");
    let last = "action 2, the last one, is a set, and sends nothing";
    actions(&[out, set(1, 1)], (8, 2), last);
    actions(&[IN_PORT, set(1, 1)], (8, 2), last);
    let zero = "where it must be zero";
    actions(&[IN_PORT], (10, 2), &format!("action 1 is in_port, and its value is 2, {zero}"));
    actions(&[IN_PORT], (11, 1), &format!("action 1 is in_port, and its care is 1, {zero}"));
    let care = format!("action 1 is a group, and its care is 3, {zero}");
    actions(&[[4, 2, 3]], (8, 1), &care);
    actions(&[[4, 16, 0]], (8, 1), "action 1 is group 16, and the last is 15");
    let second = format!("action 2 is in_port, and its value is 1, {zero}");
    actions(&[out, [3, 1, 3], out], (8, 3), &second);
    actions(&[set(1, 3), out], (8, 2), "action 1 has care 3, which does not fit its width 1");
    let node = |node: Node, words: &str| {
        let words = format!("5, {words}, at record 2 (policy 0, node 0)");
        refused(&[one(), policy(0, &[node])].concat(), &words);
    };
    node([0, 2, 0], "variable 2 is neither 0 (X) nor 1 (Y)");
    node([0, 0, 4], "bit 4 is not below 4");
    node([1, 0, 3], "variable 3 is neither 0 (X) nor 1 (Y)");
    node([2, 0, 1], "byte 4 is 1, and must be zero");
    node([3, 0, 1], "byte 4 is 1, and must be zero");
    node([6, 0, 2], "variable 2 is neither 0 (X) nor 1 (Y)");
    node([8, 0, 4], "4 is no pair of variables, 0 to 3");
    node([9, 0, 0], "node kind 9 is not 0 to 8");
    let stray = with(policy(0, &[external(X)])[0], 20, 1);
    let words = "5, byte 20 is 1, and must be zero, at record 2 (policy 0, node 0)";
    refused(&[one(), vec![stray]].concat(), words);
    let ninth = "5, there is no policy 9, the last is 7, at record 2 (policy 9, node 0)";
    refused(&[one(), policy(9, &[external(X)])].concat(), ninth);
}

#[test]
fn row_6() {
    let wrong = |ends: [u8; 4], words: &str| {
        let [switch, port, other_switch, other_port] = ends;
        let records =
            [widths(1, 2, 1), link(0, 2, 1, 1), link(switch, port, other_switch, other_port)];
        refused(&records, &format!("6, {words}, at record 2 (link 1)"));
    };
    wrong([0, 0, 1, 2], "port 0 of switch 0 is drop, and takes no link");
    wrong([0, 1, 1, 3], "port 3 of switch 1 is the controller, and takes no link");
    wrong([0, 1, 0, 1], "both ends are the same point");
    wrong([0, 1, 1, 1], "port 1 of switch 1 is linked already, record 1");
    wrong([0, 2, 1, 2], "port 2 of switch 0 is linked already, record 1");
    refused_text(
        "widths H 1 P 2 W 1\nlink 0:1 - 1:1\n# again\nlink 0:2 - 1:1\n",
        "6, port 1 of switch 1 is linked already, line 2, at record 2 (link 1), line 4",
    );
}

#[test]
fn row_7() {
    refused_text(
        "widths H 1 P 2 W 1\nmiss 0: output drop\nadd 0 priority 1: output drop\n",
        "7, switch 1 has no miss, at the end of the network, after 2 records",
    );
    refused_text(
        "widths H 1 P 2 W 1\nmiss 0: output drop\nrule 0 priority 1: output drop\n",
        "7, switch 1 has no miss, at record 2 (rule 0), line 3",
    );
    refused_text(
        "widths H 1 P 2 W 1\nmiss 0: output drop\ngroup 0/0: output drop\n",
        "7, switch 1 has no miss, at record 2 (group 0 of switch 0), line 3",
    );
    refused_text(
        "widths H 1 P 2 W 1\nmiss 0: output drop\nmiss 0: output drop\n",
        "7, switch 0 has its miss already, line 2, at record 2 (miss of switch 0), line 3",
    );
    refused_text(
        "widths H 1 P 2 W 1\nmiss 1: output drop\nmiss 0: output drop\n",
        "7, the miss of switch 0 comes before that of switch 1, at record 1 (miss of switch 1), \
         line 2",
    );
}

#[test]
fn row_8() {
    refused_text(
        "widths H 1 P 2 W 0\nmiss 0: output drop\nrule 0 priority 1: output 1\n\
         rule 0 priority 2: output 1\nrule 0 priority 1: output 2\n",
        "8, a rule with this switch, priority, port and header is there already, line 3, at \
         record 4 (rule 2), line 5",
    );
    let rules = [rule(0, 1, ANY, ANY, &[output(1, 3)]); 2];
    let words = "8, a rule with this switch, priority, port and header is there already, \
                 record 2, at record 3 (rule 1)";
    refused(&[one(), rules.to_vec()].concat(), words);
}

#[test]
fn row_9() {
    let wrong = |policies: &[Vec<Record>], words: &str| {
        refused(&[one(), policies.concat()].concat(), &format!("9, {words}"));
    };
    let fine = policy(0, &[external(X)]);
    wrong(
        &[policy(1, &[external(X)])],
        "the first policy is 1, and must be 0, at record 2 (policy 1, node 0)",
    );
    wrong(
        &[fine.clone(), policy(2, &[external(X)])],
        "policy 2 stands after policy 0 (record 2), at record 3 (policy 2, node 0)",
    );
    wrong(
        &[policy(0, &[external(X), and(0, 1)])],
        "operand 1 of `AND 0 1` is not an earlier node, at record 3 (policy 0, node 1)",
    );
    wrong(
        &[fine.clone(), policy(1, &[not(0)])],
        "operand 0 of `NOT 0` is not an earlier node, at record 3 (policy 1, node 0)",
    );
    wrong(
        &[policy(0, &[external(X), tc(200, X, X)])],
        "operand 200 of `TC 200 X X` is not an earlier node, at record 3 (policy 0, node 1)",
    );
    wrong(
        &[policy(0, &[r(X, Y), some(0, X)])],
        "Y is free at `SOME 0 X`, the policy's last node, at record 3 (policy 0, node 1)",
    );
    wrong(
        &[policy(0, &[bit(Y, 0)]), policy(1, &[external(X)])],
        "Y is free at `BIT Y 0`, the policy's last node, at record 2 (policy 0, node 0)",
    );
    wrong(
        &[policy(0, &[bit(Y, 0)]), vec![group(0, 0, &[[0, 0, 1, 1]])]],
        "Y is free at `BIT Y 0`, the policy's last node, at record 2 (policy 0, node 0)",
    );
}

#[test]
fn row_10() {
    let rules = (0..257).map(|priority| rule(0, priority, ANY, ANY, &[output(1, 3)]));
    let words = "10, 256 rules stand before it, and that is the most, at record 258 (rule 256)";
    refused(&[one(), rules.collect()].concat(), words);
    let policies: Vec<Record> = (0..9).flat_map(|number| policy(number, &[external(X)])).collect();
    let words =
        "10, 8 policies stand before it, and that is the most, at record 10 (policy 8, node 0)";
    refused(&[one(), policies].concat(), words);
    let words = "10, 32 nodes of its policy stand before it, and that is the most, at record 34 \
                 (policy 0, node 32)";
    refused(&[one(), policy(0, &[external(X); 33])].concat(), words);
}

#[test]
fn row_16_in_the_fields_of_a_group() {
    let wrong = |group: Record, words: &str| {
        let place = format!("at record 2 (group {} of switch {})", group[2], group[1]);
        refused(&[one(), vec![group]].concat(), &format!("16, {words}, {place}"));
    };
    let to_port = [0, 0, 1, 2];
    let sound = group(0, 3, &[to_port, [1, 1, 1, 0]]);
    expect(
        &["check", "-"],
        &[one(), vec![sound]].concat().concat(),
        0,
        "start: the network holds, as it has no policies\n",
    );
    wrong(with(sound, 1, 1), "there is no switch 1, the last is 0");
    wrong(with(sound, 2, 16), "there is no group 16, the last is 15");
    for byte in [3, 5, 7, 17, 20, 21, 23] {
        wrong(with(sound, byte, 9), &format!("byte {byte} is 9, and must be zero"));
    }
    for count in [0, 4, 255] {
        let words = format!("the bucket count is {count}, and must be 1 to 3");
        wrong(with(sound, 8, count), &words);
    }
    let third = "bucket 3 has target kind 0, not 1 (port) or 2 (group)";
    wrong(with(sound, 8, 3), third);
    wrong(with(sound, 8, 1), "byte 13 is 1, and must be zero");
    wrong(with(sound, 9, 1), "bucket 1 has value 1, with a bit that care 0 leaves open");
    wrong(with(sound, 14, 2), "bucket 2 has care 2, which does not fit its width 1");
    for kind in [0, 3, 255] {
        let words = format!("bucket 1 has target kind {kind}, not 1 (port) or 2 (group)");
        wrong(with(sound, 11, kind), &words);
    }
    wrong(with(sound, 12, 4), "bucket 1 sends to port 4, and the last is 3");
    for target in [3, 4, 15, 16, 255] {
        let words = format!("bucket 2 goes on to group {target}, which is not below its own, 3");
        wrong(group(0, 3, &[to_port, [0, 0, 2, target]]), &words);
    }
    wrong(
        group(0, 3, &[to_port, [0, 0, 2, 2]]),
        "bucket 2 is group 2, which switch 0 does not have",
    );
}

/// Two switches with a miss each; line 4 is the first behind them.
const TWO: &str = "widths H 1 P 2 W 1\nmiss 0: output drop\nmiss 1: output drop\n";

#[test]
fn row_16_between_records() {
    let wrong = |statements: &str, words: &str| {
        refused_text(&format!("{TWO}{statements}"), &format!("16, {words}"));
    };
    wrong(
        "group 0/2: output 1\ngroup 0/2: output 2\n",
        "group 2 of switch 0 is there already, line 4, at record 4 (group 2 of switch 0), line 5",
    );
    wrong(
        "group 0/2: output 1\ngroup 1/0: output 1\ngroup 0/2: output 2\n",
        "group 2 of switch 0 is there already, line 4, at record 5 (group 2 of switch 0), line 6",
    );
    wrong(
        "group 0/2: output 1\ngroup 0/1: output 2\n",
        "group 1 of switch 0 comes before group 2 of switch 0 (line 4), at record 4 (group 1 of \
         switch 0), line 5",
    );
    wrong(
        "group 1/0: output 1\ngroup 0/1: output 2\n",
        "group 1 of switch 0 comes before group 0 of switch 1 (line 4), at record 4 (group 1 of \
         switch 0), line 5",
    );
    wrong(
        "group 0/2: output 1; group 1\ngroup 1/1: output 1\n",
        "bucket 2 is group 1, which switch 0 does not have, at record 3 (group 2 of switch 0), line 4",
    );
    wrong(
        "rule 0 priority 1: set 1, group 4, group 5\ngroup 0/4: output 1\ngroup 1/5: output 1\n",
        "action 3 is group 5, which switch 0 does not have, at record 3 (rule 0), line 4",
    );
    refused_text(
        "widths H 1 P 2 W 0\nmiss 0: group 0\n",
        "16, action 1 is group 0, which switch 0 does not have, at record 1 (miss of switch 0), \
         line 2",
    );
    let first: String = (0..16).map(|number| format!("group 0/{number}: output 1\n")).collect();
    wrong(
        &format!("{first}group 1/0: output 1\n"),
        "16 groups stand before it, and that is the most, at record 19 (group 0 of switch 1), \
         line 20",
    );
    // As objects, with the other record and its line.
    let twice = format!("{TWO}group 0/2: output 1\ngroup 0/2: output 2\n");
    let object = r#"{"subject":"start","answer":"refused","row":16,"place":4,"cause":"group 2 of switch 0 is there already, line 4","file":"standard input","line":5,"other":3,"other_line":4}"#;
    expect(&["check", "--json", "-"], twice.as_bytes(), 2, &format!("{object}\n"));
}

/// Checks what is said of a command to K that a row refuses.
fn refused_command(row: usize, command: Record, words: &str) {
    // A delete of nothing comes first, so that a command of any kind is a command.
    let nothing = record(&[8]);
    let ran = wegbaro(&["run", "-"], &[k(), vec![nothing, command]].concat().concat());
    let line = ran.text().lines().last().unwrap();
    assert!(line.ends_with(&format!(": refused: row {row}, {words}")), "{line}");
}

#[test]
fn row_16_in_a_command() {
    let add = add(rule(1, 1, ANY, ANY, &[output(1, 3), [4, 9, 0]]));
    let words = "action 2 is group 9, which switch 1 does not have";
    refused_command(16, add, words);
    refused_command(16, with(add, 0, 7), words);
    refused_command(12, with(add, 13, 16), "action 2 is group 16, and the last is 15");
    let zero = "where it must be zero";
    refused_command(
        12,
        with(add, 14, 3),
        &format!("action 2 is a group, and its care is 3, {zero}"),
    );
    let text = format!("{TWO}group 0/9: output 1\nadd 1 priority 1: group 9\n");
    let line = "command 1 (add 1 priority 1 port ** header *: group 9), line 5: refused: row 16, \
                action 1 is group 9, which switch 1 does not have\n";
    let start = "start: the network holds, as it has no policies\n";
    expect(&["run", "-"], text.as_bytes(), 1, &format!("{start}{line}"));
    expect(&["run", "--gate", "-"], text.as_bytes(), 1, "start holds\n1 refused 16 0\n");
}

#[test]
fn row_12() {
    let add = add(rule(0, 1, ANY, ANY, &[output(1, 3)]));
    refused_command(
        12,
        with(add, 0, 4),
        "its kind is 4, and a command's is 6 (add), 7 (modify) or 8 (delete)",
    );
    refused_command(12, with(add, 1, 2), "there is no switch 2, the last is 1");
    refused_command(12, with(add, 8, 0), "the action count is 0, and must be 1 to 4");
    refused_command(
        12,
        with(add, 9, 3),
        "action 1 is in_port, and its value is 1, where it must be zero",
    );
    refused_command(12, with(add, 0, 8), "byte 8 is 1, and must be zero");
    refused_command(12, with(with(add, 0, 7), 23, 5), "byte 23 is 5, and must be zero");
}

/// The line of a command to a network in words.
fn told(network: &[Record], command: Record) -> String {
    let ran = wegbaro(&["run", "-"], &[network, &[command]].concat().concat());
    ran.text().lines().last().unwrap().to_string()
}

/// A new rule has no room, be it an add's or, in OpenFlow 1.0, a modify's.
#[test]
fn row_13() {
    let new = rule(0, 256, ANY, ANY, &[output(1, 3)]);
    let there = rule(0, 255, ANY, ANY, &[output(1, 3)]);
    let add_words = ": refused: row 13, 256 rules are there, and this one is new";
    let modify_words = format!("{add_words}: in OpenFlow 1.0 a modify without its rule adds it");
    let judged = "the network then has 258 records";
    for version in VERSIONS {
        let full = full_switch(version);
        let ends = |command: Record, words: &str| {
            let line = told(&full, command);
            assert!(line.ends_with(words), "version {version}: {line}");
        };
        ends(add(new), add_words);
        ends(modify(new), if version == 1 { &modify_words } else { judged });
        ends(add(there), judged);
        ends(modify(there), judged);
    }
}
