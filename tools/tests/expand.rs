//! Policies shown in the raw forms.

mod common;

use common::parsed;
use std::path::Path;
use wegbaro_tools::expand::expand;
use wegbaro_tools::parse::Parsed;

const WARD: &str = "\
widths H 1 P 2 W 1
name switch 1 core
miss 0: output drop
miss 1: output drop
";

fn expanded(text: &str) -> String {
    expand(text, &parsed(text))
}

#[test]
fn sentences_and_fields() {
    let policies = "\
policy 0 \"inside\": header 1 never leaves
policy 1: switch(X) = core
    and loops(X) # no loops at the core
policy 2: bit(X,3) & tc(R(X,Y))(X,X)
policy 3 \"by hand\" nodes: E X; NOT 0
add core priority 1: output drop
";
    let raw = "\
# policy 0 \"inside\": header 1 never leaves
policy 0 \"inside\": E(X) & !bit(X,4) & exists Y. tc(R(X,Y))(X,Y) & E(Y) & bit(Y,4) & bit(Y,0)
# policy 1: switch(X) = core
#     and loops(X) # no loops at the core
policy 1: bit(X,3) & tc(R(X,Y))(X,X)
policy 2: bit(X,3) & tc(R(X,Y))(X,X)
policy 3 \"by hand\" nodes: E X; NOT 0
add core priority 1: output drop
";
    let text = format!("{WARD}{policies}");
    assert_eq!(expanded(&text), format!("{WARD}{raw}"));
    assert_eq!(parsed(&expanded(&text)).bytes, parsed(&text).bytes);
}

/// A policy behind one that is given by bytes.
#[test]
fn behind_bytes() {
    let node = format!("bytes 05 00 02{}\n", " 00".repeat(21));
    let text = format!("{WARD}{node}policy 1: loops(X)\n");
    let raw = "# policy 1: loops(X)\npolicy 1: tc(R(X,Y))(X,X)\n";
    assert_eq!(expanded(&text), format!("{WARD}{node}{raw}"));
}

/// Every example gives the same records when it is expanded, and so does a policy that is split.
#[test]
fn the_same_records() {
    let folder = Path::new(env!("CARGO_MANIFEST_DIR")).join("../examples");
    let mut texts = vec![];
    for example in ["chain", "flood", "k", "openflow10", "routes", "templates", "uplinks"] {
        texts.push(std::fs::read_to_string(folder.join(example).join("network.txt")).unwrap());
    }
    let misses: String = (0..8).map(|switch| format!("miss {switch}: output drop\n")).collect();
    let policies = "\
policy 0: what enters at 0:1, 6:3 never reaches 7:1, 3:6, 4:5, 2:3
policy 1: no loops
group 0/0: output 2
delete 0 priority 1
";
    texts.push(format!("widths H 1 P 3 W 3\n{misses}{policies}"));
    for text in texts {
        let [first, again] = [parsed(&text), parsed(&expanded(&text))];
        assert_eq!(first.bytes, again.bytes, "{}", expanded(&text));
        let is_split =
            |parsed: &Parsed| parsed.notes.iter().any(|note| note.contains("parts of it"));
        assert_eq!(is_split(&first), text.contains("6:3"), "{:?}", first.notes);
        assert!(!is_split(&again), "{:?}", again.notes);
    }
}
