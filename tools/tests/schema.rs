//! What the program writes with `--json` is what `docs/answers.schema.json` says, and nothing in there
//! is never written.

mod json_values;
mod running;

use json_values::{Schema, Value};
use running::{file, wegbaro, K};
use std::collections::{BTreeMap, BTreeSet};
use std::fs;
use std::path::Path;
use wegbaro_tests::k::{first_add, k};

/// A ward with names, groups and rules of equal priority, whose policies hold.
const WARD: &str = "\
widths H 1 P 3 W 1
name switch 0 icu
link icu:4 - 1:4
miss icu: output drop
miss 1: output drop
rule icu priority 10 port 1: group 0
rule icu priority 10 header 0: output 4
rule icu priority 10 header 1: output 5
policy 0 \"nothing leaves\": header 1 never leaves at 1:1
group icu/0: output 4
add 1 priority 1: output 1
add icu priority 10 port 1: output 4
delete icu priority 11 port 1
";

/// Commands of a session over that ward: each of the first three is about the first one's rule.
const COMMANDS: &[u8] = b"\
add icu priority 6: output 4

add icu priority 6: output 5

delete icu priority 6 port 2

add 1 priority 2: output 1

add 0 priority 5 output 2

route 2 40
check
show
show all
";

/// A ward in which no frame gets to where a policy wants it, and another policy is broken too.
const LOST: &[u8] = b"\
widths H 1 P 2 W 1
link 0:2 - 1:1
miss 0: output drop
miss 1: output drop
policy 0: what enters at 0:1 reaches switch 1
policy 1: external(X)
";

fn schema() -> Schema {
    Schema::read(include_str!("../../docs/answers.schema.json"))
}

/// The answers to a call.
fn answers(arguments: &[&str], input: &[u8]) -> Vec<Value> {
    let ran = wegbaro(arguments, input);
    assert!(ran.text().starts_with('{'), "{arguments:?}: {}", ran.said);
    ran.text().lines().map(Value::read).collect()
}

/// The answers to all examples.
fn to_examples() -> Vec<Value> {
    let folder = Path::new(K).parent().unwrap().parent().unwrap();
    let networks = fs::read_dir(folder).unwrap().map(|it| it.unwrap().path().join("network.txt"));
    let texts = networks.filter(|path| path.exists());
    texts.flat_map(|path| answers(&["run", "--json", path.to_str().unwrap()], b"")).collect()
}

/// Answers of every kind.
fn of_every_kind() -> Vec<Value> {
    let ward = file("schema", WARD.as_bytes());
    let violated = b"widths H 1 P 2 W 0\nmiss 0: output drop\npolicy 0 \"none\": external(X)\n";
    let twice = b"widths H 1 P 2 W 0\nmiss 0: output drop\nmiss 0: output drop\n";
    let faulty = b"widths H 1 P 2 W 0\nmiss 0: output drop\npolicy 0: E(x)\npolicy 0: E(X)\n";
    let records = [k().concat(), first_add().to_vec(), vec![6]].concat();
    let calls = [
        (&["run", "--json", &ward][..], &b""[..]),
        (&["session", "--json", &ward], COMMANDS),
        (&["session", "--json", "--records", K], &[6; 24]),
        (&["run", "--json", "-"], &records),
        (&["route", "--json", &ward, "2", "40"], b""),
        (&["route", "--json", &ward, "28", "2"], b""),
        (&["check", "--json", "-"], violated),
        (&["check", "--json", "-"], LOST),
        (&["check", "--json", "-"], twice),
        (&["check", "--json", "-"], faulty),
        (&["check", "--json", "no such file"], b""),
    ];
    let told = calls.iter().flat_map(|(arguments, input)| answers(arguments, input));
    told.chain(to_examples()).collect()
}

/// The names of all fields in a value.
fn names(value: &Value) -> BTreeSet<String> {
    match value {
        Value::Object(fields) => {
            fields.keys().cloned().chain(fields.values().flat_map(names)).collect()
        }
        Value::List(values) => values.iter().flat_map(names).collect(),
        Value::Truth(_) | Value::Number(_) | Value::Text(_) => BTreeSet::new(),
    }
}

#[test]
fn what_is_written_is_what_the_schema_says() {
    let schema = schema();
    let told = of_every_kind();
    for answer in &told {
        assert_eq!(schema.faults(answer), Vec::<String>::new(), "{answer:?}");
    }
    let mut written: BTreeSet<String> = told.iter().flat_map(names).collect();
    // An internal error alone has it, and none is known.
    written.insert("gate_line".to_owned());
    let said: BTreeSet<String> =
        schema.objects().into_iter().flat_map(BTreeMap::keys).cloned().collect();
    assert_eq!(said, written);
}

/// An answer without one of its fields, with one more, or with one of another type.
fn damaged(answer: &Value, name: &str) -> [Value; 3] {
    let changed = |change: &dyn Fn(&mut BTreeMap<String, Value>)| {
        let mut fields = answer.object().clone();
        change(&mut fields);
        Value::Object(fields)
    };
    [
        changed(&|fields| drop(fields.remove(name))),
        changed(&|fields| drop(fields.insert("more".to_owned(), Value::Number(1)))),
        changed(&|fields| drop(fields.insert(name.to_owned(), Value::List(vec![])))),
    ]
}

#[test]
fn what_is_not_so_is_refused() {
    let schema = schema();
    for answer in answers(&["run", "--json", K], b"") {
        for name in ["answer", "subject"] {
            for damaged in damaged(&answer, name) {
                assert_ne!(schema.faults(&damaged), Vec::<String>::new(), "{damaged:?}");
            }
        }
    }
    let holds = |fields: &str| {
        let start = "\"subject\":\"start\",\"answer\":\"holds\",\"records\":20";
        schema.faults(&Value::read(&format!("{{{start}{fields}}}"))).is_empty()
    };
    assert!(holds(",\"policies\":1"));
    assert!(!holds(""));
    assert!(!holds(",\"policies\":658"));
    assert!(!holds(",\"policies\":\"1\""));
}

/// The fields that the schema has are those that README.md describes.
#[test]
fn every_field_is_described() {
    let readme = include_str!("../README.md");
    for field in schema().objects().into_iter().flat_map(BTreeMap::keys) {
        assert!(readme.contains(&format!("`{field}`")), "{field}");
    }
}
