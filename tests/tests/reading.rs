//! `docs/READING.md` against the crates: it names each definition that a promise rests on, each crate
//! and each edit, with the mistake that it is.

use std::collections::{BTreeMap, BTreeSet};
use std::fs;
use std::path::PathBuf;
use wegbaro_tests::reading::code;
use wegbaro_tests::reading::document::{Document, Pinned};
use wegbaro_tests::reading::edits::{self, Edit, BEGIN, END};
use wegbaro_tests::reading::sources::{entries, listed, Place, Sources};
use wegbaro_tests::reading::specs;
use wegbaro_tests::reading::walk::{walk, Stop};

/// Where the walk ends. What these compute is not believed but proved to be what is meant.
const STOPS: [Stop; 3] = [
    // `closed_iff` holds the computed closure to `Walk`, `truth_iff` the computed truth to `Truth`.
    Stop::Files("Computed"),
    // Its type says it all: a verdict, with a proof that it is the one that is meant (`Is`).
    Stop::Body("judgement/specs/Judgement", "judgement"),
    // Likewise the route between two states, or none (`IsIn`).
    Stop::Body("trails/specs/InNet", "routed"),
];

fn root() -> PathBuf {
    PathBuf::from(env!("CARGO_MANIFEST_DIR")).join("..")
}

fn sources() -> Sources {
    Sources::read(&root().join("crates")).unwrap()
}

fn text() -> String {
    fs::read_to_string(root().join("docs/READING.md")).unwrap()
}

fn document() -> Document {
    Document::parse(&text())
}

/// What is wrong with the list of definitions that have to be believed.
fn differences(
    sources: &Sources,
    document: &Document,
    stops: &[Stop],
) -> Result<Vec<String>, String> {
    let promised = document.promised()?;
    let functions: Result<Vec<Place>, String> =
        promised.iter().map(|f| sources.function(f)).collect();
    let theorems = document.theorems("The three demands")?;
    let walked = walk(sources, &functions?, &theorems, stops)?;

    let believed = document.believed()?;
    let named: BTreeSet<&Place> = believed.iter().collect();
    let mut wrong = Vec::new();
    for (place, from) in walked.reached.iter().filter(|(place, _)| !named.contains(place)) {
        wrong.push(format!("{place} is used by {} ({}), and not named", from.name, from.file));
    }
    for place in &named {
        if !sources.has(place) {
            wrong.push(format!("{place} is named, and does not exist"));
        } else if !walked.reached.contains_key(place) {
            wrong.push(format!("{place} is named, and no promise uses it"));
        }
        if believed.iter().filter(|other| other == place).count() > 1 {
            wrong.push(format!("{place} is named twice"));
        }
    }
    for stop in stops.iter().filter(|stop| !walked.met.contains(stop)) {
        wrong.push(format!("{stop:?} stops nothing"));
    }
    Ok(wrong)
}

/// What is wrong with the names of what pins each definition that has to be believed.
fn unpinned(document: &Document) -> Result<Vec<String>, String> {
    let tables = ["The three demands", "What is proved of them"];
    let theorems: Result<Vec<Vec<Place>>, String> =
        tables.iter().map(|title| document.theorems(title)).collect();
    let (theorems, edits) = (theorems?.concat(), document.edits()?);
    let mut wrong = Vec::new();
    for Pinned { definitions, by } in document.pinned()? {
        let pins = |name: &str| edits.contains(name) || theorems.iter().any(|t| t.name == name);
        // Beside a pin may stand for which definition it is, and which file has it.
        let beside = |name: &str| {
            let file = |place: &Place| place.file.rsplit('/').next() == Some(name);
            definitions.iter().any(|d| d.name == name) || theorems.iter().any(file)
        };
        let first = &definitions[0];
        if !by.iter().any(|name| pins(name)) {
            wrong.push(format!("nothing pins {first}"));
        }
        for name in by.iter().filter(|name| !pins(name) && !beside(name)) {
            wrong.push(format!("{name} beside {first} is neither a theorem nor an edit"));
        }
    }
    Ok(wrong)
}

fn expect_none(wrong: Vec<String>) {
    assert!(wrong.is_empty(), "docs/READING.md:\n{}", wrong.join("\n"));
}

#[test]
fn names_what_has_to_be_believed() {
    expect_none(differences(&sources(), &document(), &STOPS).unwrap());
}

#[test]
fn misses_the_definitions_of_each_row() {
    let (sources, text) = (sources(), text());
    let believed = document().believed().unwrap().len();
    let mut missed = 0;
    for row in text.lines().filter(|line| line.starts_with("| ")) {
        let less = Document::parse(&text.replacen(&format!("{row}\n"), "", 1));
        let gone = believed - less.believed().unwrap().len();
        if gone > 0 {
            assert_eq!(differences(&sources, &less, &STOPS).unwrap().len(), gone, "{row}");
        }
        missed += gone;
    }
    assert_eq!(missed, believed);
}

#[test]
fn names_what_pins_each_definition() {
    expect_none(unpinned(&document()).unwrap());
}

#[test]
fn misses_what_pins_the_definitions_of_each_row() {
    let text = text();
    let believed = text.split("\n## ").find(|part| part.starts_with("What has to be believed"));
    for row in believed.unwrap().lines().filter(|line| line.contains("` | `")) {
        let (definitions, _) = row.trim_end_matches(" |").rsplit_once(" | ").unwrap();
        let empty = Document::parse(&text.replacen(row, &format!("{definitions} | |"), 1));
        assert_eq!(unpinned(&empty).unwrap().len(), 1, "{row}");
        let other = format!("{definitions} | `no-such-theorem` |");
        let other = Document::parse(&text.replacen(row, &other, 1));
        assert_eq!(unpinned(&other).unwrap().len(), 2, "{row}");
    }
}

#[test]
fn names_each_export() {
    let (sources, document) = (sources(), document());
    let promised = document.promised().unwrap();
    let missing = sources.exports().filter(|place| !promised.contains(&place.name.as_str()));
    expect_none(missing.map(|place| format!("{place} is exported, and not named")).collect());
}

#[test]
fn names_each_promise_that_requires_nothing() {
    let (sources, document) = (sources(), document());
    let free = |path: &&str| sources.requires_nothing(&sources.function(path).unwrap()).unwrap();
    let free: BTreeSet<&str> = document.promised().unwrap().into_iter().filter(free).collect();
    assert_eq!(document.unconditional().unwrap(), free);
}

#[test]
fn theorems_exist() {
    let (sources, document) = (sources(), document());
    let theorems = document.theorems("What is proved of them").unwrap();
    let missing = theorems.iter().filter(|place| !sources.has(place));
    expect_none(missing.map(|place| format!("{place} does not exist")).collect());
}

#[test]
fn names_each_edit() {
    let crates = root().join("crates");
    let mut edits = BTreeSet::new();
    for folder in entries(&crates).unwrap() {
        let files = entries(&crates.join(&folder).join("must-fail")).unwrap_or_default();
        let labels = files.iter().filter_map(|file| file.strip_suffix(".edit"));
        edits.extend(labels.map(|label| format!("{folder}/{label}")));
    }
    let document = document();
    let named: BTreeSet<String> = document.edits().unwrap().iter().map(|e| e.to_string()).collect();
    assert_eq!(named, edits);
}

#[test]
fn has_the_index_of_the_edits() {
    let edits = edits::read(&root()).unwrap();
    let made = edits::with_index(&text(), &edits::index(&edits)).unwrap();
    assert!(made == text(), "docs/READING.md: `cargo run -p wegbaro-tests --example edits`");
}

#[test]
fn each_edit_says_its_mistake() {
    expect_none(edits::faults(&edits::read(&root()).unwrap()));
}

#[test]
fn lists_each_crate_that_has_edits() {
    let has_edits = |name: &String| root().join("crates").join(name).join("must-fail").is_dir();
    let list = fs::read_to_string(root().join("crates.txt")).unwrap();
    let listed: BTreeSet<&str> = listed(&list).into_iter().map(|(name, _)| name).collect();
    let folders = entries(&root().join("crates")).unwrap();
    let unlisted = folders.iter().filter(|name| has_edits(name) && !listed.contains(name.as_str()));
    expect_none(unlisted.map(|name| format!("{name} is not in crates.txt")).collect());
}

fn edit(krate: &str, label: &str, first: &str) -> Edit {
    Edit { krate: krate.to_string(), label: label.to_string(), first: first.to_string() }
}

#[test]
fn refuses_an_edit_that_does_not_say_its_mistake() {
    let (fits, long) = (format!("# {}", "é".repeat(97)), format!("# {}", "é".repeat(98)));
    for first in ["# a", &fits] {
        let edits = [edit("low", "a", first), edit("low", "b", "# b"), edit("high", "c", first)];
        expect_none(edits::faults(&edits));
    }
    for (first, fault) in [
        ("file: src/lib.rt", "does not begin with a comment line"),
        ("#a", "does not begin with a comment line"),
        (long.as_str(), "has 100 characters or more"),
        ("# a | b", "would end the cell of a table"),
        ("# other", "is that of another edit of its crate"),
    ] {
        let wrong = edits::faults(&[edit("low", "a", "# other"), edit("low", "b", first)]);
        assert_eq!(wrong, [format!("low/b: the first line {fault}")]);
    }
}

#[test]
fn makes_the_index_between_its_marks() {
    let with = |index: &str| format!("before\n{BEGIN}\n\n{index}\n{END}\nafter\n");
    let row = edits::index(&[edit("low", "a", "# b")]);
    assert_eq!(row, "| edit | mistake |\n|---|---|\n| `low/a` | b |\n");
    assert_eq!(edits::with_index(&with("an older one\n"), &row), Ok(with(&row)));
    for mark in [BEGIN, END] {
        assert!(edits::with_index(&with("").replace(mark, ""), &row).is_err(), "{mark}");
    }
}

#[test]
fn names_each_crate() {
    let list = fs::read_to_string(root().join("crates.txt")).unwrap();
    let crates: BTreeMap<&str, BTreeSet<&str>> = listed(&list).into_iter().collect();
    assert_eq!(document().crates().unwrap(), crates);
}

#[test]
fn reads_the_name_of_a_static_library() {
    let list = "# NAME: what it depends on\nlow:\nhigh: low\nhigh_c staticlib: high low\n";
    let (none, low) = (BTreeSet::new(), BTreeSet::from(["low"]));
    let both = BTreeSet::from(["high", "low"]);
    assert_eq!(listed(list), [("low", none), ("high", low), ("high_c", both)]);
}

#[test]
fn reads_uses_and_clauses_of_code() {
    let text = "use low::{Size, most};
use low::parts::Part;

fn call(size: Size, part: Part)
    requires small { size < 8 }
    requires { part < 8 }
    ensures { result }
{
";
    let file = code::parse("high/src/lib.rt", text).unwrap();
    let uses: Vec<String> = file.uses.values().map(Place::to_string).collect();
    assert_eq!(uses, ["crates/low/src/parts.rt: Part", "crates/low/src/lib.rt: Size"]);
    let clauses = " requires { size < 8 } requires { part < 8 } ensures { result }";
    assert_eq!(file.functions["call"].body, clauses);
}

#[test]
fn reads_types_methods_and_what_holds_of_them() {
    let text = "pub mod parts;

use low::parts::Part;

const MOST: usize = 80;

pub struct Empty;

pub struct Line<'a> {
    bytes: &'a [u8; low::SIZE],
    pub ghost short: { few bytes },
}

impl<'a, F: Fn(u8) -> u8> Model for Line<'a, F> {
    ghost view = { λ l. shown l };

    pub(crate) fn first<'b>(&'b self) -> Part
        requires { some self }
    {
        inner()
    }
}

fn first<F: Fn(u8) -> Part>(line: &Line, f: F) -> Part
    ensures { result }
{
";
    let file = code::parse("high/src/lib.rt", text).unwrap();
    let uses: Vec<String> = file.uses.values().map(Place::to_string).collect();
    assert_eq!(uses, ["crates/low/src/parts.rt: Part", "crates/low/src/lib.rt: SIZE"]);
    let defined: Vec<&String> = file.definitions.keys().collect();
    assert_eq!(defined, ["Empty", "Line", "MOST"]);
    assert_eq!(file.definitions["Empty"].body, " pub struct Empty;");
    for part in ["{ few bytes }", "{ λ l. shown l }"] {
        assert!(file.definitions["Line"].body.contains(part), "{part}");
    }
    assert_eq!(file.held, BTreeSet::from(["Line".to_string()]));
    let functions: Vec<&String> = file.functions.keys().collect();
    assert_eq!(functions, ["Line::first", "first"]);
    let method = &file.functions["Line::first"];
    assert_eq!(method.body, " requires { some self }");
    assert!(method.statement.ends_with("fn first<'b>(&'b self) -> Part { Line"), "{method:?}");
    assert_eq!(code::parameters(&file.functions["first"].statement), "(line: &Line, f: F)");
}

#[test]
fn refuses_code_that_it_cannot_read() {
    for text in ["use low::*;", "use low::Size as Width;", "use low::{", "ghost use Rattle.low;"] {
        assert!(code::parse("high/src/lib.rt", text).is_err(), "{text}");
    }
    let held = "impl Model for Size {\n    ghost view = { λ s. s };\n}\n";
    assert!(code::parse("high/src/lib.rt", held).is_err());
    assert!(code::parse("high/src/lib.rt", &format!("struct Size;\n{held}")).is_ok());
}

#[test]
fn counts_what_holds_of_a_type_as_required() {
    let mut sources = Sources::default();
    let low = "pub struct Plain {
    n: u8,
}

pub struct Held {
    ghost small: { n },
}

pub struct Modelled;

impl Model for Modelled {
    ghost invariant = { λ m. m };
}

impl Modelled {
    pub fn own(self)
        ensures { self }
    {
    }
}

pub enum Deep {
    Is(Held),
}
";
    let high = "use low::{Deep, Held, Modelled, Plain};

fn plain(p: Plain) -> Held
    ensures { p }
{
}

fn asks(p: Plain)
    requires { p }
    ensures { p }
{
}

fn held(h: &Held)
    ensures { h }
{
}

fn modelled(m: Modelled)
    ensures { m }
{
}

fn deep<'a, F: Fn(u8) -> u8>(f: F, d: &'a Option<Deep>)
    ensures { d }
{
}
";
    sources.add("low/src/lib.rt", low).unwrap();
    sources.add("high/src/lib.rt", high).unwrap();
    for (path, free) in [
        ("high::plain", true),
        ("high::asks", false),
        ("high::held", false),
        ("high::modelled", false),
        ("high::deep", false),
        ("low::Modelled::own", false),
    ] {
        let place = sources.function(path).unwrap();
        assert_eq!(sources.requires_nothing(&place), Ok(free), "{path}");
    }
}

/// A call of a crate `high`, whose promise goes over the names of a crate `low`.
const FILES: [(&str, &str); 5] = [
    (
        "low/src/lib.rt",
        "// Sizes.
#![tactic(auto)]

// A number of bits.
#[derive(Clone, Copy)]
pub struct Size {
    bits: u8,
}
",
    ),
    (
        "low/specs/Base.antt",
        "use Rattle.std.specs.Prelude.{ℕ}
use Rattle.low.specs.declared.Size.{Size}

-- shapes
pub data Shape : Type 0 where
  flat : Shape
  round square : ℕ → Shape

pub data Colour : Type 0 where
  red : Colour

-- what only a comment, a proof and what a proof unfolds name
unfoldable pub extra : ℕ
extra = 0

module (of : Colour) where
  -- the sides of a square
  abbrev both : ℕ → ℕ
  both n = sides (square n)  -- not extra

-- twice the bits of a size
unfoldable pub twice : Size → ℕ
unfolding extra
twice size = both size.bits

-- a law
pub law : (size : Size) → twice size ≡ twice size
law size = record {
  is = extra;
}
",
    ),
    (
        "low/proofs/Laws.antt",
        "use Rattle.std.specs.Prelude.{ℕ, ◌≡◌}
use Rattle.low.specs.Base.{extra}
use Rattle.low.proofs.run.Goals as goal

-- what a law tells of a number
pub record Told (n : ℕ) : Type 0 where
  pub is : n ≡ n

-- another law
pub again : (n : ℕ) → Told n
again n = goal.again extra
",
    ),
    (
        "high/specs/Promise.antt",
        "use Rattle.low.specs.Base.{twice as double, round}
use Rattle.low.specs.declared.Size.{Size}

-- it is kept
pub record Kept (size : Size)
    (r : ℕ) : Type 0 where
  pub is : r ≡ double size
  pub also : Rattle.high.specs.Promise.Other
      → r ≡ r

abbrev pub Other : Type 0
Other = Type 0
",
    ),
    (
        "high/src/lib.rt",
        "#![tactic(auto)]

ghost use Rattle.high.specs.Promise.{Kept};

use low::Size;

// The call.
#[unsafe(no_mangle)]
pub extern \"C\" fn run(size: Size) -> u64
    ensures { Kept size result }
{
    0
}
",
    ),
];

/// What has to be believed of it.
const SMALL: &str = "
## What has to be believed
| document | file | definitions |
|---|---|---|
| a | `low/src/lib.rt` | `Size` |
| b | `low/specs/Base` | `twice`, `both`, `Shape`, `Colour` |
| c | `high/specs/Promise` | `Kept`, `Other` |
| d | `low/proofs/Laws` | `Told` |
## What the code promises
| function | promise |
|---|---|
| `run` | `Kept` |
## The three demands
| demand | theorems | file |
|---|---|---|
| d | `law` | `low/specs/Base` |
| d | `again` | `low/proofs/Laws` |
| e | | |
";

/// The differences with a text changed in the document, and one in the files.
fn small(
    document: (&str, &str),
    files: (&str, &str),
    stops: &[Stop],
) -> Result<Vec<String>, String> {
    let mut sources = Sources::default();
    for (path, text) in FILES {
        sources.add(path, &text.replace(files.0, files.1))?;
    }
    differences(&sources, &Document::parse(&SMALL.replace(document.0, document.1)), stops)
}

const SAME: (&str, &str) = ("", "");

fn one(result: Result<Vec<String>, String>, wrong: &str) {
    assert_eq!(result, Ok(vec![wrong.to_string()]));
}

#[test]
fn follows_types_and_bodies_but_no_proof() {
    assert_eq!(small(SAME, SAME, &[]), Ok(vec![]));
    for (name, file, user) in [
        ("Size", "low/src/lib.rt", "law (low/specs/Base)"),
        ("both", "low/specs/Base.antt", "twice (low/specs/Base)"),
        ("Shape", "low/specs/Base.antt", "both (low/specs/Base)"),
        ("Colour", "low/specs/Base.antt", "both (low/specs/Base)"),
        ("Kept", "high/specs/Promise.antt", "run (high/src/lib.rt)"),
        ("Other", "high/specs/Promise.antt", "Kept (high/specs/Promise)"),
        ("Told", "low/proofs/Laws.antt", "again (low/proofs/Laws)"),
    ] {
        let used = format!("crates/{file}: {name} is used by {user}, and not named");
        one(small((&format!("`{name}`"), ""), SAME, &[]), &used);
    }
}

#[test]
fn follows_a_change_of_the_files() {
    let third = ("twice size = both", "twice size = third\n\nthird : ℕ → ℕ\nthird n = both");
    let used = "crates/low/specs/Base.antt: third is used by twice (low/specs/Base), and not named";
    one(small(SAME, third, &[]), used);
    let unused = "crates/low/specs/Base.antt: Shape is named, and no promise uses it";
    one(small(SAME, ("square n", "n"), &[]), unused);
}

#[test]
fn follows_what_holds_of_a_type_its_model_its_constants_and_its_methods() {
    let extra = |user: &str| {
        format!(
            "crates/low/specs/Base.antt: extra is used by {user} (low/src/lib.rt), and not named"
        )
    };
    let taken = "ghost use Rattle.low.specs.Base.{extra};\n\npub struct Size {\n    bits: u8,";
    let size = "pub struct Size {\n    bits: u8,";
    let held = format!("{taken}\n    pub ghost few: {{ extra }},");
    one(small(SAME, (size, &held), &[]), &extra("Size"));
    for member in [
        "impl Model for Size {\n    ghost view = { λ s. extra };",
        "impl Model for Size {\n    ghost invariant =\n        { λ s. extra };",
        "impl<'a> From<&'a u8> for Size {\n    ghost from_gives = { extra };",
    ] {
        let modelled = format!("{taken}\n}}\n\n{member}");
        one(small(SAME, (size, &modelled), &[]), &extra("Size"));
    }
    let method = format!(
        "{taken}\n}}\n\nimpl Size {{\n    pub fn get(&self) -> u8\n        ensures {{ extra }}\n    {{"
    );
    let promised = ("| `run` | `Kept` |", "| `run` | `Kept` |\n| `low::Size::get` | `extra` |");
    one(small(promised, (size, &method), &[]), &extra("Size::get"));
    assert_eq!(small(SAME, (size, &method), &[]), Ok(vec![]));

    let most = "crates/low/src/lib.rt: MOST is used by";
    let array = "const MOST: usize = 8;\n\npub struct Size {\n    bits: [u8; MOST],";
    one(small(SAME, (size, array), &[]), &format!("{most} Size (low/src/lib.rt), and not named"));
    let constant = format!("const MOST: usize = 8;\n\n{size}");
    assert_eq!(small(SAME, (size, &constant), &[]), Ok(vec![]));
    let path = ("run(size: Size)", "run(size: Size, by: low::parts::Part)");
    assert!(small(SAME, path, &[]).is_err());
    let path = ("run(size: Size)", "run(size: low::Size)");
    assert_eq!(small(SAME, path, &[]), Ok(vec![]));
}

#[test]
fn finds_what_is_declared() {
    for (path, name, file) in [
        ("Rattle.low.specs.declared.Size", "Size", "low/src/lib.rt: Size"),
        ("Rattle.low.specs.declared.parts.Part", "Part", "low/src/parts.rt: Part"),
        ("Rattle.low.specs.declared.parts.Part.TheVariants", "Bit", "low/src/parts.rt: Part"),
        ("Rattle.low.specs.declared.parts.TheConstants", "MOST", "low/src/parts.rt: MOST"),
        ("Rattle.low.specs.declared.TheConstants", "MOST", "low/src/lib.rt: MOST"),
        ("Rattle.low.specs.declared.Size.TheConstants", "MOST", "low/src/lib.rt: Size"),
    ] {
        let place = specs::used(path, name).unwrap();
        assert_eq!(place.to_string(), format!("crates/{file}"), "{path}");
    }
}

#[test]
fn refuses_what_is_not_there_not_used_or_named_twice() {
    let gone = "crates/low/specs/Base.antt: thrice is named, and does not exist";
    one(small(("`both`", "`both`, `thrice`"), SAME, &[]), gone);
    let unused = "crates/low/specs/Base.antt: extra is named, and no promise uses it";
    one(small(("`both`", "`both`, `extra`"), SAME, &[]), unused);
    let again = "crates/low/specs/Base.antt: both is named twice";
    one(small(("`both`", "`both`, `both`"), SAME, &[]), again);
}

#[test]
fn refuses_what_it_cannot_read() {
    for promise in [
        ("`run`", "`walk`"),
        ("`law`", "`flaw`"),
        ("`again`", "`once`"),
        ("| e | |", "| e | `law` |"),
    ] {
        assert!(small(promise, SAME, &[]).is_err(), "{promise:?}");
    }
    for line in [
        ("pub law :", "pub law of :"),
        ("{twice as double,", "{thrice as double,"),
        ("Base.{twice as double,", "Bases.{twice as double,"),
        ("Base.{twice as double, round}", "Base as double"),
        ("abbrev both :", "abbrev ◌both◌ :"),
        ("    ensures { Kept size result }\n{", "{"),
    ] {
        assert!(small(SAME, line, &[]).is_err(), "{line:?}");
    }
}

#[test]
fn stops_where_it_is_told_to() {
    let body = [Stop::Body("low/specs/Base", "twice")];
    assert_eq!(small((", `both`, `Shape`, `Colour`", ""), SAME, &body), Ok(vec![]));
    let file = [Stop::Files("Promise")];
    assert_eq!(small(("`Kept`, `Other`", ""), SAME, &file), Ok(vec![]));
    one(small(SAME, SAME, &[Stop::Files("Computed")]), "Files(\"Computed\") stops nothing");
}
