//! Files of Rattle: the types and constants that they declare and the contracts of their functions.

use super::sources::{Definition, File, Place};
use super::specs;

/// The place of a name of a crate's module; the crate's own file is `lib.rt`.
pub fn place(krate: &str, modules: &[&str], name: &str) -> Place {
    let file = if modules.is_empty() { "lib".to_string() } else { modules.join("/") };
    Place::new(&format!("{krate}/src/{file}.rt"), name)
}

/// Reads a file by its path below the crates, which says what `crate::` is.
pub fn parse(path: &str, text: &str) -> Result<File, String> {
    let lines: Vec<&str> = text.lines().map(|l| l.split("//").next().unwrap().trim_end()).collect();
    let modules = lines.iter().filter_map(|l| named(unmarked(l), &["mod "])).collect();
    let own = Own { krate: path.split('/').next().unwrap(), modules };
    let mut file = File::default();
    let mut within = None;
    for i in 0..lines.len() {
        let from = &lines[i..];
        if lines[i].starts_with(' ') {
            if let Some(of) = within {
                own.member(of, from, &mut file);
            }
        } else {
            own.item(from, &mut file)?;
            let goes_on = matches!(lines[i], "" | "{" | "where");
            within = implemented(lines[i]).or(within.filter(|_| goes_on));
        }
    }
    match file.definitions.keys().find(|name| !lines.iter().any(|l| declared(l) == Some(name))) {
        Some(name) => Err(format!("what holds of {name} stands where it is not declared")),
        None => Ok(file),
    }
}

/// The crate of a file, and the modules that the file declares: with these a path in it begins.
struct Own<'a> {
    krate: &'a str,
    modules: Vec<&'a str>,
}

impl Own<'_> {
    /// What begins at the start of a line.
    fn item(&self, lines: &[&str], file: &mut File) -> Result<(), String> {
        let line = lines[0];
        if let Some(used) = line.strip_prefix("ghost use ") {
            return specs::use_line(used.trim_end_matches(';'), file);
        }
        if let Some(used) = unmarked(line).strip_prefix("use ") {
            return self.use_types(used.trim_end_matches(';'), file);
        }
        if let Some(name) = declared(line) {
            let text = declaration(lines);
            self.use_paths(&text, file);
            if text.split(' ').any(|word| word == "ghost") {
                file.held.insert(name.to_string());
            }
            file.define(name, "", &text);
        } else if let Some(name) = function(line) {
            self.function(name.to_string(), "", lines, file);
            if line.contains("extern \"C\"") {
                file.exported.insert(name.to_string());
            }
        }
        Ok(())
    }

    /// What begins within an `impl`: a method, which goes by the type's name and its own, or what
    /// holds of the type, its constants and its model, which belong to the type.
    fn member(&self, of: &str, lines: &[&str], file: &mut File) {
        let line = lines[0].strip_prefix("    ").unwrap_or_default();
        if let Some(name) = function(line) {
            self.function(format!("{of}::{name}"), of, lines, file);
        } else if line.starts_with("ghost ") || named(unmarked(line), &["const "]).is_some() {
            let text = until(lines, |l| l.ends_with(';'));
            self.use_paths(&text, file);
            if line.starts_with("ghost invariant") {
                file.held.insert(of.to_string());
            }
            file.define(of, "", &text);
        }
    }

    /// The contract of a function; of a method it goes over its type, which is `Self`, too.
    fn function(&self, name: String, of: &str, lines: &[&str], file: &mut File) {
        let mut found = contract(lines);
        self.use_paths(&found.statement, file);
        found.statement += &format!(" {of}");
        file.functions.insert(name, found);
    }

    /// A path to a type or a constant, as `scan::Layout` in a signature, is as a `use` of it.
    fn use_paths(&self, text: &str, file: &mut File) {
        let ends = |c: char| !c.is_alphanumeric() && c != '_' && c != ':';
        for path in text.split(ends).filter(|path| path.contains("::")) {
            self.use_type(path, file);
        }
    }

    /// A `use` of one name, or of several in brackets.
    fn use_types(&self, used: &str, file: &mut File) -> Result<(), String> {
        if used.ends_with('*') || used.ends_with('{') || used.contains(" as ") {
            return Err(format!("use {used}"));
        }
        match used.trim_end_matches('}').split_once("::{") {
            Some((path, list)) => {
                for name in list.split(',') {
                    self.use_type(&format!("{path}::{}", name.trim()), file);
                }
            }
            None => self.use_type(used, file),
        }
        Ok(())
    }

    /// A `use` of a type; functions are not followed. A path begins with a crate, or with a module of
    /// the file.
    fn use_type(&self, path: &str, file: &mut File) {
        let parts: Vec<&str> = path.split("::").collect();
        let place = match parts[..] {
            ["crate", ref inner @ .., name] => place(self.krate, inner, name),
            [first, .., name] if self.modules.contains(&first) => {
                place(self.krate, &parts[..parts.len() - 1], name)
            }
            [krate, ref inner @ .., name] => place(krate, inner, name),
            _ => return,
        };
        if place.name.starts_with(char::is_uppercase) {
            file.uses.insert(place.name.clone(), place);
        }
    }
}

/// The line without the words that say who sees what it declares.
fn unmarked(line: &str) -> &str {
    ["pub(crate) ", "pub "].iter().find_map(|word| line.strip_prefix(word)).unwrap_or(line)
}

/// The name that follows a word at the start of a line.
fn named<'a>(line: &'a str, words: &[&str]) -> Option<&'a str> {
    let rest = words.iter().find_map(|word| line.strip_prefix(word))?;
    rest.split(|c: char| !c.is_alphanumeric() && c != '_').next()
}

fn declared(line: &str) -> Option<&str> {
    let words = ["struct ", "enum ", "trait ", "const ", "type "];
    named(unmarked(line), &words).filter(|_| function(line).is_none())
}

fn function(line: &str) -> Option<&str> {
    let mut rest = unmarked(line);
    for word in ["const ", "unsafe ", "extern \"C\" "] {
        rest = rest.strip_prefix(word).unwrap_or(rest);
    }
    named(rest, &["fn "])
}

/// The type that an `impl` is of: `Line` of `impl Model for Line {`, `Network` of `impl<'a> Network<'a> {`.
fn implemented(line: &str) -> Option<&str> {
    let rest = line.strip_prefix("impl")?;
    let head = match rest.starts_with('<') {
        true => &rest[closed(rest, '<', '>')..],
        false => rest,
    };
    let of = head.split_once(" for ").map_or(head, |(_, of)| of);
    named(of.trim_start().rsplit("::").next()?, &[""])
}

/// Where the first bracket of a text is closed, behind what closes it; the `>` of an arrow closes none.
fn closed(text: &str, opens: char, closes: char) -> usize {
    let mut depth = 0;
    let mut last = ' ';
    for (at, c) in text.char_indices() {
        if c == opens {
            depth += 1;
        } else if c == closes && last != '-' {
            depth -= 1;
            if depth == 0 {
                return at + 1;
            }
        }
        last = c;
    }
    text.len()
}

/// The parameters of a signature, with their types.
pub fn parameters(signature: &str) -> &str {
    let name = signature.find("fn ").map_or(signature, |at| &signature[at..]);
    let generic = name.find('<').filter(|at| name.find('(').is_some_and(|brackets| *at < brackets));
    let behind = match generic {
        Some(at) => &name[at + closed(&name[at..], '<', '>')..],
        None => name,
    };
    let own = &behind[behind.find('(').unwrap_or(behind.len())..];
    &own[..closed(own, '(', ')')]
}

/// The lines up to one that is the last.
fn until(lines: &[&str], last: impl Fn(&str) -> bool) -> String {
    let end = lines.iter().position(|l| last(l)).map_or(lines.len(), |at| at + 1);
    lines[..end].join(" ")
}

/// A declaration: one line that ends with a `;`, or the lines up to a bracket at their start.
fn declaration(lines: &[&str]) -> String {
    until(lines, |l| l.ends_with(';') && !l.starts_with(' ') || l.starts_with('}'))
}

fn promises(line: &str) -> bool {
    line.starts_with("requires") || line.starts_with("ensures")
}

/// What a clause says, without its own name: `requires { .. }` of `requires in_bounds { .. }`.
fn clause(line: &str) -> String {
    match line.split_once('{') {
        Some((head, said)) => format!("{} {{{said}", head.split(' ').next().unwrap()),
        None => line.to_string(),
    }
}

/// The signature of a function, and what it requires and ensures: the lines before its body.
fn contract(lines: &[&str]) -> Definition {
    let mut found = Definition::default();
    for line in lines.iter().map(|line| line.trim_start()) {
        if promises(line) {
            found.body += &format!(" {}", clause(line));
        } else {
            found.statement += &format!(" {line}");
        }
        if line.ends_with('{') && !promises(line) {
            break;
        }
    }
    found
}
