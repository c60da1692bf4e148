//! The files of the crates: what each defines, and which names it takes from others.

use super::{code, specs};
use std::collections::{BTreeMap, BTreeSet};
use std::fmt;
use std::fs;
use std::path::Path;

/// A name and the file that defines it: `widths/specs/Widths` or `widths/src/lib.rt`.
#[derive(Clone, Debug, PartialEq, Eq, PartialOrd, Ord)]
pub struct Place {
    pub file: String,
    pub name: String,
}

impl Place {
    pub fn new(file: &str, name: &str) -> Place {
        Place { file: file.to_string(), name: name.to_string() }
    }
}

impl fmt::Display for Place {
    fn fmt(&self, f: &mut fmt::Formatter) -> fmt::Result {
        let end = if self.file.ends_with(".rt") { "" } else { ".antt" };
        write!(f, "crates/{}{end}: {}", self.file, self.name)
    }
}

/// What a name stands for: its type or contract, and what it is.
#[derive(Clone, Debug, Default, PartialEq)]
pub struct Definition {
    pub statement: String,
    pub body: String,
}

/// A file: its definitions, the parts that belong to one of them, and the names from elsewhere.
#[derive(Clone, Debug, Default)]
pub struct File {
    pub definitions: BTreeMap<String, Definition>,
    /// Constructors of a `data`, which the file may use by their own name.
    pub constructors: BTreeMap<String, String>,
    /// Fields of a `record`, which stand after a dot, so that only another file's `use` has them as names.
    pub fields: BTreeMap<String, String>,
    /// Contracts of functions: the signature, and what is required and ensured. A method goes by its
    /// type's name and its own: `Line::bytes`.
    pub functions: BTreeMap<String, Definition>,
    pub exported: BTreeSet<String>,
    /// Types of which something holds that whoever makes a value of them owes: a ghost field, an invariant.
    pub held: BTreeSet<String>,
    pub uses: BTreeMap<String, Place>,
}

impl File {
    /// Adds to a definition, so that one name in two blocks of a file is read as both.
    pub fn define(&mut self, name: &str, statement: &str, body: &str) {
        let found = self.definitions.entry(name.to_string()).or_default();
        found.statement += &format!(" {statement}");
        found.body += &format!(" {body}");
    }
}

/// All files by their names, as in [`Place`].
#[derive(Clone, Debug, Default)]
pub struct Sources {
    pub files: BTreeMap<String, File>,
}

/// The characters that end a name besides white space.
const MARKS: &[char] = &['(', ')', '{', '}', '[', ']', ';', ',', ':', '&', '<', '>'];

/// The names in a text.
pub fn names(text: &str) -> BTreeSet<&str> {
    let tokens = text.split(|c: char| c.is_whitespace() || MARKS.contains(&c));
    tokens.map(before_dot).filter(|name| !name.is_empty()).collect()
}

/// `Verdict` of `Verdict.holds` and `r` of `r.count`, and nothing of a field behind a bracket; a whole
/// path stays as it is.
fn before_dot(token: &str) -> &str {
    if token.starts_with("Rattle.") {
        return token;
    }
    token.split('.').next().unwrap()
}

impl Sources {
    /// The files under a folder of crates.
    pub fn read(crates: &Path) -> Result<Sources, String> {
        let mut sources = Sources::default();
        for folder in entries(crates)? {
            for part in ["src", "specs", "proofs"] {
                sources.read_folder(crates, &crates.join(&folder).join(part))?;
            }
        }
        Ok(sources)
    }

    fn read_folder(&mut self, crates: &Path, folder: &Path) -> Result<(), String> {
        if !folder.is_dir() {
            return Ok(());
        }
        for entry in entries(folder)? {
            let path = folder.join(entry);
            if path.is_dir() {
                self.read_folder(crates, &path)?;
                continue;
            }
            let text = fs::read_to_string(&path).map_err(|e| format!("{}: {e}", path.display()))?;
            self.add(path.strip_prefix(crates).unwrap().to_str().unwrap(), &text)?;
        }
        Ok(())
    }

    /// Adds a file by its path below the crates: `widths/specs/Widths.antt`.
    pub fn add(&mut self, path: &str, text: &str) -> Result<(), String> {
        let (name, file) = match path.strip_suffix(".antt") {
            Some(name) => (name, specs::parse(text)),
            None => (path, code::parse(path, text)),
        };
        self.files.insert(name.to_string(), file.map_err(|e| format!("crates/{path}: {e}"))?);
        Ok(())
    }

    /// The definition that a name of a file stands for; none for a variable and for a name of the
    /// toolchain's libraries.
    pub fn resolve(&self, file: &str, name: &str) -> Result<Option<Place>, String> {
        let from = &self.files[file];
        if name.starts_with("Rattle.") {
            let (path, last) = name.rsplit_once('.').ok_or(format!("{file}: {name}"))?;
            return self.owner(&specs::used(path, last)?).map(Some);
        }
        if let Some(place) = from.uses.get(name) {
            return if self.is_ours(place) { self.owner(place).map(Some) } else { Ok(None) };
        }
        let own = from.definitions.get_key_value(name).map(|(own, _)| own);
        Ok(own.or(from.constructors.get(name)).map(|own| Place::new(file, own)))
    }

    /// There is a definition or theorem of this name in this file.
    pub fn has(&self, place: &Place) -> bool {
        self.files.get(&place.file).is_some_and(|file| file.definitions.contains_key(&place.name))
    }

    /// It is in one of these crates, and not in one of the toolchain's.
    fn is_ours(&self, place: &Place) -> bool {
        let krate = place.file.split_inclusive('/').next().unwrap();
        self.files.keys().any(|file| file.starts_with(krate))
    }

    /// The definition that a used name belongs to: the `data` of a constructor, the `record` of a field.
    fn owner(&self, place: &Place) -> Result<Place, String> {
        let place = self.in_program(place);
        let file = self.files.get(&place.file).ok_or(format!("{place}: there is no such file"))?;
        if file.definitions.contains_key(&place.name) {
            return Ok(place);
        }
        let parts = [&file.constructors, &file.fields];
        let owner = parts.into_iter().find_map(|parts| parts.get(&place.name));
        let owner = owner.ok_or(format!("{place} is used, and not defined there"))?;
        Ok(Place::new(&place.file, owner))
    }

    /// A program's first file is `main.rt`.
    fn in_program(&self, place: &Place) -> Place {
        match place.file.strip_suffix("/lib.rt") {
            Some(folder) if !self.files.contains_key(&place.file) => {
                Place::new(&format!("{folder}/main.rt"), &place.name)
            }
            _ => place.clone(),
        }
    }

    /// The function of a path as in code: `verdict::judge::judge`, or `streams::text::Line::bytes`; an
    /// exported one by its name.
    pub fn function(&self, path: &str) -> Result<Place, String> {
        let parts: Vec<&str> = path.split("::").collect();
        let of_type = |part: &&str| part.starts_with(char::is_uppercase);
        let modules = parts.iter().position(of_type).unwrap_or(parts.len() - 1);
        let name = parts[modules..].join("::");
        let place = match &parts[..modules] {
            [] => self.exports().find(|place| place.name == name),
            [first, rest @ ..] => Some(self.in_program(&code::place(first, rest, &name))),
        };
        place
            .filter(|p| self.files.get(&p.file).is_some_and(|f| f.functions.contains_key(&name)))
            .ok_or(format!("there is no function {path}"))
    }

    /// The function has no `requires`, and takes no type of which something holds.
    pub fn requires_nothing(&self, function: &Place) -> Result<bool, String> {
        let Definition { statement, body } = &self.files[&function.file].functions[&function.name];
        let takes = match function.name.split_once("::") {
            Some((of, _)) => format!("{of} {}", code::parameters(statement)),
            None => code::parameters(statement).to_string(),
        };
        Ok(!body.contains("requires") && !self.holds(&function.file, &takes, &mut vec![])?)
    }

    /// Something holds of a type that a text of a file names, or of one that is part of it.
    fn holds(&self, file: &str, text: &str, seen: &mut Vec<Place>) -> Result<bool, String> {
        for name in names(text) {
            let Some(place) = self.resolve(file, name)? else { continue };
            if !place.file.ends_with(".rt") || seen.contains(&place) {
                continue;
            }
            seen.push(place.clone());
            let of = &self.files[&place.file];
            let parts = &of.definitions[&place.name].body;
            if of.held.contains(&place.name) || self.holds(&place.file, parts, seen)? {
                return Ok(true);
            }
        }
        Ok(false)
    }

    /// The functions for C.
    pub fn exports(&self) -> impl Iterator<Item = Place> + '_ {
        self.files.iter().flat_map(|(name, file)| file.exported.iter().map(|f| Place::new(name, f)))
    }
}

/// The names in a folder, in order.
pub fn entries(folder: &Path) -> Result<Vec<String>, String> {
    let list = fs::read_dir(folder).map_err(|e| format!("{}: {e}", folder.display()))?;
    let mut names: Vec<String> =
        list.map(|entry| entry.unwrap().file_name().into_string().unwrap()).collect();
    names.sort();
    Ok(names)
}

/// The crates of a `crates.txt` in its order, each with what it depends on. Behind the name of a static
/// library stands `staticlib`.
pub fn listed(list: &str) -> Vec<(&str, BTreeSet<&str>)> {
    let lines = list.lines().filter(|line| !line.starts_with('#'));
    lines
        .filter_map(|line| line.split_once(':'))
        .map(|(name, rest)| (name.strip_suffix(" staticlib").unwrap_or(name), rest))
        .map(|(name, rest)| (name, rest.split_whitespace().collect()))
        .collect()
}
