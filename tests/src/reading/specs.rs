//! Files of antt: their definitions, theorems and `use` lines.

use super::code;
use super::sources::{names, File, Place};

/// A line without its comment.
struct Line<'a> {
    indent: usize,
    text: &'a str,
}

/// Reads a file, or says which line it cannot read.
pub fn parse(text: &str) -> Result<File, String> {
    let lines: Vec<Line> = text.lines().filter_map(line).collect();
    let mut file = File::default();
    items(&lines, "", &mut file)?;
    Ok(file)
}

fn line(text: &str) -> Option<Line<'_>> {
    let starts = |at: &usize| text[..*at].chars().next_back().is_none_or(char::is_whitespace);
    let comment = text.match_indices("--").map(|(at, _)| at).find(starts);
    let code = text[..comment.unwrap_or(text.len())].trim_end();
    let indent = code.len() - code.trim_start().len();
    (!code.is_empty()).then_some(Line { indent, text: code.trim_start() })
}

/// The text of some lines.
fn joined(lines: &[Line]) -> String {
    lines.iter().map(|l| l.text).collect::<Vec<&str>>().join(" ")
}

/// The lines by the least indented ones, each with the others after it; a bracket that closes goes on.
fn chunks<'a, 'b>(lines: &'b [Line<'a>]) -> Vec<&'b [Line<'a>]> {
    let level = lines.first().map_or(0, |l| l.indent);
    let starts = |l: &Line| l.indent <= level && !l.text.starts_with([')', '}', ']']);
    let starts: Vec<usize> = (0..lines.len()).filter(|&i| starts(&lines[i])).collect();
    let ends = starts.iter().skip(1).copied().chain([lines.len()]);
    starts.iter().zip(ends).map(|(&start, end)| &lines[start..end]).collect()
}

/// Reads the items of a file, or of a block under the parameters of a `module`.
fn items(lines: &[Line], parameters: &str, file: &mut File) -> Result<(), String> {
    let mut current = String::new();
    for chunk in chunks(lines) {
        let text = joined(chunk);
        let first = text.split(' ').next().unwrap();
        match first {
            "use" => use_line(&text[4..], file)?,
            "mod" | "unfolding" => {}
            "pub" if text.starts_with("pub mod ") => {}
            "module" => module(chunk, parameters, file)?,
            _ if first == current => file.define(&current, "", &text),
            _ => current = item(chunk, parameters, file)?,
        }
    }
    Ok(())
}

/// Where the block of a `record`, a `data` or a `module` begins: after the line that ends its head.
fn head(chunk: &[Line]) -> Result<usize, String> {
    let end = chunk.iter().position(|l| l.text.split(' ').next_back() == Some("where"));
    end.map(|i| i + 1).ok_or(format!("no where: {}", chunk[0].text))
}

fn module(chunk: &[Line], parameters: &str, file: &mut File) -> Result<(), String> {
    let start = head(chunk)?;
    items(&chunk[start..], &format!("{parameters} {}", joined(&chunk[..start])), file)
}

/// A new definition or theorem; its name.
fn item(chunk: &[Line], parameters: &str, file: &mut File) -> Result<String, String> {
    let text = joined(chunk);
    let mut rest = text.as_str();
    for word in ["abbrev ", "unfoldable ", "pub "] {
        rest = rest.strip_prefix(word).unwrap_or(rest);
    }
    for word in ["record ", "data "] {
        if let Some(rest) = rest.strip_prefix(word) {
            let name = rest.split(' ').next().unwrap();
            members(name, word == "data ", chunk, parameters, file)?;
            return Ok(name.to_string());
        }
    }
    let (name, statement) = rest.split_once(' ').unwrap_or((rest, ""));
    if !statement.starts_with([':', '{', '(']) || !statement.contains(':') {
        return Err(format!("neither a definition nor a theorem: {}", chunk[0].text));
    }
    if name.contains('◌') || !names(name).contains(name) {
        return Err(format!("a name that is not found where it is used: {name}"));
    }
    file.define(name, &format!("{parameters} {statement}"), "");
    Ok(name.to_string())
}

/// A `record` with its fields, or a `data` with its constructors.
fn members(
    name: &str,
    data: bool,
    chunk: &[Line],
    parameters: &str,
    file: &mut File,
) -> Result<(), String> {
    let start = head(chunk)?;
    file.define(name, &format!("{parameters} {}", joined(&chunk[..start])), "");
    for member in chunks(&chunk[start..]) {
        let text = joined(member);
        let (own, type_of) = text.split_once(':').ok_or(format!("no type: {text}"))?;
        file.define(name, "", type_of);
        for part in own.split(' ').filter(|part| !part.is_empty() && *part != "pub") {
            let parts = if data { &mut file.constructors } else { &mut file.fields };
            parts.insert(part.to_string(), name.to_string());
        }
    }
    Ok(())
}

/// A `use` of a crate's names; those of the toolchain's libraries are not followed.
pub fn use_line(text: &str, file: &mut File) -> Result<(), String> {
    if !text.starts_with("Rattle.") || text.starts_with("Rattle.std.") {
        return Ok(());
    }
    if let Some((path, alias)) = text.split_once(" as ").filter(|_| !text.contains('{')) {
        file.uses.insert(alias.to_string(), used(path, "")?);
        return Ok(());
    }
    let list = text.split_once(".{").and_then(|(path, list)| Some((path, list.strip_suffix('}')?)));
    let (path, list) = list.ok_or(format!("use {text}"))?;
    for name in list.split(',').map(str::trim) {
        let (of, here) = name.split_once(" as ").unwrap_or((name, name));
        file.uses.insert(here.to_string(), used(path, of)?);
    }
    Ok(())
}

/// Where a name stands that is used from `Rattle.widths.specs.Widths`. A type of the code is
/// `declared`, and its variants and constants with it; so is a constant of a module. Without a name it
/// is the file that is meant: what an alias of a file stands for defines nothing, so that a walk fails
/// that comes to it.
pub fn used(path: &str, name: &str) -> Result<Place, String> {
    let parts: Vec<&str> = path.strip_prefix("Rattle.").unwrap_or(path).split('.').collect();
    let krate = parts[0];
    match parts[1..] {
        ["specs", "declared", ref modules @ .., of, "TheVariants"] => {
            Ok(code::place(krate, modules, of))
        }
        ["specs", "declared", ref modules @ .., of, "TheConstants"] if is_type(of) => {
            Ok(code::place(krate, modules, of))
        }
        ["specs", "declared", ref modules @ .., "TheConstants"] => {
            Ok(code::place(krate, modules, name))
        }
        ["specs", "declared", ref modules @ .., of] => Ok(code::place(krate, modules, of)),
        [_, _, ..] => Ok(Place::new(&format!("{krate}/{}", parts[1..].join("/")), name)),
        _ => Err(format!("use {path}")),
    }
}

fn is_type(name: &str) -> bool {
    name.starts_with(char::is_uppercase)
}
