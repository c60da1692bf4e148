//! What is wrong with a text, where, and how it is shown.

use std::fmt;

/// The most characters of a word that a message repeats.
const MOST_WORD: usize = 40;
/// The most names that a hint lists.
const MOST_NAMES: usize = 6;
/// The most characters of a line that are shown, and how many of them stand before the column.
const MOST_LINE: usize = 100;
const BEFORE: usize = 60;

/// What is wrong with a text. Line and column count from 1, the column and the length in characters.
#[derive(Clone, Debug, PartialEq, Eq)]
pub struct Fault {
    pub line: usize,
    pub column: usize,
    pub len: usize,
    pub message: String,
    /// What to write instead.
    pub hint: Option<String>,
    /// The earlier line that this one does not go with.
    pub earlier: Option<usize>,
}

impl fmt::Display for Fault {
    fn fmt(&self, f: &mut fmt::Formatter<'_>) -> fmt::Result {
        write!(f, "line {}, column {}: {}", self.line, self.column, self.message)
    }
}

impl Fault {
    pub fn hint(self, hint: impl Into<String>) -> Fault {
        Fault { hint: Some(hint.into()), ..self }
    }

    /// The fault with the known word that is nearest to the one found, if one is near.
    pub fn with_nearest<'a>(self, found: &str, known: impl IntoIterator<Item = &'a str>) -> Fault {
        match nearest(found, known) {
            Some(word) => self.hint(format!("did you mean `{word}`?")),
            None => self,
        }
    }

    /// The fault with those of the known names that are near to the one found; if none is, with the
    /// first of them.
    pub fn with_near<'a>(self, found: &str, known: impl IntoIterator<Item = &'a str>) -> Fault {
        let known: Vec<&str> = known.into_iter().collect();
        let list = |names: &[&str], joint: &str| {
            let names = names.iter().take(MOST_NAMES).map(|name| format!("`{}`", quoted(name)));
            names.collect::<Vec<String>>().join(joint)
        };
        let near = near(found, known.iter().copied());
        match (&near[..], &known[..]) {
            ([], []) => self.hint("no such names are given before this line"),
            ([], [..]) if known.len() > MOST_NAMES => {
                self.hint(format!("the names are {} and more", list(&known, ", ")))
            }
            ([], [..]) => self.hint(format!("the names are {}", list(&known, ", "))),
            ([..], _) => self.hint(format!("did you mean {}?", list(&near, " or "))),
        }
    }

    pub fn earlier(self, line: usize) -> Fault {
        Fault { earlier: Some(line), ..self }
    }

    /// The fault with its place in the file, the line with a mark under it, and the hint.
    pub fn show(&self, file: &str, text: &str) -> String {
        let file = whole(file);
        let mut shown = format!("{file}:{}:{}: {}\n", self.line, self.column, self.message);
        if let Some(line) = line_of(text, self.line) {
            let (line, before) = excerpt(line, self.column);
            let most = line.chars().count().saturating_sub(before).max(1);
            let mark = "^".repeat(self.len.clamp(1, most));
            shown += &format!("    {line}\n    {}{mark}\n", " ".repeat(before));
        }
        if let Some(hint) = &self.hint {
            shown += &format!("  hint: {hint}\n");
        }
        if let Some(earlier) = self.earlier {
            let line = shown_line(text, earlier);
            shown += &format!("  earlier: {file}:{earlier}:\n    {line}\n");
        }
        shown
    }
}

/// A line of a text, cut if it is long, without effects on a screen.
pub fn shown_line(text: &str, number: usize) -> String {
    line_of(text, number).map(|line| excerpt(line, 1).0).unwrap_or_default()
}

/// The line of a number, from 1.
fn line_of(text: &str, number: usize) -> Option<&str> {
    text.lines().nth(number.checked_sub(1)?)
}

/// A character without effects on a screen: control characters and those that change a text's
/// direction or break its lines are spelled out.
fn plain(character: char) -> String {
    match character {
        '\t' => " ".to_string(),
        _ if !is_hidden(character) => character.to_string(),
        _ if u32::from(character) < 256 => format!("\\x{:02x}", u32::from(character)),
        _ => format!("\\u{{{:x}}}", u32::from(character)),
    }
}

/// Whether a character is not seen, or makes what is seen differ from what is there.
pub fn is_hidden(character: char) -> bool {
    character.is_control()
        || matches!(
            character,
            '\u{ad}'
                | '\u{61c}'
                | '\u{200b}'..='\u{200f}'
                | '\u{2028}'..='\u{202e}'
                | '\u{2060}'..='\u{206f}'
                | '\u{feff}'
        )
}

/// The part of a line round a column, and how many characters stand before the column there.
fn excerpt(line: &str, column: usize) -> (String, usize) {
    let place = column - 1;
    let start = if place < MOST_LINE - 10 { 0 } else { place - BEFORE };
    let part = |from: usize, to: usize| -> String {
        line.chars().skip(from).take(to.saturating_sub(from)).map(plain).collect()
    };
    let cut = if start > 0 { "…" } else { "" };
    let before = format!("{cut}{}", part(start, place));
    let behind = part(place, start + MOST_LINE);
    let more = line.chars().nth(start + MOST_LINE).is_some();
    let length = before.chars().count();
    (format!("{before}{behind}{}", if more { "…" } else { "" }).trim_end().to_string(), length)
}

/// A word for a message: cut if it is long, control characters spelled out.
pub fn quoted(word: &str) -> String {
    let kept: String = word.chars().take(MOST_WORD).map(plain).collect();
    match word.chars().nth(MOST_WORD) {
        Some(_) => format!("{kept}…"),
        None => kept,
    }
}

/// A text for a message, whole, control characters spelled out.
pub fn whole(text: &str) -> String {
    text.chars().map(plain).collect()
}

/// The known word that is nearest to one that is not known, if one is near.
pub fn nearest<'a>(word: &str, known: impl IntoIterator<Item = &'a str>) -> Option<&'a str> {
    near(word, known).first().copied()
}

/// The known words that are near to one that is not known, the nearest first.
fn near<'a>(word: &str, known: impl IntoIterator<Item = &'a str>) -> Vec<&'a str> {
    let mut near: Vec<&str> = known.into_iter().filter(|other| is_near(word, other)).collect();
    near.sort_by_key(|other| far(word, other));
    near
}

/// Whether a word may be meant by another one.
fn is_near(word: &str, other: &str) -> bool {
    let length = word.chars().count();
    let most = if length < 3 { 0 } else { 1 + length / 4 };
    length <= MOST_WORD && far(word, other) <= most
}

/// Whether a word is another one with at most one slip in it, which only a longer word may have.
pub fn is_slip(word: &str, other: &str) -> bool {
    far(word, other) <= usize::from(word.chars().count() > 3)
}

/// The distance of two words, in whatever letters.
fn far(word: &str, other: &str) -> usize {
    distance(&word.to_lowercase(), &other.to_lowercase())
}

/// How many characters are to be put in, left out, changed or swapped with the next.
fn distance(one: &str, other: &str) -> usize {
    let [one, other]: [Vec<char>; 2] = [one, other].map(|word| word.chars().collect());
    let mut rows: Vec<Vec<usize>> = vec![(0..=other.len()).collect()];
    for i in 1..=one.len() {
        let mut row = vec![i];
        for j in 1..=other.len() {
            let changed = rows[i - 1][j - 1] + usize::from(one[i - 1] != other[j - 1]);
            let mut least = changed.min(rows[i - 1][j] + 1).min(row[j - 1] + 1);
            if i > 1 && j > 1 && one[i - 1] == other[j - 2] && one[i - 2] == other[j - 1] {
                least = least.min(rows[i - 2][j - 2] + 1);
            }
            row.push(least);
        }
        rows.push(row);
    }
    rows[one.len()][other.len()]
}
