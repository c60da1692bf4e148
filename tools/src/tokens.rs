//! Statements as words and symbols with their places.

use crate::fault::{is_hidden, quoted, Fault};
use std::ops::RangeInclusive;

/// A line and a column, both from 1.
#[derive(Clone, Copy, Debug, PartialEq, Eq)]
pub struct Place {
    pub line: usize,
    pub column: usize,
}

impl Place {
    /// A fault over so many characters.
    pub fn fault(self, len: usize, message: impl Into<String>) -> Fault {
        let Place { line, column } = self;
        Fault { line, column, len, message: message.into(), hint: None, earlier: None }
    }
}

/// A word, a symbol, or a text in quotes.
#[derive(Clone, Copy, Debug, PartialEq, Eq)]
pub struct Token<'a> {
    pub text: &'a str,
    pub place: Place,
}

impl Token<'_> {
    /// A fault at this token.
    pub fn fault(&self, message: impl Into<String>) -> Fault {
        self.place.fault(self.text.chars().count().max(1), message)
    }

    /// The column behind this token.
    fn behind(&self) -> usize {
        self.place.column + self.text.chars().count()
    }
}

/// The tokens of a statement, read from the first to the last.
#[derive(Clone, Debug)]
pub struct Statement<'a> {
    tokens: Vec<Token<'a>>,
    read: usize,
    start: Place,
    end: Place,
    /// What is wrong with its characters or its lines.
    fault: Option<Fault>,
}

/// The statements of a text. A line that starts with a space or a tab continues the one before.
pub fn statements(text: &str) -> Vec<Statement<'_>> {
    let mut found: Vec<Statement> = vec![];
    // A blank line, or a comment from the first column on, ends what may be continued.
    let mut ended = false;
    for (number, line) in text.lines().enumerate() {
        let line = match number {
            0 => line.strip_prefix('\u{feff}').unwrap_or(line),
            _ => line,
        };
        let continues = line.starts_with([' ', '\t']) && !found.is_empty();
        let (tokens, mut fault) = line_tokens(number + 1, line);
        if tokens.is_empty() && fault.is_none() {
            ended |= !continues || line.trim().is_empty();
            continue;
        }
        let start = match (tokens.first(), &fault) {
            (Some(token), _) => token.place,
            (None, Some(fault)) => Place { line: fault.line, column: fault.column },
            (None, None) => Place { line: number + 1, column: 1 },
        };
        let end = match tokens.last() {
            Some(token) => Place { line: number + 1, column: token.behind() },
            None => start,
        };
        if !continues {
            found.push(Statement { tokens, read: 0, start, end, fault });
        } else if let Some(before) = found.last_mut() {
            if ended {
                fault = Some(apart(start).earlier(before.end.line));
            }
            before.tokens.extend(tokens);
            before.end = end;
            before.fault = before.fault.take().or(fault);
        }
        ended = false;
    }
    found
}

/// The fault of a line that would continue a statement, where none stands directly before it.
pub fn fault_apart(line: &str) -> Fault {
    let column = line.chars().take_while(|c| [' ', '\t'].contains(c)).count() + 1;
    apart(Place { line: 1, column })
}

fn apart(start: Place) -> Fault {
    let message = "this line starts with a space, but the line before it is no statement";
    let hint = "a statement is continued on the next line; an indented comment may stand between";
    start.fault(1, message).hint(hint)
}

fn is_word(character: char) -> bool {
    character.is_ascii_alphanumeric() || character == '*' || character == '_'
}

/// Symbols of two characters; some have no meaning but a hint.
const DOUBLE: [&str; 7] = ["!=", "&&", "||", "==", "->", "=>", "<>"];

/// The tokens of a line up to its comment, and what is wrong with its characters.
fn line_tokens(line: usize, text: &str) -> (Vec<Token<'_>>, Option<Fault>) {
    let hidden = text.chars().position(|c| is_hidden(c) && c != '\t');
    if let Some(column) = hidden {
        let character = text.chars().nth(column).map(String::from).unwrap_or_default();
        let place = Place { line, column: column + 1 };
        let message = format!("the character `{}` may not stand in a text", quoted(&character));
        let hint = "it is not seen on a screen, or it hides what follows; take it out";
        return (vec![], Some(place.fault(1, message).hint(hint)));
    }
    let mut tokens = vec![];
    let mut column = 1;
    let mut rest = text;
    while let Some(first) = rest.chars().next() {
        let place = Place { line, column };
        let length = match first {
            '#' => break,
            ' ' | '\t' => 1,
            '"' => match rest[1..].find('"') {
                Some(length) => length + 2,
                None => {
                    let fault = place.fault(1, "this quote is not closed on its line");
                    return (tokens, Some(fault));
                }
            },
            _ if is_word(first) => rest.find(|c| !is_word(c)).unwrap_or(rest.len()),
            _ if DOUBLE.iter().any(|double| rest.starts_with(double)) => 2,
            ':' | ';' | ',' | '.' | '-' | '/' | '(' | ')' | '!' | '&' | '|' | '=' => 1,
            _ if first.is_whitespace() => return (tokens, Some(other_space(place, first))),
            _ => {
                let message = format!("`{}` has no meaning here", quoted(&first.to_string()));
                return (tokens, Some(place.fault(1, message)));
            }
        };
        let (token, behind) = rest.split_at(length);
        if first != ' ' && first != '\t' {
            tokens.push(Token { text: token, place });
        }
        column += token.chars().count();
        rest = behind;
    }
    (tokens, None)
}

/// The fault at a word that is a number with leading zeros says so.
pub fn without_zeros(fault: Fault, word: &str) -> Fault {
    let is_number = word.len() > 1 && word.bytes().all(|byte| byte.is_ascii_digit());
    match is_number && word.starts_with('0') {
        true => fault.hint("a number has no leading zero"),
        false => fault,
    }
}

/// The fault of a space that is not the plain one, which looks like it.
fn other_space(place: Place, space: char) -> Fault {
    let name = match space {
        '\u{a0}' | '\u{202f}' => "a no-break space",
        _ => "a space of another kind",
    };
    let message = format!("this is {name} (U+{:04X}), not a plain one", u32::from(space));
    place.fault(1, message).hint("write a plain space")
}

impl<'a> Statement<'a> {
    /// The line on which the statement starts.
    pub fn line(&self) -> usize {
        self.start.line
    }

    /// The line on which the statement ends.
    pub fn last_line(&self) -> usize {
        self.end.line
    }

    /// What is wrong with its characters or its lines, if anything is.
    pub fn sound(&self) -> Result<(), Fault> {
        match &self.fault {
            Some(fault) => Err(fault.clone()),
            None => Ok(()),
        }
    }

    /// The words and symbols, read or not.
    pub fn texts(&self) -> impl Iterator<Item = &'a str> + '_ {
        self.tokens.iter().map(|token| token.text)
    }

    /// The first word; an empty one if there is none.
    pub fn first(&self) -> &'a str {
        self.texts().next().unwrap_or_default()
    }

    /// The word or symbol at a place.
    pub fn word_at(&self, place: Place) -> Option<&'a str> {
        self.tokens.iter().find(|token| token.place == place).map(|token| token.text)
    }

    /// The next token; an empty one at the end.
    pub fn peek(&self) -> Token<'a> {
        self.ahead(0)
    }

    /// The token so many behind the next.
    pub fn ahead(&self, by: usize) -> Token<'a> {
        match self.tokens.get(self.read + by) {
            Some(token) => *token,
            None => Token { text: "", place: self.end },
        }
    }

    /// The next token, which is then read.
    pub fn take(&mut self) -> Token<'a> {
        let token = self.peek();
        self.read += 1;
        token
    }

    /// The token read last.
    pub fn last(&self) -> Token<'a> {
        self.tokens[self.read.max(1) - 1]
    }

    /// The text that is left to read, without comments and on one line.
    pub fn rest(&self) -> String {
        let mut text = String::new();
        let mut behind = None;
        for token in self.tokens.iter().skip(self.read) {
            let follows = behind == Some(token.place);
            if !text.is_empty() && !follows {
                text.push(' ');
            }
            text.push_str(token.text);
            behind = Some(Place { column: token.behind(), ..token.place });
        }
        text
    }

    /// A fault at the next token, which is not what was expected.
    pub fn expected(&self, what: &str) -> Fault {
        let token = self.peek();
        match token.text {
            "" => token.fault(format!("expected {what}, found the end of the statement")),
            text => token.fault(format!("expected {what}, found `{}`", quoted(text))),
        }
    }

    /// Reads the word or symbol if it is the next token.
    pub fn accept(&mut self, text: &str) -> bool {
        let is_next = self.peek().text == text;
        if is_next {
            self.read += 1;
        }
        is_next
    }

    /// Reads the words and symbols if they are the next tokens.
    pub fn accept_all(&mut self, texts: &[&str]) -> bool {
        let are_next = texts.iter().enumerate().all(|(by, text)| self.ahead(by).text == *text);
        if are_next {
            self.read += texts.len();
        }
        are_next
    }

    /// Reads the word or symbol.
    pub fn expect(&mut self, text: &str) -> Result<(), Fault> {
        match self.accept(text) {
            true => Ok(()),
            false => Err(self.expected(&format!("`{text}`"))),
        }
    }

    /// Reads the words and symbols.
    pub fn expect_all(&mut self, texts: &[&str]) -> Result<(), Fault> {
        texts.iter().try_for_each(|text| self.expect(text))
    }

    /// Reads a decimal number from 0 to the most, which has no leading zero.
    pub fn number(&mut self, what: &str, most: u16) -> Result<u16, Fault> {
        self.number_within(what, 0..=most)
    }

    /// Reads a decimal number within limits, which has no leading zero.
    pub fn number_within(&mut self, what: &str, limits: RangeInclusive<u16>) -> Result<u16, Fault> {
        let text = self.peek().text;
        match text.parse::<u16>() {
            Ok(number) if limits.contains(&number) && number.to_string() == text => {
                self.read += 1;
                Ok(number)
            }
            _ => {
                let what = format!("{what} ({} to {})", limits.start(), limits.end());
                Err(without_zeros(self.expected(&what), text))
            }
        }
    }

    /// Reads a decimal number within limits that are below 256.
    pub fn byte_within(&mut self, what: &str, limits: RangeInclusive<u8>) -> Result<u8, Fault> {
        let limits = u16::from(*limits.start())..=u16::from(*limits.end());
        Ok(self.number_within(what, limits)? as u8)
    }

    /// Reads a decimal number from 0 to the most, which is below 256.
    pub fn byte(&mut self, what: &str, most: u8) -> Result<u8, Fault> {
        Ok(self.number(what, most.into())? as u8)
    }

    /// Nothing is left to read.
    pub fn finish(&self) -> Result<(), Fault> {
        match self.read < self.tokens.len() {
            true => Err(self.expected("the end of the statement")),
            false => Ok(()),
        }
    }
}
