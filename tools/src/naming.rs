//! Reads names, and what they stand for: switches, ports, points, groups, headers, states and wards.

use crate::fault::{quoted, Fault};
use crate::groups::LAST_GROUP;
use crate::names::{Area, Named, Point};
use crate::parse::{Reader, STATEMENTS};
use crate::steps::{State, DROP};
use crate::tokens::{without_zeros, Statement, Token};
use crate::widths::{read_pattern, Widths};

impl Reader {
    pub(crate) fn name(&mut self, of: Widths, statement: &mut Statement) -> Result<Vec<u8>, Fault> {
        let kind = statement.peek();
        let named = match kind.text {
            "switch" => {
                statement.take();
                Named::Switch(statement.byte("a switch", of.last_switch())?)
            }
            "port" => {
                statement.take();
                match statement.ahead(1).text {
                    ":" => Named::Points(vec![self.point(of, statement)?]),
                    _ => Named::Port(statement.byte("a port", of.controller())?),
                }
            }
            "header" => {
                statement.take();
                Named::Header(self.header_pattern(of, statement)?)
            }
            "group" => {
                statement.take();
                Named::Groups(vec![self.group_of_switch(of, statement)?])
            }
            _ => return Err(statement.expected("`switch`, `port`, `header` or `group`")),
        };
        let name = self.new_name(&named, statement)?;
        if let Some((before, line)) = self.names.name_of(&named) {
            let message = format!("this {} has the name `{before}` (line {line})", kind.text);
            return Err(name.fault(message).earlier(line));
        }
        statement.finish()?;
        self.names.give(name.text, named, name.place.line);
        Ok(vec![])
    }

    /// Reads a name that is not taken and no word of the language.
    fn new_name<'a>(
        &self,
        named: &Named,
        statement: &mut Statement<'a>,
    ) -> Result<Token<'a>, Fault> {
        let name = statement.peek();
        if !is_name(name.text) {
            return Err(statement.expected("a name (a letter, then letters, digits or `_`)"));
        }
        if let Some(word) = reserved(name.text) {
            let message = format!("`{word}` is a word of the language and cannot be a name");
            return Err(name.fault(message));
        }
        // Ports of several switches may have one name, and so may groups.
        let of_others = match (named, self.names.named(name.text)) {
            (Named::Points(mine), Some(Named::Points(its)))
            | (Named::Groups(mine), Some(Named::Groups(its))) => {
                mine.iter().all(|[switch, _]| its.iter().all(|[other, _]| switch != other))
            }
            _ => false,
        };
        match self.names.line(name.text) {
            Some(line) if !of_others => {
                let message = format!("the name `{}` is given in line {line}", quoted(name.text));
                Err(name.fault(message).earlier(line))
            }
            _ => Ok(statement.take()),
        }
    }

    pub(crate) fn ward(&mut self, of: Widths, statement: &mut Statement) -> Result<Vec<u8>, Fault> {
        let name = self.new_name(&Named::Ward(vec![]), statement)?;
        statement.expect(":")?;
        let areas = self.areas(of, statement)?;
        statement.finish()?;
        self.names.give(name.text, Named::Ward(areas), name.place.line);
        Ok(vec![])
    }

    /// Parts of the network: switches, points and wards.
    pub(crate) fn areas(&self, of: Widths, statement: &mut Statement) -> Result<Vec<Area>, Fault> {
        let mut areas = vec![];
        loop {
            areas.extend(self.area(of, statement)?);
            if !statement.accept(",") {
                return Ok(areas);
            }
        }
    }

    /// `switch` and a switch, `ward` and a ward, a point, or the name of any of them.
    fn area(&self, of: Widths, statement: &mut Statement) -> Result<Vec<Area>, Fault> {
        if statement.accept("switch") {
            return Ok(vec![Area::Switch(self.switch(of, statement)?)]);
        }
        let by_word = statement.accept("ward");
        let [name, behind] = [0, 1].map(|by| statement.ahead(by).text);
        match self.names.named(name) {
            Some(Named::Ward(areas)) => {
                statement.take();
                Ok(areas.clone())
            }
            _ if by_word => {
                let wards = self.names.all_such(|named| matches!(named, Named::Ward(_)));
                Err(self.at_name(statement, statement.expected("a ward's name"), wards))
            }
            Some(Named::Switch(switch)) if behind != ":" => {
                statement.take();
                Ok(vec![Area::Switch(*switch)])
            }
            _ => Ok(vec![Area::Point(self.point(of, statement)?)]),
        }
    }

    /// Reads a switch by number or name.
    pub(crate) fn switch(&self, of: Widths, statement: &mut Statement) -> Result<u8, Fault> {
        if let Some(Named::Switch(switch)) = self.names.named(statement.peek().text) {
            statement.take();
            return Ok(*switch);
        }
        let read = statement.byte("a switch", of.last_switch());
        read.map_err(|fault| self.at_name(statement, fault, self.names.all()))
    }

    /// Reads a point: a switch and a port, or the name of one point.
    pub(crate) fn point(&self, of: Widths, statement: &mut Statement) -> Result<Point, Fault> {
        let token = statement.peek();
        if let Some(Named::Points(points)) = self.names.named(token.text) {
            let [point] = points[..] else {
                let message = format!("`{}` is a port of several switches", quoted(token.text));
                return Err(token.fault(message).hint("write the switch, `:` and the name"));
            };
            statement.take();
            return Ok(point);
        }
        let switch = self.switch(of, statement)?;
        statement.expect(":")?;
        Ok([switch, self.port(of, switch, statement)?])
    }

    /// Reads one port of a switch by number, word or name.
    pub(crate) fn port(
        &self,
        of: Widths,
        switch: u8,
        statement: &mut Statement,
    ) -> Result<u8, Fault> {
        if let Some(port) = self.port_word(of, Some(switch), statement)? {
            return Ok(port);
        }
        let read = statement.byte("a port", of.controller());
        read.map_err(|fault| self.at_name(statement, fault, self.names.all()))
    }

    /// Reads the word or the name of a port, if there is one.
    fn port_word(
        &self,
        of: Widths,
        switch: Option<u8>,
        statement: &mut Statement,
    ) -> Result<Option<u8>, Fault> {
        let token = statement.peek();
        let port = match (token.text, self.names.named(token.text)) {
            ("drop", _) => DROP,
            ("controller", _) => of.controller(),
            (_, Some(Named::Port(port))) => *port,
            (_, Some(Named::Points(points))) => {
                let own = points.iter().find(|[its, _]| Some(*its) == switch);
                match own {
                    Some([_, port]) => *port,
                    None => return Err(self.elsewhere(token, "port", points, switch)),
                }
            }
            _ => return Ok(None),
        };
        statement.take();
        Ok(Some(port))
    }

    /// The fault of a name of other switches' ports or groups, where it names none.
    fn elsewhere(&self, token: Token, what: &str, named: &[[u8; 2]], switch: Option<u8>) -> Fault {
        let [other, number] = named[0];
        let name = quoted(token.text);
        let fault = match switch {
            Some(switch) => {
                let mine = self.names.switch(switch);
                token.fault(format!("switch {mine} has no {what} with the name `{name}`"))
            }
            None => token.fault(format!("`{name}` is a {what} of one switch, not of every switch")),
        };
        fault.hint(format!("`{name}` is {what} {number} of switch {}", self.names.switch(other)))
    }

    /// Reads a group: a switch and its group, or the name of one group.
    pub(crate) fn group_of_switch(
        &self,
        of: Widths,
        statement: &mut Statement,
    ) -> Result<[u8; 2], Fault> {
        let token = statement.peek();
        if let Some(Named::Groups(groups)) = self.names.named(token.text) {
            let [group] = groups[..] else {
                let message = format!("`{}` is a group of several switches", quoted(token.text));
                return Err(token.fault(message).hint("write the switch, `/` and the name"));
            };
            statement.take();
            return Ok(group);
        }
        let switch = self.switch(of, statement)?;
        statement.expect("/")?;
        Ok([switch, self.group(switch, statement)?])
    }

    /// Reads one group of a switch by number or name.
    pub(crate) fn group(&self, switch: u8, statement: &mut Statement) -> Result<u8, Fault> {
        let token = statement.peek();
        if let Some(Named::Groups(groups)) = self.names.named(token.text) {
            let own = groups.iter().find(|[its, _]| *its == switch);
            let elsewhere = || self.elsewhere(token, "group", groups, Some(switch));
            let [_, group] = own.ok_or_else(elsewhere)?;
            statement.take();
            return Ok(*group);
        }
        let read = statement.byte("a group", LAST_GROUP);
        let groups = || self.names.all_such(|named| matches!(named, Named::Groups(_)));
        read.map_err(|fault| self.at_name(statement, fault, groups()))
    }

    /// Value and care of a switch: a number, a name, or a pattern with a star.
    pub(crate) fn switch_pattern(
        &mut self,
        of: Widths,
        statement: &mut Statement,
    ) -> Result<[u8; 2], Fault> {
        match statement.peek().text.contains('*') {
            true => self.pattern(statement, "switch", of.w),
            false => Ok([self.switch(of, statement)?, of.last_switch()]),
        }
    }

    /// Whether every ordinary port of a switch is linked.
    pub(crate) fn is_linked_whole(&self, of: Widths, switch: u8) -> bool {
        (1..of.controller()).all(|port| self.link_line([switch, port]).is_some())
    }

    /// The line of the link that ends at a point.
    pub(crate) fn link_line(&self, point: Point) -> Option<usize> {
        self.links.iter().find(|(end, _)| *end == point).map(|(_, line)| *line)
    }

    /// Value and care of a port pattern.
    pub(crate) fn port_pattern(
        &mut self,
        of: Widths,
        switch: Option<u8>,
        statement: &mut Statement,
    ) -> Result<[u8; 2], Fault> {
        match self.port_word(of, switch, statement)? {
            Some(port) => Ok([port, of.controller()]),
            None => self.pattern(statement, "port", of.p),
        }
    }

    /// Reads one header by number or name.
    fn header(&self, of: Widths, statement: &mut Statement) -> Result<u8, Fault> {
        let token = statement.peek();
        if let Some(Named::Header([header, care])) = self.names.named(token.text) {
            if *care != of.last_header() {
                let message = format!("`{}` stands for several headers", quoted(token.text));
                return Err(token.fault(message));
            }
            statement.take();
            return Ok(*header);
        }
        let read = statement.byte("a header", of.last_header());
        read.map_err(|fault| self.at_name(statement, fault, self.names.all()))
    }

    /// Reads a packet state: its number, or its point, its direction and its header.
    pub(crate) fn state(&self, of: Widths, statement: &mut Statement) -> Result<usize, Fault> {
        let [first, behind] = [0, 1].map(|by| statement.ahead(by).text);
        if first.is_empty() {
            return Err(statement.expected("a state"));
        }
        if first.starts_with(|c: char| c.is_ascii_digit()) && behind != ":" {
            return statement.number("a state", of.states() - 1).map(usize::from);
        }
        let point = self.point(of, statement)?;
        let departing = statement.accept("out");
        if !departing && !statement.accept("in") {
            return Err(statement.expected("`in` or `out`"));
        }
        statement.expect("header")?;
        let header = self.header(of, statement)?;
        Ok(State { departing, point, header }.number(of))
    }

    /// Value and care of a header pattern.
    pub(crate) fn header_pattern(
        &mut self,
        of: Widths,
        statement: &mut Statement,
    ) -> Result<[u8; 2], Fault> {
        if let Some(Named::Header(pattern)) = self.names.named(statement.peek().text) {
            statement.take();
            return Ok(*pattern);
        }
        self.pattern(statement, "header", of.h)
    }

    fn pattern(
        &mut self,
        statement: &mut Statement,
        what: &str,
        width: u8,
    ) -> Result<[u8; 2], Fault> {
        let token = statement.peek();
        let Some(pattern) = read_pattern(token.text, width) else {
            let most = (1u8 << width) - 1;
            let form = format!("a {what} pattern (0, 1 or *, {width} long) or a number to {most}");
            let fault = without_zeros(statement.expected(&form), token.text);
            return Err(self.at_name(statement, fault, self.names.all()));
        };
        statement.take();
        // These two words alone are bits in one ward and a number in another.
        if width == 2 && ["10", "11"].contains(&token.text) {
            let Token { text, place } = token;
            let value = pattern[0];
            self.note(format!(
                "line {}: `{text}` is read as two bits, {what} {value}; the number {value} is \
                 plainer, as `{text}` is a number in a ward with more {what} bits",
                place.line
            ));
        }
        Ok(pattern)
    }

    /// The fault at the first word of a policy that may be meant as a name, and is none.
    pub(crate) fn at_first(&self, word: &str, fault: Fault) -> Fault {
        let is_taken = self.names.named(word).is_some() || reserved(word).is_some();
        if is_taken || !is_name(word) || fault.hint.is_some() {
            return fault;
        }
        let message = format!("{}; there is no such name", fault.message);
        Fault { message, ..fault }.with_nearest(word, self.names.all())
    }

    /// The fault at a word that may be a name: what it is the name of, or that there is no such name,
    /// with those of the known ones that are near.
    fn at_name<'n>(
        &self,
        statement: &Statement,
        fault: Fault,
        known: impl IntoIterator<Item = &'n str>,
    ) -> Fault {
        let word = statement.peek().text;
        let saying = |words: &str| format!("{}; {words}", fault.message);
        match self.names.named(word) {
            Some(named) => {
                let message = saying(&format!("this is {}", named.words()));
                let line = self.names.line(word).unwrap_or_default();
                let fault = Fault { message, ..fault };
                let is_other =
                    |name: &&str| self.names.named(name).is_some_and(|it| !it.is_like(named));
                fault
                    .hint(format!("the name is given in line {line}"))
                    .with_nearest(word, known.into_iter().filter(is_other))
            }
            None if is_name(word) && reserved(word).is_none() => {
                Fault { message: saying("there is no such name"), ..fault }.with_near(word, known)
            }
            None => fault,
        }
    }
}

fn is_name(word: &str) -> bool {
    word.starts_with(|c: char| c.is_ascii_alphabetic()) && !word.contains('*')
}

/// The words that have a meaning in the language, so that none of them is a name.
const RESERVED: &[&str] = &[
    "H",
    "P",
    "W",
    "version",
    "X",
    "Y",
    "R",
    "E",
    "switch",
    "port",
    "header",
    "priority",
    "output",
    "set",
    "in_port",
    "drop",
    "controller",
    "nodes",
    "exists",
    "forall",
    "and",
    "or",
    "not",
    "bit",
    "tc",
    "arriving",
    "departing",
    "external",
    "at",
    "steps",
    "reaches",
    "loops",
    "no",
    "nothing",
    "what",
    "everything",
    "enters",
    "leaves",
    "never",
    "meet",
    "only",
    "by",
    "way",
    "of",
    "from",
    "is",
    "dropped",
    "with",
    "true",
    "false",
];

/// The word of the language that a name is, in whatever letters.
fn reserved(name: &str) -> Option<&'static str> {
    let same = |word: &&&str| word.eq_ignore_ascii_case(name);
    RESERVED.iter().chain(&STATEMENTS).find(same).copied()
}
