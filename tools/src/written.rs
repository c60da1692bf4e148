//! Formulas as they are written: the raw forms, fields, and the words for them.

use crate::fault::{nearest, Fault};
use crate::formula::{Sign, Variable};
use crate::names::Area;
use crate::parse::Reader;
use crate::tokens::{Statement, Token};
use crate::widths::Widths;

/// How deep a formula may be nested in the text, and how many parts it may have.
const MOST_DEPTH: usize = 100;
const MOST_PARTS: usize = 1_000;

/// A field of a state.
#[derive(Clone, Copy, Debug, PartialEq, Eq)]
pub enum Field {
    Header,
    Port,
    Switch,
    /// 0 arriving, 1 departing.
    Direction,
}

impl Field {
    /// The field's lowest bit in a state, and how many bits it has.
    pub fn bits(self, of: Widths) -> (u8, u8) {
        match self {
            Field::Header => (0, of.h),
            Field::Port => (of.h, of.p),
            Field::Switch => (of.h + of.p, of.w),
            Field::Direction => (of.bits() - 1, 1),
        }
    }
}

/// A formula as it is written. A chain of `&` or `|` is one part.
#[derive(Clone, Debug, PartialEq, Eq)]
pub enum Written {
    Bit(Variable, u8),
    Steps(Variable, Variable),
    External(Variable),
    /// The field fits the pattern: value and care.
    Fits(Field, Variable, [u8; 2]),
    /// The field is the same in both states.
    Same(Field, Variable, Variable),
    Not(Box<Written>),
    And(Vec<Written>),
    Or(Vec<Written>),
    Some(Box<Written>, Variable),
    All(Box<Written>, Variable),
    Closure(Box<Written>, Variable, Variable),
}

impl Written {
    pub fn negated(self) -> Written {
        Written::Not(Box::new(self))
    }

    pub fn exists(self, variable: Variable) -> Written {
        Written::Some(Box::new(self), variable)
    }

    /// A walk of one or more steps from the first to the second.
    pub fn reaches(from: Variable, to: Variable) -> Written {
        let step = Written::Steps(Variable::X, Variable::Y);
        Written::Closure(Box::new(step), from, to)
    }

    /// The state is in one of the parts of the network.
    pub fn within(variable: Variable, areas: &[Area], of: Widths) -> Written {
        let switch = |it: u8| Written::Fits(Field::Switch, variable, [it, of.last_switch()]);
        let place = |area: &Area| match *area {
            Area::Switch(it) => switch(it),
            Area::Point([it, port]) => {
                let port = Written::Fits(Field::Port, variable, [port, of.controller()]);
                Written::And(vec![switch(it), port])
            }
        };
        Written::Or(areas.iter().map(place).collect())
    }

    /// Whether X and whether Y is free.
    pub fn free(&self) -> [bool; 2] {
        let only = |variable: Variable| Variable::BOTH.map(|other| other == variable);
        let both = |one: [bool; 2], other: [bool; 2]| [one[0] || other[0], one[1] || other[1]];
        match self {
            Written::Bit(one, _) | Written::External(one) | Written::Fits(_, one, _) => only(*one),
            Written::Steps(one, other)
            | Written::Same(_, one, other)
            | Written::Closure(_, one, other) => both(only(*one), only(*other)),
            Written::Not(part) => part.free(),
            Written::And(parts) | Written::Or(parts) => {
                parts.iter().map(Written::free).fold([false, false], both)
            }
            Written::Some(part, bound) | Written::All(part, bound) => {
                let mut free = part.free();
                free[usize::from(bound.number())] = false;
                free
            }
        }
    }

    /// How many alternatives the longest `|` has that the formula can be halved at.
    fn choices(&self) -> usize {
        match self {
            Written::Or(parts) => parts.len(),
            Written::And(parts) => parts.iter().map(Written::choices).max().unwrap_or(1),
            Written::Some(part, _) => part.choices(),
            _ => 1,
        }
    }

    /// Two formulas of which one is true if and only if this one is, each with half of the
    /// alternatives of what has the most of them.
    pub fn halves(&self) -> Option<[Written; 2]> {
        match self {
            Written::Or(parts) if parts.len() > 1 => {
                let (one, other) = parts.split_at(parts.len() / 2);
                Some([one, other].map(|half| Written::Or(half.to_vec())))
            }
            Written::Or(parts) => parts.first()?.halves(),
            Written::Some(part, bound) => Some(part.halves()?.map(|half| half.exists(*bound))),
            Written::And(parts) => {
                let place = (0..parts.len()).max_by_key(|place| parts[*place].choices())?;
                let halves = parts[place].halves()?;
                Some(halves.map(|half| {
                    let mut parts = parts.clone();
                    parts[place] = half;
                    Written::And(parts)
                }))
            }
            _ => None,
        }
    }

    /// Whether there are raw forms alone.
    pub fn is_raw(&self) -> bool {
        match self {
            Written::Bit(..) | Written::Steps(..) | Written::External(_) => true,
            Written::Fits(..) | Written::Same(..) => false,
            Written::Not(part)
            | Written::Some(part, _)
            | Written::All(part, _)
            | Written::Closure(part, ..) => part.is_raw(),
            Written::And(parts) | Written::Or(parts) => parts.iter().all(Written::is_raw),
        }
    }
}

/// What starts a part of a formula.
const STARTS: [&str; 17] = [
    "not",
    "exists",
    "forall",
    "bit",
    "R",
    "E",
    "tc",
    "arriving",
    "departing",
    "switch",
    "port",
    "header",
    "at",
    "external",
    "steps",
    "reaches",
    "loops",
];

/// Other words of policies: signs, and what starts a sentence.
const OTHERS: [&str; 7] = ["and", "or", "no", "nothing", "what", "everything", "ward"];

/// What others write for what is written otherwise here.
const HABITS: [(&str, &str); 9] = [
    ("&&", "write `&` or `and`"),
    ("||", "write `|` or `or`"),
    ("==", "write `=`"),
    ("<>", "write `!=`"),
    ("->", "write `!a | b` for `a -> b`"),
    ("=>", "write `!a | b` for `a => b`"),
    ("true", "leave it out: `true` is no formula here"),
    ("false", "leave it out: `false` is no formula here"),
    ("in", "write `=`, or `at(X, ...)` for points and switches"),
];

/// Reads a formula to the statement's end.
pub fn read_formula(
    reader: &mut Reader,
    statement: &mut Statement,
    of: Widths,
) -> Result<Written, Fault> {
    let mut formula = FormulaReader { reader, statement, of, depth: 0, parts: 0 };
    let whole = formula.chain(None)?;
    formula.ended()?;
    Ok(whole)
}

struct FormulaReader<'r, 's, 'a> {
    reader: &'r mut Reader,
    statement: &'s mut Statement<'a>,
    of: Widths,
    depth: usize,
    parts: usize,
}

impl FormulaReader<'_, '_, '_> {
    /// Parts joined by one sign; if one is given, by that one.
    fn chain(&mut self, given: Option<Sign>) -> Result<Written, Fault> {
        let mut sign = given;
        let mut parts = vec![self.part(given)?];
        while let Some(next) = Sign::of(self.statement.peek().text) {
            if sign.is_some_and(|sign| sign != next) {
                return Err(self.mixed(given.is_some()));
            }
            sign = Some(next);
            self.statement.take();
            parts.push(self.part(sign)?);
        }
        Ok(match (parts.len(), sign) {
            (1, _) => parts.remove(0),
            (_, Some(Sign::Or)) => Written::Or(parts),
            _ => Written::And(parts),
        })
    }

    /// The fault at a sign that stands beside the other one.
    fn mixed(&self, in_quantifier: bool) -> Fault {
        let message = "`&` and `|` stand side by side";
        let hint = match in_quantifier {
            true => "a quantifier reaches to the end; put it, or what it is about, in parentheses",
            false => "put parentheses round the parts that belong together",
        };
        self.statement.peek().fault(message).hint(hint)
    }

    /// One part; a quantifier in it goes on with the sign before it alone.
    fn part(&mut self, sign: Option<Sign>) -> Result<Written, Fault> {
        self.depth += 1;
        self.parts += 1;
        if self.depth > MOST_DEPTH {
            return Err(self.statement.peek().fault("the formula is nested too deep"));
        }
        if self.parts > MOST_PARTS {
            let message = format!("the formula has more than {MOST_PARTS} parts");
            return Err(self.statement.peek().fault(message));
        }
        let part = self.part_inside(sign);
        self.depth -= 1;
        part
    }

    fn part_inside(&mut self, sign: Option<Sign>) -> Result<Written, Fault> {
        let token = self.statement.peek();
        let word = token.text;
        let known = ["!", "("].contains(&word) || STARTS.contains(&word);
        if !known {
            return Err(self.no_formula());
        }
        self.statement.take();
        match word {
            "!" | "not" => Ok(self.part(sign)?.negated()),
            "exists" => {
                let (inside, variable) = self.quantified(sign)?;
                Ok(inside.exists(variable))
            }
            "forall" => {
                let (inside, variable) = self.quantified(sign)?;
                Ok(Written::All(Box::new(inside), variable))
            }
            "(" => {
                let inside = self.chain(None)?;
                self.close(token)?;
                Ok(inside)
            }
            "tc" => {
                let open = self.open()?;
                let walk = self.chain(None)?;
                self.close(open)?;
                let [from, to] = self.pair()?;
                Ok(Written::Closure(Box::new(walk), from, to))
            }
            "R" | "steps" => {
                let [from, to] = self.pair()?;
                Ok(Written::Steps(from, to))
            }
            "reaches" => {
                let [from, to] = self.pair()?;
                Ok(Written::reaches(from, to))
            }
            _ => self.of_one(word),
        }
    }

    /// A form over one variable, from its parenthesis on.
    fn of_one(&mut self, word: &str) -> Result<Written, Fault> {
        let open = self.open()?;
        let variable = self.variable()?;
        let form = match word {
            "bit" => {
                self.statement.expect(",")?;
                Written::Bit(variable, self.statement.byte("a bit of a state", self.of.bits() - 1)?)
            }
            "at" => {
                self.statement.expect(",")?;
                let areas = self.reader.areas(self.of, self.statement)?;
                Written::within(variable, &areas, self.of)
            }
            "E" | "external" => Written::External(variable),
            "loops" => Written::reaches(variable, variable),
            "arriving" => Written::Fits(Field::Direction, variable, [0, 1]),
            "departing" => Written::Fits(Field::Direction, variable, [1, 1]),
            _ => {
                self.close(open)?;
                return self.compared(word, variable);
            }
        };
        self.close(open)?;
        Ok(form)
    }

    /// A field of a variable with `=` or `!=` and what it is held against.
    fn compared(&mut self, word: &str, variable: Variable) -> Result<Written, Fault> {
        let differs = self.statement.accept("!=");
        if !differs && !self.statement.accept("=") {
            return Err(self.with_habit(self.statement.expected("`=` or `!=`")));
        }
        let field = match word {
            "switch" => Field::Switch,
            "port" => Field::Port,
            _ => Field::Header,
        };
        let held = match self.statement.accept_all(&[word, "("]) {
            true => {
                let open = self.statement.last();
                let other = self.variable()?;
                self.close(open)?;
                Written::Same(field, variable, other)
            }
            false => {
                let pattern = match field {
                    Field::Switch => self.reader.switch_pattern(self.of, self.statement)?,
                    Field::Port => self.reader.port_pattern(self.of, None, self.statement)?,
                    _ => self.reader.header_pattern(self.of, self.statement)?,
                };
                Written::Fits(field, variable, pattern)
            }
        };
        Ok(if differs { held.negated() } else { held })
    }

    /// What a quantifier is about, and its variable.
    fn quantified(&mut self, sign: Option<Sign>) -> Result<(Written, Variable), Fault> {
        let quantifier = self.statement.last();
        let variable = self.variable()?;
        self.statement.expect(".")?;
        let inside = self.chain(sign)?;
        if !inside.free()[usize::from(variable.number())] {
            let Token { text, place } = quantifier;
            self.reader.note(format!(
                "line {}: `{text} {variable:?}` says nothing, as nothing in it is about {variable:?}",
                place.line
            ));
        }
        Ok((inside, variable))
    }

    fn pair(&mut self) -> Result<[Variable; 2], Fault> {
        let open = self.open()?;
        let one = self.variable()?;
        self.statement.expect(",")?;
        let other = self.variable()?;
        self.close(open)?;
        Ok([one, other])
    }

    fn variable(&mut self) -> Result<Variable, Fault> {
        read_variable(self.statement)
    }

    fn open(&mut self) -> Result<Token<'static>, Fault> {
        let open = self.statement.peek();
        self.statement.expect("(")?;
        Ok(Token { text: "(", place: open.place })
    }

    /// Closes a parenthesis; one that stays open is told where it was opened.
    fn close(&mut self, open: Token) -> Result<(), Fault> {
        if self.statement.accept(")") {
            return Ok(());
        }
        if self.statement.peek().text.is_empty() {
            return Err(open.fault("this parenthesis is not closed"));
        }
        let fault = self.with_habit(self.statement.expected("`)`"));
        Err(match fault.hint {
            Some(_) => fault,
            None => fault.hint(format!(
                "the parenthesis was opened in line {}, column {}",
                open.place.line, open.place.column
            )),
        })
    }

    /// The formula is read to the statement's end.
    fn ended(&self) -> Result<(), Fault> {
        let token = self.statement.peek();
        match token.text {
            "" => Ok(()),
            ")" => Err(token.fault("this parenthesis was not opened")),
            _ => {
                let what = "`&`, `|` or the end of the policy";
                Err(self.with_habit(self.statement.expected(what)))
            }
        }
    }

    /// The fault at a word that starts no formula.
    fn no_formula(&self) -> Fault {
        let fault = self.with_habit(self.statement.expected("a formula"));
        let name = self.statement.peek().text;
        match (&fault.hint, self.reader.names.named(name)) {
            (None, Some(_)) => {
                fault.hint(format!("a name is held against a field, as in `switch(X) = {name}`"))
            }
            _ => fault,
        }
    }

    /// The fault with a hint for what others write so, or for the nearest word.
    fn with_habit(&self, fault: Fault) -> Fault {
        let word = self.statement.peek().text;
        let habit = HABITS.iter().find(|(other, _)| *other == word);
        if let Some((_, hint)) = habit {
            return fault.hint(*hint);
        }
        match nearest(word, STARTS.into_iter().chain(OTHERS)) {
            Some(near) if near != word => fault.hint(format!("did you mean `{near}`?")),
            _ => fault,
        }
    }
}

/// Reads a variable.
pub fn read_variable(statement: &mut Statement) -> Result<Variable, Fault> {
    let token = statement.peek();
    let variable = match token.text {
        "X" => Variable::X,
        "Y" => Variable::Y,
        text => {
            let fault = statement.expected("a variable, `X` or `Y`");
            return Err(match text {
                "x" => fault.hint("write `X`"),
                "y" => fault.hint("write `Y`"),
                _ => fault,
            });
        }
    };
    statement.take();
    Ok(variable)
}
