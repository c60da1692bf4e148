//! Policies as formulas and as node lists, and both printed.

use crate::fault::Fault;
use crate::kind::node::{self, NAMES};
use crate::tokens::Statement;
use crate::written::read_variable;
use crate::Record;
use std::rc::Rc;

/// Kind and operands of a policy node.
pub type Node = [u8; 3];

/// The node of a policy's record.
pub fn node_of(record: &Record) -> Node {
    [record[2], record[3], record[4]]
}

/// A variable of a formula; each stands for a state.
#[derive(Clone, Copy, Debug, PartialEq, Eq, PartialOrd, Ord, Hash)]
pub enum Variable {
    X,
    Y,
}

impl Variable {
    pub const BOTH: [Variable; 2] = [Variable::X, Variable::Y];

    /// The number of a variable in a node.
    pub fn number(self) -> u8 {
        self as u8
    }

    /// The variable of a number.
    pub fn numbered(number: u8) -> Option<Variable> {
        Variable::BOTH.get(usize::from(number)).copied()
    }
}

/// A policy's formula, one form for each kind of node. Equal parts are one and the same `Rc`, so that
/// who works out its truth may keep the truth of each part by its address.
#[derive(Clone, Debug, PartialEq, Eq)]
pub enum Formula {
    /// Bit of a state.
    Bit(Variable, u8),
    /// The first steps to the second: `R`.
    Steps(Variable, Variable),
    /// The point is external: `E`.
    External(Variable),
    Not(Rc<Formula>),
    And(Rc<Formula>, Rc<Formula>),
    Or(Rc<Formula>, Rc<Formula>),
    /// For some state as the variable: `exists`.
    Some(Rc<Formula>, Variable),
    /// For all states as the variable: `forall`.
    All(Rc<Formula>, Variable),
    /// A walk of one or more pairs from the first to the second: `tc`.
    Closure(Rc<Formula>, Variable, Variable),
}

impl Formula {
    /// The formula of the last node, if every node has a form and operands are earlier nodes.
    pub fn of(nodes: &[Node]) -> Option<Formula> {
        let mut parts: Vec<Rc<Formula>> = vec![];
        for node in nodes {
            let part = Formula::over(*node, &parts)?;
            parts.push(Rc::new(part));
        }
        parts.pop().map(|last| last.as_ref().clone())
    }

    /// The formula of a node over earlier ones.
    fn over([kind, one, other]: Node, earlier: &[Rc<Formula>]) -> Option<Formula> {
        let operand = |number: u8| earlier.get(usize::from(number)).cloned();
        let variable = Variable::numbered;
        Some(match kind {
            node::BIT => Formula::Bit(variable(one)?, other),
            node::R => Formula::Steps(variable(one)?, variable(other)?),
            node::E => Formula::External(variable(one)?),
            node::NOT => Formula::Not(operand(one)?),
            node::AND => Formula::And(operand(one)?, operand(other)?),
            node::OR => Formula::Or(operand(one)?, operand(other)?),
            node::SOME => Formula::Some(operand(one)?, variable(other)?),
            node::ALL => Formula::All(operand(one)?, variable(other)?),
            node::TC => Formula::Closure(operand(one)?, variable(other / 2)?, variable(other % 2)?),
            _ => return None,
        })
    }
}

/// The most policies of a network.
pub const MOST_POLICIES: usize = 8;
/// The most nodes of a policy.
pub const MOST_NODES: usize = 32;
/// The most characters that a printed formula has.
const MOST_CHARACTERS: usize = 1_000;

const VARIABLES: [&str; 2] = ["X", "Y"];

/// Reads a node list; an operand may be any byte.
pub fn read_nodes(statement: &mut Statement, bits: u8) -> Result<Vec<Node>, Fault> {
    let mut nodes = vec![];
    loop {
        nodes.push(read_node(statement, bits)?);
        if !statement.accept(";") {
            return Ok(nodes);
        }
    }
}

fn read_node(statement: &mut Statement, bits: u8) -> Result<Node, Fault> {
    let name = statement.peek().text;
    let Some(kind) = (0..).zip(NAMES).find_map(|(kind, known)| (known == name).then_some(kind))
    else {
        return Err(statement.expected(&format!("a node ({})", NAMES.join(", "))));
    };
    statement.take();
    let operand = |statement: &mut Statement| statement.byte("the number of a node", 255);
    let variable = |statement: &mut Statement| read_variable(statement).map(Variable::number);
    let (one, other) = match kind {
        node::BIT => (variable(statement)?, statement.byte("a bit of a state", bits - 1)?),
        node::R => (variable(statement)?, variable(statement)?),
        node::E => (variable(statement)?, 0),
        node::NOT => (operand(statement)?, 0),
        node::AND | node::OR => (operand(statement)?, operand(statement)?),
        node::SOME | node::ALL => (operand(statement)?, variable(statement)?),
        _ => {
            let walk = operand(statement)?;
            let first = variable(statement)?;
            (walk, 2 * first + variable(statement)?)
        }
    };
    Ok([kind, one, other])
}

fn variable(number: u8) -> Option<&'static str> {
    VARIABLES.get(usize::from(number)).copied()
}

/// The node list in text, if every node has a form.
pub fn print_nodes(nodes: &[Node]) -> Option<String> {
    let items: Option<Vec<String>> = nodes.iter().map(print_node).collect();
    Some(items?.join("; "))
}

fn print_node(node: &Node) -> Option<String> {
    let [kind, one, other] = *node;
    let name = NAMES.get(usize::from(kind))?;
    Some(match kind {
        node::BIT => format!("{name} {} {other}", variable(one)?),
        node::R => format!("{name} {} {}", variable(one)?, variable(other)?),
        node::E => format!("{name} {}", variable(one)?),
        node::NOT => format!("{name} {one}"),
        node::AND | node::OR => format!("{name} {one} {other}"),
        node::SOME | node::ALL => format!("{name} {one} {}", variable(other)?),
        _ => format!("{name} {one} {} {}", variable(other / 2)?, variable(other % 2)?),
    })
}

/// A sign that joins the parts of a formula: `&` or `|`.
#[derive(Clone, Copy, Debug, PartialEq, Eq, Hash, PartialOrd, Ord)]
pub enum Sign {
    And,
    Or,
}

impl Sign {
    /// The sign of a word or symbol.
    pub fn of(text: &str) -> Option<Sign> {
        match text {
            "&" | "and" => Some(Sign::And),
            "|" | "or" => Some(Sign::Or),
            _ => None,
        }
    }

    pub fn other(self) -> Sign {
        match self {
            Sign::And => Sign::Or,
            Sign::Or => Sign::And,
        }
    }

    /// The kind of its node.
    pub fn kind(self) -> u8 {
        match self {
            Sign::And => node::AND,
            Sign::Or => node::OR,
        }
    }

    fn symbol(self) -> &'static str {
        match self {
            Sign::And => "&",
            Sign::Or => "|",
        }
    }
}

/// What a printed formula is, as far as parentheses round it are concerned.
#[derive(Clone, Copy, PartialEq, Eq)]
enum Shape {
    Atom,
    /// A quantifier, negated or not, and the sign in what it is about.
    Quantifier(Option<Sign>),
    /// A chain, and whether it ends with a quantifier that would take in what follows.
    Chain(Sign, bool),
}

/// A printed formula.
#[derive(Clone)]
struct Printed {
    text: String,
    shape: Shape,
}

impl Printed {
    fn atom(text: String) -> Printed {
        Printed { text, shape: Shape::Atom }
    }

    /// The text, in parentheses unless it stands well without.
    fn standing(&self, well: bool) -> String {
        match well {
            true => self.text.clone(),
            false => format!("({})", self.text),
        }
    }

    /// Whether the text stands on the left of a sign without parentheses.
    fn stands_before(&self, sign: Sign) -> bool {
        self.shape == Shape::Atom || self.shape == Shape::Chain(sign, false)
    }

    /// Whether the text stands on the right of a sign without parentheses: what a quantifier is about
    /// goes on with the sign before it alone.
    fn stands_behind(&self, sign: Sign) -> bool {
        match self.shape {
            Shape::Atom => true,
            Shape::Quantifier(its) => its.is_none_or(|its| its == sign),
            Shape::Chain(..) => false,
        }
    }
}

/// The last node as a formula, unless it is longer than a thousand characters or a node has none.
pub fn print_formula(nodes: &[Node]) -> Option<String> {
    let mut printed: Vec<Option<Printed>> = vec![];
    for node in nodes {
        let formula = print_over(*node, &printed);
        printed.push(formula.filter(|formula| formula.text.len() <= MOST_CHARACTERS));
    }
    Some(printed.pop()??.text)
}

fn print_over(node: Node, earlier: &[Option<Printed>]) -> Option<Printed> {
    let [kind, one, other] = node;
    let operand = |number: u8| earlier.get(usize::from(number))?.as_ref();
    match kind {
        node::BIT => Some(Printed::atom(format!("bit({},{other})", variable(one)?))),
        node::R => Some(Printed::atom(format!("R({},{})", variable(one)?, variable(other)?))),
        node::E => Some(Printed::atom(format!("E({})", variable(one)?))),
        node::NOT => Some(print_not(operand(one)?)),
        node::AND => Some(print_chain(Sign::And, operand(one)?, operand(other)?)),
        node::OR => Some(print_chain(Sign::Or, operand(one)?, operand(other)?)),
        node::SOME | node::ALL => {
            let word = if kind == node::SOME { "exists" } else { "forall" };
            let inside = operand(one)?;
            let text = format!("{word} {}. {}", variable(other)?, inside.text);
            let sign = match inside.shape {
                Shape::Atom => None,
                Shape::Quantifier(sign) => sign,
                Shape::Chain(sign, _) => Some(sign),
            };
            Some(Printed { text, shape: Shape::Quantifier(sign) })
        }
        node::TC => {
            let (first, second) = (variable(other / 2)?, variable(other % 2)?);
            Some(Printed::atom(format!("tc({})({first},{second})", operand(one)?.text)))
        }
        _ => None,
    }
}

fn print_not(negated: &Printed) -> Printed {
    match negated.shape {
        Shape::Chain(..) => Printed::atom(format!("!({})", negated.text)),
        shape => Printed { text: format!("!{}", negated.text), shape },
    }
}

fn print_chain(sign: Sign, left: &Printed, right: &Printed) -> Printed {
    let [before, behind] = [left.stands_before(sign), right.stands_behind(sign)];
    let text = format!("{} {} {}", left.standing(before), sign.symbol(), right.standing(behind));
    let open = behind && right.shape != Shape::Atom;
    Printed { text, shape: Shape::Chain(sign, open) }
}
