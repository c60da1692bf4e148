//! Parts of a formula in one form each, equal ones once.

use crate::formula::{Sign, Variable};
use crate::widths::Widths;
use crate::written::{Field, Written};
use std::collections::{BTreeSet, HashMap};

/// What is done to have fewer nodes where there are too many otherwise; each costs a closure.
#[derive(Clone, Copy, Debug, Default, PartialEq, Eq)]
pub(super) enum Tricks {
    #[default]
    None,
    /// What is said of Y alone is said of X, and a closure from Y to Y makes it one of Y, so that
    /// both variables share the nodes of their bits.
    Renaming,
    /// That, and two fields are the same if each is among the other's bits. That relation is its
    /// own closure, so that the closure turned round is the relation turned round.
    Order,
}

/// The number of a part.
pub(super) type Id = usize;

/// A part of a formula over earlier ones. A chain has two parts or more, ascending, none of them a
/// chain of its own sign, and not all of them negated.
#[derive(Clone, Debug, PartialEq, Eq, Hash)]
pub(super) enum Part {
    Constant(bool),
    Bit(Variable, u8),
    Steps(Variable, Variable),
    External(Variable),
    Not(Id),
    Chain(Sign, Vec<Id>),
    Some(Id, Variable),
    All(Id, Variable),
    Closure(Id, Variable, Variable),
}

/// Parts, equal ones once.
#[derive(Clone, Default)]
pub(super) struct Parts {
    pub(super) parts: Vec<Part>,
    pub(super) ids: HashMap<Part, Id>,
    /// For each part whether X and whether Y matters.
    pub(super) free: Vec<[bool; 2]>,
    /// The negations of chains with negated members.
    negations: HashMap<Id, Id>,
    pub(super) tricks: Tricks,
}

impl Parts {
    /// No parts yet, with these tricks allowed.
    pub(super) fn with(tricks: Tricks) -> Parts {
        Parts { tricks, ..Parts::default() }
    }

    pub(super) fn id(&mut self, part: Part) -> Id {
        if let Some(id) = self.ids.get(&part) {
            return *id;
        }
        self.free.push(self.free_of(&part));
        self.parts.push(part.clone());
        self.ids.insert(part, self.parts.len() - 1);
        self.parts.len() - 1
    }

    fn free_of(&self, part: &Part) -> [bool; 2] {
        let only = |variable: Variable| Variable::BOTH.map(|other| other == variable);
        let both = |one: [bool; 2], other: [bool; 2]| [one[0] || other[0], one[1] || other[1]];
        match part {
            Part::Constant(_) => [false, false],
            Part::Bit(one, _) | Part::External(one) => only(*one),
            Part::Steps(one, other) | Part::Closure(_, one, other) => {
                both(only(*one), only(*other))
            }
            Part::Not(id) => self.free[*id],
            Part::Chain(_, ids) => ids.iter().map(|id| self.free[*id]).fold([false; 2], both),
            Part::Some(id, bound) | Part::All(id, bound) => {
                let mut free = self.free[*id];
                free[usize::from(bound.number())] = false;
                free
            }
        }
    }

    pub(super) fn constant(&self, id: Id) -> Option<bool> {
        match self.parts[id] {
            Part::Constant(truth) => Some(truth),
            _ => None,
        }
    }

    /// The negation of a part; of a chain with negated members it is the other chain, so that it has
    /// one form and one NOT less.
    pub(super) fn not(&mut self, id: Id) -> Id {
        match self.parts[id].clone() {
            Part::Constant(truth) => self.id(Part::Constant(!truth)),
            Part::Not(inside) => inside,
            Part::Chain(sign, ids) if ids.iter().any(|id| self.is_negated(*id)) => {
                if let Some(known) = self.negations.get(&id) {
                    return *known;
                }
                let ids: Vec<Id> = ids.into_iter().map(|id| self.not(id)).collect();
                let negation = self.chain(sign.other(), ids);
                self.negations.insert(id, negation);
                negation
            }
            _ => self.id(Part::Not(id)),
        }
    }

    /// The negation of a part, if there is one so far.
    fn opposite(&self, id: Id) -> Option<Id> {
        match self.parts[id] {
            Part::Not(inside) => Some(inside),
            _ => self.ids.get(&Part::Not(id)).or(self.negations.get(&id)).copied(),
        }
    }

    pub(super) fn is_negated(&self, id: Id) -> bool {
        matches!(self.parts[id], Part::Not(_))
    }

    /// What a part is a chain of, if it were one of this sign.
    pub(super) fn elements(&mut self, id: Id, sign: Sign) -> Vec<Id> {
        match self.parts[id].clone() {
            Part::Chain(its, ids) if its == sign => ids,
            Part::Not(inside) => match self.parts[inside].clone() {
                Part::Chain(its, ids) if its == sign.other() => {
                    ids.into_iter().map(|id| self.not(id)).collect()
                }
                _ => vec![id],
            },
            _ => vec![id],
        }
    }

    /// The chain of some parts.
    pub(super) fn chain(&mut self, sign: Sign, ids: impl IntoIterator<Item = Id>) -> Id {
        let mut set = BTreeSet::new();
        for id in ids {
            set.extend(self.elements(id, sign));
        }
        // True among `|`, and false among `&`, decides; the other one says nothing.
        let deciding = self.id(Part::Constant(sign == Sign::Or));
        let idle = self.not(deciding);
        set.remove(&idle);
        let set = self.absorbed(sign, set);
        let set = self.quantified_once(sign, set);
        let complement = set.iter().any(|id| match self.parts[*id] {
            Part::Not(inside) => set.contains(&inside),
            _ => false,
        });
        if complement || set.contains(&deciding) {
            return deciding;
        }
        let ids: Vec<Id> = set.into_iter().collect();
        match ids[..] {
            [] => idle,
            [id] => id,
            _ if ids.iter().all(|id| self.is_negated(*id)) => {
                let inside: Vec<Id> = ids.into_iter().map(|id| self.not(id)).collect();
                let chain = self.chain(sign.other(), inside);
                self.not(chain)
            }
            _ => self.id(Part::Chain(sign, ids)),
        }
    }

    /// A set without the chains of the other sign that one of the set makes idle: of `a & (a | b)`
    /// the second, and of `a & (!a | b)` the `!a`.
    fn absorbed(&mut self, sign: Sign, set: BTreeSet<Id>) -> BTreeSet<Id> {
        let mut kept = BTreeSet::new();
        for id in &set {
            let alternatives = self.elements(*id, sign.other());
            if alternatives.len() < 2 {
                kept.insert(*id);
                continue;
            }
            if alternatives.iter().any(|one| set.contains(one)) {
                continue;
            }
            let is_left = |one: &Id| !self.opposite(*one).is_some_and(|it| set.contains(&it));
            let left: Vec<Id> = alternatives.iter().copied().filter(is_left).collect();
            if left.len() == alternatives.len() {
                kept.insert(*id);
            } else {
                let left = self.chain(sign.other(), left);
                kept.extend(self.elements(left, sign));
            }
        }
        kept
    }

    /// A set in which a variable is bound once: `exists` among `|`, `forall` among `&`.
    fn quantified_once(&mut self, sign: Sign, mut set: BTreeSet<Id>) -> BTreeSet<Id> {
        for variable in Variable::BOTH {
            let inside = |id: &Id| match (sign, &self.parts[*id]) {
                (Sign::Or, Part::Some(inside, bound)) if *bound == variable => Some(*inside),
                (Sign::And, Part::All(inside, bound)) if *bound == variable => Some(*inside),
                _ => None,
            };
            let (bound, insides): (Vec<Id>, Vec<Id>) =
                set.iter().filter_map(|id| Some((*id, inside(id)?))).unzip();
            if bound.len() < 2 {
                continue;
            }
            let together = self.chain(sign, insides);
            let quantified = match sign {
                Sign::Or => self.some(together, variable),
                Sign::And => self.all(together, variable),
            };
            set.retain(|id| !bound.contains(id));
            set.extend(self.elements(quantified, sign));
        }
        set
    }

    pub(super) fn some(&mut self, id: Id, bound: Variable) -> Id {
        match self.free[id][usize::from(bound.number())] {
            true => self.id(Part::Some(id, bound)),
            false => id,
        }
    }

    pub(super) fn all(&mut self, id: Id, bound: Variable) -> Id {
        match self.free[id][usize::from(bound.number())] {
            true => self.id(Part::All(id, bound)),
            false => id,
        }
    }

    pub(super) fn closure(&mut self, id: Id, from: Variable, to: Variable) -> Id {
        match self.constant(id) {
            Some(_) => id,
            None => self.id(Part::Closure(id, from, to)),
        }
    }

    /// The part that a formula is.
    pub(super) fn take(&mut self, written: &Written, of: Widths) -> Id {
        match written {
            Written::Bit(one, bit) => self.id(Part::Bit(*one, *bit)),
            Written::Steps(one, other) => self.id(Part::Steps(*one, *other)),
            Written::External(one) => self.id(Part::External(*one)),
            Written::Fits(field, one, pattern) => self.fits(field.bits(of), *one, *pattern),
            Written::Same(_, one, other) if one == other => self.id(Part::Constant(true)),
            Written::Same(field, ..) => self.same(*field, of),
            Written::Not(part) => {
                let part = self.take(part, of);
                self.not(part)
            }
            Written::And(parts) => self.take_chain(Sign::And, parts, of),
            Written::Or(parts) => self.take_chain(Sign::Or, parts, of),
            Written::Some(part, bound) => {
                let part = self.take(part, of);
                self.some(part, *bound)
            }
            Written::All(part, bound) => {
                let part = self.take(part, of);
                self.all(part, *bound)
            }
            Written::Closure(part, from, to) => {
                let part = self.take(part, of);
                self.closure(part, *from, *to)
            }
        }
    }

    fn take_chain(&mut self, sign: Sign, parts: &[Written], of: Widths) -> Id {
        let ids: Vec<Id> = parts.iter().map(|part| self.take(part, of)).collect();
        self.chain(sign, ids)
    }

    /// The bits from the lowest on fit the pattern.
    fn fits(&mut self, (lowest, width): (u8, u8), one: Variable, [value, care]: [u8; 2]) -> Id {
        let mut ids = vec![];
        for bit in (0..width).rev().filter(|bit| care >> bit & 1 == 1) {
            let is_one = self.id(Part::Bit(one, lowest + bit));
            ids.push(if value >> bit & 1 == 1 { is_one } else { self.not(is_one) });
        }
        self.chain(Sign::And, ids)
    }

    /// The field is the same in X and in Y.
    pub(super) fn same(&mut self, field: Field, of: Widths) -> Id {
        let (lowest, width) = field.bits(of);
        let mut ids = vec![];
        for bit in lowest..lowest + width {
            let [x, y] = Variable::BOTH.map(|variable| self.id(Part::Bit(variable, bit)));
            ids.push(match self.tricks {
                Tricks::None | Tricks::Renaming => {
                    let either = self.chain(Sign::Or, [x, y]);
                    let both = self.chain(Sign::And, [x, y]);
                    let not_both = self.not(both);
                    let one_alone = self.chain(Sign::And, [either, not_both]);
                    self.not(one_alone)
                }
                Tricks::Order => {
                    let not_y = self.not(y);
                    self.chain(Sign::Or, [x, not_y])
                }
            });
        }
        let whole = self.chain(Sign::And, ids);
        match self.tricks {
            Tricks::None | Tricks::Renaming => whole,
            Tricks::Order => {
                let turned = self.closure(whole, Variable::Y, Variable::X);
                self.chain(Sign::And, [whole, turned])
            }
        }
    }
}
