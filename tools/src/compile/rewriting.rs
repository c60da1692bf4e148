//! Parts of a formula in other forms, which may have fewer nodes.

use super::parts::{Id, Part, Parts};
use crate::formula::{Sign, Variable};
use std::collections::{BTreeMap, HashMap};

impl Parts {
    /// Whether a part is made of facts about Y alone.
    fn is_of_y(&self, id: Id) -> bool {
        match &self.parts[id] {
            Part::Bit(one, _) | Part::External(one) => *one == Variable::Y,
            Part::Not(inside) => self.is_of_y(*inside),
            Part::Chain(_, ids) => ids.iter().all(|id| self.is_of_y(*id)),
            _ => false,
        }
    }

    /// A part made of facts about Y alone, with X for Y.
    fn of_x(&mut self, id: Id) -> Id {
        match self.parts[id].clone() {
            Part::Bit(_, bit) => self.id(Part::Bit(Variable::X, bit)),
            Part::External(_) => self.id(Part::External(Variable::X)),
            Part::Not(inside) => {
                let inside = self.of_x(inside);
                self.not(inside)
            }
            Part::Chain(sign, ids) => {
                let ids: Vec<Id> = ids.into_iter().map(|id| self.of_x(id)).collect();
                self.chain(sign, ids)
            }
            _ => unreachable!("no fact about Y"),
        }
    }

    /// A chain in which what is said of Y alone is one part, and that one said of X.
    pub(super) fn renamed_chain(&mut self, sign: Sign, ids: Vec<Id>) -> Id {
        let (of_y, mut others): (Vec<Id>, Vec<Id>) =
            ids.into_iter().partition(|id| self.is_of_y(*id));
        if of_y.len() + others.len().min(1) > 2 {
            let chain = self.chain(sign, of_y);
            let of_x = self.of_x(chain);
            others.push(self.closure(of_x, Variable::Y, Variable::Y));
        } else {
            others.extend(of_y);
        }
        self.chain(sign, others)
    }

    /// The part with each of its chains, from the innermost on, put together anew.
    pub(super) fn rewritten(
        &mut self,
        id: Id,
        anew: fn(&mut Parts, Sign, Vec<Id>) -> Id,
        known: &mut HashMap<Id, Id>,
    ) -> Id {
        if let Some(rewritten) = known.get(&id) {
            return *rewritten;
        }
        let rewritten = match self.parts[id].clone() {
            Part::Not(inside) => {
                let inside = self.rewritten(inside, anew, known);
                self.not(inside)
            }
            Part::Chain(sign, ids) => {
                let ids = ids.into_iter().map(|id| self.rewritten(id, anew, known)).collect();
                anew(self, sign, ids)
            }
            Part::Some(inside, bound) => {
                let inside = self.rewritten(inside, anew, known);
                self.some(inside, bound)
            }
            Part::All(inside, bound) => {
                let inside = self.rewritten(inside, anew, known);
                self.all(inside, bound)
            }
            Part::Closure(inside, from, to) => {
                let inside = self.rewritten(inside, anew, known);
                self.closure(inside, from, to)
            }
            _ => id,
        };
        known.insert(id, rewritten);
        rewritten
    }

    /// The chain of some parts, as long as two of them have something in common with that put before.
    pub(super) fn common_first(&mut self, sign: Sign, ids: Vec<Id>) -> Id {
        let whole = self.chain(sign, ids);
        let ids = self.elements(whole, sign);
        let mut counts: BTreeMap<Id, usize> = BTreeMap::new();
        for id in &ids {
            for element in self.elements(*id, sign.other()) {
                *counts.entry(element).or_default() += 1;
            }
        }
        let most = counts.into_iter().max_by_key(|(id, count)| (*count, usize::MAX - id));
        let Some((common, 2..)) = most else { return whole };
        let mut with = vec![];
        let mut without = vec![];
        for id in ids {
            let mut elements = self.elements(id, sign.other());
            let count = elements.len();
            elements.retain(|element| *element != common);
            match elements.len() < count {
                true => with.push(self.chain(sign.other(), elements)),
                false => without.push(id),
            }
        }
        let with = self.common_first(sign, with);
        let factor = self.chain(sign.other(), [common, with]);
        without.push(factor);
        self.common_first(sign, without)
    }

    /// Parts of which one is true if and only if this one is.
    pub(super) fn alternatives(&mut self, id: Id) -> Vec<Id> {
        let elements = self.elements(id, Sign::Or);
        if elements.len() > 1 {
            return elements.into_iter().flat_map(|id| self.alternatives(id)).collect();
        }
        if let Part::Some(inside, bound) = self.parts[id] {
            let inside = self.alternatives(inside);
            return inside.into_iter().map(|id| self.some(id, bound)).collect();
        }
        let both = self.elements(id, Sign::And);
        if both.len() == 1 {
            return vec![id];
        }
        for (place, one) in both.iter().enumerate() {
            let choices = self.alternatives(*one);
            if choices.len() > 1 {
                let with = |parts: &mut Parts, choice: Id| {
                    let rest = both.iter().enumerate().filter(|(other, _)| *other != place);
                    let rest: Vec<Id> = rest.map(|(_, id)| *id).chain([choice]).collect();
                    parts.chain(Sign::And, rest)
                };
                return choices.into_iter().map(|choice| with(self, choice)).collect();
            }
        }
        vec![id]
    }
}
