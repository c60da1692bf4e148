//! A gate that is shown every network with its rules in another order.

use crate::gate::{Answer, Call, Gate, Lent, MOST_RECORDS, RECORD};
use crate::random::Random;
use crate::second::file;
use std::cell::RefCell;

/// A gate that is shown the rules of every sound network in a random order. Its answers are those to
/// such a network; a call that alters the store leaves it as with the rules in their order.
pub struct Reordered<'a> {
    gate: &'a dyn Gate,
    random: RefCell<Random>,
}

impl Reordered<'_> {
    pub fn new(gate: &dyn Gate, seed: u64) -> Reordered<'_> {
        Reordered { gate, random: RefCell::new(Random::new(seed)) }
    }

    /// The store with the rules of its n records in a random order, unless a row refuses the records.
    fn reordered(&self, store: &[u8], n: usize) -> Vec<u8> {
        let mut store = store.to_vec();
        let (records, _) = store.as_chunks_mut::<RECORD>();
        if (1..=MOST_RECORDS.min(records.len())).contains(&n) && file::read(&records[..n]).is_ok() {
            let of_rules = |record: &[u8; RECORD]| record[0] == 4;
            let first = records[..n].iter().position(of_rules).unwrap_or(n);
            let count = records[first..n].iter().take_while(|record| of_rules(record)).count();
            self.random.borrow_mut().shuffle(&mut records[first..first + count]);
        }
        store
    }
}

impl Gate for Reordered<'_> {
    fn answer(&self, call: &Call, lent: &mut Lent) -> Answer {
        let shown = self.reordered(&lent.store, lent.n);
        let mut left = Lent { store: shown.clone(), ..lent.clone() };
        let answer = self.gate.answer(call, &mut left);
        if left.store != shown {
            self.gate.answer(call, lent);
        }
        *lent = Lent { store: std::mem::take(&mut lent.store), ..left };
        answer
    }
}
