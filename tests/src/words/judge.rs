//! The verdict on a network: every node of a policy as a plane.

use super::network::Network;
use super::planes::{close, collect, exchange, first, has_bit, none, whole, with_bit, zip, Row};
use super::steps;
use crate::records::Record;
use crate::second::judge::Breach;

/// The variable X; Y is 1.
const X: u8 = 0;

/// The lowest broken policy and the lowest state breaking it.
pub fn judge(network: &Network) -> Option<Breach> {
    match network.widths.bits() {
        ..=6 => judge_by::<1>(network),
        7 => judge_by::<2>(network),
        8 => judge_by::<4>(network),
        9 => judge_by::<8>(network),
        _ => judge_by::<16>(network),
    }
}

/// The same by rows of so many words.
fn judge_by<const W: usize>(network: &Network) -> Option<Breach> {
    let states = network.widths.states();
    let mut rows: Vec<Row<W>> = vec![none(); (1 + network.most_nodes()) * states];
    let (steps, planes) = rows.split_at_mut(states);
    steps::fill(network, steps);
    let known = Known { steps, external: steps::external(network) };
    network.policies().enumerate().find_map(|(policy, nodes)| {
        let state = known.lowest_breaking(nodes, planes)?;
        Some(Breach { policy, state })
    })
}

/// What the nodes of all policies are worked out from.
struct Known<'a, const W: usize> {
    steps: &'a [Row<W>],
    external: Row<W>,
}

impl<const W: usize> Known<'_, W> {
    /// The lowest state that makes the last of some nodes true as X; the planes are overwritten.
    fn lowest_breaking(&self, nodes: &[Record], planes: &mut [Row<W>]) -> Option<usize> {
        let states = self.steps.len();
        for (place, node) in nodes.iter().enumerate() {
            let (earlier, rest) = planes.split_at_mut(place * states);
            self.work_out(node, earlier, &mut rest[..states]);
        }
        let last = &planes[(nodes.len() - 1) * states..][..states];
        last.iter().position(|row| *row != none())
    }

    /// Fills the plane of a node from those of earlier ones.
    fn work_out(&self, node: &Record, earlier: &[Row<W>], plane: &mut [Row<W>]) {
        let states = self.steps.len();
        let operand = |number: u8| &earlier[usize::from(number) * states..][..states];
        let all = first(states);
        let [_, _, kind, one, other, ..] = *node;
        match kind {
            0 => spread(&with_bit(other, states), one, plane),
            1 => {
                plane.copy_from_slice(self.steps);
                take_of([one, other], plane);
            }
            2 => spread(&self.external, one, plane),
            3 => map(plane, operand(one), |its| zip(its, &all, |bits, all| !bits & all)),
            4 => map2(plane, operand(one), operand(other), |a, b| a & b),
            5 => map2(plane, operand(one), operand(other), |a, b| a | b),
            6 if other == X => plane.fill(fold(operand(one), none(), |a, b| a | b)),
            6 => map(plane, operand(one), |its| whole(*its != none(), states)),
            7 if other == X => plane.fill(fold(operand(one), all, |a, b| a & b)),
            7 => map(plane, operand(one), |its| whole(*its == all, states)),
            _ => {
                plane.copy_from_slice(operand(one));
                close(plane);
                take_of([other / 2, other % 2], plane);
            }
        }
    }
}

/// Fills a plane with what is true of the states of a row as one variable.
fn spread<const W: usize>(row: &Row<W>, variable: u8, plane: &mut [Row<W>]) {
    let states = plane.len();
    match variable {
        X => {
            for (state, its) in plane.iter_mut().enumerate() {
                *its = whole(has_bit(row, state), states);
            }
        }
        _ => plane.fill(*row),
    }
}

/// Makes of a relation of X to Y that of the first of two variables to the second.
fn take_of<const W: usize>(pair: [u8; 2], plane: &mut [Row<W>]) {
    match pair {
        [0, 1] => {}
        [1, 0] => exchange(plane),
        [variable, _] => {
            let related = collect(plane.len(), |state| has_bit(&plane[state], state));
            spread(&related, variable, plane);
        }
    }
}

/// Fills a plane row by row from another one.
fn map<const W: usize>(plane: &mut [Row<W>], operand: &[Row<W>], by: impl Fn(&Row<W>) -> Row<W>) {
    for (row, its) in plane.iter_mut().zip(operand) {
        *row = by(its);
    }
}

/// Fills a plane word by word from two others.
fn map2<const W: usize>(
    plane: &mut [Row<W>],
    one: &[Row<W>],
    other: &[Row<W>],
    by: impl Fn(u64, u64) -> u64,
) {
    for ((row, one), other) in plane.iter_mut().zip(one).zip(other) {
        *row = zip(one, other, &by);
    }
}

/// All rows of a plane joined word by word.
fn fold<const W: usize>(plane: &[Row<W>], start: Row<W>, by: impl Fn(u64, u64) -> u64) -> Row<W> {
    plane.iter().fold(start, |row, its| zip(&row, its, &by))
}
