//! The program: network records, then commands, from whole input to whole output.

use super::Second;
use crate::gate::{Answer, Call, Gate, Lent, MOST_RECORDS, RECORD, STORE};

const WORK: usize = 65_536;
const END_SHORT: &str = "end short\n";

/// What the program prints for an input.
pub fn program(input: &[u8]) -> Vec<u8> {
    let (network, commands) = split(input);
    let whole = network.len() / RECORD;
    let cut = network.len() % RECORD != 0;
    let text = if whole > MOST_RECORDS {
        format!("start {}\n", Answer::Refused { number: 1, place: 0 })
    } else if cut {
        END_SHORT.to_string()
    } else {
        run(network, commands)
    };
    text.into_bytes()
}

/// The input before and from the first record of kind 6 to 8, whole or cut.
fn split(input: &[u8]) -> (&[u8], &[u8]) {
    let mut records = input.chunks(RECORD);
    let first = records.position(|record| (6..=8).contains(&record[0]));
    let end = first.map_or(input.len(), |first| first * RECORD);
    input.split_at(end)
}

/// The lines for at most 657 whole network records and the commands behind them.
fn run(network: &[u8], commands: &[u8]) -> String {
    let mut store = network.to_vec();
    store.resize(STORE, 0);
    let n = network.len() / RECORD;
    let mut lent = Lent { store, n, work: vec![0; WORK], ..Lent::default() };
    let start = Second.answer(&Call::Check, &mut lent);
    let mut text = format!("start {start}\n");
    if start != Answer::Holds {
        return text;
    }
    for (number, given) in (1..).zip(commands.chunks(RECORD)) {
        if given.len() < RECORD {
            text += END_SHORT;
        } else {
            let answer = Second.answer(&Call::Command(given.to_vec()), &mut lent);
            lent.go_on(answer);
            text += &format!("{number} {answer}\n");
        }
    }
    text
}
