//! Calls at the same time, each with its own buffers, answer as they do one after the other.

use std::thread;
use wegbaro_tests::compare::routes::random_ends;
use wegbaro_tests::gate::{Answer, Call, Gate, Lent};
use wegbaro_tests::library::Library;
use wegbaro_tests::networks::{all_widths, guarded_network, random_new_rule, Widths};
use wegbaro_tests::random::Random;
use wegbaro_tests::records::{add, modify, Record};

const THREADS: u64 = 8;

/// The answers to calls one after the other, and the buffers that they leave.
type Answers = (Vec<Answer>, Lent);

fn answers(network: &[Record], calls: &[Call]) -> Answers {
    let mut lent = Lent::just(network);
    let answer = |call: &Call| {
        let answer = Library.answer(call, &mut lent);
        lent.go_on(answer);
        answer
    };
    (calls.iter().map(answer).collect(), lent)
}

/// A random network of each width that is judged quickly, and the answers to a check, to a few commands
/// and to a route on it.
fn all_answers(seed: u64) -> Vec<Answers> {
    let mut random = Random::new(seed);
    let quick = |widths: &Widths| widths.bits() <= 8;
    let judged = |widths: Widths| {
        let network = guarded_network(&mut random, widths);
        let mut absent = || random_new_rule(&mut random, widths, &network);
        let commands = [add(absent()), modify(absent()), add(absent())];
        let [start, end] = random_ends(&mut random, &network, 1)[0];
        let mut calls = vec![Call::Check];
        calls.extend(commands.map(|given| Call::Command(given.to_vec())));
        calls.push(Call::Route { start, end });
        answers(&network, &calls)
    };
    all_widths().into_iter().filter(quick).map(judged).collect()
}

#[test]
fn calls_at_the_same_time() {
    let running: Vec<_> =
        (0..THREADS).map(|seed| thread::spawn(move || all_answers(seed))).collect();
    let together: Vec<_> = running.into_iter().map(|thread| thread.join().unwrap()).collect();
    let alone: Vec<_> = (0..THREADS).map(all_answers).collect();
    assert!(together == alone);

    let answers: Vec<String> =
        alone.iter().flatten().flat_map(|(answers, _)| answers).map(|it| it.case()).collect();
    for case in ["holds", "forwarded", "blocked", "found", "no route"] {
        let count = answers.iter().filter(|met| *met == case).count();
        assert!(count > 10, "{case}: {count}");
    }
}
