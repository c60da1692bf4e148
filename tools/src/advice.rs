//! What to write in place of a policy that is neither a sentence nor a formula.

use crate::fault::{is_slip, Fault};

/// The sentences, with AREAS for switches, points and wards.
pub const SENTENCES: [&str; 13] = [
    "no loops",
    "no loop over states",
    "no frame comes back to a switch it left",
    "no route of more than 3 hops",
    "nothing is dropped",
    "nothing from AREAS is dropped",
    "header 1 never leaves",
    "header 1 never leaves at AREAS",
    "what enters at AREAS reaches AREAS",
    "what enters at AREAS never reaches AREAS",
    "what enters at AREAS leaves only at AREAS",
    "what enters at AREAS leaves at AREAS only by way of AREAS",
    "AREAS and AREAS never meet",
];

/// The most sentences that a hint lists.
const MOST_LISTED: usize = 3;

/// The fault of a policy with a hint that leads on: what stands at the fault, and the policy as
/// written. A formula has parentheses, and its faults have hints of their own.
pub fn advised(fault: Fault, found: Option<&str>, policy: &str) -> Fault {
    if policy.contains('(') || !fault.message.starts_with("expected") {
        return fault;
    }
    match found {
        Some(article @ ("the" | "The" | "a" | "an")) => {
            fault.hint(format!("leave `{article}` out: names stand without it"))
        }
        Some(".") => fault.hint("leave the full stop out"),
        _ if fault.hint.is_some() => fault,
        _ => fault.hint(listed(policy)),
    }
}

/// The sentences that have the most words in common with a policy.
fn listed(policy: &str) -> String {
    let written: Vec<&str> = policy.split(|c: char| !c.is_ascii_alphabetic()).collect();
    let most = SENTENCES.iter().map(|sentence| common(sentence, &written)).max().unwrap_or(0);
    if most == 0 {
        return format!("a policy is a sentence, as `{}`, or a formula", SENTENCES[0]);
    }
    let near = SENTENCES.iter().filter(|sentence| common(sentence, &written) == most);
    let near: Vec<String> = near.take(MOST_LISTED).map(|it| format!("`{it}`")).collect();
    match &near[..] {
        [sentence] => format!("the nearest sentence is {sentence}"),
        _ => format!("the nearest sentences are {}", near.join(", ")),
    }
}

/// How many words of a sentence are among those written, or nearly.
fn common(sentence: &str, written: &[&str]) -> usize {
    let is_written = |word: &&str| written.iter().any(|other| is_slip(other, word));
    sentence.split(' ').filter(|word| *word != "AREAS").filter(is_written).count()
}
