//! The way of a broken policy is that of the policy as written, also where its nodes are a shorter
//! form of it or a part.

mod running;
mod seeded;

use running::wegbaro;
use seeded::seeded;
use wegbaro_tests::random::Random;

/// Eight switches in a chain, on which every frame goes up and, at the last switch, out at port 1.
fn ward(policy: &str) -> String {
    let links: String = (0..7).map(|it| format!("link {it}:2 - {}:4\n", it + 1)).collect();
    let misses: String = (0..7).map(|it| format!("miss {it}: output 2\n")).collect();
    format!("widths H 1 P 3 W 3\n{links}{misses}miss 7: output 1\npolicy 0: {policy}\n")
}

/// The numbers behind a word: those of a list, or one.
fn numbers(text: &str, word: &str) -> Vec<usize> {
    let start = text.find(word).unwrap_or_else(|| panic!("no {word} in {text}")) + word.len();
    let end = if word.ends_with('[') { ']' } else { ',' };
    let list = text[start..].split(end).next().unwrap();
    list.split(',').map(|number| number.parse().unwrap()).collect()
}

/// Whether a policy is broken; if it is, its answers have Y and the way there from X.
fn has_way(policy: &str) -> bool {
    let text = ward(policy);
    let ran = wegbaro(&["check", "-"], text.as_bytes());
    if ran.status == Some(0) {
        return false;
    }
    assert_eq!(ran.status, Some(1), "{policy}: {}", ran.said);
    assert!(ran.text().contains("\n    with Y = state "), "{policy}: {}", ran.text());
    assert!(ran.text().contains(", by this way:\n    - switch "), "{policy}: {}", ran.text());
    let ran = wegbaro(&["check", "--json", "-"], text.as_bytes());
    let route = numbers(ran.text(), "\"route\":[");
    let [x, y] = ["\"state\":{\"number\":", "\"y\":{\"number\":"].map(|it| numbers(ran.text(), it));
    assert_eq!((route.first(), route.last()), (x.first(), y.first()), "{policy}: {}", ran.text());
    true
}

#[test]
fn ways_of_shortened_policies() {
    for policy in [
        "what enters at 0:1, 2:1, 4:3 never reaches 7:1",
        "0:1 and 7:1, 3:3 never meet",
        "what enters at 0:1, 2:1, 4:3, 5:5 leaves at 7:1, 6:3 only by way of switch 3",
        "what enters at 0:1, 6:3 never reaches 7:1, 3:6, 4:5, 2:3",
        "external(X) & exists Y. reaches(X,Y) & at(X, 0:1, 3:5) & at(Y, 7:1, 6:5, 5:3)",
    ] {
        assert!(has_way(policy), "{policy}");
    }
}

#[test]
fn random_policies_over_several_points() {
    let mut random = seeded(3);
    let mut broken = 0;
    for _ in 0..60 {
        let points = |random: &mut Random, switches: [usize; 2]| {
            let [first, last] = switches;
            let point = |random: &mut Random| {
                let switch = first + random.below(last - first);
                format!("{switch}:{}", [1, 3, 5, 6][random.below(4)])
            };
            let count = 1 + random.below(2);
            (0..count).map(|_| point(random)).collect::<Vec<_>>().join(", ")
        };
        let [low, high] = [[0, 5], [5, 8]].map(|range| points(&mut random, range));
        let policy = match random.below(3) {
            0 => format!("what enters at {low} never reaches {high}"),
            1 => format!("{high} and 0:1 never meet"),
            _ => format!("what enters at {low} leaves at 7:1 only by way of switch 0"),
        };
        broken += usize::from(has_way(&policy));
    }
    assert!(broken >= 8, "{broken}");
}
