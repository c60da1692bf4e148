//! Sentences that no rules can break are noted, and no others.
//!
//! All sentences but `reaches` are even: what breaks them in some network does so in one with more
//! steps. So they can be broken if and only if they are in the network of all steps that rules can
//! make, which rules of equal priority are together. `reaches` can be broken if it is in the network
//! whose rules send nothing.

mod common;
mod seeded;

use common::parsed;
use seeded::seeded;
use wegbaro::{Checked, Gate};
use wegbaro_tests::random::Random;
use wegbaro_tools::parse::parse;
use wegbaro_tools::print::whole_records;

/// A ward with one bit of header and its links.
struct Ward {
    p: u32,
    w: u32,
    links: String,
}

impl Ward {
    fn random(random: &mut Random) -> Ward {
        let [p, w] = [[2, 0], [2, 1], [2, 2], [2, 2], [3, 1], [3, 2]][random.below(6)];
        let mut ends: Vec<String> = vec![];
        for switch in 0..1 << w {
            ends.extend((1..(1 << p) - 1).map(|port| format!("{switch}:{port}")));
        }
        let mut links = String::new();
        for _ in 0..random.below(1 + ends.len() / 2) {
            let one = ends.swap_remove(random.below(ends.len()));
            let other = ends.swap_remove(random.below(ends.len()));
            links += &format!("link {one} - {other}\n");
        }
        Ward { p, w, links }
    }

    /// Its text up to the policies, with the rules of each switch.
    fn text(&self, rules: impl Fn(u32) -> String) -> String {
        let Ward { p, w, links } = self;
        let each = |part: &dyn Fn(u32) -> String| (0..1 << w).map(part).collect::<String>();
        let misses = each(&|switch| format!("miss {switch}: output drop\n"));
        format!("widths H 1 P {p} W {w}\n{links}{misses}{}", each(&rules))
    }

    /// Each frame that arrives at an ordinary port is sent to every port with every header.
    fn all_steps(&self) -> String {
        let all = format!("output {}, in_port, output drop", "*".repeat(self.p as usize));
        self.text(|switch| {
            let rule = |rest: String| format!("rule {switch} priority 1 {rest}\n");
            let mut rules = rule(": set 1, output controller".to_string());
            for header in 0..2 {
                rules += &rule(format!("header {header}: set 0, output controller"));
            }
            for port in 1..(1 << self.p) - 1 {
                rules += &rule(format!("port {port}: set 0, {all}"));
                for header in 0..2 {
                    rules += &rule(format!("port {port} header {header}: set 1, {all}"));
                }
            }
            rules
        })
    }

    /// No frame is sent anywhere.
    fn no_steps(&self) -> String {
        let rule = |switch, port| format!("rule {switch} priority 1 port {port}: output {port}\n");
        self.text(|switch| (1..1 << self.p).map(|port| rule(switch, port)).collect())
    }

    fn area(&self, random: &mut Random) -> String {
        let switch = random.below(1 << self.w);
        match (random.below(3), random.below(1 << self.p)) {
            (0, _) => format!("switch {switch}"),
            (_, 0) => format!("{switch}:drop"),
            (_, port) if port + 1 == 1 << self.p => format!("{switch}:controller"),
            (_, port) => format!("{switch}:{port}"),
        }
    }

    fn areas(&self, random: &mut Random) -> Vec<String> {
        (0..1 + random.below(3)).map(|_| self.area(random)).collect()
    }
}

/// Every sentence, with `A` and `B` for areas and `V` for a switch.
const SENTENCES: [&str; 19] = [
    "no loops",
    "no loop over states",
    "no frame comes back to a switch it left",
    "no route of more than 1 hop",
    "no route of more than 3 hops",
    "header 1 never leaves",
    "header 0 never leaves at A",
    "what enters reaches A",
    "what enters at A reaches B",
    "what enters never reaches A",
    "what enters at A with header 1 never reaches B",
    "what enters leaves only at A",
    "what enters at A leaves only at B",
    "what enters leaves only by way of V",
    "what enters at A leaves only by way of V",
    "what enters at A leaves at B only by way of V",
    "nothing is dropped",
    "nothing from A is dropped",
    "A and B never meet",
];

/// The notes on a policy, unless it is a fault.
fn notes(ward: &str, policy: &str) -> Option<Vec<String>> {
    Some(parse(&format!("{ward}policy 0: {policy}\n")).ok()?.notes)
}

/// Whether the library says that a policy is broken.
fn is_broken(ward: &str, policy: &str) -> bool {
    let text = parsed(&format!("{ward}policy 0: {policy}\n"));
    let (records, _) = whole_records(&text.bytes);
    Gate::new(&records).unwrap().check() != Checked::Holds
}

/// A sentence with its areas and its switch.
#[derive(Clone)]
struct Case {
    sentence: &'static str,
    lists: [Vec<String>; 2],
    switch: usize,
}

impl Case {
    fn text(&self) -> String {
        let words = self.sentence.split(' ').map(|word| match word {
            "A" => self.lists[0].join(", "),
            "B" => self.lists[1].join(", "),
            "V" => format!("switch {}", self.switch),
            _ => word.to_string(),
        });
        words.collect::<Vec<String>>().join(" ")
    }

    /// The same with one area alone in a list, for each that limits what is forbidden: more areas at
    /// which frames may leave forbid less.
    fn with_one_area(&self) -> Vec<(String, Case)> {
        let mut cases = vec![];
        for (place, word) in ["A", "B"].into_iter().enumerate() {
            let is_there = self.sentence.split(' ').any(|it| it == word);
            let allows = self.sentence.ends_with(&format!("only at {word}"));
            for area in self.lists[place].iter().filter(|_| is_there && !allows) {
                let mut case = self.clone();
                case.lists[place] = vec![area.clone()];
                cases.push((area.clone(), case));
            }
        }
        cases
    }
}

/// Holds the notes on a sentence against the library; whether no rules break it.
fn judged(ward: &Ward, case: &Case) -> Option<bool> {
    let is_even = !case.sentence.contains(" reaches") || case.sentence.contains("never");
    let most = if is_even { ward.all_steps() } else { ward.no_steps() };
    let whole = case.text();
    let said = notes(&most, &whole)?;
    let is_idle =
        said.iter().any(|note| note.contains("can never be broken, whatever the rules are"));
    assert_eq!(is_idle, !is_broken(&most, &whole), "{whole} in\n{most}");
    for (area, alone) in case.with_one_area().into_iter().filter(|_| !is_idle) {
        let named = said.iter().any(|note| note.contains(&format!("of {area}, whatever")));
        assert_eq!(named, !is_broken(&most, &alone.text()), "{area}: {whole} in\n{most}");
    }
    Some(is_idle)
}

#[test]
fn what_no_rules_can_break_is_noted() {
    // Frames that enter or leave at an area that is named break these by themselves.
    let never_idle =
        ["header 0 never leaves at A", "what enters at A reaches B", "nothing from A is dropped"];
    let mut random = seeded(36);
    for sentence in SENTENCES {
        let mut counts = [0; 2];
        for _ in 0..400 {
            let ward = Ward::random(&mut random);
            let lists = [ward.areas(&mut random), ward.areas(&mut random)];
            let case = Case { sentence, lists, switch: random.below(1 << ward.w) };
            if let Some(is_idle) = judged(&ward, &case) {
                counts[usize::from(is_idle)] += 1;
            }
        }
        assert!(counts[0] >= 4, "{counts:?}: {sentence}");
        assert_eq!(counts[1] >= 4, !never_idle.contains(&sentence), "{counts:?}: {sentence}");
    }
}

/// A frame of which a copy is sent is at its switch, so that only one of which none is sent is not.
#[test]
fn what_is_there_already() {
    let ward = Ward { p: 2, w: 1, links: "link 0:2 - 1:2\n".to_string() };
    let says = |policy: &str, words: &str| {
        let said = notes(&ward.all_steps(), policy).unwrap();
        assert!(!is_broken(&ward.all_steps(), policy) && is_broken(&ward.no_steps(), policy));
        assert_eq!(said.len(), usize::from(!words.is_empty()), "{policy}: {said:?}");
        assert!(said.iter().all(|note| note.contains(words)), "{policy}: {said:?}");
    };
    let more = "than that a copy of it is sent: every copy is there at once";
    says("what enters at 0:1 reaches switch 0", &format!("no more of what enters {more}"));
    says(
        "what enters at 0:1, 1:1 reaches switch 0",
        &format!("no more of what enters at 0:1 {more}"),
    );
    says(
        "what enters at 0:1 reaches 0:drop, 0:controller, 0:1, 1:2",
        &format!("no more of what enters {more}"),
    );
    says("what enters at 0:1 reaches switch 1", "");
    says("what enters at 0:1 reaches 0:1", "");
}

/// Each note says why.
#[test]
fn why_nothing_is_said() {
    let ward = "widths H 1 P 2 W 2\nlink 0:2 - 1:1\nlink 1:2 - 2:1\n";
    let never = "line 4: policy 0 can never be broken, whatever the rules are:";
    for (ward, policy, note) in [
        (
            ward,
            "what enters at 0:1 leaves at 2:2 only by way of switch 2",
            format!("{never} every such way passes switch 2 in any case"),
        ),
        (
            ward,
            "what enters at 0:1 leaves at 2:2 only by way of switch 1",
            format!("{never} every such way passes switch 1 in any case"),
        ),
        (ward, "what enters at 0:1 never reaches 3:1", format!("{never} no links lead there")),
        (
            ward,
            "what enters at 0:1, 3:1 never reaches 2:2",
            "line 4: policy 0 says nothing of 3:1, whatever the rules are: no links lead there"
                .to_string(),
        ),
        (
            ward,
            "what enters at 3:1 leaves only at switch 3",
            format!("{never} links lead to no other place to leave"),
        ),
        (
            ward,
            "switch 3 and 0:1 never meet",
            format!("{never} no frame enters at the one and finds links to the other"),
        ),
        (
            "widths H 1 P 2 W 0\nlink 0:1 - 0:2\n\n",
            "nothing is dropped",
            format!("{never} every ordinary port has a link, so that no frame enters"),
        ),
        (
            "widths H 1 P 2 W 0\n\n\n",
            "no loops",
            format!("{never} there are no links, so that nothing goes round"),
        ),
        (
            "widths H 1 P 2 W 1\nlink 0:1 - 0:2\n\n",
            "no route of more than 1 hop",
            format!("{never} no switch at which a frame enters has a link"),
        ),
    ] {
        assert_eq!(notes(ward, policy), Some(vec![note]), "{policy}");
    }
}
