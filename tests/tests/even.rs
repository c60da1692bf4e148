//! Policies over switches that choose one of the rules of equal priority: what an even policy forbids
//! under such a choice, it forbids over the steps of all of them.

use wegbaro_tests::cases::equals::{all_sent, either};
use wegbaro_tests::compare;
use wegbaro_tests::even::{is_even, most_nots};
use wegbaro_tests::formulas::{
    all, and, bit, external, not, or, policy, r, random_layers, some, tc, Node, X, Y,
};
use wegbaro_tests::k::k;
use wegbaro_tests::networks::{random_network, Sizes, Widths, MODEST};
use wegbaro_tests::random::Random;
use wegbaro_tests::records::{miss, widths, Record, IN_PORT};
use wegbaro_tests::second::file;
use wegbaro_tests::second::judge::{forbidden, judge_by};
use wegbaro_tests::second::network::{self, Network, Policy};
use wegbaro_tests::second::states::StateSet;
use wegbaro_tests::second::steps::{acting, all_steps, steps_by};

/// The first policy of some records.
fn first_policy(records: &[Record]) -> Policy {
    file::read(records).unwrap().policies.remove(0)
}

/// Policies of which node 0 is R X Y and node 1 SOME 0 Y, and that of K.
#[test]
fn even_by_hand() {
    let on_step = |nodes: &[Node]| {
        let network = vec![widths(1, 2, 0), miss(0, &[IN_PORT])];
        let nodes = [&[r(X, Y), some(0, Y)], nodes].concat();
        is_even(&first_policy(&[network, policy(0, &nodes)].concat()))
    };
    assert!(on_step(&[]));
    assert!(on_step(&[not(1), not(2)]));
    assert!(on_step(&[not(1), all(2, X), not(3), tc(4, X, X)]));
    assert!(on_step(&[not(1), not(2), and(1, 3)]));
    // No way to an R passes these NOTs.
    assert!(on_step(&[bit(X, 0), not(2), external(X), not(4), or(3, 5), and(1, 6)]));
    assert!(on_step(&[not(1), bit(X, 1), not(3)]));
    assert!(is_even(&first_policy(&k())));
    assert!(!on_step(&[not(1)]));
    assert!(!on_step(&[not(1), not(2), not(3)]));
    assert!(!on_step(&[not(1), and(1, 2)]));
    assert!(!on_step(&[not(1), or(2, 1)]));
    assert!(!on_step(&[tc(0, X, X), not(2), some(3, X)]));
    assert!(!on_step(&[not(0), all(2, Y)]));
}

/// The steps if each arriving state takes those of just one of the records that act on it.
fn steps_by_choice(network: &Network, mut choose: impl FnMut(usize) -> usize) -> Vec<StateSet> {
    steps_by(network, |point, header| {
        let acting = acting(network, point, header);
        vec![acting[choose(acting.len())]]
    })
}

/// Over the steps of both rules all is sent, and so it is if switches choose the second; but not if
/// they choose the first. There is one NOT over the policy's R.
#[test]
fn one_not_over_a_step_holds_over_the_combined_steps_only() {
    let network = file::read(&all_sent(&either())).unwrap();
    let broken = |steps: &[StateSet]| judge_by(&network, steps).map(|breach| breach.state);
    assert!(!is_even(&network.policies[0]));
    assert_eq!(broken(&all_steps(&network)), None);
    assert_eq!(broken(&steps_by_choice(&network, |records| records - 1)), None);
    assert_eq!(broken(&steps_by_choice(&network, |_| 0)), Some(2));
}

/// A random network with eight random policies about steps.
fn with_policies(random: &mut Random, of: Widths) -> Network {
    let mut records = random_network(random, of, Sizes { policies: 0, ..MODEST });
    let behind = records.iter().rposition(|record| record[0] <= 4).unwrap() + 1;
    for number in (0..8).rev() {
        let nodes = random_layers(random, of.bits());
        records.splice(behind..behind, policy(number, &nodes));
    }
    file::read(&records).unwrap()
}

/// The steps of eight choices: the first record for every state, the last, and any for each.
fn choices(random: &mut Random, network: &Network) -> Vec<Vec<StateSet>> {
    let first = steps_by_choice(network, |_| 0);
    let last = steps_by_choice(network, |records| records - 1);
    let any = (0..6).map(|_| steps_by_choice(network, |records| random.below(records)));
    [first, last].into_iter().chain(any).collect()
}

/// How many policies were such.
#[derive(Debug, Default)]
struct Judged {
    /// Even, with an R, and found to hold.
    holding: usize,
    /// Even, and true somewhere under a choice.
    forbidding: usize,
    /// Even, and under a choice less is forbidden; among these with an R under two NOTs, and with each
    /// of these nodes.
    less: usize,
    under_two_nots: usize,
    some: usize,
    all: usize,
    closure: usize,
    /// Not even, and under a choice something else is forbidden.
    more: usize,
}

impl Judged {
    /// Fails if a policy is even and something else is forbidden under a choice.
    fn judge(&mut self, network: &Network, policy: &Policy, choices: &[Vec<StateSet>]) {
        let combined = forbidden(network, &all_steps(network), policy);
        let by_choice: Vec<StateSet> =
            choices.iter().map(|steps| forbidden(network, steps, policy)).collect();
        let is_more = by_choice.iter().any(|set| !set.without(&combined).is_empty());
        let is_less = by_choice.iter().any(|set| !combined.without(set).is_empty());
        if !is_even(policy) {
            self.more += usize::from(is_more);
            return;
        }
        assert!(!is_more, "{policy:?} {network:?}");
        let none = StateSet::empty();
        self.holding += usize::from(combined == none && most_nots(policy).is_some());
        self.forbidding += usize::from(by_choice.iter().any(|set| *set != none));
        if is_less {
            self.count_less(policy);
        }
    }

    fn count_less(&mut self, policy: &Policy) {
        let has =
            |is_such: fn(&network::Node) -> bool| usize::from(policy.nodes.iter().any(is_such));
        self.less += 1;
        self.under_two_nots += usize::from(most_nots(policy) >= Some(2));
        self.some += has(|node| matches!(node, network::Node::Some(..)));
        self.all += has(|node| matches!(node, network::Node::All(..)));
        self.closure += has(|node| matches!(node, network::Node::Closure(..)));
    }
}

/// So what holds also holds under each choice. Of other policies some forbid more under a choice.
#[test]
fn even_policies_forbid_no_more_under_a_choice() {
    let mut random = Random::new(62);
    let mut judged = Judged::default();
    for of in compare::widths_up_to(6).into_iter().cycle().take(500) {
        let network = with_policies(&mut random, of);
        let choices = choices(&mut random, &network);
        if choices.iter().any(|steps| *steps != all_steps(&network)) {
            for policy in &network.policies {
                judged.judge(&network, policy, &choices);
            }
        }
    }
    assert!(judged.holding > 200 && judged.forbidding > 200, "{judged:?}");
    assert!(judged.less > 60 && judged.under_two_nots > 30, "{judged:?}");
    assert!(judged.some > 40 && judged.all > 15 && judged.closure > 15, "{judged:?}");
    assert!(judged.more > 60, "{judged:?}");
}
