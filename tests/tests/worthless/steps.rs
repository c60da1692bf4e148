//! Gates whose steps are wrong in one way each: frames go back where they must not, or not where
//! they must, or patterns are misread.

use wegbaro_tests::gate::{Answer, Call, Gate, Lent};
use wegbaro_tests::second::answer_by;
use wegbaro_tests::second::network::{Action, Match, Network, Pattern, Rule};
use wegbaro_tests::second::states::{Point, Widths};
use wegbaro_tests::second::steps::{all_steps, matches};

#[derive(Clone, Copy, Debug, PartialEq, Eq)]
pub enum StepVice {
    Bounces,
    BouncesWithoutStars,
    BouncesByStars,
    BouncesAtTheController,
    ReturnsNothing,
    ReturnsNothingToTheController,
    ReturnsOnlyAtTheEnd,
    ReturnsAndStops,
    ReturnsTheFirstHeader,
    ReturnsTheLastHeader,
    MatchesStarsAsZeros,
    PassesOverTheHighestBit,
    SetsStarsToZero,
}

pub const STEP_VICES: [StepVice; 13] = [
    StepVice::Bounces,
    StepVice::BouncesWithoutStars,
    StepVice::BouncesByStars,
    StepVice::BouncesAtTheController,
    StepVice::ReturnsNothing,
    StepVice::ReturnsNothingToTheController,
    StepVice::ReturnsOnlyAtTheEnd,
    StepVice::ReturnsAndStops,
    StepVice::ReturnsTheFirstHeader,
    StepVice::ReturnsTheLastHeader,
    StepVice::MatchesStarsAsZeros,
    StepVice::PassesOverTheHighestBit,
    StepVice::SetsStarsToZero,
];

/// A gate with a vice, if any, in the steps by which it answers, else as the second implementation.
pub struct Misled(pub Option<StepVice>);

impl Gate for Misled {
    fn answer(&self, call: &Call, lent: &mut Lent) -> Answer {
        answer_by(&|network| all_steps(&self.read_network(network)), call, lent)
    }
}

impl Misled {
    /// The network with patterns as they are read, and with a rule for each port in place of every
    /// rule, so that what is done can depend on the port of arrival. What no rule matches has a rule
    /// of its own in place of the miss record.
    fn read_network(&self, network: &Network) -> Network {
        let mut network = network.clone();
        let widths = network.widths;
        network.rules = network.rules.iter().map(|rule| self.read_rule(rule, widths)).collect();
        network.rules.extend(missed(&network));
        network.rules = network.rules.iter().flat_map(|rule| self.by_port(rule, widths)).collect();
        network
    }

    /// A rule with its match as it is read.
    fn read_rule(&self, rule: &Rule, widths: Widths) -> Rule {
        let port = self.read(rule.matching.port, widths.port);
        let header = self.read(rule.matching.header, widths.header);
        Rule { matching: Match { port, header, ..rule.matching }, actions: rule.actions.clone() }
    }

    /// An action with its pattern as it is read.
    fn read_action(&self, action: Action, widths: Widths) -> Action {
        match action {
            Action::Output(ports) => Action::Output(self.read(ports, widths.port)),
            Action::Set(bits) if self.0 == Some(StepVice::SetsStarsToZero) => {
                Action::Set(without_stars(bits, widths.header))
            }
            _ => action,
        }
    }

    /// A pattern as it is read to be matched.
    fn read(&self, pattern: Pattern, width: u8) -> Pattern {
        match self.0 {
            Some(StepVice::MatchesStarsAsZeros) => without_stars(pattern, width),
            Some(StepVice::PassesOverTheHighestBit) => {
                let lower = (1 << (width - 1)) - 1;
                Pattern { value: pattern.value & lower, care: pattern.care & lower }
            }
            _ => pattern,
        }
    }

    /// A rule as one for each port that it matches.
    fn by_port(&self, rule: &Rule, widths: Widths) -> Vec<Rule> {
        let ports = (0..widths.ports()).filter(|port| rule.matching.port.matches(*port));
        let read = |action: &Action| self.read_action(*action, widths);
        let actions: Vec<Action> = rule.actions.iter().map(read).collect();
        let at = |arrival: u8| {
            let port = Pattern { value: arrival, care: widths.controller() };
            Rule {
                matching: Match { port, ..rule.matching },
                actions: self.done(&actions, arrival, widths),
            }
        };
        ports.map(at).collect()
    }

    /// What is done in place of the actions for a frame that arrives at a port.
    fn done(&self, actions: &[Action], arrival: u8, widths: Widths) -> Vec<Action> {
        let is_return = |action: &Action| *action == Action::InPort;
        let (returns, others): (Vec<Action>, Vec<Action>) =
            actions.iter().partition(|action| is_return(action));
        let at_controller = arrival == widths.controller();
        match self.0 {
            Some(StepVice::ReturnsNothing) => others,
            Some(StepVice::ReturnsNothingToTheController) if at_controller => others,
            Some(StepVice::ReturnsOnlyAtTheEnd) => match actions.last() {
                Some(Action::InPort) => [others, vec![Action::InPort]].concat(),
                _ => others,
            },
            Some(StepVice::ReturnsAndStops) => {
                let first = actions.iter().position(is_return);
                actions[..first.map_or(actions.len(), |first| first + 1)].to_vec()
            }
            Some(StepVice::ReturnsTheFirstHeader) => [returns, others].concat(),
            Some(StepVice::ReturnsTheLastHeader) => [others, returns].concat(),
            _ => {
                let bounces = |action: &Action| self.bounces(*action, arrival, widths);
                let with_return = |action: &Action| match bounces(action) {
                    true => vec![*action, Action::InPort],
                    false => vec![*action],
                };
                actions.iter().flat_map(with_return).collect()
            }
        }
    }

    /// Whether an action is an OUTPUT that names the arrival port and sends there.
    fn bounces(&self, action: Action, arrival: u8, widths: Widths) -> bool {
        let Action::Output(ports) = action else {
            return false;
        };
        let starred = ports.has_stars(widths.port);
        let named = ports.matches(arrival) && (!starred || widths.is_ordinary(arrival));
        named
            && match self.0 {
                Some(StepVice::Bounces) => true,
                Some(StepVice::BouncesWithoutStars) => !starred,
                Some(StepVice::BouncesByStars) => starred,
                Some(StepVice::BouncesAtTheController) => arrival == widths.controller(),
                _ => false,
            }
    }
}

/// For each port and header at which no rule of a switch matches, one with the actions of its miss.
fn missed(network: &Network) -> Vec<Rule> {
    let Widths { port, header, .. } = network.widths;
    let fixed = |value: u8, width: u8| Pattern { value, care: (1 << width) - 1 };
    let mut missed = vec![];
    for (switch, actions) in (0..).zip(&network.misses) {
        for at in 0..network.widths.ports() {
            for with in 0..1 << header {
                let point = Point { switch, port: at };
                let (port, header) = (fixed(at, port), fixed(with, header));
                if !network.rules.iter().any(|rule| matches(rule, point, with)) {
                    let matching = Match { switch, priority: 0, port, header };
                    missed.push(Rule { matching, actions: actions.clone() });
                }
            }
        }
    }
    missed
}

/// A pattern with its stars fixed to 0.
fn without_stars(pattern: Pattern, width: u8) -> Pattern {
    Pattern { care: (1 << width) - 1, ..pattern }
}
