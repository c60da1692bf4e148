//! Tests of the second implementation, of the generators and of the cases themselves.

mod plain;
mod worthless;

use std::collections::BTreeSet;
use wegbaro_tests::cases::patterns::{self, Pair, StepCase};
use wegbaro_tests::cases::{self, expect_all};
use wegbaro_tests::commands::{command, Wish, FAULTS, SOUND};
use wegbaro_tests::compare::{self, routes, ADDED_BY_MODIFY, FULL_TO_MODIFY};
use wegbaro_tests::damage::damage;
use wegbaro_tests::formulas::{and, bit, external, not, policy, r, some, tc, X, Y};
use wegbaro_tests::gate::{Answer, Call, Gate, Lent, MOST_RECORDS, STORE};
use wegbaro_tests::inputs::random_input;
use wegbaro_tests::k;
use wegbaro_tests::networks::{
    all_widths, crowded, full_network, guarded_network, largest, random_network, work_needed,
    Sizes, Widths, MODEST,
};
use wegbaro_tests::random::Random;
use wegbaro_tests::records::{
    add, delete, in_version, link, miss, output, rule, set, widths, Record, ANY, VERSIONS,
};
use wegbaro_tests::second::{program, Second};
use wegbaro_tests::unversioned::Unversioned;
use wegbaro_tests::winding::{longest, looping, winding};
use worthless::buckets::{BucketVice, Spilling, BUCKET_VICES};
use worthless::choices::{ChoiceVice, Choosing, CHOICE_VICES};
use worthless::groups::{Lax, GROUP_VICES};
use worthless::routes::{Astray, ROUTE_VICES};
use worthless::steps::{Misled, StepVice, STEP_VICES};
use worthless::versions::{Outdated, VERSION_VICES};
use worthless::{Suspects, Worthless, VICES};

#[test]
fn every_case() {
    expect_all(cases::all().map(|case| case.run(&Second)));
}

/// The cases of all rows in the versions that their networks do not name.
#[test]
fn every_case_in_every_version() {
    expect_all(cases::versions::in_each().iter().map(|case| case.run(&Second)));
}

/// 256 rules of one priority, all of which match one state.
#[test]
fn every_rule_of_one_priority() {
    expect_all([cases::equals::every_rule().run(&Second)]);
}

#[test]
fn every_way_through_nested_groups() {
    expect_all([cases::group_steps::every_way().run(&Second)]);
}

#[test]
fn bucket_patterns() {
    let headers = (1..=5).flat_map(|h| patterns::bucket_sets(h, 1));
    let ports = (2..=4).flat_map(patterns::bucket_ports);
    let cases = headers.chain(patterns::bucket_sets(6, 0)).chain(ports);
    expect_all(cases.map(|case| case.run(&Second)));
}

#[test]
fn programs() {
    expect_all(cases::programs::cases().iter().map(|case| case.run(&program)));
}

#[test]
fn header_patterns() {
    let cases = (1..=6).flat_map(patterns::headers);
    expect_all(cases.map(|case| case.run(&Second)));
}

#[test]
fn port_patterns() {
    let cases = (2..=4).flat_map(patterns::ports);
    expect_all(cases.map(|case| case.run(&Second)));
}

#[test]
fn output_patterns() {
    let cases = (2..=4).flat_map(patterns::outputs);
    expect_all(cases.map(|case| case.run(&Second)));
}

#[test]
fn set_patterns() {
    let near = (1..=5).flat_map(|h| patterns::sets(h, 1));
    let cases = near.chain(patterns::sets(6, 0));
    expect_all(cases.map(|case| case.run(&Second)));
}

/// With larger headers the second implementation takes long over policies.
#[test]
fn set_patterns_at_once() {
    let cases = (1..=4).flat_map(patterns::sets_at_once);
    expect_all(cases.map(|case| case.run(&Second)));
}

#[test]
fn set_patterns_mistaken() {
    let cases = (1..=3).flat_map(patterns::sets_mistaken);
    expect_all(cases.map(|case| case.run(&Second)));
}

/// How many steps there are, by hand. For a bit there are four pairs of a character and a digit that
/// match, and they are those in which SET leaves the digit. Of n ports all but drop are matched by
/// n patterns each. OUTPUT without stars sends from n - 1 ports to drop, and from n - 2 to each
/// other port. An ordinary port is matched by n - 1 patterns with stars, and they send there from
/// n - 2 ports.
#[test]
fn patterns_match_as_often_as_they_must() {
    fn steps(cases: Vec<StepCase>) -> impl Iterator<Item = Pair> {
        cases.into_iter().flat_map(|case| case.pairs).filter(|pair| pair.is_step)
    }
    for h in 1..=6 {
        let as_before = |pair: &Pair| pair.to == pair.from + (4 << h);
        let left = steps(patterns::sets(h, 0)).filter(as_before);
        assert_eq!(steps(patterns::headers(h)).count(), 4_usize.pow(h.into()), "width {h}");
        assert_eq!(left.count(), 4_usize.pow(h.into()), "width {h}");
    }
    for p in 2..=4 {
        let n = 1 << p;
        let sent = (n - 1) + (n - 1) * (n - 2) + (n - 1) * (n - 2) * (n - 2);
        assert_eq!(steps(patterns::ports(p)).count(), (n - 1) * n, "port width {p}");
        assert_eq!(steps(patterns::outputs(p)).count(), sent, "port width {p}");
    }
}

#[test]
fn every_row_has_cases() {
    let mut met = BTreeSet::new();
    for case in cases::of_calls() {
        if let Answer::Refused { number, .. } = case.answer {
            met.insert(number);
        }
    }
    assert!((1..=16).eq(met.iter().copied()), "{met:?}");
}

#[test]
fn k_is_as_described() {
    let out = |port| [output(port, 3)];
    let mut described = vec![
        widths(1, 2, 1),
        link(0, 2, 1, 1),
        miss(0, &out(0)),
        miss(1, &out(0)),
        rule(0, 10, [1, 3], [0, 1], &out(2)),
        rule(1, 10, [1, 3], ANY, &out(2)),
    ];
    described.extend(policy(
        0,
        &[
            external(X),
            bit(X, 4),
            not(1),
            and(0, 2),
            r(X, Y),
            tc(4, X, Y),
            external(Y),
            bit(Y, 4),
            bit(Y, 0),
            and(6, 7),
            and(9, 8),
            and(5, 10),
            some(11, Y),
            and(3, 12),
        ],
    ));
    let d = rule(0, 8, ANY, [1, 1], &out(0));
    let setting = [set(1, 1), output(2, 3)];
    assert_eq!(k::k(), described);
    assert_eq!(k::first_add(), add(rule(0, 5, ANY, ANY, &out(2))));
    assert_eq!(k::second_add(), add(rule(0, 5, ANY, [0, 1], &out(2))));
    assert_eq!(k::setting_add(), add(rule(0, 20, [1, 3], ANY, &setting)));
    assert_eq!(k::dropping_add(), add(rule(0, 10, [1, 3], [0, 1], &out(0))));
    assert_eq!(k::rule_d(), d);
    assert_eq!(k::delete_d(), delete(d));
}

/// A store of the records with random bytes behind, and just enough work.
fn lend(random: &mut Random, records: &[Record]) -> Lent {
    compare::lend(random, records, work_needed(records))
}

#[test]
fn generated_networks_are_sound_and_judged_as_plainly() {
    let mut random = Random::new(11);
    let (mut holding, mut broken) = (0, 0);
    for of in compare::widths_up_to(6) {
        for _ in 0..40 {
            let records = random_network(&mut random, of, MODEST);
            let mut lent = lend(&mut random, &records);
            let answer = Second.answer(&Call::Check, &mut lent);
            let expected = match plain::first_broken(&records) {
                None => Answer::Holds,
                Some((policy, state)) => Answer::Violated { policy, state },
            };
            assert_eq!(answer, expected, "{records:?}");
            assert!(lent.work.iter().all(|byte| *byte == 0));
            holding += usize::from(answer == Answer::Holds);
            broken += usize::from(answer != Answer::Holds);
        }
    }
    assert!(holding > 20 && broken > 20, "{holding} and {broken}");
}

#[test]
fn series_go_as_in_the_plain_reading() {
    let mut random = Random::new(12);
    let (mut forwarded, mut blocked) = (0, 0);
    for of in compare::widths_up_to(5).into_iter().cycle().take(60) {
        let mut lent = compare::holding_network(&mut random, &Second, of);
        for _ in 0..10 {
            let wish = random.pick(&SOUND);
            let given = command(&mut random, lent.records(), wish);
            match play(&mut lent, &given) {
                true => forwarded += 1,
                false => blocked += 1,
            }
        }
    }
    assert!(forwarded > 100 && blocked > 20, "{forwarded} and {blocked}");
}

/// One sound command on the gate and on the plain reading; tells whether it was forwarded.
fn play(lent: &mut Lent, given: &[u8]) -> bool {
    lent.work.fill(0xC3);
    let before = lent.clone();
    let left = plain::apply(lent.records(), given.try_into().unwrap());
    let answer = Second.answer(&Call::Command(given.to_vec()), lent);
    assert!(lent.work.iter().all(|byte| *byte == 0));
    lent.go_on(answer);
    match plain::first_broken(&left) {
        None => {
            let mut store = left.concat();
            store.resize(STORE, 0);
            store.extend(&before.store[STORE..]);
            assert_eq!(answer, Answer::Forwarded { count: left.len() });
            assert_eq!(lent.store, store);
            true
        }
        Some((policy, state)) => {
            assert_eq!(answer, Answer::Blocked { policy, state });
            assert_eq!(lent.store, before.store);
            false
        }
    }
}

/// Networks of at most two links, since all paths are tried.
#[test]
fn routes_are_the_best_of_all_paths() {
    let mut random = Random::new(18);
    let few = Sizes { links: 2, rules: 8, policies: 1, nodes: 3, groups: 4 };
    let (mut found, mut longest, mut none) = (0, 0, 0);
    for of in compare::widths_up_to(5).into_iter().cycle().take(400) {
        let records = random_network(&mut random, of, few);
        let mut lent = lend(&mut random, &records);
        for start in 0..1 << of.bits() {
            for (end, best) in plain::routes_from(&records, start).into_iter().enumerate() {
                lent.list = vec![0; (1 << of.bits()) + 1];
                let answer = Second.answer(&Call::Route { start, end }, &mut lent);
                let Some(best) = best else {
                    assert_eq!(answer, Answer::NoRoute, "{start} to {end}: {records:?}");
                    none += 1;
                    continue;
                };
                let entries: Vec<usize> = lent.list.iter().copied().map(usize::from).collect();
                assert_eq!(answer, Answer::Found { count: best.len() }, "{records:?}");
                assert_eq!(entries[..best.len()], best, "{start} to {end}: {records:?}");
                found += 1;
                longest = longest.max(best.len());
            }
        }
    }
    assert!(found > 2_000 && none > 2_000 && longest > 8, "{found}, {none}, {longest}");
}

/// No route is longer: see [`longest`].
#[test]
fn the_longest_routes() {
    let most = |bits| {
        let widths = compare::widths_up_to(bits).into_iter().filter(|of| of.bits() == bits);
        widths.map(|of| winding(of).route.len()).max().unwrap()
    };
    assert_eq!([4, 5, 6, 7, 8, 9, 10].map(most), [10, 26, 58, 114, 226, 450, 898]);
    for of in all_widths() {
        assert_eq!(winding(of).route.len(), longest(of), "{of:?}");
        assert_eq!(looping(of).route.len(), longest(of) - 1, "{of:?}");
    }
}

#[test]
fn malformed_commands_are_refused() {
    let mut random = Random::new(13);
    for of in all_widths() {
        let sizes = Sizes { policies: 0, ..MODEST };
        let records = random_network(&mut random, of, sizes);
        let lent = lend(&mut random, &records);
        for fault in FAULTS {
            let given = command(&mut random, &records, Wish::Malformed(fault));
            let mut left = lent.clone();
            let answer = Second.answer(&Call::Command(given.clone()), &mut left);
            let expected = Answer::Refused { number: 12, place: 0 };
            assert_eq!(answer, expected, "{fault:?} {given:?}");
            assert!(left == lent, "{fault:?} {given:?}");
        }
    }
}

/// Whether or not the table is full, and whether or not the rule is there.
#[test]
fn commands_without_their_group_are_refused() {
    let mut random = Random::new(20);
    for of in all_widths() {
        let full = Sizes { rules: 256, policies: 0, ..MODEST };
        for sizes in [full, MODEST] {
            let records = random_network(&mut random, of, sizes);
            let lent = lend(&mut random, &records);
            let given = command(&mut random, &records, Wish::RunsAbsentGroup);
            let mut left = lent.clone();
            let answer = Second.answer(&Call::Command(given.clone()), &mut left);
            assert_eq!(answer, Answer::Refused { number: 16, place: 0 }, "{given:?}");
            assert!(left == lent, "{given:?}");
        }
    }
}

#[test]
fn other_inputs_by_another_number() {
    let drawn = |number: &str| Random::with(1, Some(number)).word();
    assert_eq!(Random::with(1, None).word(), drawn("0"));
    assert_eq!(BTreeSet::from(["0", "1", "2"].map(drawn)).len(), 3);
}

#[test]
fn wishes_are_met() {
    let mut random = Random::new(14);
    let of = Widths { h: 2, p: 3, w: 1 };
    for wish in SOUND.into_iter().cycle().take(60) {
        let mut records = random_network(&mut random, of, MODEST);
        records.insert(3, rule(0, 7, ANY, ANY, &[output(0, 0)]));
        let given = command(&mut random, &records, wish);
        let is_same = |record: &Record| record[0] == 4 && record[1..8] == given[1..8];
        let (kind, present) = match wish {
            Wish::AddNew => (6, false),
            Wish::AddSame => (6, true),
            Wish::ModifyPresent => (7, true),
            Wish::ModifyAbsent => (7, false),
            Wish::DeletePresent => (8, true),
            Wish::DeleteAbsent => (8, false),
            Wish::RunsAbsentGroup | Wish::Malformed(_) => unreachable!("not a sound wish"),
        };
        assert_eq!(given[0], kind, "{wish:?}");
        assert_eq!(records.iter().any(is_same), present, "{wish:?}");
    }
}

#[test]
fn every_width_is_generated_and_sound() {
    let mut random = Random::new(15);
    let mut kinds = [false; 9];
    assert_eq!(all_widths().len(), 59);
    for of in all_widths() {
        let records = random_network(&mut random, of, MODEST);
        assert_eq!(in_version(&records, 0)[0], widths(of.h, of.p, of.w));
        for node in records.iter().filter(|record| record[0] == 5) {
            kinds[usize::from(node[2])] = true;
        }
        let mut lent = lend(&mut random, &records);
        let answer = Second.answer(&Call::Check, &mut lent);
        assert!(!answer.is_refused(), "{answer:?}");
    }
    assert_eq!(kinds, [true; 9]);
}

/// By every generator; and tables that are full, or lack one or two rules.
#[test]
fn every_version_is_generated() {
    let mut random = Random::new(40);
    let of = Widths { h: 1, p: 2, w: 1 };
    let mut versions = vec![BTreeSet::new(); 4];
    let mut rules = BTreeSet::new();
    for _ in 0..30 {
        let full = full_network(&mut random, of);
        let lent = lend(&mut random, &full);
        let answer = Second.answer(&Call::Check, &mut lent.clone());
        assert!(!answer.is_refused(), "{answer:?}");
        rules.insert(full.iter().filter(|record| record[0] == 4).count());
        let others = [
            random_network(&mut random, of, MODEST),
            guarded_network(&mut random, of),
            crowded(&mut random, of),
        ];
        for (versions, records) in versions.iter_mut().zip(others.iter().chain([&full])) {
            versions.insert(records[0][4]);
        }
    }
    assert_eq!(versions, vec![BTreeSet::from(VERSIONS); 4]);
    assert_eq!(rules, BTreeSet::from([254, 255, 256]));
}

/// Kinds of actions, each with whether it is the last of its record.
#[test]
fn every_action_is_generated() {
    let mut random = Random::new(19);
    let mut met = BTreeSet::new();
    for of in all_widths() {
        let records = random_network(&mut random, of, MODEST);
        for record in records.into_iter().filter(|record| matches!(record[0], 3 | 4)) {
            let used = record[9..21].chunks(3).take(usize::from(record[8]));
            met.extend(used.rev().enumerate().map(|(place, action)| (action[0], place == 0)));
        }
    }
    let all = [(1, false), (1, true), (2, false), (3, false), (3, true), (4, false), (4, true)];
    assert_eq!(met, BTreeSet::from(all));
}

/// Targets of buckets, in groups with others of their switch and without.
#[test]
fn every_bucket_is_generated() {
    let mut random = Random::new(30);
    let of = Widths { h: 2, p: 2, w: 2 };
    let mut targets = BTreeSet::new();
    let mut switches = BTreeSet::new();
    let mut counts = BTreeSet::new();
    for _ in 0..1_200 {
        let records = random_network(&mut random, of, MODEST);
        let groups: Vec<Record> = records.into_iter().filter(|record| record[0] == 9).collect();
        counts.insert(groups.len());
        switches.extend(groups.iter().map(|group| group[1]));
        for group in &groups {
            let used = group[9..21].chunks(4).take(usize::from(group[8]));
            targets.extend(used.map(|bucket| (bucket[2], bucket[3])));
        }
    }
    let ports = (0..4).map(|port| (1, port));
    assert!(ports.chain((0..15).map(|lower| (2, lower))).eq(targets), "a target is missing");
    assert!(
        (0..4).eq(switches) && (0..=MODEST.groups).eq(counts),
        "a switch or a count is missing"
    );
}

#[test]
fn the_largest_network_is_sound() {
    let mut random = Random::new(16);
    let records = largest(&mut random);
    let mut lent = lend(&mut random, &records);
    let count = |kind: u8| records.iter().filter(|record| record[0] == kind).count();
    assert_eq!([1, 2, 3, 4, 5, 9].map(count), [1, 112, 16, 256, 256, 16]);
    assert_eq!((lent.n, lent.work.len()), (MOST_RECORDS, 4_456_448));
    let answer = Second.answer(&Call::Check, &mut lent);
    assert!(!answer.is_refused(), "{answer:?}");
}

/// A refusal stands at a damaged record or behind it, or one before it, whose node has become the
/// last one, or where a group is run that is there no more; and nothing behind the record after it
/// matters but which groups there are.
#[test]
fn damage_is_refused_where_it_is() {
    let mut random = Random::new(17);
    let mut refused = 0;
    for of in compare::widths_up_to(6).into_iter().cycle().take(1_500) {
        let mut records = random_network(&mut random, of, MODEST);
        let room = 4 * work_needed(&records);
        let first = damage(&mut random, &mut records);
        let lent = compare::lend(&mut random, &records, room);
        let answer = Second.answer(&Call::Check, &mut lent.clone());
        let Answer::Refused { number, place } = answer else {
            continue;
        };
        refused += 1;
        assert!((3..=11).contains(&number) || number == 16, "{number}");
        assert!(matches!(number, 11 | 16) || place + 1 >= first, "{place} before {first}");
        let mut other = lent.clone();
        for record in other.store.chunks_exact_mut(24).skip(place + 2) {
            let named = if record[0] == 9 { 3 } else { 0 };
            record[named..].fill(0xEE);
        }
        if number != 11 && place < lent.n {
            assert_eq!(Second.answer(&Call::Check, &mut other), answer);
        }
    }
    assert!(refused > 500, "{refused}");
}

/// Damage puts in versions that there are and others, and the others alone are refused by row 5.
#[test]
fn damage_meets_every_version() {
    let mut random = Random::new(42);
    let mut met = BTreeSet::new();
    for of in compare::widths_up_to(5).into_iter().cycle().take(1_500) {
        let mut records = random_network(&mut random, of, MODEST);
        let mut before = records.clone();
        let room = work_needed(&records);
        damage(&mut random, &mut records);
        let version = records[0][4];
        before[0][4] = version;
        // Nothing else was damaged.
        if records == before {
            let mut lent = compare::lend(&mut random, &records, room);
            let answer = Second.answer(&Call::Check, &mut lent);
            let is_refused = answer == Answer::Refused { number: 5, place: 0 };
            assert_eq!(is_refused, !VERSIONS.contains(&version), "{version}: {answer:?}");
            met.insert(version);
        }
    }
    assert!([0, 1, 2, 3, 4, 5, 255].iter().all(|version| met.contains(version)), "{met:?}");
}

/// By cases of the call that has it.
#[test]
fn cases_notice_every_vice() {
    let mut cases = cases::of_calls();
    cases.retain(|case| case.lent.n < MOST_RECORDS);
    Suspects::of(VICES, Worthless::new).expect_noticed_by(cases, &Second);
}

#[test]
fn cases_notice_every_vice_of_routes() {
    Suspects::of(ROUTE_VICES, Astray).expect_noticed_by(cases::routes::cases(), &Second);
}

#[test]
fn cases_notice_every_vice_of_groups() {
    let cases = [cases::groups::cases(), cases::groups::commands()].concat();
    Suspects::of(GROUP_VICES, Lax).expect_noticed_by(cases, &Second);
}

#[test]
fn cases_notice_every_vice_of_versions() {
    let cases = [cases::versions::cases(), cases::versions::commands()].concat();
    let suspects = Suspects::of(VERSION_VICES, |vice| Outdated(Some(vice)));
    suspects.expect_noticed_by(cases, &Outdated(None));
}

#[test]
fn cases_notice_every_vice_of_steps() {
    let suspects = Suspects::of(STEP_VICES, |vice| Misled(Some(vice)));
    suspects.expect_noticed_by(cases::steps::cases(), &Misled(None));
}

#[test]
fn cases_notice_every_vice_of_buckets() {
    let suspects = Suspects::of(BUCKET_VICES, |vice| Spilling(Some(vice)));
    suspects.expect_noticed_by(cases::group_steps::cases(), &Spilling(None));
}

#[test]
fn cases_notice_every_vice_of_choices() {
    let suspects = Suspects::of(CHOICE_VICES, |vice| Choosing(Some(vice)));
    suspects.expect_noticed_by(cases::equals::cases(), &Choosing(None));
}

/// The cases of routes, and those of commands too, notice that not all equals act, or that more do.
#[test]
fn calls_notice_the_vices_of_equals() {
    for cases in [cases::routes::cases(), cases::commands::cases()] {
        let vices = [
            ChoiceVice::TakesTheFirst,
            ChoiceVice::TakesTheLast,
            ChoiceVice::TakesTheFirstThatSends,
            ChoiceVice::TakesWhatAllSend,
            ChoiceVice::TakesLowerOnes,
        ];
        let suspects = Suspects::of(vices, |vice| Choosing(Some(vice)));
        suspects.expect_noticed_by(cases, &Choosing(None));
    }
}

/// Each way to misread patterns is noticed by the cases that it concerns, and by no others.
#[test]
fn patterns_notice_every_misreading() {
    let vices = [
        None,
        Some(StepVice::MatchesStarsAsZeros),
        Some(StepVice::PassesOverTheHighestBit),
        Some(StepVice::SetsStarsToZero),
    ];
    let noticed = |cases: Vec<StepCase>| {
        vices.map(|vice| cases.iter().any(|case| case.run(&Misled(vice)).is_err()))
    };
    let noticed_at_once = |h| {
        let wrong = |vice| patterns::sets_at_once(h).any(|case| case.run(&Misled(vice)).is_err());
        vices.map(wrong)
    };
    for h in 1..=4 {
        assert_eq!(noticed(patterns::headers(h)), [false, true, true, false], "{h}");
        assert_eq!(noticed(patterns::sets(h, 1)), [false, false, false, true], "{h}");
        assert_eq!(noticed_at_once(h), [false, false, false, true], "{h}");
    }
    for p in 2..=3 {
        assert_eq!(noticed(patterns::ports(p)), [false, true, true, false], "{p}");
        assert_eq!(noticed(patterns::outputs(p)), [false, true, true, false], "{p}");
    }
}

/// Each way to misread a bucket is noticed by the cases that it concerns, and by no others.
#[test]
fn bucket_patterns_notice_every_misreading() {
    let vices = [None, Some(BucketVice::SetsStarsToZero), Some(BucketVice::SendsToTheArrivalPort)];
    let noticed = |cases: Vec<StepCase>| {
        vices.map(|vice| cases.iter().any(|case| case.run(&Spilling(vice)).is_err()))
    };
    for h in 1..=4 {
        assert_eq!(noticed(patterns::bucket_sets(h, 1)), [false, true, false], "{h}");
    }
    for p in 2..=3 {
        assert_eq!(noticed(patterns::bucket_ports(p)), [false, true, true], "{p}");
    }
}

const SMALL: Sizes = Sizes { links: 4, rules: 4, policies: 1, nodes: 4, groups: 4 };

#[test]
fn comparisons_notice_every_vice() {
    Suspects::of(VICES, Worthless::new).expect_noticed(|suspects| {
        compare::series(&Second, suspects, 21, 40, 5, 16)?;
        compare::damaged_networks(&Second, suspects, 22, 200, 5)?;
        compare::full_tables(&Second, suspects, 47, 4, 5, 16)?;
        compare::sound_networks(&Second, suspects, 23, 1, SMALL)?;
        Ok(())
    });
}

#[test]
fn comparisons_notice_every_vice_of_routes() {
    Suspects::of(ROUTE_VICES, Astray).expect_noticed(|suspects| {
        routes::of_winding(&Second, suspects, 31, 1, 12)?;
        routes::of_every_width(&Second, suspects, 32, 1, 2, SMALL)?;
        Ok(())
    });
}

/// Checks, commands and routes of many small networks.
fn steps_of(gate: &dyn Gate, suspects: &dyn Gate) -> Result<(), String> {
    compare::damaged_networks(gate, suspects, 33, 16_000, 5)?;
    routes::of_every_width(gate, suspects, 45, 1, 2, Sizes { groups: 12, ..SMALL })?;
    Ok(())
}

/// A gate without such a vice agrees with the second implementation until all are noticed.
#[test]
fn comparisons_notice_every_vice_of_steps() {
    let suspects = Suspects::of(STEP_VICES, |vice| Misled(Some(vice)));
    suspects.expect_noticed(|suspects| steps_of(&Misled(None), suspects));
}

#[test]
fn comparisons_notice_every_vice_of_buckets() {
    let suspects = Suspects::of(BUCKET_VICES, |vice| Spilling(Some(vice)));
    suspects.expect_noticed(|suspects| steps_of(&Spilling(None), suspects));
}

#[test]
fn comparisons_notice_every_vice_of_choices() {
    let suspects = Suspects::of(CHOICE_VICES, |vice| Choosing(Some(vice)));
    suspects.expect_noticed(|suspects| steps_of(&Choosing(None), suspects));
}

/// It does to gates with some vices, and that is noticed.
#[test]
fn the_order_of_rules_does_not_matter() {
    assert_eq!(compare::orders(&Second, 60, 1), Ok(()));
    for vice in [
        ChoiceVice::TakesTheFirst,
        ChoiceVice::TakesTheLast,
        ChoiceVice::TakesTheFirstAndTheLast,
        ChoiceVice::TakesTheFirstThatSends,
        ChoiceVice::TakesUnmatchedOnesBetween,
        ChoiceVice::HandsTheHeaderOn,
    ] {
        assert!(compare::orders(&Choosing(Some(vice)), 61, 1).is_err(), "{vice:?}");
    }
}

#[test]
fn comparisons_notice_every_vice_of_groups() {
    Suspects::of(GROUP_VICES, Lax).expect_noticed(|suspects| {
        compare::damaged_networks(&Second, suspects, 35, 6_000, 5)?;
        compare::full_tables(&Second, suspects, 46, 40, 5, 16)?;
        compare::crowded_networks(&Second, suspects, 36, 40, 5)?;
        Ok(())
    });
}

/// Series, with room in the table or not, and damaged networks.
fn versions_of(gate: &dyn Gate, other: &dyn Gate) -> Result<(), String> {
    compare::series(gate, other, 37, 20, 5, 16)?;
    compare::full_tables(gate, other, 38, 40, 5, 16)?;
    compare::damaged_networks(gate, other, 39, 1_000, 5)?;
    Ok(())
}

#[test]
fn comparisons_notice_every_vice_of_versions() {
    let suspects = Suspects::of(VERSION_VICES, |vice| Outdated(Some(vice)));
    suspects.expect_noticed(|suspects| versions_of(&Outdated(None), suspects));
}

/// What the gate does in each version, told by what it does without one.
#[test]
fn versions_as_without_one() {
    let unversioned = Unversioned(&Second);
    assert_eq!(versions_of(&Second, &unversioned), Ok(()));
    let tally = compare::crowded_networks(&Second, &unversioned, 43, 20, 5).unwrap();
    assert!(tally.refused(13) > 0, "{tally:?}");
}

#[test]
fn comparisons_meet_every_answer() {
    let of_series = compare::series(&Second, &Second, 24, 60, 5, 16).unwrap();
    of_series.expect("command", &[("forwarded", 100), ("blocked", 50), (ADDED_BY_MODIFY, 20)]);
    of_series.expect("command", &[("refused 12", 50), ("refused 16", 20)]);
    let of_full = compare::full_tables(&Second, &Second, 41, 40, 5, 16).unwrap();
    of_full.expect("command", &[("forwarded", 50), ("blocked", 5), ("refused 16", 5)]);
    of_full.expect("command", &[(ADDED_BY_MODIFY, 10), (FULL_TO_MODIFY, 10)]);
    let full_to_modify = of_full.count("command", FULL_TO_MODIFY);
    of_full.expect("command", &[("refused 13", full_to_modify + 10)]);
    let of_damage = compare::damaged_networks(&Second, &Second, 25, 1_500, 6).unwrap();
    of_damage.expect("check", &[("holds", 50), ("violated", 50)]);
    of_damage.expect("command", &[("forwarded", 50), ("blocked", 50)]);
    of_damage.expect("route", &[("found", 50), ("no route", 50)]);
    of_damage.expect_rows(&[3, 4, 5, 6, 7, 8, 9, 12, 14, 15, 16]);
    let of_crowd = compare::crowded_networks(&Second, &Second, 29, 60, 5).unwrap();
    of_crowd.expect_rows(&[8, 9, 10, 12, 13, 16]);
    let of_sound = compare::sound_networks(&Second, &Second, 26, 2, SMALL).unwrap();
    of_sound.expect("check", &[("holds", 10), ("violated", 10), ("refused 11", 0)]);
}

#[test]
fn random_inputs_meet_every_line() {
    let mut random = Random::new(27);
    let mut printed = String::new();
    for _ in 0..400 {
        let output = program(&random_input(&mut random));
        printed += std::str::from_utf8(&output).unwrap();
    }
    for words in [
        "start holds",
        "start violated",
        "start refused",
        " forwarded ",
        " blocked ",
        " refused 12 0",
        " refused 16 0",
        "end short",
    ] {
        assert!(printed.contains(words), "{words}");
    }
}

/// Inputs in version 1 to which something else would be answered in version 4.
#[test]
fn random_inputs_depend_on_the_version() {
    let mut random = Random::new(44);
    let (mut old, mut other) = (0, 0);
    for _ in 0..400 {
        let mut input = random_input(&mut random);
        if input.get(4) == Some(&1) {
            let printed = program(&input);
            input[4] = 4;
            old += 1;
            other += usize::from(program(&input) != printed);
        }
    }
    assert!(other > 10, "{other} of {old}");
}

#[test]
fn comparisons_of_programs_notice_a_missing_line() {
    let silent = |input: &[u8]| {
        let output = String::from_utf8(program(input)).unwrap();
        output.replace("end short\n", "").into_bytes()
    };
    assert!(compare::programs(&program, &silent, 28, 200).is_err());
}
