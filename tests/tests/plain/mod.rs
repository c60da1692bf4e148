//! The rules over the records' bytes, plain and slow: a third reading, for small sound networks.

use wegbaro_tests::networks::Widths;
use wegbaro_tests::records::Record;

/// The lowest broken policy and the lowest state breaking it.
pub fn first_broken(records: &[Record]) -> Option<(usize, usize)> {
    (0..8).find_map(|policy| {
        let nodes: Vec<&Record> =
            records.iter().filter(|record| record[..2] == [5, policy]).collect();
        let table = last_table(records, &nodes)?;
        let state = table.iter().position(|row| row[0])?;
        Some((usize::from(policy), state))
    })
}

/// The truth of a node for all X and, within, all Y.
type Table = Vec<Vec<bool>>;

fn states(records: &[Record]) -> usize {
    1 << Widths::of(&records[0]).bits()
}

/// The table of the last node, from the tables of all.
fn last_table(records: &[Record], nodes: &[&Record]) -> Option<Table> {
    let mut tables: Vec<Table> = vec![];
    for node in nodes {
        tables.push(table(records, node, &tables));
    }
    tables.pop()
}

fn table(records: &[Record], node: &Record, earlier: &[Table]) -> Table {
    let states = states(records);
    let (one, other) = (usize::from(node[3]), usize::from(node[4]));
    let fill = |truth: &dyn Fn([usize; 2]) -> bool| -> Table {
        let row = |x| (0..states).map(|y| truth([x, y])).collect();
        (0..states).map(row).collect()
    };
    let at = |operand: usize, [x, y]: [usize; 2]| earlier[operand][x][y];
    let put = |variable: usize, state: usize, mut xy: [usize; 2]| {
        xy[variable] = state;
        xy
    };
    match node[2] {
        0 => fill(&|xy| xy[one] & 1 << other != 0),
        1 => fill(&|xy| is_step(records, xy[one], xy[other])),
        2 => fill(&|xy| is_external(records, xy[one])),
        3 => fill(&|xy| !at(one, xy)),
        4 => fill(&|xy| at(one, xy) & at(other, xy)),
        5 => fill(&|xy| at(one, xy) | at(other, xy)),
        6 => fill(&|xy| (0..states).any(|state| at(one, put(other, state, xy)))),
        7 => fill(&|xy| (0..states).all(|state| at(one, put(other, state, xy)))),
        _ => {
            let closed = closure(&earlier[one]);
            fill(&|xy| closed[xy[other / 2]][xy[other % 2]])
        }
    }
}

/// Chains made one pair longer until nothing is new.
fn closure(pairs: &Table) -> Table {
    let states = pairs.len();
    let mut chains = pairs.clone();
    loop {
        let mut longer = chains.clone();
        for from in 0..states {
            for by in (0..states).filter(|by| chains[from][*by]) {
                for to in 0..states {
                    longer[from][to] |= pairs[by][to];
                }
            }
        }
        if longer == chains {
            return chains;
        }
        chains = longer;
    }
}

/// For each end, the best of all paths from the start: the shortest, and of those the smallest.
pub fn routes_from(records: &[Record], start: usize) -> Vec<Option<Vec<usize>>> {
    let states = states(records);
    let steps_of = |from| (0..states).filter(|to| is_step(records, from, *to)).collect();
    let steps: Vec<Vec<usize>> = (0..states).map(steps_of).collect();
    let mut best = vec![None; states];
    try_paths(&steps, &mut vec![start], &mut best);
    best
}

/// Tries every path that goes on from this one and is at no state twice before its end.
fn try_paths(steps: &[Vec<usize>], path: &mut Vec<usize>, best: &mut [Option<Vec<usize>>]) {
    for next in &steps[path[path.len() - 1]] {
        let again = path.contains(next);
        path.push(*next);
        let best_yet = best[*next].as_ref();
        if best_yet.is_none_or(|yet| (path.len(), &*path) < (yet.len(), yet)) {
            best[*next] = Some(path.clone());
        }
        if !again {
            try_paths(steps, path, best);
        }
        path.pop();
    }
}

/// Direction, switch, port and header of a state number.
fn parts(records: &[Record], state: usize) -> [usize; 4] {
    let Widths { h, p, w } = Widths::of(&records[0]);
    [
        state / (1 << (h + p + w)),
        state / (1 << (h + p)) % (1 << w),
        state / (1 << h) % (1 << p),
        state % (1 << h),
    ]
}

/// The two ends of each link, one way and the other.
fn ends(records: &[Record]) -> Vec<[usize; 4]> {
    let links = records.iter().filter(|record| record[0] == 2);
    let both = |link: &Record| {
        let [_, a, b, c, d, ..] = link.map(usize::from);
        [[a, b, c, d], [c, d, a, b]]
    };
    links.flat_map(both).collect()
}

fn is_external(records: &[Record], state: usize) -> bool {
    let [_, switch, port, _] = parts(records, state);
    let controller = (1 << records[0][2]) - 1;
    let linked = ends(records).iter().any(|end| end[..2] == [switch, port]);
    port != 0 && port != controller && !linked
}

fn is_step(records: &[Record], from: usize, to: usize) -> bool {
    let [direction, switch, port, header] = parts(records, from);
    let [to_direction, to_switch, to_port, to_header] = parts(records, to);
    if direction == to_direction {
        false
    } else if direction == 1 {
        to_header == header && ends(records).contains(&[switch, port, to_switch, to_port])
    } else {
        let sent = |record| sends(records, record, [port, header], [to_port, to_header]);
        port != 0
            && switch == to_switch
            && acting(records, switch, port, header).into_iter().any(sent)
    }
}

/// The records that act on an arriving packet: each rule that matches and that no other one that
/// matches outranks; without a match, the miss record.
fn acting(records: &[Record], switch: usize, port: usize, header: usize) -> Vec<Record> {
    let fits = |bits: usize, value: u8, care: u8| bits & usize::from(care) == usize::from(value);
    let here: Vec<Record> =
        records.iter().copied().filter(|record| usize::from(record[1]) == switch).collect();
    let matches = |record: &Record| {
        record[0] == 4 && fits(port, record[4], record[5]) && fits(header, record[6], record[7])
    };
    let outranks = |one: &Record, other: &Record| (one[3], one[2]) > (other[3], other[2]);
    let is_outranked =
        |rule: &Record| here.iter().any(|other| matches(other) && outranks(other, rule));
    let acts = |record: &Record| match here.iter().any(&matches) {
        true => matches(record) && !is_outranked(record),
        false => record[0] == 3,
    };
    here.iter().copied().filter(acts).collect()
}

/// Whether the actions of a record send a copy to a port with a header, of what arrived at a port
/// with a header.
fn sends(
    records: &[Record],
    record: Record,
    [arrival, header]: [usize; 2],
    [port, sent]: [usize; 2],
) -> bool {
    let full = (1 << records[0][2]) - 1;
    let mut header = header;
    let mut found = false;
    for action in record[9..21].chunks(3).take(usize::from(record[8])) {
        let (value, care) = (usize::from(action[1]), usize::from(action[2]));
        match action[0] {
            1 => {
                let allowed = port != arrival && (care == full || (port != 0 && port != full));
                found |= header == sent && port & care == value && allowed;
            }
            2 => header = header - (header & care) + value,
            3 => found |= header == sent && port == arrival,
            _ => {
                let copies = group_sends(records, record[1], action[1], header);
                found |= port != arrival && copies.contains(&[port, sent]);
            }
        }
    }
    found
}

/// The ports to which a group sends a frame with a header, each with the header of the copy.
fn group_sends(records: &[Record], switch: u8, number: u8, header: usize) -> Vec<[usize; 2]> {
    let group = records.iter().find(|record| record[..3] == [9, switch, number]);
    let group = group.expect("a group that is run");
    let mut copies = vec![];
    for bucket in group[9..21].chunks(4).take(usize::from(group[8])) {
        let (value, care) = (usize::from(bucket[0]), usize::from(bucket[1]));
        let set = header - (header & care) + value;
        match bucket[2] {
            1 => copies.push([usize::from(bucket[3]), set]),
            _ => copies.extend(group_sends(records, switch, bucket[3], set)),
        }
    }
    copies
}

/// The records that a sound command leaves.
pub fn apply(records: &[Record], command: &Record) -> Vec<Record> {
    let mut left = records.to_vec();
    let same = left.iter().position(|record| record[0] == 4 && record[1..8] == command[1..8]);
    let behind = left.iter().rposition(|record| record[0] == 3 || record[0] == 4);
    let version = records[0][4];
    let mut rule = *command;
    rule[0] = 4;
    match (command[0], version, same) {
        (6, _, None) | (7, 1, None) => left.insert(behind.expect("a miss") + 1, rule),
        (6 | 7, _, Some(place)) => left[place] = rule,
        (8, _, Some(place)) => drop(left.remove(place)),
        _ => {}
    }
    left
}
