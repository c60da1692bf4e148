//! Times the library's closures, by search into a second plane and by rounds in place, against a plain
//! Rust Warshall on 64-bit words, at 1024 states.
use std::hint::black_box;
use std::time::Instant;

#[link(name = "closure", kind = "static")]
extern "C" {
    fn wegbaro_close(work: *mut u8, len: usize, base: usize, pitch: usize) -> bool;
}

#[link(name = "reaching", kind = "static")]
extern "C" {
    fn wegbaro_close_into(work: *mut u8, len: usize, from: usize, to: usize, pitch: usize) -> bool;
}

const STATES: usize = 1024;
const BYTES: usize = STATES / 8;
const WORDS: usize = STATES / 64;
const RUNS: usize = 101;

/// A relation: row x has bit y if x is related to y.
type Plane = Vec<u8>;

/// Warshall's algorithm on rows of 64-bit words.
#[inline(never)]
fn warshall(plane: &mut [u64]) {
    for k in 0..STATES {
        let row: [u64; WORDS] = plane[k * WORDS..(k + 1) * WORDS].try_into().unwrap();
        for x in plane.chunks_exact_mut(WORDS) {
            if x[k / 64] >> (k % 64) & 1 == 1 {
                for (a, b) in x.iter_mut().zip(&row) {
                    *a |= b;
                }
            }
        }
    }
}

/// A small random generator (xorshift).
struct Random(u64);

impl Random {
    fn below(&mut self, n: usize) -> usize {
        self.0 ^= self.0 << 13;
        self.0 ^= self.0 >> 7;
        self.0 ^= self.0 << 17;
        (self.0 >> 20) as usize % n
    }
}

fn relate(plane: &mut Plane, x: usize, y: usize) {
    plane[x * BYTES + y / 8] |= 1 << (y % 8);
}

fn cycle(states: &[usize]) -> Plane {
    let mut plane = vec![0; STATES * BYTES];
    for i in 0..states.len() {
        relate(&mut plane, states[i], states[(i + 1) % states.len()]);
    }
    plane
}

/// Each state is related to those before and behind it.
fn line(states: &[usize]) -> Plane {
    let mut plane = vec![0; STATES * BYTES];
    for pair in states.windows(2) {
        relate(&mut plane, pair[0], pair[1]);
        relate(&mut plane, pair[1], pair[0]);
    }
    plane
}

/// One half of the states all related to each other, the other half a line both ways.
fn block_and_line(states: &[usize]) -> Plane {
    let (block, rest) = states.split_at(STATES / 2);
    let mut plane = line(rest);
    for (x, y) in block.iter().flat_map(|x| block.iter().map(move |y| (*x, *y))) {
        relate(&mut plane, x, y);
    }
    plane
}

/// Each state is related to all before it.
fn order(states: &[usize]) -> Plane {
    let mut plane = vec![0; STATES * BYTES];
    for (place, x) in states.iter().enumerate() {
        states[..place].iter().for_each(|y| relate(&mut plane, *x, *y));
    }
    plane
}

/// A path through one half of the states, whose last is related to all of the other half, and these to its
/// first.
fn path_and_leaves(states: &[usize]) -> Plane {
    let (path, leaves) = states.split_at(STATES / 2);
    let mut plane = vec![0; STATES * BYTES];
    path.windows(2).for_each(|pair| relate(&mut plane, pair[0], pair[1]));
    for leaf in leaves {
        relate(&mut plane, path[path.len() - 1], *leaf);
        relate(&mut plane, *leaf, path[0]);
    }
    plane
}

/// A third of the states, each related to all of a second third, and each of this one to one of the last.
fn fan(states: &[usize]) -> Plane {
    let [first, second, last] =
        [0, 1, 2].map(|third| &states[third * (STATES / 3)..][..STATES / 3]);
    let mut plane = vec![0; STATES * BYTES];
    for (x, y) in second.iter().zip(last) {
        first.iter().for_each(|from| relate(&mut plane, *from, *x));
        relate(&mut plane, *x, *y);
    }
    plane
}

fn random(degree: usize, r: &mut Random) -> Plane {
    let mut plane = vec![0; STATES * BYTES];
    for x in 0..STATES {
        for _ in 0..degree {
            relate(&mut plane, x, r.below(STATES));
        }
    }
    plane
}

/// So many states in random order.
fn shuffled(count: usize, r: &mut Random) -> Vec<usize> {
    let mut states: Vec<usize> = (0..count).collect();
    for i in (1..count).rev() {
        states.swap(i, r.below(i + 1));
    }
    states
}

fn words(plane: &Plane) -> Vec<u64> {
    plane.chunks_exact(8).map(|c| u64::from_le_bytes(c.try_into().unwrap())).collect()
}

/// Microseconds that a call takes.
fn time(f: impl FnOnce()) -> f64 {
    let start = Instant::now();
    f();
    start.elapsed().as_secs_f64() * 1e6
}

fn median(mut times: Vec<f64>) -> f64 {
    times.sort_by(f64::total_cmp);
    times[times.len() / 2]
}

fn main() {
    let mut r = Random(88172645463325252);
    let ordered: Vec<usize> = (0..STATES).collect();
    let reversed: Vec<usize> = (0..STATES).rev().collect();
    let cases = [
        ("cycle of 512, in order", cycle(&ordered[..512])),
        ("cycle of 512, shuffled", cycle(&shuffled(512, &mut r))),
        ("random, out-degree 1", random(1, &mut r)),
        ("random, out-degree 4", random(4, &mut r)),
        ("dense, 512 picks a state", random(512, &mut r)),
        ("line both ways, shuffled", line(&shuffled(STATES, &mut r))),
        ("half a block, half such a line", block_and_line(&shuffled(STATES, &mut r))),
        ("each to all lower", order(&ordered)),
        ("each to all higher", order(&reversed)),
        ("each to all lower, shuffled", order(&shuffled(STATES, &mut r))),
        ("path of 512 to 512 leaves and back", path_and_leaves(&ordered)),
        ("a third to all of a third, each of it to one more", fan(&ordered)),
    ];
    println!("| relation on {STATES} states | search, µs | rounds, µs | Rust on 64-bit words, µs | search / Rust | rounds / Rust |");
    println!("|---|---|---|---|---|---|");
    for (name, plane) in &cases {
        let (mut search, mut rounds, mut rust) = (vec![], vec![], vec![]);
        for _ in 0..RUNS {
            let mut both = black_box([plane.clone(), vec![0; plane.len()]].concat());
            let mut ours = black_box(plane.clone());
            let mut theirs = black_box(words(plane));
            let (mut into, mut closed) = (false, false);
            search.push(time(|| {
                into = unsafe {
                    wegbaro_close_into(both.as_mut_ptr(), both.len(), 0, plane.len(), BYTES)
                }
            }));
            rounds.push(time(|| {
                closed = unsafe { wegbaro_close(ours.as_mut_ptr(), ours.len(), 0, BYTES) }
            }));
            rust.push(time(|| warshall(&mut theirs)));
            assert!(into && closed, "{name}: not within the buffer");
            assert_eq!(&both[..plane.len()], &plane[..], "{name}: the relation changed");
            assert_eq!(
                words(&both[plane.len()..].to_vec()),
                theirs,
                "{name}: search and Rust differ"
            );
            assert_eq!(words(&ours), theirs, "{name}: rounds and Rust differ");
        }
        let [a, b, c] = [search, rounds, rust].map(median);
        println!("| {name} | {a:.0} | {b:.0} | {c:.0} | {:.2} | {:.2} |", a / c, b / c);
    }
}
