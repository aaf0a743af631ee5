//! Times joining beside a hash map on the names that bodies give rise to, and shows that no kind of them blows up.

use driver::random::Random;
use std::collections::HashMap;
use std::time::Instant;

unsafe extern "C" {
    fn speed_join_words(w: *mut u64, length: usize, n: usize) -> u32;
}

const ROUNDS: usize = 7;
const MOST: usize = 786_432;

/// The name of an edge between two points of one shell.
fn edge(a: u64, b: u64) -> u64 {
    (a.min(b) << 18) | a.max(b)
}

/// The edges of triangles around vertex 0.
fn fan() -> Vec<u64> {
    (0..MOST as u64 / 3)
        .flat_map(|k| [edge(0, k % 262_142 + 1), edge(k % 262_142 + 1, k % 262_142 + 2), edge(k % 262_142 + 2, 0)])
        .collect()
}

/// The edges of a square grid of triangles.
fn grid() -> Vec<u64> {
    let side = 362u64;
    let cells = (0..side - 1).flat_map(|y| (0..side - 1).map(move |x| y * side + x));
    let edges = |i: u64| {
        [
            edge(i, i + 1),
            edge(i + 1, i + side),
            edge(i + side, i),
            edge(i + 1, i + side + 1),
            edge(i + side + 1, i + side),
            edge(i + side, i + 1),
        ]
    };
    cells.flat_map(edges).collect()
}

fn join(names: &[u64], words: &mut [u64]) -> f64 {
    let n = names.len();
    words[..n].copy_from_slice(names);
    let start = Instant::now();
    // Sound: the pointer and the length are those of the slice.
    let refused = unsafe { speed_join_words(words.as_mut_ptr(), words.len(), n) };
    let time = start.elapsed().as_nanos() as f64 / n as f64;
    assert_eq!(refused, 0);
    time
}

fn by_map(names: &[u64], firsts: &mut Vec<u64>) -> f64 {
    let start = Instant::now();
    firsts.clear();
    let mut seen: HashMap<u64, u64> = HashMap::new();
    firsts.extend(names.iter().enumerate().map(|(i, name)| *seen.entry(*name).or_insert(i as u64)));
    start.elapsed().as_nanos() as f64 / names.len() as f64
}

fn median(mut times: Vec<f64>) -> f64 {
    times.sort_by(f64::total_cmp);
    times[times.len() / 2]
}

fn row(what: &str, names: &[u64]) {
    let n = names.len();
    let mut words = vec![u64::MAX; 4 * n];
    let mut firsts = Vec::new();
    let (mut ours, mut theirs) = (Vec::new(), Vec::new());
    for _ in 0..ROUNDS {
        ours.push(join(names, &mut words));
        theirs.push(by_map(names, &mut firsts));
    }
    assert_eq!(words[n..2 * n], firsts[..], "{what}");
    println!("| {what} | {n} | {:.1} | {:.1} |", median(ours), median(theirs));
}

fn main() {
    let mut r = Random::new(1);
    println!("| names | items | join, ns an item | std's hash map, ns an item |\n|---|---|---|---|");
    row("edges of a fan around one vertex", &fan());
    row("edges of a grid", &grid());
    row("262,144 equal names", &vec![7; 262_144]);
    row("counting names", &(0..MOST as u64).collect::<Vec<_>>());
    row("counting by 2^32", &(0..MOST as u64).map(|k| k << 32).collect::<Vec<_>>());
    row("random names", &(0..MOST).map(|_| r.next()).collect::<Vec<_>>());
    row("1,000 random names", &(0..1000).map(|_| r.next()).collect::<Vec<_>>());
}
