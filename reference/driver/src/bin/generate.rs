//! Makes a bench sheet from a seed and a kind.

use driver::command::fail;
use driver::generate::{KINDS, Kind, LARGE, SEAMS, TIES, ZEROS, generate, kind};
use std::io::Write;

const USAGE: &str = "usage: generate SEED KIND [SIZE]
       generate --kinds
       generate --seams
       generate --zeros
       generate --ties
       generate --large
The sheet of a seed and a kind, the same every time. Without SIZE it keeps within the bench program's limits as far as its kind does.
Stitching splits the kinds that --seams lists. Those that --zeros lists have 0.0 and -0.0 side by side, those that --ties
lists points that tie on an edge. Those that --large lists take a number of triangles as SIZE.";

fn list(kinds: &[Kind]) {
    kinds.iter().for_each(|k| println!("{:14} {}", k.name, k.shows));
}

fn main() {
    let args: Vec<String> = std::env::args().skip(1).collect();
    let words: Vec<&str> = args.iter().map(String::as_str).collect();
    let (seed, name, size) = match words[..] {
        ["--help"] => return println!("{USAGE}"),
        ["--kinds"] => return list(KINDS),
        ["--seams"] => return list(SEAMS),
        ["--zeros"] => return list(ZEROS),
        ["--ties"] => return list(TIES),
        ["--large"] => return list(LARGE),
        [seed, name] => (seed, name, "0"),
        [seed, name, size] => (seed, name, size),
        _ => fail("generate: wants a seed and a kind; see --help"),
    };
    let Ok(seed) = seed.parse() else { fail(&format!("generate: {seed} is no seed: a whole number below 2^64")) };
    let Ok(size) = size.parse() else { fail(&format!("generate: {size} is no size: a whole number")) };
    let Some(kind) = kind(name) else { fail(&format!("generate: no kind {name}; see --kinds, --seams, --zeros, --ties and --large")) };
    if let Err(e) = std::io::stdout().write_all(&generate(kind, seed, size)) {
        fail(&format!("generate: {e}"));
    }
}
