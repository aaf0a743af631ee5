//! The program `plan` held to the model: what it prints of a text on its standard input.

use super::{damage, limits, model, tree};
use compare::library::{ENTRY, MOST_ENTRIES};
use driver::random::Random;
use std::io::Write;
use std::process::{Command, Stdio};

/// Texts of a seed that are given to the program.
const TEXTS_A_SEED: usize = 50;

/// The most bytes that the program takes; a longer text is refused with 52.
const MOST_TEXT: usize = 1 << 20;

/// What the program should print: a bin line for each entry, or the refusal.
fn wanted(text: &[u8]) -> String {
    if text.len() > MOST_TEXT {
        return "(refused 52)\n".to_string();
    }
    match model::read(text, ENTRY * MOST_ENTRIES) {
        Ok(entries) => model::write(&model::flat(&entries), usize::MAX).expect("a list that was read"),
        Err(number) => format!("(refused {number})\n"),
    }
}

/// What it prints; a text that it doesn't take to its end is no fault.
fn printed(program: &str, text: &[u8]) -> std::io::Result<Vec<u8>> {
    let mut run = Command::new(program).stdin(Stdio::piped()).stdout(Stdio::piped()).spawn()?;
    let mut input = run.stdin.take().expect("a pipe");
    std::thread::scope(|scope| {
        scope.spawn(move || drop(input.write_all(text)));
        run.wait_with_output().map(|output| output.stdout)
    })
}

fn held(program: &str, text: &[u8]) -> Result<(), String> {
    let printed = printed(program, text).map_err(|why| format!("{program}: {why}"))?;
    let wanted = wanted(text);
    if printed == wanted.as_bytes() {
        return Ok(());
    }
    let start = |bytes: &[u8]| String::from_utf8_lossy(&bytes[..bytes.len().min(300)]).into_owned();
    Err(format!("{program} prints of {:?} {:?}, not {:?}", start(text), start(&printed), start(wanted.as_bytes())))
}

/// Empty groups up to the most bytes, and to a byte more.
fn long_texts() -> [Vec<u8>; 2] {
    let (short, long) = ("(group 0 0 0\n)\n", "(group 0 0 10\n)\n");
    let count = MOST_TEXT / short.len();
    let with = |longer: usize| (short.repeat(count - longer) + &long.repeat(longer)).into_bytes();
    let rest = MOST_TEXT % short.len();
    [with(rest), with(rest + 1)]
}

/// The texts at the limits, the longest among them, and some plans of each seed, every second damaged, with one of about 4,096 bins; how many there were.
pub fn compared(program: &str, first: u64, last: u64) -> Result<usize, String> {
    let mut texts: Vec<Vec<u8>> = limits::texts().into_iter().map(|(text, _, _)| text.into_bytes()).collect();
    texts.extend(long_texts());
    for seed in first..=last {
        let r = &mut Random::new(!seed);
        for k in 0..TEXTS_A_SEED {
            let text = tree::text(&tree::plan(r));
            texts.push(if k % 2 == 1 { damage::damaged(&text, r) } else { text.into_bytes() });
        }
        let bins = r.size(MOST_ENTRIES - 2, MOST_ENTRIES + 2);
        texts.push(tree::text(&tree::large(bins, r)).into_bytes());
    }
    texts.iter().try_for_each(|text| held(program, text)).map(|()| texts.len())
}
