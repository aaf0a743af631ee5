//! Finishes a bench sheet with the unchanged Rust and prints what document 01 says.

use cad_tess::face::{patch_of, probe};
use driver::command::{accepted, answer, fail, input};
use driver::condition::condition;
use driver::finish::{floats, outcome_of};
use driver::print;
use driver::sheet::{BENCH, Limits, Refusal, Sheet};
use driver::source;

const USAGE: &str = "usage: reference [--bench] [--order N] [--volumes | --keys | --condition] [SHEET]
  --bench      with the bench program's limits (52, and 32 for a result past them)
  --order N    another order of the Rust's hash maps
  --volumes    instead of the result, each row's patch volume: (volume ROW BITS)
  --keys       instead of the result, each vertex's cells and key: (key ROW VERTEX X Y Z KEY)
  --condition  instead of the result, whether the Rust is matched exactly: (condition exact), or shared-key or tie
  SHEET        a file; standard input if it is - or left out";

enum Show {
    Result,
    Volumes,
    Keys,
    Condition,
}

fn volumes(sheet: &Sheet) -> String {
    let mut out = String::new();
    for (i, row) in sheet.rows.iter().enumerate() {
        if let Ok(patch) = patch_of(outcome_of(row)) {
            out += &format!("(volume {i} {:016X})\n", probe::patch_volume(&patch, false).to_bits());
        }
    }
    out
}

fn keys(sheet: &Sheet) -> String {
    let mut out = String::new();
    for (i, row) in sheet.rows.iter().enumerate() {
        for (n, p) in floats(&row.positions).iter().enumerate() {
            let [x, y, z] = p.map(source::cell);
            out += &format!("(key {i} {n} {x} {y} {z} {:016X})\n", source::key(p));
        }
    }
    out
}

fn run(text: &[u8], limits: Option<&Limits>, show: &Show) -> Result<String, Refusal> {
    match show {
        Show::Result => Ok(print::finished(&answer(text, limits)?)),
        Show::Volumes => Ok(volumes(&accepted(text, limits)?)),
        Show::Keys => Ok(keys(&accepted(text, limits)?)),
        Show::Condition => Ok(format!("(condition {})\n", condition(&accepted(text, limits)?).name())),
    }
}

fn main() {
    let mut args = std::env::args().skip(1);
    let (mut limits, mut show, mut name) = (None, Show::Result, None);
    while let Some(word) = args.next() {
        match word.as_str() {
            "--help" => return println!("{USAGE}"),
            "--bench" => limits = Some(&BENCH),
            "--volumes" => show = Show::Volumes,
            "--keys" => show = Show::Keys,
            "--condition" => show = Show::Condition,
            "--order" => match args.next().and_then(|n| n.parse().ok()) {
                Some(seed) => rustc_hash::set_map_order(seed),
                None => fail("reference: --order wants a whole number"),
            },
            _ if word.len() > 1 && word.starts_with('-') => fail(&format!("reference: no option {word}; see --help")),
            _ if name.is_some() => fail("reference: one sheet at a time; see --help"),
            _ => name = Some(word),
        }
    }
    match run(&input(name.as_deref()), limits, &show) {
        Ok(text) => print!("{text}"),
        Err(refusal) => {
            println!("(refused {})", refusal.number);
            eprintln!("reference: {}", refusal.why);
            std::process::exit(1);
        }
    }
}
