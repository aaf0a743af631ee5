//! Holds the proved library against the unchanged Rust on generated bodies: turning, stitching and assembling with their refusals,
//! each patch alone, keys and cells of points, and the float steps against the processor's own. Plans, the lookup of a peg's bins, whether a
//! mesh is closed and the page over bodies, which the Rust has not, are held to plain models.

mod assembling;
mod clamps;
mod faces;
mod faults;
mod fences;
mod keys;
mod lent;
mod open;
mod patches;
mod pegs;
mod plans;
mod plantable;
mod planted;
mod refusals;
mod reports;
mod searches;
mod smallest;
mod source_bodies;
mod steps;
mod stitching;
mod tally;
mod turning;
mod whole;
mod work;
mod worst;
mod zeros;

use driver::check::{MOST_INDICES, MOST_ROWS, check};
use driver::command::fail;
use driver::generate::{KINDS, Kind, LARGE, SEAMS, TIES, ZEROS, body_of, kind};
use driver::print;
use driver::random::Random;
use driver::sheet::{BENCH, Sheet, parse};
use planted::{Plant, plant};
use smallest::smallest;
use std::ops::RangeInclusive;
use stitching::Held;
use tally::{Compared, Tally};

const USAGE: &str = "usage: compare FIRST LAST [SIZE]
       compare --small FIRST LAST [SIZE]
       compare --large FIRST LAST [TRIANGLES]
       compare --worst POINTS
       compare --sheets SHEET...
       compare --plans FIRST LAST
       compare --pegs FIRST LAST
       compare --zeros FIRST LAST
       compare --ties FIRST LAST [SIZE]
       compare --reports FIRST LAST
       compare --plan-program PROGRAM FIRST LAST
       compare --planted FIRST LAST
       compare --keys
       compare --without-fences ...
       compare --open TRIANGLES ...
The bodies of every kind with the seeds FIRST to LAST, small ones and some of a size that goes with the seed, or only those of SIZE
pieces on each shape, 4096 at most. In the end, one body of every large kind with 5000 triangles, one with 100000 and one at every limit.
With --small none of the large bodies and none of those made by hand.
With --large only bodies of the large kinds, with TRIANGLES triangles, 262144 at most; 100000 if left out.
With --worst the bodies that ask the most of stitching, one with POINTS loose points on one edge, and the time that this one takes.
With --sheets only the bodies of these sheets.
With --plans only plans, which every run has besides: 250 of each seed and a large one, and without --small those at the limits and every text
that is one byte away from a small plan.
With --pegs only lookups of a peg's bins, which every run has besides: about a thousand placed bodies of each seed and their damaged copies, and without
--small those at the limits.
With --zeros only bodies with 0.0 and -0.0 side by side, which every run has besides, and without --small those with answers by hand.
With --ties only bodies in which points tie on an edge, which every run has besides, and those at the limits.
With --reports only reports of bodies, which every run has besides: the bodies of every kind of each seed, as given, finished and damaged, alone and in a
row, and without --small those at the limits and one of every large kind.
With --plan-program a program reads the plans at the limits and some of each seed, and must print each one's listing or refusal.
With --planted faults are planted behind the library's calls, and the seeds FIRST to LAST must find each of them.
With --keys the keys and cells of 2^32 points in which each coordinate is every f32 once, in some minutes.
With --without-fences before any of these each lent slice is a block of memory of its own, for a tool that watches memory.
With --open before any of these, behind --without-fences, bodies are stitched of which up to TRIANGLES triangles have an open edge, 5000 if left
out: the Rust's time goes with the square of it, and is seconds for 20000.";

/// Pieces on each shape, one of these for each seed besides the small body.
const SIZES: [usize; 9] = [1, 2, 3, 5, 8, 13, 21, 34, 60];

/// Triangles of the bodies that enclose nothing, for which every rounding of V counts: all of these for each seed.
const NOTHING: [usize; 4] = [18, 24, 32, 500];
const MANY_TRIANGLES: usize = 100_000;

/// Triangles of the large kinds' bodies that are stitched with their own sag however open they are.
const OPEN_TRIANGLES: usize = 5_000;
const MOST_TRIANGLES: usize = MOST_INDICES / 3;
const STEPS_A_SEED: u64 = 1000;

/// Loose points on one edge, of the body that asks the most of stitching.
const WORST_POINTS: usize = 1500;

/// How a body was made.
struct Made<'a> {
    kind: &'a Kind,
    seed: u64,
    size: usize,
}

/// What was compared of a body, or where it differs. The random numbers are those of the seed, so that it can be asked again.
fn compared(sheet: &Sheet, seed: u64) -> Result<Compared, String> {
    let r = &mut Random::new(seed);
    turning::differs(sheet, r)?;
    let stitched = stitching::compared(sheet, r)?;
    whole::compared(sheet, &stitched, seed)?;
    patches::differ(sheet, r)?;
    let refusals = refusals::refusals(sheet, r)?;
    let assembled = assembling::compared(sheet, seed)?;
    Ok(Compared { stitched, assembled, refusals })
}

/// Say where a body differs, with the smallest such body as a sheet if it is one, and end.
fn report(made: &Made, sheet: &Sheet, what: &str) -> ! {
    Tally::end_line();
    let Made { kind, seed, size } = made;
    let least = smallest(sheet, |s| compared(s, *seed).is_err());
    let text = print::sheet(&least);
    if parse(text.as_bytes(), Some(&BENCH)).is_err() {
        fail(&format!("compare: kind {}, seed {seed}, size {size}: {what}", kind.name));
    }
    let why = compared(&least, *seed).expect_err("it still differs");
    print!("{text}");
    fail(&format!("compare: the sheet above, made of kind {}, seed {seed}, size {size}: {why}", kind.name))
}

fn compare_body(made: &Made, tally: &mut Tally) {
    let Some(sheet) = body_of(made.kind, made.seed, made.size).filter(|s| check(s).is_ok()) else { return };
    tally.show(made.kind.name, made.seed);
    match compared(&sheet, made.seed) {
        Ok(compared) => tally.add(&sheet, compared),
        Err(what) => report(made, &sheet, &what),
    }
}

fn named(name: &str) -> &'static Kind {
    kind(name).expect("a kind of the generator")
}

fn compare_kinds(kinds: &[Kind], seed: u64, size: usize, tally: &mut Tally) {
    for kind in kinds {
        compare_body(&Made { kind, seed, size }, tally);
    }
}

/// Float steps, and keys of points.
fn compare_steps(seed: u64, tally: &mut Tally) {
    let r = &mut Random::new(!seed);
    for _ in 0..STEPS_A_SEED {
        if let Some(what) = steps::differ(r).or_else(|| keys::differ(r)) {
            Tally::end_line();
            fail(&format!("compare: {what}"));
        }
        tally.steps += 5;
        tally.keys += 1;
    }
}

/// What a comparison with a model found, which ends the run where something differs.
fn held(name: &str, result: Result<(), String>) {
    if let Err(what) = result {
        Tally::end_line();
        fail(&format!("compare: {name}: {what}"));
    }
}

/// The plans at the limits and every text one byte away from a small one.
fn compare_plans_by_hand(tally: &mut Tally) {
    held("plans", plans::at_the_limits(&mut tally.plans));
    held("plans", plans::one_byte_away(&mut tally.plans));
}

fn compare_plans(first: u64, last: u64, tally: &mut Tally) {
    for seed in first..=last {
        tally.show("plans", seed);
        held("plans", plans::compared(seed, &mut tally.plans));
    }
}

/// Plans and nothing else.
fn compare_plans_alone((first, last, _): (u64, u64, Option<usize>), tally: &mut Tally) {
    compare_plans_by_hand(tally);
    compare_plans(first, last, tally);
    Tally::end_line();
    println!("compare: {}: no difference", tally.plans.said());
}

/// The lookups of a peg's bins at the limits.
fn compare_pegs_by_hand(tally: &mut Tally) {
    held("pegs", pegs::at_the_limits(&mut tally.pegs));
}

fn compare_pegs(first: u64, last: u64, tally: &mut Tally) {
    for seed in first..=last {
        tally.show("pegs", seed);
        held("pegs", pegs::compared(seed, &mut tally.pegs));
    }
}

/// Lookups of a peg's bins and nothing else.
fn compare_pegs_alone((first, last, _): (u64, u64, Option<usize>), tally: &mut Tally) {
    compare_pegs_by_hand(tally);
    compare_pegs(first, last, tally);
    Tally::end_line();
    println!("compare: {}: no difference", tally.pegs.said());
}

/// The reports of bodies at the limits.
fn compare_reports_by_hand(tally: &mut Tally) {
    held("reports", reports::at_the_limits(&mut tally.reports));
}

fn compare_reports(first: u64, last: u64, tally: &mut Tally) {
    for seed in first..=last {
        tally.show("reports", seed);
        held("reports", reports::compared(seed, size_of(seed), &mut tally.reports));
    }
}

/// Reports of one body of every large kind, and of one at every limit.
fn compare_large_reports(seed: u64, tally: &mut Tally) {
    let full = [(named("large-full"), MOST_TRIANGLES)];
    for (kind, triangles) in LARGE.iter().map(|kind| (kind, MANY_TRIANGLES)).chain(full) {
        tally.show(kind.name, seed);
        held("reports", reports::large(kind, seed, triangles, &mut tally.reports));
    }
}

/// Reports of bodies and nothing else.
fn compare_reports_alone((first, last, _): (u64, u64, Option<usize>), tally: &mut Tally) {
    compare_reports_by_hand(tally);
    compare_reports(first, last, tally);
    compare_large_reports(first, tally);
    Tally::end_line();
    println!("compare: {}: no difference", tally.reports.said());
}

/// The bodies with both zeros that have answers by hand.
fn compare_zeros_by_hand(tally: &mut Tally) {
    match zeros::by_hand(&mut tally.assembled) {
        Ok(bodies) => tally.worst += bodies,
        Err(what) => fail(&format!("compare: zeros: {what}")),
    }
}

/// Bodies with both zeros and nothing else: small ones, and one of a size that goes with the seed for each kind.
fn compare_zeros_alone((first, last, _): (u64, u64, Option<usize>), tally: &mut Tally) {
    compare_zeros_by_hand(tally);
    for seed in first..=last {
        [0, size_of(seed)].iter().for_each(|size| compare_kinds(ZEROS, seed, *size, tally));
    }
}

/// The bodies at the last coordinates whose cells don't clamp and past them.
fn compare_clamps_by_hand(tally: &mut Tally) {
    match clamps::by_hand() {
        Ok(bodies) => tally.worst += bodies,
        Err(what) => fail(&format!("compare: cells that clamp: {what}")),
    }
}

/// The bodies of ties at the limits.
fn compare_ties_by_hand(tally: &mut Tally) {
    match searches::at_the_limits(TIES) {
        Ok(bodies) => tally.worst += bodies,
        Err(what) => fail(&format!("compare: {what}")),
    }
}

/// Bodies of ties and nothing else: small ones, and one of a size that goes with the seed for each kind, or only those of a size.
fn compare_ties_alone((first, last, size): (u64, u64, Option<usize>), tally: &mut Tally) {
    compare_ties_by_hand(tally);
    for seed in first..=last {
        let sizes = size.map_or(vec![0, size_of(seed)], |s| vec![s]);
        sizes.iter().for_each(|size| compare_kinds(TIES, seed, *size, tally));
    }
}

/// What a program prints of plans.
fn compare_plan_program(program: &str, (first, last, _): (u64, u64, Option<usize>)) {
    match plans::program::compared(program, first, last) {
        Ok(texts) => println!("compare: {program} answers {texts} plans as the model does"),
        Err(what) => fail(&format!("compare: {what}")),
    }
}

fn compare_worst(points: usize, tally: &mut Tally) {
    match worst::compared(points) {
        Ok(bodies) => tally.worst += bodies,
        Err(what) => fail(&format!("compare: {what}")),
    }
}

/// The bodies made by hand and nothing else, with the time that the one of so many points takes.
fn compare_and_time_worst(points: usize, tally: &mut Tally) {
    compare_worst(points, tally);
    let (bodies, seconds) = (tally.worst, worst::seconds(points));
    println!("compare: {bodies} bodies made by hand: no difference; {points} loose points on one edge: {seconds:.2} s");
}

/// The size of a seed's larger bodies.
fn size_of(seed: u64) -> usize {
    SIZES[(seed % SIZES.len() as u64) as usize]
}

/// The bodies of every kind that go with seeds.
fn compare_seeds(first: u64, last: u64, size: Option<usize>, tally: &mut Tally) {
    for seed in first..=last {
        let sizes = size.map_or(vec![0, size_of(seed)], |s| vec![s]);
        for size in sizes {
            compare_kinds(KINDS, seed, size, tally);
            compare_kinds(SEAMS, seed, size, tally);
            compare_kinds(ZEROS, seed, size, tally);
            compare_kinds(TIES, seed, size, tally);
        }
        for size in NOTHING {
            compare_body(&Made { kind: named("large-nothing"), seed, size }, tally);
        }
        compare_steps(seed, tally);
    }
    compare_plans(first, last, tally);
    compare_pegs(first, last, tally);
    compare_reports(first, last, tally);
}

/// The body of a stored sheet, of any size.
fn compare_sheet(name: &str, tally: &mut Tally) {
    let text = std::fs::read(name).unwrap_or_else(|why| fail(&format!("compare: {name}: {why}")));
    let sheet = parse(&text, None).ok().filter(|s| check(s).is_ok()).unwrap_or_else(|| fail(&format!("compare: {name} is refused")));
    match compared(&sheet, 1) {
        Ok(compared) => tally.add(&sheet, compared),
        Err(what) => fail(&format!("compare: {name}: {what}")),
    }
}

/// The bodies of a run without a word.
fn compare_all(first: u64, last: u64, size: Option<usize>, tally: &mut Tally) {
    compare_plans_by_hand(tally);
    compare_pegs_by_hand(tally);
    compare_reports_by_hand(tally);
    compare_zeros_by_hand(tally);
    compare_clamps_by_hand(tally);
    compare_ties_by_hand(tally);
    compare_worst(WORST_POINTS, tally);
    compare_seeds(first, last, size, tally);
    compare_kinds(LARGE, first, OPEN_TRIANGLES, tally);
    compare_kinds(LARGE, first, MANY_TRIANGLES, tally);
    compare_body(&Made { kind: named("large-full"), seed: first, size: MOST_TRIANGLES }, tally);
    compare_large_reports(first, tally);
}

/// Whether a small body of a seed shows a planted fault.
fn shows(fault: Plant, seeds: RangeInclusive<u64>, differs: fn(&Sheet, u64) -> bool) -> bool {
    plant(Some(fault));
    let apart: [(bool, fn(u64, u64) -> bool); 3] =
        [(fault.of_plans(), plans::shows), (fault.of_pegs(), pegs::shows), (fault.of_reports(), reports::shows)];
    if let Some((_, shows)) = apart.into_iter().find(|(of_it, _)| *of_it) {
        let found = shows(*seeds.start(), *seeds.end());
        plant(None);
        return found;
    }
    let mut bodies = seeds.flat_map(|seed| KINDS.iter().chain(SEAMS).filter_map(move |kind| Some((body_of(kind, seed, 0)?, seed))));
    let found = bodies.any(|(sheet, seed)| check(&sheet).is_ok() && differs(&sheet, seed));
    plant(None);
    found
}

/// Let each wrong stand-in take the calls' place, and say how many the comparison finds; one that is right must show nothing.
fn find_wrong<T: Copy + std::fmt::Debug>(name: &str, all: &[T], right: T, plant: fn(Option<T>), shows: impl Fn() -> bool) -> usize {
    let shown = |fault: T| {
        plant(Some(fault));
        let found = shows();
        plant(None);
        found
    };
    if shown(right) {
        fail(&format!("compare: {name} without a fault differ from the model"));
    }
    let missed: Vec<&T> = all.iter().filter(|fault| !shown(**fault)).collect();
    if !missed.is_empty() {
        fail(&format!("compare: planted and not found: {missed:?}"));
    }
    all.len()
}

fn find_wrong_plans(first: u64, last: u64) -> usize {
    let all: Vec<plans::wrong::Fault> = plans::wrong::all().collect();
    find_wrong("a reader and a writer of plans", &all, plans::wrong::NONE, plans::wrong::plant, || plans::shows(first, last))
}

fn find_wrong_lookups(first: u64, last: u64) -> usize {
    find_wrong("lookups", pegs::wrong::ALL, pegs::wrong::Wrong::Nothing, pegs::wrong::plant, || pegs::shows(first, last))
}

fn find_wrong_closed(first: u64, last: u64) -> usize {
    find_wrong("answers of closed", zeros::wrong::ALL, zeros::wrong::Wrong::Nothing, zeros::wrong::plant, || zeros::shows(first, last))
}

fn find_wrong_reports(first: u64, last: u64) -> usize {
    let all: Vec<reports::wrong::Wrong> = reports::wrong::all().collect();
    find_wrong("reports", &all, reports::wrong::Wrong::Nothing, reports::wrong::plant, || reports::shows(first, last))
}

fn find_wrong_searches(first: u64, last: u64) -> usize {
    find_wrong("searches", searches::wrong::ALL, searches::wrong::Wrong::Nothing, searches::wrong::plant, || searches::shows(first, last))
}

/// Plant each fault, and say how many the comparison finds, and the three calls in a row alone of those where a body is finished.
fn find_planted(first: u64, last: u64) {
    let all = planted::all();
    let found = |fault: &&Plant| shows(**fault, first..=last, |sheet, seed| compared(sheet, seed).is_err());
    let missed: Vec<&Plant> = all.iter().filter(|fault| !found(fault)).collect();
    let chained: Vec<&Plant> = all.iter().filter(|fault| !fault.refused && ["turn", "stitch", "assemble"].contains(&fault.call)).collect();
    let alone = |fault: &&&Plant| shows(***fault, first..=last, |sheet, seed| whole::compared(sheet, &Held::Outside, seed).is_err());
    let in_a_row = chained.iter().filter(alone).count();
    if !missed.is_empty() {
        fail(&format!("compare: planted and not found: {missed:?}"));
    }
    let (plans, lookups, closed) = (find_wrong_plans(first, last), find_wrong_lookups(first, last), find_wrong_closed(first, last));
    let (reports, searches) = (find_wrong_reports(first, last), find_wrong_searches(first, last));
    println!(
        "compare: {} planted faults, all found; {in_a_row} of the {} behind a finished call also by the three calls in a row alone; \
         {plans} wrong readers and writers of plans, {lookups} wrong lookups of a peg's bins, {closed} wrong answers of closed, {reports} wrong \
         reports and {searches} wrong searches for the points that split a triangle, all found",
        all.len(),
        chained.len()
    );
}

/// The keys of points in which each coordinate is every f32.
fn compare_keys() {
    match keys::differ_anywhere() {
        Some(what) => fail(&format!("compare: {what}")),
        None => println!("compare: the keys of 2^32 points, and their cells: no difference"),
    }
}

/// The first and the last seed and a size that is not above a limit.
fn numbers(words: &[String], most: usize) -> (u64, u64, Option<usize>) {
    let numbers: Option<Vec<u64>> = words.iter().map(|w| w.parse().ok()).collect();
    match numbers.as_deref() {
        Some([first, last]) if first <= last => (*first, *last, None),
        Some([first, last, size]) if first <= last && *size <= most as u64 => (*first, *last, Some(*size as usize)),
        _ => fail(USAGE),
    }
}

/// The words of the command line behind those that every comparison can have before it.
fn words_behind_options() -> Vec<String> {
    let mut words: Vec<String> = std::env::args().skip(1).collect();
    if words.first().is_some_and(|word| word == "--without-fences") {
        words.remove(0);
        fences::without_fences();
    }
    if words.first().is_some_and(|word| word == "--open") {
        let Some(Ok(triangles)) = words.get(1).map(|word| word.parse()) else { fail(USAGE) };
        words.drain(..2);
        open::let_open(triangles);
    }
    words
}

fn main() {
    let words = words_behind_options();
    let tally = &mut Tally::default();
    match words.split_first() {
        Some((word, _)) if word == "--help" => return println!("{USAGE}"),
        Some((word, rest)) if word == "--small" => {
            let (first, last, size) = numbers(rest, MOST_ROWS);
            compare_seeds(first, last, size, tally);
        }
        Some((word, rest)) if word == "--large" => {
            let (first, last, size) = numbers(rest, MOST_TRIANGLES);
            (first..=last).for_each(|seed| compare_kinds(LARGE, seed, size.unwrap_or(MANY_TRIANGLES), tally));
        }
        Some((word, [points])) if word == "--worst" => {
            let Ok(points) = points.parse() else { fail(USAGE) };
            return compare_and_time_worst(points, tally);
        }
        Some((word, names)) if word == "--sheets" && !names.is_empty() => names.iter().for_each(|name| compare_sheet(name, tally)),
        Some((word, rest)) if word == "--plans" => return compare_plans_alone(numbers(rest, MOST_ROWS), tally),
        Some((word, rest)) if word == "--pegs" => return compare_pegs_alone(numbers(rest, MOST_ROWS), tally),
        Some((word, rest)) if word == "--reports" => return compare_reports_alone(numbers(rest, MOST_ROWS), tally),
        Some((word, rest)) if word == "--ties" => compare_ties_alone(numbers(rest, MOST_ROWS), tally),
        Some((word, rest)) if word == "--zeros" => compare_zeros_alone(numbers(rest, MOST_ROWS), tally),
        Some((word, [program, rest @ ..])) if word == "--plan-program" => return compare_plan_program(program, numbers(rest, MOST_ROWS)),
        Some((word, rest)) if word == "--planted" => {
            let (first, last, _) = numbers(rest, MOST_ROWS);
            return find_planted(first, last);
        }
        Some((word, [])) if word == "--keys" => return compare_keys(),
        _ => {
            let (first, last, size) = numbers(&words, MOST_ROWS);
            compare_all(first, last, size, tally);
        }
    }
    Tally::end_line();
    println!("compare: {}: no difference", tally.said());
}
