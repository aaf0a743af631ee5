//! Times the float steps beside the processor's own, in one run: the median of some rounds, in nanoseconds a step.

use compare::library;
use driver::random::Random;
use std::hint::black_box;
use std::time::Instant;

const COUNT: usize = 100_000;
const ROUNDS: usize = 31;

/// The median time of one step over all values.
fn time(values: &[f64], step: impl Fn(f64) -> u64) -> f64 {
    let mut rounds: Vec<f64> = (0..ROUNDS)
        .map(|_| {
            let start = Instant::now();
            for x in values {
                black_box(step(black_box(*x)));
            }
            start.elapsed().as_nanos() as f64 / values.len() as f64
        })
        .collect();
    rounds.sort_by(f64::total_cmp);
    rounds[ROUNDS / 2]
}

fn row(name: &str, values: &[f64], hardware: impl Fn(f64) -> u64, ours: impl Fn(f64) -> u64) {
    let (theirs, own) = (time(values, hardware), time(values, ours));
    println!("| {name} | {theirs:.2} | {own:.2} | {:.1} |", own / theirs);
}

fn main() {
    let mut r = Random::new(1);
    let values: Vec<f64> = (0..COUNT).map(|_| r.between(0.0, 2.0) * 2f64.powi(r.size(0, 40) as i32 - 20)).collect();
    println!("| step | processor, ns | ours, ns | ratio |\n|---|---|---|---|");
    row("narrow", &values, |x| (x as f32).to_bits() as u64, |x| library::narrow(x.to_bits()) as u64);
    row("round", &values, |x| x.round().to_bits(), |x| library::round(x.to_bits()));
    row("square root", &values, |x| x.sqrt().to_bits(), |x| library::sqrt(x.to_bits()));
}
