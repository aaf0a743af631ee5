//! Where document 01 says that the Rust is matched exactly, its answer does not hang on map order. The order is set for the whole
//! process, so this test stands alone.

use driver::command::{accepted, answer};
use driver::condition::{Condition, condition};
use driver::generate::{KINDS, SEAMS, TIES, ZEROS, generate};

#[test]
fn an_exact_match_does_not_hang_on_map_order() {
    for k in KINDS.iter().chain(SEAMS).chain(ZEROS).chain(TIES) {
        for seed in 100..130 {
            let text = generate(k, seed, 0);
            let Ok(sheet) = accepted(&text, None) else { continue };
            if condition(&sheet) != Condition::Exact {
                continue;
            }
            let usual = answer(&text, None);
            for order in 1..5 {
                rustc_hash::set_map_order(order);
                let other = answer(&text, None);
                rustc_hash::set_map_order(0);
                assert_eq!(usual, other, "{} {seed} under order {order}", k.name);
            }
        }
    }
}
