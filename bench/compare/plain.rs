//! The decoder of `batch.rs`: what `bench/compare.py` compares `batch_codec::decode` with. It decodes the bodies of its
//! input so many times as its word says, and prints the number of their spans.

mod batch;

use batch::{bodies, decode};
use std::io::{self, Read as _};

fn main() {
    let rounds: u32 = std::env::args().nth(1).and_then(|word| word.parse().ok()).unwrap_or(1);
    let mut input = Vec::new();
    io::stdin().read_to_end(&mut input).expect("the input is read");
    let bodies = bodies(&input);
    let mut spans = 0;
    for _ in 0..rounds {
        for body in &bodies {
            match decode(body) {
                Ok(batch) => spans += batch.spans.len(),
                Err(fault) => panic!("{fault:?}"),
            }
        }
    }
    println!("{spans}");
}
