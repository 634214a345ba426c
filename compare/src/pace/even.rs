//! Uniform models: loops over slices on both sides.

use super::original::{self, Even, PRECISION};
use super::{done, race, ENTRIES};
use crate::bridge;
use crate::random::Random;

#[derive(PartialEq)]
struct Buffers {
    symbols: Vec<u64>,
    starts: Vec<u64>,
    lengths: Vec<u64>,
}

impl Buffers {
    fn new() -> Buffers {
        Buffers { symbols: vec![0; ENTRIES], starts: vec![0; ENTRIES], lengths: vec![0; ENTRIES] }
    }
}

fn encode_ours(range: u64, symbols: &[u64], out: &mut Buffers) -> u64 {
    let (n, starts, lengths) = (symbols.len(), out.starts.as_mut_ptr(), out.lengths.as_mut_ptr());
    // SAFETY: each pointer goes with the length of its slice
    done(unsafe {
        bridge::bridge_uniform_encode(32, PRECISION as u32, range, symbols.as_ptr(), n, starts, n, lengths, n)
    });
    n as u64
}

fn search_ours(range: u64, quantiles: &[u64], out: &mut Buffers) -> u64 {
    let (starts, lengths) = (out.starts.as_mut_ptr(), out.lengths.as_mut_ptr());
    let (n, found, precision) = (quantiles.len(), out.symbols.as_mut_ptr(), PRECISION as u32);
    // SAFETY: each pointer goes with the length of its slice
    done(unsafe {
        bridge::bridge_uniform_find(32, precision, range, quantiles.as_ptr(), n, found, n, starts, n, lengths, n)
    });
    n as u64
}

pub fn run(rounds: u64, random: &mut Random) {
    let range = 2001;
    println!("uniform, range {range}");
    let symbols: Vec<u64> = (0..ENTRIES).map(|_| random.below(range)).collect();
    let quantiles: Vec<u64> = (0..ENTRIES).map(|_| random.below(1 << PRECISION)).collect();
    let model = Even::new(range as usize);
    let (mut a, mut b) = (Buffers::new(), Buffers::new());
    let original = || original::uniform_encode(&model, &symbols, &mut a.starts, &mut a.lengths);
    race("  encode", rounds, original, || encode_ours(range, &symbols, &mut b));
    assert!(a == b, "uniform encode differs");
    let original = || original::uniform_search(&model, &quantiles, &mut a.symbols, &mut a.starts, &mut a.lengths);
    race("  search", rounds, original, || search_ours(range, &quantiles, &mut b));
    assert!(a == b, "uniform search differs");
}
