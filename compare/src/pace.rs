//! Speed of both sides in one run, over the same buffers, as ratios: this library / the original.

mod even;
mod original;
mod single;
pub mod users;

use crate::bridge::{self, BridgeModel};
use crate::distributions::{Peak, Stubborn};
use crate::model::{Guess, Model, Shape, SymbolType, Width};
use crate::random::Random;
use original::{Quantized, PRECISION};
use probability::distribution::{Distribution, Inverse};
use std::time::Instant;

/// How many symbols or quantiles one timed call takes.
const ENTRIES: usize = 1 << 15;
/// How many rows the buffers of a fill hold.
const PAGE: usize = 4096;

/// The buffers that both sides write into.
#[derive(PartialEq)]
struct Buffers {
    symbols: Vec<i32>,
    starts: Vec<u32>,
    lengths: Vec<u32>,
}

impl Buffers {
    fn new(entries: usize) -> Buffers {
        Buffers { symbols: vec![0; entries], starts: vec![0; entries], lengths: vec![0; entries] }
    }
}

/// Runs both in turn and prints the nanoseconds an item, of the quickest round and of the middle one.
fn race(name: &str, rounds: u64, mut original: impl FnMut() -> u64, mut ours: impl FnMut() -> u64) {
    let mut taken = [Vec::new(), Vec::new()];
    original();
    ours();
    for _ in 0..rounds {
        taken[0].push(timed(&mut original));
        taken[1].push(timed(&mut ours));
    }
    let [(best, middle), (our_best, our_middle)] = taken.map(|mut list| {
        list.sort_by(f64::total_cmp);
        (list[0], list[list.len() / 2])
    });
    println!(
        "{name:<44} {best:>8.2} {our_best:>8.2} {:>6.2}   {middle:>8.2} {our_middle:>8.2} {:>6.2}",
        our_best / best,
        our_middle / middle
    );
}

/// Nanoseconds an item; the call tells how many items it did.
fn timed(call: &mut impl FnMut() -> u64) -> f64 {
    let start = Instant::now();
    let items = call();
    start.elapsed().as_nanos() as f64 / items as f64
}

fn done(code: i32) {
    assert_eq!(code, 0, "refused");
}

fn encode_ours(model: &BridgeModel, symbols: &[i32], out: &mut Buffers) -> u64 {
    let n = symbols.len();
    let (starts, lengths) = (&mut out.starts[..n], &mut out.lengths[..n]);
    // SAFETY: each pointer goes with the length of its slice
    done(unsafe {
        bridge::bridge_pace_encode(model, symbols.as_ptr(), n, starts.as_mut_ptr(), n, lengths.as_mut_ptr(), n)
    });
    n as u64
}

fn search_ours(model: &BridgeModel, quantiles: &[u32], out: &mut Buffers) -> u64 {
    let n = quantiles.len();
    let (found, starts, lengths) = (&mut out.symbols[..n], &mut out.starts[..n], &mut out.lengths[..n]);
    // SAFETY: each pointer goes with the length of its slice
    done(unsafe {
        bridge::bridge_pace_find(
            model,
            quantiles.as_ptr(),
            n,
            found.as_mut_ptr(),
            n,
            starts.as_mut_ptr(),
            n,
            lengths.as_mut_ptr(),
            n,
        )
    });
    n as u64
}

fn rows_ours(model: &BridgeModel, page: &mut Buffers) -> u64 {
    let (n, mut rows) = (page.symbols.len(), 0);
    // SAFETY: each pointer goes with the length of its slice
    done(unsafe {
        bridge::bridge_pace_rows(
            model,
            page.symbols.as_mut_ptr(),
            n,
            page.starts.as_mut_ptr(),
            n,
            page.lengths.as_mut_ptr(),
            n,
            &mut rows,
        )
    });
    rows
}

/// One support and one Peak.
struct Course {
    min: i32,
    max: i32,
    peak: Peak,
}

impl Course {
    fn ours(&self, guess: Guess) -> BridgeModel {
        let Course { min, max, peak: Peak { centre, scale } } = *self;
        BridgeModel::of(&Model {
            symbols: SymbolType::I32,
            width: Width::W32,
            precision: PRECISION as u32,
            min: min.into(),
            max: max.into(),
            shape: Shape::Peak { centre, scale },
            guess,
        })
    }

    fn originals<D: Distribution>(&self, distribution: D) -> Quantized<D> {
        original::quantized(self.min, self.max, distribution)
    }

    fn run(&self, rounds: u64, random: &mut Random) {
        let Course { min, max, peak } = *self;
        println!("{min} to {max}, Peak {}, {}", peak.centre, peak.scale);
        self.encode(rounds, random);
        let quantiles: Vec<u32> = (0..ENTRIES).map(|_| random.below(1 << PRECISION) as u32).collect();
        search("  search, own guess", rounds, &self.originals(peak), &self.ours(Guess::Own), &quantiles);
        let stubborn = self.originals(Stubborn { inner: peak, guess: 0.0 });
        search("  search, guess 0", rounds, &stubborn, &self.ours(Guess::Always(0.0)), &quantiles);
        self.rows(if max - min > 100_000 { rounds.div_ceil(8) } else { rounds });
    }

    fn encode(&self, rounds: u64, random: &mut Random) {
        let any = |_| random.from_to(self.min.into(), self.max.into()) as i32;
        let symbols: Vec<i32> = (0..ENTRIES).map(any).collect();
        let (model, ours) = (self.originals(self.peak), self.ours(Guess::Own));
        let (mut a, mut b) = (Buffers::new(ENTRIES), Buffers::new(ENTRIES));
        let original = || original::encode(&model, &symbols, &mut a);
        race("  encode", rounds, original, || encode_ours(&ours, &symbols, &mut b));
        assert!(a == b, "encode differs");
    }

    fn rows(&self, rounds: u64) {
        let (model, ours) = (self.originals(self.peak), self.ours(Guess::Own));
        let (mut a, mut b) = (Buffers::new(PAGE), Buffers::new(PAGE));
        let table = || original::rows(&model, &mut a);
        race("  rows: the original's table, our fill", rounds, table, || rows_ours(&ours, &mut b));
        let encoded = || original::encoded_rows(&model, &mut a);
        race("  rows: the original's encode, our fill", rounds, encoded, || rows_ours(&ours, &mut b));
        assert!(a == b, "rows differ");
    }
}

fn search<D>(name: &str, rounds: u64, model: &Quantized<D>, ours: &BridgeModel, quantiles: &[u32])
where
    D: Inverse<Value = f64>,
{
    let (mut a, mut b) = (Buffers::new(ENTRIES), Buffers::new(ENTRIES));
    let original = || original::search(model, quantiles, &mut a);
    race(name, rounds, original, || search_ours(ours, quantiles, &mut b));
    assert!(a == b, "search differs");
}

pub fn run(rounds: u64) {
    println!("nanoseconds an item, i32 symbols, u32 probabilities, P {PRECISION}, {rounds} rounds");
    println!("{:<44} {:^24}   {:^24}", "", "the quickest round", "the middle round");
    println!(
        "{:<44} {:>8} {:>8} {:>6}   {:>8} {:>8} {:>6}",
        "", "original", "here", "ratio", "original", "here", "ratio"
    );
    let mut random = Random::new(5);
    let half = 1 << 19;
    for (min, max, centre, scale) in [
        (-1000, 1000, 0.0, 16.0),
        (-1000, 1000, 700.25, 300.0),
        (-half, half - 1, 0.0, 1000.0),
        (-half, half - 1, 3e5, 5e4),
    ] {
        Course { min, max, peak: Peak { centre, scale } }.run(rounds, &mut random);
    }
    even::run(rounds, &mut random);
    single::run(rounds, &mut random);
}
