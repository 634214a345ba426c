//! One call at a time through the users' C library, against the same shape of call on the original.

use super::original::{self, Even, Quantized, PRECISION};
use super::users::{self, RawInterval, RawPeak, RawRow, RawUniform, RawUniformRow};
use super::{done, race, ENTRIES};
use crate::distributions::Peak;
use crate::random::Random;
use constriction::stream::model::{DecoderModel, EncoderModel};
use constriction::NonZeroBitArray;

#[inline(never)]
extern "C" fn original_peak_encode(model: &Quantized<Peak>, symbol: i32, interval: &mut RawInterval) -> i32 {
    let Some((start, length)) = model.left_cumulative_and_probability(symbol) else { return -1 };
    *interval = RawInterval { start, length: NonZeroBitArray::get(length) };
    0
}

#[inline(never)]
extern "C" fn original_peak_search(model: &Quantized<Peak>, quantile: u32, row: &mut RawRow) -> i32 {
    let (symbol, start, length) = model.quantile_function(quantile);
    *row = RawRow { symbol, start, length: NonZeroBitArray::get(length) };
    0
}

#[inline(never)]
extern "C" fn original_uniform_encode(model: &Even, symbol: u64, interval: &mut RawInterval) -> i32 {
    let Some((start, length)) = model.left_cumulative_and_probability(symbol as usize) else { return -1 };
    *interval = RawInterval { start, length: NonZeroBitArray::get(length) };
    0
}

#[inline(never)]
extern "C" fn original_uniform_search(model: &Even, quantile: u32, row: &mut RawUniformRow) -> i32 {
    let (symbol, start, length) = model.quantile_function(quantile);
    *row = RawUniformRow { symbol: symbol as u64, start, length: NonZeroBitArray::get(length) };
    0
}

/// Makes one call for each entry and sums the lengths, so that no answer is left out.
fn each<Q: Copy>(asked: &[Q], mut call: impl FnMut(Q) -> u32) -> u64 {
    let sum = asked.iter().fold(0u64, |sum, &entry| sum + u64::from(call(entry)));
    std::hint::black_box(sum);
    asked.len() as u64
}

// SAFETY, of each call below: the structs that it is handed are there.

fn peak_encode(rounds: u64, model: &Quantized<Peak>, channel: &RawPeak, symbols: &[i32]) {
    let (mut a, mut b) = (RawInterval::default(), RawInterval::default());
    let mut original = |symbol| {
        original_peak_encode(model, symbol, &mut a);
        a.length
    };
    let mut ours = |symbol| {
        done(unsafe { users::toghinzu_peak_encode(channel, symbol, &mut b) });
        b.length
    };
    race("  encode", rounds, || each(symbols, &mut original), || each(symbols, &mut ours));
}

fn peak_search(rounds: u64, model: &Quantized<Peak>, channel: &RawPeak, quantiles: &[u32]) {
    let (mut a, mut b) = (RawRow::default(), RawRow::default());
    let mut original = |quantile| {
        original_peak_search(model, quantile, &mut a);
        a.length
    };
    let mut ours = |quantile| {
        done(unsafe { users::toghinzu_peak_search(channel, quantile, &mut b) });
        b.length
    };
    race("  search", rounds, || each(quantiles, &mut original), || each(quantiles, &mut ours));
}

fn uniform_encode(rounds: u64, model: &Even, channel: &RawUniform, symbols: &[u64]) {
    let (mut a, mut b) = (RawInterval::default(), RawInterval::default());
    let mut original = |symbol| {
        original_uniform_encode(model, symbol, &mut a);
        a.length
    };
    let mut ours = |symbol| {
        done(unsafe { users::toghinzu_uniform_encode(channel, symbol, &mut b) });
        b.length
    };
    race("  encode", rounds, || each(symbols, &mut original), || each(symbols, &mut ours));
}

fn uniform_search(rounds: u64, model: &Even, channel: &RawUniform, quantiles: &[u32]) {
    let (mut a, mut b) = (RawUniformRow::default(), RawUniformRow::default());
    let mut original = |quantile| {
        original_uniform_search(model, quantile, &mut a);
        a.length
    };
    let mut ours = |quantile| {
        done(unsafe { users::toghinzu_uniform_search(channel, quantile, &mut b) });
        b.length
    };
    race("  search", rounds, || each(quantiles, &mut original), || each(quantiles, &mut ours));
}

pub fn run(rounds: u64, random: &mut Random) {
    let quantiles: Vec<u32> = (0..ENTRIES).map(|_| random.below(1 << PRECISION) as u32).collect();
    println!("single calls of the users' C library: -1000 to 1000, Peak 0, 16");
    let symbols: Vec<i32> = (0..ENTRIES).map(|_| random.from_to(-1000, 1000) as i32).collect();
    let model = original::quantized(-1000, 1000, Peak { centre: 0.0, scale: 16.0 });
    let mut channel = RawPeak::default();
    done(unsafe { users::toghinzu_peak_open(&mut channel, -1000, 1000, PRECISION as u32, 0.0, 16.0) });
    peak_encode(rounds, &model, &channel, &symbols);
    peak_search(rounds, &model, &channel, &quantiles);

    println!("single calls of the users' C library: uniform, range 2001");
    let symbols: Vec<u64> = (0..ENTRIES).map(|_| random.below(2001)).collect();
    let model = Even::new(2001);
    let mut channel = RawUniform::default();
    done(unsafe { users::toghinzu_uniform_open(&mut channel, 2001, PRECISION as u32) });
    uniform_encode(rounds, &model, &channel, &symbols);
    uniform_search(rounds, &model, &channel, &quantiles);
}
