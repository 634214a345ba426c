//! Models, symbols, quantiles and guesses to ask about: random ones and all the ends.

use crate::model::{Guess, Model, Shape, SymbolType, Uniform, Width};
use crate::random::Random;

/// A make and a precision: the n-th of a round through all of them.
pub fn kind(n: u64) -> (SymbolType, Width, u32) {
    let per_type: u64 = Width::ALL.iter().map(|width| u64::from(width.bits())).sum();
    let symbols = SymbolType::ALL[(n / per_type % 4) as usize];
    let (width, precision) = uniform_kind(n % per_type);
    (symbols, width, precision)
}

fn uniform_kind(n: u64) -> (Width, u32) {
    match n % 48 {
        n @ 0..=15 => (Width::W16, n as u32 + 1),
        n => (Width::W32, n as u32 - 15),
    }
}

/// The widest span on which both sides are to agree.
pub fn widest(symbols: SymbolType, precision: u32) -> u64 {
    let room = (1u64 << precision) - 1;
    room.min(symbols.greatest() as u64 - 1)
}

fn span(random: &mut Random, widest: u64) -> u64 {
    match random.below(8) {
        0 => 1,
        1 => 2.min(widest),
        2 => widest,
        3 => widest.saturating_sub(1).max(1),
        _ => random.of_any_size(widest),
    }
}

fn lowest(random: &mut Random, symbols: SymbolType, span: u64) -> i64 {
    let (least, most) = (symbols.least(), symbols.greatest() - span as i64);
    match random.below(6) {
        0 => least,
        1 => most,
        2 => 0.clamp(least, most),
        3 => (-(span as i64) / 2).clamp(least, most),
        _ => random.from_to(least, most),
    }
}

/// A model inside the common domain, with its own guess.
pub fn model(random: &mut Random, n: u64) -> Model {
    let (symbols, width, precision) = kind(n);
    let span = span(random, widest(symbols, precision));
    let min = lowest(random, symbols, span);
    let max = min + span as i64;
    let shape = shape(random, min, max);
    Model { symbols, width, precision, min, max, shape, guess: Guess::Own }
}

pub fn shape(random: &mut Random, min: i64, max: i64) -> Shape {
    match random.below(8) {
        0 => Shape::Flat { height: random.pick(&[0.0, -0.0, 1.0, 0.5, f64::MIN_POSITIVE, 1.0 - f64::EPSILON / 2.0]) },
        1 => Shape::Flat { height: random.fraction() },
        2 | 3 => profile(random, min, max),
        _ => peak(random, min, max),
    }
}

pub fn peak(random: &mut Random, min: i64, max: i64) -> Shape {
    const FAR: f64 = (1u64 << 40) as f64;
    let inside = random.from_to(min, max) as f64;
    let centre = match random.below(8) {
        0 => random.pick(&[-FAR, FAR, 0.0, -0.0, min as f64, max as f64]),
        1 => inside + 0.5,
        2 => inside,
        3 => FAR * (2.0 * random.fraction() - 1.0),
        _ => inside + random.fraction(),
    };
    let scale = match random.below(6) {
        0 => random.pick(&[1.0 / 1048576.0, FAR, 1.0, 16.0]),
        1 | 2 => 2f64.powi(random.from_to(-20, 39) as i32) * (1.0 + random.fraction()),
        _ => ((max - min) as f64 * random.fraction()).clamp(1.0 / 1048576.0, FAR),
    };
    Shape::Peak { centre, scale }
}

fn profile(random: &mut Random, min: i64, max: i64) -> Shape {
    let count = match random.below(16) {
        0 => 1025,
        1 => 2,
        _ => 2 + random.below(30) as usize,
    };
    let fitting = ((max - min) as u64 / (count as u64 - 1)).clamp(1, 65536);
    let width = if random.chance(2) { fitting } else { random.of_any_size(65536) } as u32;
    let first = match random.below(4) {
        0 => random.from_to(i32::MIN.into(), i32::MAX.into()),
        _ => random.from_to(min, max).clamp(i32::MIN.into(), i32::MAX.into()),
    } as i32;
    let greatest = random.pick(&[1, 2, 7, 1000, u32::MAX]);
    let mut knots: Vec<u32> = (0..count).map(|_| random.below(u64::from(greatest) + 1) as u32).collect();
    knots.sort_unstable();
    knots[0] = 0;
    knots[count - 1] = knots[count - 1].max(1);
    Shape::Profile { first, width, knots }
}

/// Symbols of the type: the ends, one outside either end, their neighbours, and some at random.
pub fn symbols(random: &mut Random, model: &Model) -> Vec<i64> {
    let Model { min, max, symbols, .. } = *model;
    let mut list = vec![min, max, min - 1, max + 1, min + 1, max - 1, symbols.least(), symbols.greatest()];
    list.extend((0..4).map(|_| random.from_to(min, max)));
    list.push(random.from_to(symbols.least(), symbols.greatest()));
    list.retain(|&symbol| symbols.holds(symbol));
    list
}

/// Quantiles below 2^P: the first and the last, and the first and last of the given intervals, with their neighbours.
pub fn quantiles(random: &mut Random, precision: u32, intervals: &[(u64, u64)]) -> Vec<u64> {
    let whole = 1u64 << precision;
    let mut list = vec![0, whole - 1, random.below(whole), random.below(whole)];
    for &(start, length) in intervals {
        list.extend([start, start + length - 1]);
    }
    list
}

/// Guesses that mislead: at the ends, beside them, far away, no numbers at all.
pub fn hostile_guesses(model: &Model) -> Vec<f64> {
    let (min, max) = (model.min as f64, model.max as f64);
    let (least, greatest) = (model.symbols.least() as f64, model.symbols.greatest() as f64);
    vec![
        min,
        min - 1.0,
        min + 1.0,
        max,
        max + 1.0,
        max - 1.0,
        (min + max) / 2.0,
        least,
        least - 1.0,
        greatest,
        greatest + 1.0,
        0.0,
        1e300,
        -1e300,
        f64::INFINITY,
        f64::NEG_INFINITY,
        f64::NAN,
    ]
}

/// A lawful uniform model.
pub fn uniform(random: &mut Random, n: u64) -> Uniform {
    let (width, precision) = uniform_kind(n);
    let whole = 1u64 << precision;
    let range = match random.below(8) {
        0 => 2,
        1 => whole,
        2 => (whole - 1).max(2),
        3 => (whole / 2 + 1).max(2),
        _ => random.of_any_size(whole).max(2),
    };
    Uniform { width, precision, range }
}

/// Symbols that fit the probability type.
pub fn uniform_symbols(random: &mut Random, model: Uniform) -> Vec<u64> {
    let greatest = model.width.greatest();
    let mut list = vec![0, 1, model.range - 1, model.range, model.range + 1, model.range - 2, greatest];
    list.extend((0..4).map(|_| random.below(model.range)));
    list.push(random.below(greatest + 1));
    list.retain(|&symbol| symbol <= greatest);
    list
}
