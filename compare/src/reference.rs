//! A third opinion: the rules, written once more in plain Rust, as directly as they read.
//! Whole numbers are `i128`; every float operation is one `f64` operation.

use crate::model::{Answered, Interval, Model, Refused, Row, Shape, Side, Uniform};

pub struct Reference;

const PRECISION: Refused = Refused(1);
const ORDER: Refused = Refused(2);
const SPAN: Refused = Refused(3);
const SHAPE: Refused = Refused(5);
const RANGE: Refused = Refused(7);

fn power(exponent: u32) -> i128 {
    1 << exponent
}

/// The height of a distribution at x.
pub fn height(shape: &Shape, x: f64) -> f64 {
    match *shape {
        Shape::Flat { height } => height,
        Shape::Peak { centre, scale } => {
            let z = (x - centre) / scale;
            if z < 0.0 {
                0.5 / (1.0 + (-z))
            } else {
                1.0 - 0.5 / (1.0 + z)
            }
        }
        Shape::Profile { first, width, ref knots } => along_knots(first, width, knots, x),
    }
}

fn along_knots(first: i32, width: u32, knots: &[u32], x: f64) -> f64 {
    let place = |i: usize| (i as u64 * u64::from(width)) as f64;
    let last = knots.len() - 1;
    let t = x - f64::from(first);
    if x.is_nan() || t < 0.0 {
        0.0
    } else if t >= place(last) {
        1.0
    } else {
        let i = (0..last).rev().find(|&i| place(i) <= t).unwrap_or(0);
        let rise = f64::from(knots[i + 1] - knots[i]);
        let g = f64::from(knots[i]) + rise * ((t - place(i)) / f64::from(width));
        f64::min(g, f64::from(knots[i + 1])) / f64::from(knots[last])
    }
}

/// A lawful quantized model, in whole numbers.
struct Quantized<'a> {
    low: i128,
    span: i128,
    whole: i128,
    shape: &'a Shape,
}

impl<'a> Quantized<'a> {
    fn of(model: &'a Model) -> Answered<Self> {
        if model.precision == 0 || model.precision > model.width.bits() {
            return Err(PRECISION);
        }
        if model.max <= model.min {
            return Err(ORDER);
        }
        let (low, high) = (i128::from(model.min), i128::from(model.max));
        if high - low >= power(model.precision) {
            return Err(SPAN);
        }
        lawful_shape(&model.shape)?;
        Ok(Quantized { low, span: high - low, whole: power(model.precision), shape: &model.shape })
    }

    /// Where the interval of the i-th symbol starts; one past the last, 2^P.
    fn start(&self, i: i128) -> i128 {
        if i == 0 {
            0
        } else if i > self.span {
            self.whole
        } else {
            self.weighed(i, 0.5) + i
        }
    }

    /// The free weight times the height at `back` below the i-th symbol, its fraction dropped.
    fn weighed(&self, i: i128, back: f64) -> i128 {
        let weight = (self.whole - 1 - self.span) as f64;
        (weight * height(self.shape, (self.low + i) as f64 - back)) as i128
    }

    fn interval(&self, i: i128) -> Interval {
        let start = self.start(i);
        Interval { start: start as u64, length: (self.start(i + 1) - start) as u64 }
    }

    fn row(&self, i: i128) -> Row {
        let Interval { start, length } = self.interval(i);
        Row { symbol: (self.low + i) as i64, start, length }
    }

    fn row_of(&self, symbol: i64) -> Option<i128> {
        let i = i128::from(symbol) - self.low;
        (0..=self.span).contains(&i).then_some(i)
    }

    /// The last row that starts at or below q.
    fn holding(&self, q: u64) -> Option<Row> {
        if i128::from(q) >= self.whole {
            return None;
        }
        let (mut below, mut above) = (0, self.span + 1);
        while above - below > 1 {
            let middle = (below + above) / 2;
            if self.start(middle) <= i128::from(q) {
                below = middle;
            } else {
                above = middle;
            }
        }
        Some(self.row(below))
    }
}

fn lawful_shape(shape: &Shape) -> Answered<()> {
    let far = power(40) as f64;
    match *shape {
        Shape::Peak { centre, scale } => {
            let lawful = (-far..=far).contains(&centre) && (1.0 / power(20) as f64..=far).contains(&scale);
            lawful.then_some(()).ok_or(SHAPE)
        }
        _ => Ok(()),
    }
}

/// The rows that the original's table has by its fault: start(k) = W × height(k − 1.5) + k − min.
pub fn rows_half_a_step_low(model: &Model, most: usize) -> Answered<Vec<Row>> {
    let quantized = Quantized::of(model)?;
    let start = |i: i128| match i {
        0 => 0,
        i if i > quantized.span => quantized.whole,
        i => quantized.weighed(i, 1.5) + i,
    };
    let row = |i: i128| Row {
        symbol: (quantized.low + i) as i64,
        start: start(i) as u64,
        length: (start(i + 1) - start(i)) as u64,
    };
    Ok((0..=quantized.span).take(most).map(row).collect())
}

struct Even {
    length: i128,
    range: i128,
    whole: i128,
}

impl Even {
    fn of(model: Uniform) -> Answered<Self> {
        if model.precision == 0 || model.precision > model.width.bits() {
            return Err(PRECISION);
        }
        let (range, whole) = (i128::from(model.range), power(model.precision));
        if range < 2 || range > whole {
            return Err(RANGE);
        }
        Ok(Even { length: whole / range, range, whole })
    }

    fn interval(&self, symbol: u64) -> Option<Interval> {
        let k = i128::from(symbol);
        let end = match k + 1 {
            after if after > self.range => return None,
            after if after == self.range => self.whole,
            after => after * self.length,
        };
        let start = k * self.length;
        Some(Interval { start: start as u64, length: (end - start) as u64 })
    }

    fn holding(&self, q: u64) -> Option<Row> {
        if i128::from(q) >= self.whole {
            return None;
        }
        let symbol = (i128::from(q) / self.length).min(self.range - 1) as u64;
        self.interval(symbol).map(|Interval { start, length }| Row { symbol: symbol as i64, start, length })
    }
}

fn share(interval: Option<Interval>, precision: u32) -> f64 {
    interval.map_or(0.0, |interval| interval.length as f64 / power(precision) as f64)
}

impl Side for Reference {
    fn name(&self) -> &'static str {
        "the rules"
    }

    fn encode(&self, model: &Model, symbols: &[i64]) -> Answered<Vec<Option<Interval>>> {
        let quantized = Quantized::of(model)?;
        Ok(symbols.iter().map(|&symbol| quantized.row_of(symbol).map(|i| quantized.interval(i))).collect())
    }

    fn search(&self, model: &Model, quantiles: &[u64]) -> Answered<Vec<Option<Row>>> {
        let quantized = Quantized::of(model)?;
        Ok(quantiles.iter().map(|&q| quantized.holding(q)).collect())
    }

    fn probability(&self, model: &Model, symbols: &[i64]) -> Answered<Vec<f64>> {
        let intervals = self.encode(model, symbols)?;
        Ok(intervals.into_iter().map(|interval| share(interval, model.precision)).collect())
    }

    fn rows(&self, model: &Model, most: usize) -> Answered<Vec<Row>> {
        let quantized = Quantized::of(model)?;
        Ok((0..=quantized.span).take(most).map(|i| quantized.row(i)).collect())
    }

    fn uniform_encode(&self, model: Uniform, symbols: &[u64]) -> Answered<Vec<Option<Interval>>> {
        let even = Even::of(model)?;
        Ok(symbols.iter().map(|&symbol| even.interval(symbol)).collect())
    }

    fn uniform_search(&self, model: Uniform, quantiles: &[u64]) -> Answered<Vec<Option<Row>>> {
        let even = Even::of(model)?;
        Ok(quantiles.iter().map(|&q| even.holding(q)).collect())
    }

    fn uniform_probability(&self, model: Uniform, symbols: &[u64]) -> Answered<Vec<f64>> {
        let even = Even::of(model)?;
        Ok(symbols.iter().map(|&symbol| share(even.interval(symbol), model.precision)).collect())
    }
}

/// Sixteen bits after the point of log2(n), for n from 1; 0 for 0.
fn fine_logarithm(n: u32) -> u64 {
    if n == 0 {
        return 0;
    }
    let mut x = u64::from(n) << n.leading_zeros();
    let mut v = u64::from(31 - n.leading_zeros());
    for _ in 0..16 {
        let square = x * x;
        let bit = square >> 63;
        x = square >> (31 + bit);
        v = 2 * v + bit;
    }
    v
}

/// The entropy of a model over its right rows, by the fine logarithm.
pub fn entropy(model: &Model) -> Answered<f64> {
    let rows = Reference.rows(model, usize::MAX)?;
    let sum: u64 = rows.iter().map(|row| row.length * fine_logarithm(row.length as u32)).sum();
    Ok(f64::from(model.precision) - sum as f64 / power(model.precision + 16) as f64)
}

/// The cross entropy of a model with weights over its right rows, by the fine logarithm.
pub fn cross_entropy(model: &Model, weights: &[f64]) -> Answered<f64> {
    let rows = Reference.rows(model, weights.len())?;
    let terms = rows.iter().zip(weights).map(|(row, weight)| {
        let v = fine_logarithm(row.length as u32) as f64;
        weight * (f64::from(model.precision) - v / 65536.0)
    });
    Ok(terms.fold(0.0, |sum, term| sum + term))
}
