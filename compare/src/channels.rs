//! Channels of the library for users, by its Rust wrapper.

use crate::toghinzu::{self, PeakChannel, Refusal, UniformChannel};
use driver::model::{Answered, Guess, Interval, Model, Refused, Row, Shape, SymbolType, Uniform, Width};
use driver::users::{Calls, Users};

/// How many rows a fill is offered.
const SLOTS: usize = 7;

pub struct Library;

impl Users for Library {
    /// Peaks over `i32` symbols with `u32` probabilities.
    fn peak(&self, model: &Model) -> Option<Box<dyn Calls<i64>>> {
        let (SymbolType::I32, Width::W32, Guess::Own) = (model.symbols, model.width, model.guess) else { return None };
        let Shape::Peak { centre, scale } = model.shape else { return None };
        let opened = PeakChannel::open(model.min as i32, model.max as i32, model.precision, centre, scale);
        Some(Box::new(Peak(opened.expect("the model is lawful"))))
    }

    /// `u32` probabilities.
    fn uniform(&self, model: Uniform) -> Option<Box<dyn Calls<u64>>> {
        let Width::W32 = model.width else { return None };
        let opened = UniformChannel::open(model.range, model.precision);
        Some(Box::new(Even(opened.expect("the model is lawful"))))
    }
}

fn interval(toghinzu::Interval { start, length }: toghinzu::Interval) -> Interval {
    Interval { start: start.into(), length: length.into() }
}

fn number(refusal: Refusal) -> Refused {
    Refused(match refusal {
        Refusal::Precision => 1,
        Refusal::Order => 2,
        Refusal::Span => 3,
        Refusal::Beyond => 4,
        Refusal::Shape => 5,
        Refusal::Range => 7,
    })
}

struct Peak(PeakChannel);

impl Calls<i64> for Peak {
    fn encode(&self, symbols: &[i64]) -> Vec<Option<Interval>> {
        symbols.iter().map(|&symbol| self.0.encode(symbol as i32).map(interval)).collect()
    }

    fn search(&self, quantiles: &[u64]) -> Answered<Vec<Option<Row>>> {
        let row = |row: toghinzu::Row| {
            Some(Row { symbol: row.symbol.into(), start: row.start.into(), length: row.length.into() })
        };
        quantiles.iter().map(|&q| self.0.search(q as u32).map(row).map_err(number)).collect()
    }

    fn fill(&mut self, most: usize) -> Vec<Row> {
        let mut rows = Vec::new();
        let (mut symbols, mut starts, mut lengths) = ([0; SLOTS], [0; SLOTS], [0; SLOTS]);
        while rows.len() < most {
            let count = self.0.fill(&mut symbols, &mut starts, &mut lengths);
            if count == 0 {
                break;
            }
            let row = |i: usize| Row { symbol: symbols[i].into(), start: starts[i].into(), length: lengths[i].into() };
            rows.extend((0..count).map(row));
        }
        rows.truncate(most);
        rows
    }
}

struct Even(UniformChannel);

impl Calls<u64> for Even {
    fn encode(&self, symbols: &[u64]) -> Vec<Option<Interval>> {
        symbols.iter().map(|&symbol| self.0.encode(symbol).map(interval)).collect()
    }

    fn search(&self, quantiles: &[u64]) -> Answered<Vec<Option<Row>>> {
        let row = |row: toghinzu::UniformRow| {
            Some(Row { symbol: row.symbol as i64, start: row.start.into(), length: row.length.into() })
        };
        quantiles.iter().map(|&q| self.0.search(q as u32).map(row).map_err(number)).collect()
    }

    fn fill(&mut self, most: usize) -> Vec<Row> {
        let mut rows = Vec::new();
        let (mut symbols, mut starts, mut lengths) = ([0; SLOTS], [0; SLOTS], [0; SLOTS]);
        while rows.len() < most {
            let count = self.0.fill(&mut symbols, &mut starts, &mut lengths);
            if count == 0 {
                break;
            }
            let row = |i: usize| Row { symbol: symbols[i] as i64, start: starts[i].into(), length: lengths[i].into() };
            rows.extend((0..count).map(row));
        }
        rows.truncate(most);
        rows
    }
}
