//! This library, through its C functions: every call hands over slices and checks the status.

use crate::bridge::{self, BridgeModel};
use crate::model::{Answered, Interval, Model, Refused, Row, Side, Uniform};

pub struct Ours;

fn status(code: i32) -> Answered<()> {
    match code {
        0 => Ok(()),
        refused => Err(Refused(refused as u32)),
    }
}

fn intervals(starts: Vec<u64>, lengths: Vec<u64>) -> Vec<Option<Interval>> {
    let pairs = starts.into_iter().zip(lengths);
    pairs.map(|(start, length)| (length > 0).then_some(Interval { start, length })).collect()
}

fn found(symbols: Vec<i64>, starts: Vec<u64>, lengths: Vec<u64>) -> Vec<Option<Row>> {
    let entries = symbols.into_iter().zip(starts.into_iter().zip(lengths));
    entries.map(|(symbol, (start, length))| (length > 0).then_some(Row { symbol, start, length })).collect()
}

impl Side for Ours {
    fn name(&self) -> &'static str {
        "this library"
    }

    fn encode(&self, model: &Model, symbols: &[i64]) -> Answered<Vec<Option<Interval>>> {
        let (n, knots) = (symbols.len(), bridge::knots(model));
        let (mut starts, mut lengths) = (vec![0; n], vec![0; n]);
        // SAFETY: each pointer goes with the length of its slice
        status(unsafe {
            bridge::bridge_encode(
                &BridgeModel::of(model),
                knots.as_ptr(),
                knots.len(),
                symbols.as_ptr(),
                n,
                starts.as_mut_ptr(),
                n,
                lengths.as_mut_ptr(),
                n,
            )
        })?;
        Ok(intervals(starts, lengths))
    }

    fn search(&self, model: &Model, quantiles: &[u64]) -> Answered<Vec<Option<Row>>> {
        let (n, knots) = (quantiles.len(), bridge::knots(model));
        let (mut symbols, mut starts, mut lengths) = (vec![0; n], vec![0; n], vec![0; n]);
        // SAFETY: each pointer goes with the length of its slice
        status(unsafe {
            bridge::bridge_find(
                &BridgeModel::of(model),
                knots.as_ptr(),
                knots.len(),
                quantiles.as_ptr(),
                n,
                symbols.as_mut_ptr(),
                n,
                starts.as_mut_ptr(),
                n,
                lengths.as_mut_ptr(),
                n,
            )
        })?;
        Ok(found(symbols, starts, lengths))
    }

    fn probability(&self, model: &Model, symbols: &[i64]) -> Answered<Vec<f64>> {
        let (n, knots) = (symbols.len(), bridge::knots(model));
        let mut probabilities = vec![0.0; n];
        // SAFETY: each pointer goes with the length of its slice
        status(unsafe {
            bridge::bridge_probability(
                &BridgeModel::of(model),
                knots.as_ptr(),
                knots.len(),
                symbols.as_ptr(),
                n,
                probabilities.as_mut_ptr(),
                n,
            )
        })?;
        Ok(probabilities)
    }

    fn rows(&self, model: &Model, most: usize) -> Answered<Vec<Row>> {
        let knots = bridge::knots(model);
        let (mut symbols, mut starts, mut lengths) = (vec![0; most], vec![0; most], vec![0; most]);
        let mut count = 0;
        // SAFETY: each pointer goes with the length of its slice
        status(unsafe {
            bridge::bridge_rows(
                &BridgeModel::of(model),
                knots.as_ptr(),
                knots.len(),
                symbols.as_mut_ptr(),
                most,
                starts.as_mut_ptr(),
                most,
                lengths.as_mut_ptr(),
                most,
                &mut count,
            )
        })?;
        Ok(found(symbols, starts, lengths).into_iter().take(count).flatten().collect())
    }

    fn uniform_encode(&self, model: Uniform, symbols: &[u64]) -> Answered<Vec<Option<Interval>>> {
        let n = symbols.len();
        let (mut starts, mut lengths) = (vec![0; n], vec![0; n]);
        // SAFETY: each pointer goes with the length of its slice
        status(unsafe {
            bridge::bridge_uniform_encode(
                model.width.bits(),
                model.precision,
                model.range,
                symbols.as_ptr(),
                n,
                starts.as_mut_ptr(),
                n,
                lengths.as_mut_ptr(),
                n,
            )
        })?;
        Ok(intervals(starts, lengths))
    }

    fn uniform_search(&self, model: Uniform, quantiles: &[u64]) -> Answered<Vec<Option<Row>>> {
        let n = quantiles.len();
        let (mut symbols, mut starts, mut lengths) = (vec![0; n], vec![0; n], vec![0; n]);
        // SAFETY: each pointer goes with the length of its slice
        status(unsafe {
            bridge::bridge_uniform_find(
                model.width.bits(),
                model.precision,
                model.range,
                quantiles.as_ptr(),
                n,
                symbols.as_mut_ptr(),
                n,
                starts.as_mut_ptr(),
                n,
                lengths.as_mut_ptr(),
                n,
            )
        })?;
        let symbols = symbols.into_iter().map(|symbol: u64| symbol as i64).collect();
        Ok(found(symbols, starts, lengths))
    }

    fn uniform_probability(&self, model: Uniform, symbols: &[u64]) -> Answered<Vec<f64>> {
        let n = symbols.len();
        let mut probabilities = vec![0.0; n];
        // SAFETY: each pointer goes with the length of its slice
        status(unsafe {
            bridge::bridge_uniform_probability(
                model.width.bits(),
                model.precision,
                model.range,
                symbols.as_ptr(),
                n,
                probabilities.as_mut_ptr(),
                n,
            )
        })?;
        Ok(probabilities)
    }
}
