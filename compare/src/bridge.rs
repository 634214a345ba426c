//! The C functions of the library `bridge`, as its header has them.

use crate::model::{Guess, Model, Shape};

#[repr(C)]
#[derive(Clone, Copy, Debug)]
pub struct BridgeModel {
    pub make: u32,
    pub precision: u32,
    pub min: i64,
    pub max: i64,
    pub shape: u32,
    pub guessing: u32,
    pub a: f64,
    pub b: f64,
    pub guess: f64,
    pub first: i32,
    pub width: u32,
}

impl BridgeModel {
    /// The model as C has it, but for the knots, which each call is handed.
    pub fn of(model: &Model) -> BridgeModel {
        let (shape, a, b, first, width) = match model.shape {
            Shape::Peak { centre, scale } => (0, centre, scale, 0, 1),
            Shape::Flat { height } => (1, height, 0.0, 0, 1),
            Shape::Profile { first, width, .. } => (2, 0.0, 0.0, first, width),
        };
        let (guessing, guess) = match model.guess {
            Guess::Own => (0, 0.0),
            Guess::Always(guess) => (1, guess),
        };
        BridgeModel {
            make: model.make(),
            precision: model.precision,
            min: model.min,
            max: model.max,
            shape,
            guessing,
            a,
            b,
            guess,
            first,
            width,
        }
    }
}

pub fn knots(model: &Model) -> &[u32] {
    match &model.shape {
        Shape::Profile { knots, .. } => knots,
        _ => &[],
    }
}

extern "C" {
    pub fn bridge_encode(
        model: *const BridgeModel,
        knots: *const u32,
        knot_count: usize,
        symbols: *const i64,
        symbol_count: usize,
        starts: *mut u64,
        start_count: usize,
        lengths: *mut u64,
        length_count: usize,
    ) -> i32;

    pub fn bridge_find(
        model: *const BridgeModel,
        knots: *const u32,
        knot_count: usize,
        quantiles: *const u64,
        quantile_count: usize,
        symbols: *mut i64,
        symbol_count: usize,
        starts: *mut u64,
        start_count: usize,
        lengths: *mut u64,
        length_count: usize,
    ) -> i32;

    pub fn bridge_probability(
        model: *const BridgeModel,
        knots: *const u32,
        knot_count: usize,
        symbols: *const i64,
        symbol_count: usize,
        probabilities: *mut f64,
        probability_count: usize,
    ) -> i32;

    pub fn bridge_rows(
        model: *const BridgeModel,
        knots: *const u32,
        knot_count: usize,
        symbols: *mut i64,
        symbol_count: usize,
        starts: *mut u64,
        start_count: usize,
        lengths: *mut u64,
        length_count: usize,
        count: *mut usize,
    ) -> i32;

    pub fn bridge_uniform_encode(
        width: u32,
        precision: u32,
        range: u64,
        symbols: *const u64,
        symbol_count: usize,
        starts: *mut u64,
        start_count: usize,
        lengths: *mut u64,
        length_count: usize,
    ) -> i32;

    pub fn bridge_uniform_find(
        width: u32,
        precision: u32,
        range: u64,
        quantiles: *const u64,
        quantile_count: usize,
        symbols: *mut u64,
        symbol_count: usize,
        starts: *mut u64,
        start_count: usize,
        lengths: *mut u64,
        length_count: usize,
    ) -> i32;

    pub fn bridge_uniform_probability(
        width: u32,
        precision: u32,
        range: u64,
        symbols: *const u64,
        symbol_count: usize,
        probabilities: *mut f64,
        probability_count: usize,
    ) -> i32;

    pub fn bridge_pace_encode(
        model: *const BridgeModel,
        symbols: *const i32,
        symbol_count: usize,
        starts: *mut u32,
        start_count: usize,
        lengths: *mut u32,
        length_count: usize,
    ) -> i32;

    pub fn bridge_pace_find(
        model: *const BridgeModel,
        quantiles: *const u32,
        quantile_count: usize,
        symbols: *mut i32,
        symbol_count: usize,
        starts: *mut u32,
        start_count: usize,
        lengths: *mut u32,
        length_count: usize,
    ) -> i32;

    pub fn bridge_pace_rows(
        model: *const BridgeModel,
        symbols: *mut i32,
        symbol_count: usize,
        starts: *mut u32,
        start_count: usize,
        lengths: *mut u32,
        length_count: usize,
        rows: *mut u64,
    ) -> i32;
}
