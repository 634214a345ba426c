//! The reference of the rules behind the C functions of both libraries: for a driver built before the libraries are.

use crate::bridge::BridgeModel;
use crate::model::{Answered, Guess, Interval, Model, Row, Shape, Side, SymbolType, Uniform, Width};
use crate::pace::users::{RawInterval, RawPeak, RawRow, RawUniform, RawUniformRow};
use crate::reference::Reference;
use std::slice::{from_raw_parts, from_raw_parts_mut};

fn code(answer: Answered<()>) -> i32 {
    answer.map_or_else(|refused| refused.0 as i32, |()| 0)
}

unsafe fn model(raw: *const BridgeModel, knots: *const u32, count: usize) -> Model {
    let raw = *raw;
    let shape = match raw.shape {
        0 => Shape::Peak { centre: raw.a, scale: raw.b },
        1 => Shape::Flat { height: raw.a },
        _ => Shape::Profile { first: raw.first, width: raw.width, knots: from_raw_parts(knots, count).to_vec() },
    };
    Model {
        symbols: SymbolType::ALL[(raw.make / 2) as usize],
        width: Width::ALL[(raw.make % 2) as usize],
        precision: raw.precision,
        min: raw.min,
        max: raw.max,
        shape,
        guess: if raw.guessing == 0 { Guess::Own } else { Guess::Always(raw.guess) },
    }
}

fn peak(raw: &RawPeak) -> Model {
    Model {
        symbols: SymbolType::I32,
        width: Width::W32,
        precision: raw.precision,
        min: raw.min.into(),
        max: raw.max.into(),
        shape: Shape::Peak { centre: raw.centre, scale: raw.scale },
        guess: Guess::Own,
    }
}

fn uniform(width: u32, precision: u32, range: u64) -> Uniform {
    Uniform { width: if width == 16 { Width::W16 } else { Width::W32 }, precision, range }
}

fn write_intervals(answers: Vec<Option<Interval>>, starts: &mut [u64], lengths: &mut [u64]) {
    for (i, answer) in answers.into_iter().enumerate() {
        let Interval { start, length } = answer.unwrap_or_default();
        (starts[i], lengths[i]) = (start, length);
    }
}

fn write_rows(answers: Vec<Option<Row>>, symbols: &mut [i64], starts: &mut [u64], lengths: &mut [u64]) {
    for (i, answer) in answers.into_iter().enumerate() {
        let Row { symbol, start, length } = answer.unwrap_or_default();
        (symbols[i], starts[i], lengths[i]) = (symbol, start, length);
    }
}

#[no_mangle]
unsafe extern "C" fn bridge_encode(
    raw: *const BridgeModel,
    knots: *const u32,
    k: usize,
    symbols: *const i64,
    n: usize,
    starts: *mut u64,
    m: usize,
    lengths: *mut u64,
    l: usize,
) -> i32 {
    let answer = Reference.encode(&model(raw, knots, k), from_raw_parts(symbols, n));
    code(answer.map(|list| write_intervals(list, from_raw_parts_mut(starts, m), from_raw_parts_mut(lengths, l))))
}

#[no_mangle]
unsafe extern "C" fn bridge_find(
    raw: *const BridgeModel,
    knots: *const u32,
    k: usize,
    quantiles: *const u64,
    q: usize,
    symbols: *mut i64,
    n: usize,
    starts: *mut u64,
    m: usize,
    lengths: *mut u64,
    l: usize,
) -> i32 {
    let answer = Reference.search(&model(raw, knots, k), from_raw_parts(quantiles, q));
    code(answer.map(|list| {
        write_rows(list, from_raw_parts_mut(symbols, n), from_raw_parts_mut(starts, m), from_raw_parts_mut(lengths, l))
    }))
}

#[no_mangle]
unsafe extern "C" fn bridge_probability(
    raw: *const BridgeModel,
    knots: *const u32,
    k: usize,
    symbols: *const i64,
    n: usize,
    probabilities: *mut f64,
    m: usize,
) -> i32 {
    let answer = Reference.probability(&model(raw, knots, k), from_raw_parts(symbols, n));
    code(answer.map(|list| from_raw_parts_mut(probabilities, m).copy_from_slice(&list)))
}

#[no_mangle]
unsafe extern "C" fn bridge_rows(
    raw: *const BridgeModel,
    knots: *const u32,
    k: usize,
    symbols: *mut i64,
    n: usize,
    starts: *mut u64,
    m: usize,
    lengths: *mut u64,
    l: usize,
    count: *mut usize,
) -> i32 {
    let answer = Reference.rows(&model(raw, knots, k), n);
    code(answer.map(|list| {
        *count = list.len();
        let list = list.into_iter().map(Some).collect();
        write_rows(list, from_raw_parts_mut(symbols, n), from_raw_parts_mut(starts, m), from_raw_parts_mut(lengths, l))
    }))
}

#[no_mangle]
unsafe extern "C" fn bridge_uniform_encode(
    width: u32,
    precision: u32,
    range: u64,
    symbols: *const u64,
    n: usize,
    starts: *mut u64,
    m: usize,
    lengths: *mut u64,
    l: usize,
) -> i32 {
    let answer = Reference.uniform_encode(uniform(width, precision, range), from_raw_parts(symbols, n));
    code(answer.map(|list| write_intervals(list, from_raw_parts_mut(starts, m), from_raw_parts_mut(lengths, l))))
}

#[no_mangle]
unsafe extern "C" fn bridge_uniform_find(
    width: u32,
    precision: u32,
    range: u64,
    quantiles: *const u64,
    q: usize,
    symbols: *mut u64,
    n: usize,
    starts: *mut u64,
    m: usize,
    lengths: *mut u64,
    l: usize,
) -> i32 {
    let answer = Reference.uniform_search(uniform(width, precision, range), from_raw_parts(quantiles, q));
    code(answer.map(|list| {
        write_rows(
            list,
            from_raw_parts_mut(symbols.cast(), n),
            from_raw_parts_mut(starts, m),
            from_raw_parts_mut(lengths, l),
        )
    }))
}

#[no_mangle]
unsafe extern "C" fn bridge_uniform_probability(
    width: u32,
    precision: u32,
    range: u64,
    symbols: *const u64,
    n: usize,
    probabilities: *mut f64,
    m: usize,
) -> i32 {
    let answer = Reference.uniform_probability(uniform(width, precision, range), from_raw_parts(symbols, n));
    code(answer.map(|list| from_raw_parts_mut(probabilities, m).copy_from_slice(&list)))
}

#[no_mangle]
unsafe extern "C" fn bridge_pace_encode(
    raw: *const BridgeModel,
    symbols: *const i32,
    n: usize,
    starts: *mut u32,
    m: usize,
    lengths: *mut u32,
    l: usize,
) -> i32 {
    let wide: Vec<i64> = from_raw_parts(symbols, n).iter().map(|&symbol| symbol.into()).collect();
    let (starts, lengths) = (from_raw_parts_mut(starts, m), from_raw_parts_mut(lengths, l));
    code(Reference.encode(&model(raw, [].as_ptr(), 0), &wide).map(|list| {
        for (i, interval) in list.into_iter().flatten().enumerate() {
            (starts[i], lengths[i]) = (interval.start as u32, interval.length as u32);
        }
    }))
}

unsafe fn write_narrow(rows: &[Row], symbols: *mut i32, starts: *mut u32, lengths: *mut u32) {
    for (i, row) in rows.iter().enumerate() {
        *symbols.add(i) = row.symbol as i32;
        *starts.add(i) = row.start as u32;
        *lengths.add(i) = row.length as u32;
    }
}

#[no_mangle]
unsafe extern "C" fn bridge_pace_find(
    raw: *const BridgeModel,
    quantiles: *const u32,
    q: usize,
    symbols: *mut i32,
    _n: usize,
    starts: *mut u32,
    _m: usize,
    lengths: *mut u32,
    _l: usize,
) -> i32 {
    let wide: Vec<u64> = from_raw_parts(quantiles, q).iter().map(|&q| q.into()).collect();
    let answer = Reference.search(&model(raw, [].as_ptr(), 0), &wide);
    code(answer.map(|list| write_narrow(&list.into_iter().flatten().collect::<Vec<_>>(), symbols, starts, lengths)))
}

#[no_mangle]
unsafe extern "C" fn bridge_pace_rows(
    raw: *const BridgeModel,
    symbols: *mut i32,
    n: usize,
    starts: *mut u32,
    _m: usize,
    lengths: *mut u32,
    _l: usize,
    rows: *mut u64,
) -> i32 {
    code(Reference.rows(&model(raw, [].as_ptr(), 0), usize::MAX).map(|list| {
        *rows = list.len() as u64;
        for page in list.chunks(n) {
            write_narrow(page, symbols, starts, lengths);
        }
    }))
}

#[no_mangle]
unsafe extern "C" fn toghinzu_peak_open(
    channel: *mut RawPeak,
    min: i32,
    max: i32,
    precision: u32,
    centre: f64,
    scale: f64,
) -> i32 {
    let raw = RawPeak { min, max, precision, centre, scale, row: 0 };
    code(Reference.rows(&peak(&raw), 0).map(|_| *channel = raw))
}

#[no_mangle]
unsafe extern "C" fn toghinzu_peak_encode(channel: *const RawPeak, symbol: i32, interval: *mut RawInterval) -> i32 {
    one_interval(Reference.encode(&peak(&*channel), &[symbol.into()]), interval)
}

unsafe fn one_interval(answer: Answered<Vec<Option<Interval>>>, interval: *mut RawInterval) -> i32 {
    match answer.map(|list| list[0]) {
        Err(refused) => refused.0 as i32,
        Ok(None) => -1,
        Ok(Some(Interval { start, length })) => {
            *interval = RawInterval { start: start as u32, length: length as u32 };
            0
        }
    }
}

#[no_mangle]
unsafe extern "C" fn toghinzu_peak_search(channel: *const RawPeak, quantile: u32, row: *mut RawRow) -> i32 {
    match Reference.search(&peak(&*channel), &[quantile.into()]).map(|list| list[0]) {
        Err(refused) => refused.0 as i32,
        Ok(None) => 4,
        Ok(Some(Row { symbol, start, length })) => {
            *row = RawRow { symbol: symbol as i32, start: start as u32, length: length as u32 };
            0
        }
    }
}

#[no_mangle]
unsafe extern "C" fn toghinzu_uniform_open(channel: *mut RawUniform, range: u64, precision: u32) -> i32 {
    code(
        Reference
            .uniform_encode(uniform(32, precision, range), &[])
            .map(|_| *channel = RawUniform { range, precision, row: 0 }),
    )
}

#[no_mangle]
unsafe extern "C" fn toghinzu_uniform_encode(
    channel: *const RawUniform,
    symbol: u64,
    interval: *mut RawInterval,
) -> i32 {
    one_interval(Reference.uniform_encode(uniform(32, (*channel).precision, (*channel).range), &[symbol]), interval)
}

#[no_mangle]
unsafe extern "C" fn toghinzu_uniform_search(
    channel: *const RawUniform,
    quantile: u32,
    row: *mut RawUniformRow,
) -> i32 {
    match Reference
        .uniform_search(uniform(32, (*channel).precision, (*channel).range), &[quantile.into()])
        .map(|list| list[0])
    {
        Err(refused) => refused.0 as i32,
        Ok(None) => 4,
        Ok(Some(Row { symbol, start, length })) => {
            *row = RawUniformRow { symbol: symbol as u64, start: start as u32, length: length as u32 };
            0
        }
    }
}
