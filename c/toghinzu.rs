//! Toghinzu for Rust: a safe wrapper over the static library, for `mod toghinzu;` in a crate that links `libtoghinzu.a`.
//! It allocates nothing. A channel is made by `open` alone, so its later calls are refused only for a quantile that is too large.

// a program may use a part of it
#![allow(dead_code)]

/// Why a call is refused.
#[derive(Clone, Copy, Debug, PartialEq, Eq)]
pub enum Refusal {
    /// the precision is 0 or above 32
    Precision,
    /// the highest symbol is not above the lowest
    Order,
    /// the support has more symbols than there are quantiles
    Span,
    /// the quantile is 2^precision or more
    Beyond,
    /// the centre or the scale is outside its limits
    Shape,
    /// the range is below 2 or above 2^precision
    Range,
}

/// Where a symbol's interval starts, and how long it is (at least 1).
#[repr(C)]
#[derive(Clone, Copy, Debug, Default, PartialEq, Eq)]
pub struct Interval {
    pub start: u32,
    pub length: u32,
}

/// A row of a Peak channel's table.
#[repr(C)]
#[derive(Clone, Copy, Debug, Default, PartialEq, Eq)]
pub struct Row {
    pub symbol: i32,
    pub start: u32,
    pub length: u32,
}

/// A row of a uniform channel's table.
#[repr(C)]
#[derive(Clone, Copy, Debug, Default, PartialEq, Eq)]
pub struct UniformRow {
    pub symbol: u64,
    pub start: u32,
    pub length: u32,
}

/// The symbols from `min` to `max`, by a Peak quantized at a precision, and a walk over the table.
#[repr(C)]
#[derive(Clone, Debug)]
pub struct PeakChannel {
    min: i32,
    max: i32,
    precision: u32,
    centre: f64,
    scale: f64,
    row: u64,
}

/// The symbols from 0 to `range - 1`, each as likely as any other, and a walk over the table.
#[repr(C)]
#[derive(Clone, Debug)]
pub struct UniformChannel {
    range: u64,
    precision: u32,
    row: u64,
}

mod c {
    use super::{Interval, PeakChannel, Row, UniformChannel, UniformRow};

    #[link(name = "toghinzu", kind = "static")]
    unsafe extern "C" {
        pub fn toghinzu_peak_open(channel: &mut PeakChannel, min: i32, max: i32, precision: u32, centre: f64, scale: f64) -> i32;
        pub fn toghinzu_peak_encode(channel: &PeakChannel, symbol: i32, interval: &mut Interval) -> i32;
        pub fn toghinzu_peak_search(channel: &PeakChannel, quantile: u32, row: &mut Row) -> i32;
        pub fn toghinzu_peak_fill(
            channel: &mut PeakChannel,
            symbols: *mut i32,
            n: usize,
            starts: *mut u32,
            m: usize,
            lengths: *mut u32,
            l: usize,
            count: &mut usize,
        ) -> i32;
        pub fn toghinzu_uniform_open(channel: &mut UniformChannel, range: u64, precision: u32) -> i32;
        pub fn toghinzu_uniform_encode(channel: &UniformChannel, symbol: u64, interval: &mut Interval) -> i32;
        pub fn toghinzu_uniform_search(channel: &UniformChannel, quantile: u32, row: &mut UniformRow) -> i32;
        pub fn toghinzu_uniform_fill(
            channel: &mut UniformChannel,
            symbols: *mut u64,
            n: usize,
            starts: *mut u32,
            m: usize,
            lengths: *mut u32,
            l: usize,
            count: &mut usize,
        ) -> i32;
    }
}

/// The answer of a call that has always one.
fn answer<T>(status: i32, value: T) -> Result<T, Refusal> {
    match status {
        0 => Ok(value),
        1 => Err(Refusal::Precision),
        2 => Err(Refusal::Order),
        3 => Err(Refusal::Span),
        4 => Err(Refusal::Beyond),
        5 => Err(Refusal::Shape),
        7 => Err(Refusal::Range),
        _ => unreachable!("the library has no such status"),
    }
}

impl PeakChannel {
    /// A channel, its walk at row 0, or the first refusal: precision, order, span, shape.
    pub fn open(min: i32, max: i32, precision: u32, centre: f64, scale: f64) -> Result<PeakChannel, Refusal> {
        let mut channel = PeakChannel { min, max, precision, centre, scale, row: 0 };
        let status = unsafe { c::toghinzu_peak_open(&mut channel, min, max, precision, centre, scale) };
        answer(status, channel)
    }

    /// The symbol's interval, or `None` outside the support.
    pub fn encode(&self, symbol: i32) -> Option<Interval> {
        let mut interval = Interval::default();
        let status = unsafe { c::toghinzu_peak_encode(self, symbol, &mut interval) };
        (status == 0).then_some(interval)
    }

    /// The one row whose interval holds the quantile, or the refusal where the quantile is 2^precision or more.
    pub fn search(&self, quantile: u32) -> Result<Row, Refusal> {
        let mut row = Row::default();
        let status = unsafe { c::toghinzu_peak_search(self, quantile, &mut row) };
        answer(status, row)
    }

    /// Writes the next rows of the table, at most as many as the shortest buffer holds, and tells how many; 0 where the walk has ended.
    pub fn fill(&mut self, symbols: &mut [i32], starts: &mut [u32], lengths: &mut [u32]) -> usize {
        let mut count = 0;
        let (n, m, l) = (symbols.len(), starts.len(), lengths.len());
        let (symbols, starts, lengths) = (symbols.as_mut_ptr(), starts.as_mut_ptr(), lengths.as_mut_ptr());
        unsafe { c::toghinzu_peak_fill(self, symbols, n, starts, m, lengths, l, &mut count) };
        count
    }

    /// Starts the walk over.
    pub fn rewind(&mut self) {
        self.row = 0;
    }
}

impl UniformChannel {
    /// A channel, its walk at row 0, or the first refusal: precision, range.
    pub fn open(range: u64, precision: u32) -> Result<UniformChannel, Refusal> {
        let mut channel = UniformChannel { range, precision, row: 0 };
        let status = unsafe { c::toghinzu_uniform_open(&mut channel, range, precision) };
        answer(status, channel)
    }

    /// The symbol's interval, or `None` outside the support.
    pub fn encode(&self, symbol: u64) -> Option<Interval> {
        let mut interval = Interval::default();
        let status = unsafe { c::toghinzu_uniform_encode(self, symbol, &mut interval) };
        (status == 0).then_some(interval)
    }

    /// The one row whose interval holds the quantile, or the refusal where the quantile is 2^precision or more.
    pub fn search(&self, quantile: u32) -> Result<UniformRow, Refusal> {
        let mut row = UniformRow::default();
        let status = unsafe { c::toghinzu_uniform_search(self, quantile, &mut row) };
        answer(status, row)
    }

    /// Writes the next rows of the table, at most as many as the shortest buffer holds, and tells how many; 0 where the walk has ended.
    pub fn fill(&mut self, symbols: &mut [u64], starts: &mut [u32], lengths: &mut [u32]) -> usize {
        let mut count = 0;
        let (n, m, l) = (symbols.len(), starts.len(), lengths.len());
        let (symbols, starts, lengths) = (symbols.as_mut_ptr(), starts.as_mut_ptr(), lengths.as_mut_ptr());
        unsafe { c::toghinzu_uniform_fill(self, symbols, n, starts, m, lengths, l, &mut count) };
        count
    }

    /// Starts the walk over.
    pub fn rewind(&mut self) {
        self.row = 0;
    }
}
