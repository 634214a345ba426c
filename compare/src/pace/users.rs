//! The C functions of the users' library that are timed, as its header has them.

#[repr(C)]
#[derive(Clone, Copy, Debug, Default)]
pub struct RawInterval {
    pub start: u32,
    pub length: u32,
}

#[repr(C)]
#[derive(Clone, Copy, Debug, Default)]
pub struct RawRow {
    pub symbol: i32,
    pub start: u32,
    pub length: u32,
}

#[repr(C)]
#[derive(Clone, Copy, Debug, Default)]
pub struct RawUniformRow {
    pub symbol: u64,
    pub start: u32,
    pub length: u32,
}

#[repr(C)]
#[derive(Clone, Copy, Debug, Default)]
pub struct RawPeak {
    pub min: i32,
    pub max: i32,
    pub precision: u32,
    pub centre: f64,
    pub scale: f64,
    pub row: u64,
}

#[repr(C)]
#[derive(Clone, Copy, Debug, Default)]
pub struct RawUniform {
    pub range: u64,
    pub precision: u32,
    pub row: u64,
}

extern "C" {
    pub fn toghinzu_peak_open(
        channel: *mut RawPeak,
        min: i32,
        max: i32,
        precision: u32,
        centre: f64,
        scale: f64,
    ) -> i32;
    pub fn toghinzu_peak_encode(channel: *const RawPeak, symbol: i32, interval: *mut RawInterval) -> i32;
    pub fn toghinzu_peak_search(channel: *const RawPeak, quantile: u32, row: *mut RawRow) -> i32;
    pub fn toghinzu_uniform_open(channel: *mut RawUniform, range: u64, precision: u32) -> i32;
    pub fn toghinzu_uniform_encode(channel: *const RawUniform, symbol: u64, interval: *mut RawInterval) -> i32;
    pub fn toghinzu_uniform_search(channel: *const RawUniform, quantile: u32, row: *mut RawUniformRow) -> i32;
}
