//! What the driver asks of the library for users; the program has it from the library's own Rust wrapper.

use crate::model::{Answered, Interval, Model, Row, Uniform};

/// The calls of one channel. A list is asked entry by entry.
pub trait Calls<S> {
    fn encode(&self, symbols: &[S]) -> Vec<Option<Interval>>;

    fn search(&self, quantiles: &[u64]) -> Answered<Vec<Option<Row>>>;

    /// So many rows from where the walk stands, by as many fills as it takes.
    fn fill(&mut self, most: usize) -> Vec<Row>;
}

/// Opens channels; nothing where the library has no such make.
pub trait Users {
    fn peak(&self, model: &Model) -> Option<Box<dyn Calls<i64>>>;

    fn uniform(&self, model: Uniform) -> Option<Box<dyn Calls<u64>>>;
}

/// Nobody: for a driver without the library.
pub struct Nobody;

impl Users for Nobody {
    fn peak(&self, _: &Model) -> Option<Box<dyn Calls<i64>>> {
        None
    }

    fn uniform(&self, _: Uniform) -> Option<Box<dyn Calls<u64>>> {
        None
    }
}
