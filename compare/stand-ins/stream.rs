//! Stands in for the original's `stream`: the models alone, with none of its coders.

pub mod model;
