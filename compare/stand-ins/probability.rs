//! Stands in for the crate `probability`: its two traits, as far as the original uses them.
//! The driver implements them by the formulas of Peak and Profile.

pub mod distribution {
    /// A distribution, known by its cumulative function.
    pub trait Distribution {
        type Value;

        fn distribution(&self, x: f64) -> f64;
    }

    /// A distribution that can guess where its cumulative function takes a value.
    pub trait Inverse: Distribution {
        fn inverse(&self, p: f64) -> Self::Value;
    }
}
