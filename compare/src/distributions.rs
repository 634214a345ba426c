//! Peak, Profile, a flat height and a stubborn guess, for the original's traits.

use crate::model::{Guess, Model, Shape};
use probability::distribution::{Distribution, Inverse};

/// A Peak, as the original is handed it where speed is measured.
#[derive(Clone, Copy, Debug)]
pub struct Peak {
    pub centre: f64,
    pub scale: f64,
}

impl Distribution for Peak {
    type Value = f64;

    #[inline]
    fn distribution(&self, x: f64) -> f64 {
        let z = (x - self.centre) / self.scale;
        if z < 0.0 {
            0.5 / (1.0 + -z)
        } else {
            1.0 - 0.5 / (1.0 + z)
        }
    }
}

impl Inverse for Peak {
    #[inline]
    fn inverse(&self, p: f64) -> f64 {
        if p < 0.5 {
            self.centre + self.scale * (1.0 - 0.5 / p)
        } else {
            self.centre + self.scale * (0.5 / (1.0 - p) - 1.0)
        }
    }
}

/// A distribution whose guess is always the same.
#[derive(Clone, Copy, Debug)]
pub struct Stubborn<D> {
    pub inner: D,
    pub guess: f64,
}

impl<D: Distribution> Distribution for Stubborn<D> {
    type Value = f64;

    #[inline]
    fn distribution(&self, x: f64) -> f64 {
        self.inner.distribution(x)
    }
}

impl<D: Distribution> Inverse for Stubborn<D> {
    #[inline]
    fn inverse(&self, _: f64) -> f64 {
        self.guess
    }
}

/// Whatever distribution a model has, chosen as the program runs.
#[derive(Clone, Copy, Debug)]
pub struct Chosen<'a> {
    shape: &'a Shape,
    guess: Guess,
}

impl<'a> Chosen<'a> {
    pub fn by(model: &'a Model) -> Self {
        Chosen { shape: &model.shape, guess: model.guess }
    }
}

impl Distribution for Chosen<'_> {
    type Value = f64;

    fn distribution(&self, x: f64) -> f64 {
        match *self.shape {
            Shape::Peak { centre, scale } => Peak { centre, scale }.distribution(x),
            Shape::Flat { height } => height,
            Shape::Profile { first, width, ref knots } => profile_height(first, width, knots, x),
        }
    }
}

impl Inverse for Chosen<'_> {
    fn inverse(&self, p: f64) -> f64 {
        match (self.guess, self.shape) {
            (Guess::Always(guess), _) => guess,
            (Guess::Own, &Shape::Peak { centre, scale }) => Peak { centre, scale }.inverse(p),
            (Guess::Own, Shape::Flat { .. }) => 0.0,
            (Guess::Own, &Shape::Profile { first, width, ref knots }) => profile_guess(first, width, knots, p),
        }
    }
}

fn profile_height(first: i32, width: u32, knots: &[u32], x: f64) -> f64 {
    let (w, pieces) = (f64::from(width), knots.len() - 1);
    let t = x - f64::from(first);
    if !(t >= 0.0) {
        return 0.0;
    }
    if t >= pieces as f64 * w {
        return 1.0;
    }
    // the quotient can round up to a whole number that t has not reached
    let mut i = ((t / w) as usize).min(pieces - 1);
    if i as f64 * w > t {
        i -= 1;
    }
    let (low, high) = (f64::from(knots[i]), f64::from(knots[i + 1]));
    let g = low + (high - low) * ((t - i as f64 * w) / w);
    g.min(high) / f64::from(knots[pieces])
}

fn profile_guess(first: i32, width: u32, knots: &[u32], p: f64) -> f64 {
    let bound = p * f64::from(knots[knots.len() - 1]);
    let below = knots.partition_point(|&knot| f64::from(knot) <= bound);
    let i = below.saturating_sub(1);
    f64::from(first) + i as f64 * f64::from(width)
}
