//! What is asked and what is answered, in types that no side narrows: models, intervals and rows.

use std::fmt;

#[derive(Clone, Copy, Debug, PartialEq, Eq)]
pub enum SymbolType {
    I16,
    U16,
    I32,
    U32,
}

impl SymbolType {
    pub const ALL: [SymbolType; 4] = [SymbolType::I16, SymbolType::U16, SymbolType::I32, SymbolType::U32];

    pub fn least(self) -> i64 {
        match self {
            SymbolType::I16 => i16::MIN.into(),
            SymbolType::I32 => i32::MIN.into(),
            SymbolType::U16 | SymbolType::U32 => 0,
        }
    }

    pub fn greatest(self) -> i64 {
        match self {
            SymbolType::I16 => i16::MAX.into(),
            SymbolType::U16 => u16::MAX.into(),
            SymbolType::I32 => i32::MAX.into(),
            SymbolType::U32 => u32::MAX.into(),
        }
    }

    pub fn holds(self, symbol: i64) -> bool {
        (self.least()..=self.greatest()).contains(&symbol)
    }
}

impl fmt::Display for SymbolType {
    fn fmt(&self, f: &mut fmt::Formatter<'_>) -> fmt::Result {
        f.write_str(match self {
            SymbolType::I16 => "i16",
            SymbolType::U16 => "u16",
            SymbolType::I32 => "i32",
            SymbolType::U32 => "u32",
        })
    }
}

/// The width of the probability type: `u16` or `u32`.
#[derive(Clone, Copy, Debug, PartialEq, Eq)]
pub enum Width {
    W16,
    W32,
}

impl Width {
    pub const ALL: [Width; 2] = [Width::W16, Width::W32];

    pub fn bits(self) -> u32 {
        match self {
            Width::W16 => 16,
            Width::W32 => 32,
        }
    }

    /// The greatest number of the probability type.
    pub fn greatest(self) -> u64 {
        (1 << self.bits()) - 1
    }
}

impl fmt::Display for Width {
    fn fmt(&self, f: &mut fmt::Formatter<'_>) -> fmt::Result {
        write!(f, "{}", self.bits())
    }
}

#[derive(Clone, Debug)]
pub enum Shape {
    Peak {
        centre: f64,
        scale: f64,
    },
    /// One height everywhere; its own guess is 0.
    Flat {
        height: f64,
    },
    Profile {
        first: i32,
        width: u32,
        knots: Vec<u32>,
    },
}

#[derive(Clone, Copy, Debug)]
pub enum Guess {
    Own,
    Always(f64),
}

#[derive(Clone, Debug)]
pub struct Model {
    pub symbols: SymbolType,
    pub width: Width,
    pub precision: u32,
    pub min: i64,
    pub max: i64,
    pub shape: Shape,
    pub guess: Guess,
}

impl Model {
    pub fn guessing(&self, guess: Guess) -> Model {
        Model { guess, ..self.clone() }
    }

    /// The make by number, as the C functions have it.
    pub fn make(&self) -> u32 {
        2 * self.symbols as u32 + self.width as u32
    }
}

impl fmt::Display for Model {
    fn fmt(&self, f: &mut fmt::Formatter<'_>) -> fmt::Result {
        let Model { symbols, width, precision, min, max, .. } = self;
        write!(f, "{symbols}, {min} to {max}, u{width}, P {precision}, ")?;
        match &self.shape {
            Shape::Peak { centre, scale } => write!(f, "Peak {centre:?}, {scale:?}")?,
            Shape::Flat { height } => write!(f, "height {height:?}")?,
            Shape::Profile { first, width, knots } if knots.len() <= 8 => {
                write!(f, "Profile {first}, {width}, knots {knots:?}")?
            }
            Shape::Profile { first, width, knots } => {
                write!(f, "Profile {first}, {width}, {} knots {:?}..", knots.len(), &knots[..8])?
            }
        }
        match self.guess {
            Guess::Own => Ok(()),
            Guess::Always(guess) => write!(f, ", guess {guess:?}"),
        }
    }
}

#[derive(Clone, Copy, Debug, PartialEq, Eq)]
pub struct Uniform {
    pub width: Width,
    pub precision: u32,
    pub range: u64,
}

impl fmt::Display for Uniform {
    fn fmt(&self, f: &mut fmt::Formatter<'_>) -> fmt::Result {
        write!(f, "uniform, u{}, P {}, range {}", self.width, self.precision, self.range)
    }
}

#[derive(Clone, Copy, Debug, Default, PartialEq, Eq)]
pub struct Interval {
    pub start: u64,
    pub length: u64,
}

#[derive(Clone, Copy, Debug, Default, PartialEq, Eq)]
pub struct Row {
    pub symbol: i64,
    pub start: u64,
    pub length: u64,
}

impl fmt::Display for Interval {
    fn fmt(&self, f: &mut fmt::Formatter<'_>) -> fmt::Result {
        write!(f, "({}, {})", self.start, self.length)
    }
}

impl fmt::Display for Row {
    fn fmt(&self, f: &mut fmt::Formatter<'_>) -> fmt::Result {
        write!(f, "({}, {}, {})", self.symbol, self.start, self.length)
    }
}

/// The number of a refusal.
#[derive(Clone, Copy, Debug, PartialEq, Eq)]
pub struct Refused(pub u32);

pub type Answered<T> = Result<T, Refused>;

/// One implementation of the rules. A list is answered entry by entry.
pub trait Side {
    fn name(&self) -> &'static str;

    /// `None` for a symbol outside the support.
    fn encode(&self, model: &Model, symbols: &[i64]) -> Answered<Vec<Option<Interval>>>;

    /// `None` for a quantile that is refused.
    fn search(&self, model: &Model, quantiles: &[u64]) -> Answered<Vec<Option<Row>>>;

    fn probability(&self, model: &Model, symbols: &[i64]) -> Answered<Vec<f64>>;

    /// The first rows of the table, at most so many.
    fn rows(&self, model: &Model, most: usize) -> Answered<Vec<Row>>;

    fn uniform_encode(&self, model: Uniform, symbols: &[u64]) -> Answered<Vec<Option<Interval>>>;

    fn uniform_search(&self, model: Uniform, quantiles: &[u64]) -> Answered<Vec<Option<Row>>>;

    fn uniform_probability(&self, model: Uniform, symbols: &[u64]) -> Answered<Vec<f64>>;
}
