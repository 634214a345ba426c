//! Writes answers of the original as lines of text, to be stored and compared where no Rust is at hand.

use crate::cases;
use crate::model::{Guess, Interval, Model, Row, Shape, Side, Uniform};
use crate::original::Original;
use crate::random::Random;
use std::fmt::Write as _;

const KINDS: u64 = 12;

pub fn print(lines: u64, seed: u64) {
    let mut random = Random::new(seed);
    let mut text = format!(
        "# Answers of the Rust crate constriction 0.5.0, inside the domain on which this library agrees with it.\n\
         # Written by the driver in compare/: sample {lines} {seed}.\n\
         # An f64 is the decimal number of its 64 bits; models are Peaks.\n"
    );
    for n in 0..lines {
        let line = line(&mut random, n % KINDS, n / KINDS);
        writeln!(text, "{line}").expect("a String takes all");
    }
    print!("{text}");
}

/// The line of a kind; `round` counts through the makes and precisions.
fn line(random: &mut Random, kind: u64, round: u64) -> String {
    // each kind begins its round at another make
    let model = peak_model(random, round + 65 * kind);
    let even = cases::uniform(random, round + 17 * kind);
    match kind {
        0 | 1 => encode(random, &model, true),
        2 => encode(random, &model, false),
        3 | 4 => search(random, &model),
        5..=7 => {
            let guess = random.pick(&cases::hostile_guesses(&model));
            search(random, &model.guessing(Guess::Always(guess)))
        }
        8 => probability(random, &model),
        9 => uniform_encode(random, even),
        10 => uniform_search(random, even),
        _ => uniform_probability(random, even),
    }
}

fn peak_model(random: &mut Random, n: u64) -> Model {
    let mut model = cases::model(random, n);
    model.shape = cases::peak(random, model.min, model.max);
    model
}

fn words(model: &Model) -> String {
    let Model { symbols, width, precision, min, max, .. } = model;
    let Shape::Peak { centre, scale } = model.shape else { unreachable!("the sample has Peaks only") };
    format!("{symbols} {width} {precision} {min} {max} {} {}", centre.to_bits(), scale.to_bits())
}

fn uniform_words(Uniform { width, precision, range }: Uniform) -> String {
    format!("{width} {precision} {range}")
}

fn interval(answer: Option<Interval>) -> String {
    answer.map_or("outside".to_string(), |Interval { start, length }| format!("{start} {length}"))
}

fn row(answer: Option<Row>) -> String {
    let Row { symbol, start, length } = answer.expect("the original answers every quantile below 2^P");
    format!("{symbol} {start} {length}")
}

/// A symbol of the support, an end of it often; or one that the type has outside it, if there is one.
fn symbol(random: &mut Random, model: &Model, inside: bool) -> i64 {
    let mut list = cases::symbols(random, model);
    list.retain(|symbol| (model.min..=model.max).contains(symbol) == inside);
    if list.is_empty() {
        model.max
    } else {
        random.pick(&list)
    }
}

fn encode(random: &mut Random, model: &Model, inside: bool) -> String {
    let symbol = symbol(random, model, inside);
    let answer = Original.encode(model, &[symbol]).expect("never refused")[0];
    format!("encode {} {symbol} {}", words(model), interval(answer))
}

fn quantile(random: &mut Random, precision: u32, found: Option<Interval>) -> u64 {
    let ends = found.map(|Interval { start, length }| (start, length));
    let list = cases::quantiles(random, precision, ends.as_slice());
    random.pick(&list)
}

fn search(random: &mut Random, model: &Model) -> String {
    let symbol = symbol(random, model, true);
    let found = Original.encode(model, &[symbol]).expect("never refused")[0];
    let q = quantile(random, model.precision, found);
    let answer = Original.search(model, &[q]).expect("never refused")[0];
    let guess = match model.guess {
        Guess::Own => "own".to_string(),
        Guess::Always(guess) => guess.to_bits().to_string(),
    };
    format!("search {} {guess} {q} {}", words(model), row(answer))
}

fn probability(random: &mut Random, model: &Model) -> String {
    let inside = !random.chance(6);
    let symbol = symbol(random, model, inside);
    let answer = Original.probability(model, &[symbol]).expect("never refused")[0];
    format!("probability {} {symbol} {}", words(model), answer.to_bits())
}

fn uniform_encode(random: &mut Random, model: Uniform) -> String {
    let list = cases::uniform_symbols(random, model);
    let symbol = random.pick(&list);
    let answer = Original.uniform_encode(model, &[symbol]).expect("never refused")[0];
    format!("uniform-encode {} {symbol} {}", uniform_words(model), interval(answer))
}

fn uniform_search(random: &mut Random, model: Uniform) -> String {
    let symbol = random.pick(&[0, model.range - 1, model.range / 2]);
    let found = Original.uniform_encode(model, &[symbol]).expect("never refused")[0];
    let q = quantile(random, model.precision, found);
    let answer = Original.uniform_search(model, &[q]).expect("never refused")[0];
    format!("uniform-search {} {q} {}", uniform_words(model), row(answer))
}

fn uniform_probability(random: &mut Random, model: Uniform) -> String {
    let list = cases::uniform_symbols(random, model);
    let symbol = random.pick(&list);
    let answer = Original.uniform_probability(model, &[symbol]).expect("never refused")[0];
    format!("uniform-probability {} {symbol} {}", uniform_words(model), answer.to_bits())
}
