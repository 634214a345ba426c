//! Asks the original, this library and the reference the same, inside the common domain, and counts.

use crate::cases;
use crate::model::{Answered, Guess, Interval, Model, Row, Side, Uniform};
use crate::original::{self, Original};
use crate::ours::Ours;
use crate::random::Random;
use crate::reference::{self, Reference};
use crate::users::Users;
use std::collections::BTreeMap;
use std::fmt::{Debug, Display};

/// How many rows of a table are looked at.
const ROWS: usize = 48;

#[derive(Default)]
struct Tally {
    asked: BTreeMap<&'static str, u64>,
    makes: BTreeMap<String, u64>,
    precisions: BTreeMap<(String, u32), u64>,
    differences: BTreeMap<&'static str, u64>,
    first: Option<String>,
}

impl Tally {
    /// Compares three lists of answers entry by entry; all three have to be there.
    fn agree<Q: Debug, T: PartialEq + Debug>(
        &mut self,
        kind: &'static str,
        model: &dyn Display,
        asked: &[Q],
        answers: [(&str, Answered<Vec<T>>); 3],
    ) {
        *self.asked.entry(kind).or_default() += asked.len() as u64;
        let same = |i: usize| {
            let entry = |n: usize| answers[n].1.as_ref().ok().and_then(|list| list.get(i));
            entry(0).is_some() && entry(0) == entry(1) && entry(1) == entry(2)
        };
        let differing: Vec<usize> = (0..asked.len()).filter(|&i| !same(i)).collect();
        let Some(&i) = differing.first() else { return };
        *self.differences.entry(kind).or_default() += differing.len() as u64;
        if self.first.is_none() {
            let told = answers.iter().map(|(name, answer)| match answer {
                Ok(list) => format!("    {name}: {:?}\n", list.get(i)),
                Err(refused) => format!("    {name}: {refused:?}\n"),
            });
            self.first = Some(format!("{kind}: {model}: {:?}\n{}", asked[i], told.collect::<String>()));
        }
    }

    fn total(&self) -> u64 {
        self.asked.values().sum()
    }

    fn count_model(&mut self, make: String, precision: u32) {
        *self.makes.entry(make.clone()).or_default() += 1;
        *self.precisions.entry((make, precision)).or_default() += 1;
    }

    fn print(&self) {
        println!("{:>14}  {}", "asked", "kind");
        for (kind, count) in &self.asked {
            let different = self.differences.get(kind).copied().unwrap_or(0);
            println!("{count:>14}  {kind}: {different} different");
        }
        println!("{:>14}  in all", self.total());
        for (make, count) in &self.makes {
            let precisions = self.precisions.iter().filter(|((of, _), _)| of == make);
            let fewest = precisions.clone().map(|(_, count)| *count).min().unwrap_or(0);
            println!("models of {make}: {count}, at {} precisions, at least {fewest} at each", precisions.count());
        }
        match &self.first {
            Some(first) => println!("first difference: {first}"),
            None => println!("no difference"),
        }
    }
}

fn by_all<T>(ask: impl Fn(&dyn Side) -> Answered<Vec<T>>) -> [(&'static str, Answered<Vec<T>>); 3] {
    let sides: [&dyn Side; 3] = [&Original, &Ours, &Reference];
    sides.map(|side| (side.name(), ask(side)))
}

fn bits(answer: Answered<Vec<f64>>) -> Answered<Vec<u64>> {
    answer.map(|list| list.into_iter().map(f64::to_bits).collect())
}

/// The ends of some intervals of the model.
fn some_intervals(random: &mut Random, model: &Model) -> Vec<(u64, u64)> {
    let mut symbols = vec![model.min, model.max];
    symbols.extend((0..3).map(|_| random.from_to(model.min, model.max)));
    ends(Reference.encode(model, &symbols))
}

fn ends(intervals: Answered<Vec<Option<Interval>>>) -> Vec<(u64, u64)> {
    let list = intervals.expect("the model is lawful").into_iter().flatten();
    list.map(|Interval { start, length }| (start, length)).collect()
}

fn compare_model(users: &dyn Users, tally: &mut Tally, random: &mut Random, n: u64) {
    let model = cases::model(random, n);
    tally.count_model(format!("{} u{}", model.symbols, model.width), model.precision);
    let symbols = cases::symbols(random, &model);
    tally.agree("encode", &model, &symbols, by_all(|side| side.encode(&model, &symbols)));
    tally.agree("probability", &model, &symbols, by_all(|side| bits(side.probability(&model, &symbols))));
    let intervals = some_intervals(random, &model);
    let quantiles = cases::quantiles(random, model.precision, &intervals);
    tally.agree("search, own guess", &model, &quantiles, by_all(|side| side.search(&model, &quantiles)));
    compare_hostile(tally, random, &model, &quantiles);
    compare_rows(tally, &model);
    compare_channel(users, tally, &model, &symbols, &quantiles);
}

fn compare_hostile(tally: &mut Tally, random: &mut Random, model: &Model, quantiles: &[u64]) {
    let guesses = cases::hostile_guesses(model);
    for _ in 0..5 {
        let stubborn = model.guessing(Guess::Always(random.pick(&guesses)));
        tally.agree("search, hostile guess", &stubborn, quantiles, by_all(|side| side.search(&stubborn, quantiles)));
    }
    let q = random.pick(quantiles);
    let answer = Reference.search(model, &[q]).expect("the model is lawful")[0].expect("below 2^P");
    for off in [-1, 0, 1] {
        let beside = model.guessing(Guess::Always((answer.symbol + off) as f64));
        tally.agree("search, guess at most one off", &beside, &[q], by_all(|side| side.search(&beside, &[q])));
    }
}

/// The original's rows by the formula of its fault; this library's against its own encoder.
fn compare_rows(tally: &mut Tally, model: &Model) {
    let faulty = reference::rows_half_a_step_low(model, ROWS);
    let asked: Vec<usize> = (0..faulty.as_ref().map_or(0, Vec::len)).collect();
    let originals = Original.rows(model, ROWS);
    let count = originals.as_ref().map_or(0, Vec::len);
    assert_eq!(count, asked.len(), "rows of the original's table: {model}");
    tally.agree(
        "rows of the original, by the formula of its fault",
        model,
        &asked,
        [("original", originals), ("its fault", faulty.clone()), ("its fault", faulty)],
    );
    let rows = Ours.rows(model, ROWS);
    let symbols: Vec<i64> = (model.min..=model.max).take(ROWS).collect();
    let encoded = Ours.encode(model, &symbols).map(|intervals| as_rows(&symbols, &intervals));
    tally.agree(
        "rows of this library, by its own encode",
        model,
        &asked,
        [("rows", rows), ("encode", encoded), ("the rules", Reference.rows(model, ROWS))],
    );
}

fn as_rows(symbols: &[i64], intervals: &[Option<Interval>]) -> Vec<Row> {
    let pairs = symbols.iter().zip(intervals);
    pairs
        .filter_map(|(&symbol, interval)| interval.map(|Interval { start, length }| Row { symbol, start, length }))
        .collect()
}

/// The users' library covers i32 symbols with u32 probabilities and a Peak.
fn compare_channel(users: &dyn Users, tally: &mut Tally, model: &Model, symbols: &[i64], quantiles: &[u64]) {
    let Some(mut channel) = users.peak(model) else { return };
    let encoded = Ok(channel.encode(symbols));
    tally.agree(
        "a user's Peak channel: encode",
        model,
        symbols,
        [
            ("original", Original.encode(model, symbols)),
            ("this library", encoded),
            ("the rules", Reference.encode(model, symbols)),
        ],
    );
    let found = channel.search(quantiles);
    tally.agree(
        "a user's Peak channel: search",
        model,
        quantiles,
        [
            ("original", Original.search(model, quantiles)),
            ("this library", found),
            ("the rules", Reference.search(model, quantiles)),
        ],
    );
    let rows = Reference.rows(model, ROWS);
    let asked: Vec<usize> = (0..rows.as_ref().map_or(0, Vec::len)).collect();
    let filled = Ok(channel.fill(asked.len()));
    tally.agree(
        "a user's Peak channel: fill",
        model,
        &asked,
        [("own encode", Ours.rows(model, ROWS)), ("this library", filled), ("the rules", rows)],
    );
}

fn compare_uniform(users: &dyn Users, tally: &mut Tally, random: &mut Random, n: u64) {
    let model = cases::uniform(random, n);
    tally.count_model(format!("uniform u{}", model.width), model.precision);
    let symbols = cases::uniform_symbols(random, model);
    tally.agree("uniform encode", &model, &symbols, by_all(|side| side.uniform_encode(model, &symbols)));
    tally.agree(
        "uniform probability",
        &model,
        &symbols,
        by_all(|side| bits(side.uniform_probability(model, &symbols))),
    );
    let some = [0, model.range - 1, random.below(model.range)];
    let intervals = ends(Reference.uniform_encode(model, &some));
    let quantiles = cases::quantiles(random, model.precision, &intervals);
    tally.agree("uniform search", &model, &quantiles, by_all(|side| side.uniform_search(model, &quantiles)));
    compare_uniform_channel(users, tally, model, &symbols, &quantiles);
}

/// The users' library covers u32 probabilities; its table is held against the original's, which is right here.
fn compare_uniform_channel(users: &dyn Users, tally: &mut Tally, model: Uniform, symbols: &[u64], quantiles: &[u64]) {
    let Some(mut channel) = users.uniform(model) else { return };
    tally.agree(
        "a user's uniform channel: encode",
        &model,
        symbols,
        [
            ("original", Original.uniform_encode(model, symbols)),
            ("this library", Ok(channel.encode(symbols))),
            ("the rules", Reference.uniform_encode(model, symbols)),
        ],
    );
    tally.agree(
        "a user's uniform channel: search",
        &model,
        quantiles,
        [
            ("original", Original.uniform_search(model, quantiles)),
            ("this library", channel.search(quantiles)),
            ("the rules", Reference.uniform_search(model, quantiles)),
        ],
    );
    let rows = original::uniform_rows(model, ROWS);
    let asked: Vec<u64> = (0..rows.len() as u64).collect();
    let encoded = Reference.uniform_encode(model, &asked);
    let firsts: Vec<i64> = asked.iter().map(|&symbol| symbol as i64).collect();
    tally.agree(
        "a user's uniform channel: fill",
        &model,
        &asked,
        [
            ("original", Ok(rows)),
            ("this library", Ok(channel.fill(asked.len()))),
            ("the rules", encoded.map(|intervals| as_rows(&firsts, &intervals))),
        ],
    );
}

/// Compares `cases` quantized models, and half as many uniform ones. Tells whether all agreed.
pub fn run(users: &dyn Users, cases: u64, seed: u64) -> bool {
    let mut tally = Tally::default();
    let mut random = Random::new(seed);
    for n in 0..cases {
        compare_model(users, &mut tally, &mut random, n);
        if n % 2 == 0 {
            compare_uniform(users, &mut tally, &mut random, n / 2);
        }
    }
    println!("{cases} quantized models and {} uniform ones, seed {seed}", cases.div_ceil(2));
    tally.print();
    tally.first.is_none()
}
