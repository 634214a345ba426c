//! Runs the Rust original beside this library: equal answers, departures, speed, and a stored sample.

mod bridge;
mod cases;
mod child;
mod comparing;
mod departures;
mod distributions;
mod edges;
mod listing;
pub mod model;
mod original;
mod ours;
mod pace;
mod question;
mod random;
mod reference;
mod sample;
#[cfg(not(feature = "linked"))]
mod stand_in;
pub mod users;

use users::Users;

pub const USAGE: &str = "usage: compare compare [CASES] [SEED]
       compare departures
       compare sample LINES SEED
       compare pace [ROUNDS]
       compare listing CHANTAB LISTING-IN-C [ROUNDS]";

fn number(words: &[String], at: usize, otherwise: u64) -> Option<u64> {
    match words.get(at) {
        Some(word) => word.parse().ok(),
        None => Some(otherwise),
    }
}

/// Runs a mode: whether all was well, or nothing if the words say none.
pub fn run(words: &[String], users: &dyn Users) -> Option<bool> {
    match words.first()?.as_str() {
        "compare" => Some(comparing::run(users, number(words, 1, 100_000)?, number(words, 2, 1)?)),
        "sample" => {
            sample::print(number(words, 1, 3600)?, number(words, 2, 1)?);
            Some(true)
        }
        "pace" => {
            pace::run(number(words, 1, 200)?);
            Some(true)
        }
        "listing" => {
            let (chantab, plain) = (words.get(1)?, words.get(2)?);
            match listing::run(chantab.as_ref(), plain.as_ref(), number(words, 3, 9)?) {
                Ok(alike) => Some(alike),
                Err(fault) => {
                    eprintln!("{fault}");
                    Some(false)
                }
            }
        }
        "departures" => {
            let all_shown = departures::run();
            child::programs().first().map(|(_, program)| edges::run(program));
            Some(all_shown)
        }
        // what the modes above have a child do
        "answer" => {
            child::answer_from(departures::questions(), number(words, 1, 0)? as usize);
            Some(true)
        }
        "probe" => {
            let family = edges::Family::numbered(number(words, 1, 0)? as usize)?;
            child::answer_from(family.questions(), number(words, 2, 0)? as usize);
            Some(true)
        }
        _ => None,
    }
}
