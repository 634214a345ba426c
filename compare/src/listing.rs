//! Times `chantab` over a file of records beside the same listing in plain C, and compares what they print.

use crate::random::Random;
use std::fs::{self, File};
use std::io;
use std::path::Path;
use std::process::{Command, Stdio};
use std::time::Instant;

fn peak_record(precision: u8, min: i32, max: i32, centre: f64, scale: f64) -> Vec<u8> {
    let mut bytes = vec![2, precision, 0, 0];
    bytes.extend(min.to_le_bytes());
    bytes.extend(max.to_le_bytes());
    bytes.extend([0; 4]);
    bytes.extend(centre.to_le_bytes());
    bytes.extend(scale.to_le_bytes());
    bytes
}

fn uniform_record(precision: u8, max: i32) -> Vec<u8> {
    let mut bytes = vec![1, precision, 0, 0, 0, 0, 0, 0];
    bytes.extend(max.to_le_bytes());
    bytes.resize(32, 0);
    bytes
}

/// Four wide tables: two Peaks of 2^20 symbols, one of 2^19 at P 32, and a uniform one.
fn wide() -> Vec<u8> {
    let half = 1 << 19;
    [
        peak_record(24, -half, half - 1, 0.0, 1000.0),
        peak_record(24, -half, half - 1, 3e5, 5e4),
        peak_record(32, 0, half - 1, 0.0, 0.0),
        uniform_record(30, half - 1),
    ]
    .concat()
}

/// Records of every fault, many of random bytes, and a short last piece: to compare, not to time.
fn odd() -> Vec<u8> {
    let mut random = Random::new(9);
    let mut bytes = Vec::new();
    for n in 0..20_000 {
        let (min, span) = (random.from_to(-200, 200) as i32, random.of_any_size(300) as i32);
        let precision = random.below(35) as u8;
        let scale = random.pick(&[0.0, -0.0, 1.0, 16.0, 0.3, -1.0, 1e-7, 1e13, f64::NAN, f64::INFINITY]);
        let mut record = match n % 3 {
            0 => uniform_record(precision, min),
            _ => peak_record(precision, min, min + span - 2, min as f64 + random.fraction(), scale),
        };
        if random.chance(4) {
            let at = random.below(32) as usize;
            record[at] = random.next() as u8;
            // a mended byte may widen the table beyond reason
            record[1] = record[1].min(12);
        }
        bytes.extend(record);
    }
    bytes.extend([2, 5, 0, 0, 0, 0, 0]);
    bytes
}

/// Runs a program from one file to another; how long it took, in milliseconds.
fn run_once(program: &Path, words: &[&str], records: &Path, out: Stdio) -> io::Result<f64> {
    let mut command = Command::new(program);
    command.args(words).stdin(File::open(records)?).stdout(out);
    let start = Instant::now();
    let status = command.status()?;
    let taken = start.elapsed().as_secs_f64() * 1e3;
    if status.success() {
        Ok(taken)
    } else {
        Err(io::Error::other(format!("{} ends with {status}", program.display())))
    }
}

struct Listing<'a> {
    name: &'a str,
    program: &'a Path,
    words: &'a [&'a str],
}

/// Whether all of them print the same of these records.
fn same(listings: &[Listing<'_>], records: &Path) -> io::Result<bool> {
    let mut first: Option<Vec<u8>> = None;
    for listing in listings {
        let printed = records.with_extension("listing");
        run_once(listing.program, listing.words, records, File::create(&printed)?.into())?;
        let text = fs::read(&printed)?;
        fs::remove_file(&printed)?;
        println!("  {}: {} bytes", listing.name, text.len());
        if first.get_or_insert_with(|| text.clone()) != &text {
            return Ok(false);
        }
    }
    Ok(true)
}

fn race(
    listings: &[Listing<'_>],
    records: &Path,
    rounds: u64,
    place: &str,
    out: impl Fn() -> io::Result<Stdio>,
) -> io::Result<()> {
    let mut best = vec![f64::INFINITY; listings.len()];
    for _ in 0..rounds {
        for (listing, best) in listings.iter().zip(&mut best) {
            *best = best.min(run_once(listing.program, listing.words, records, out()?)?);
        }
    }
    for (listing, taken) in listings.iter().zip(&best) {
        println!("  {place}: {:<14} {taken:>8.1} ms, chantab / this {:.2}", listing.name, best[0] / taken);
    }
    Ok(())
}

/// Compares and times; `plain` is the program of compare/listing.c.
pub fn run(chantab: &Path, plain: &Path, rounds: u64) -> io::Result<bool> {
    let listings = [
        Listing { name: "chantab", program: chantab, words: &[] },
        Listing { name: "C, printf", program: plain, words: &[] },
        Listing { name: "C, own digits", program: plain, words: &["digits"] },
    ];
    let folder = std::env::temp_dir();
    let (wide_file, odd_file) = (folder.join("toghinzu-wide.records"), folder.join("toghinzu-odd.records"));
    fs::write(&wide_file, wide())?;
    fs::write(&odd_file, odd())?;
    println!("the same bytes:");
    let alike = same(&listings, &odd_file)? && same(&listings, &wide_file)?;
    println!("{}", if alike { "  yes" } else { "  NO" });
    println!("milliseconds over four wide tables, the quickest of {rounds} rounds:");
    race(&listings, &wide_file, rounds, "to nowhere", || Ok(Stdio::null()))?;
    let printed = folder.join("toghinzu-wide.listing");
    race(&listings, &wide_file, rounds, "to a file", || Ok(File::create(&printed)?.into()))?;
    for file in [wide_file, odd_file, printed] {
        fs::remove_file(file)?;
    }
    Ok(alike)
}
