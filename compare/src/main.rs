//! The driver's program: its words choose a mode.

#[cfg(feature = "linked")]
mod channels;
#[cfg(feature = "linked")]
#[path = "../../c/toghinzu.rs"]
#[allow(dead_code)]
mod toghinzu;

#[cfg(feature = "linked")]
use channels::Library;
#[cfg(not(feature = "linked"))]
use driver::users::Nobody as Library;
use std::process::ExitCode;

fn main() -> ExitCode {
    let words: Vec<String> = std::env::args().skip(1).collect();
    match driver::run(&words, &Library) {
        Some(true) => ExitCode::SUCCESS,
        Some(false) => ExitCode::FAILURE,
        None => {
            eprintln!("{}", driver::USAGE);
            ExitCode::from(2)
        }
    }
}
