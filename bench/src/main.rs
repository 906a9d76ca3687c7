//! The view from outside: an independent receiver beside the proved one, on the same inputs.

#![deny(unsafe_code)]
// Field numbers and codes stand as the paper prints them.
#![allow(clippy::zero_prefixed_literal)]

mod cases;
mod compare;
mod edges;
mod prng;
mod proved;
mod shrink;
mod sound;
mod speed;
mod tally;
mod twin;
mod vectors;

use std::process::ExitCode;
use twin::Refusal;

/// A receiver in the form that both sides share: the refusal's number times 2^32, plus the length.
pub type Receiver = fn(&[u8], &[u8], &[u8], &[u8], &mut [u8]) -> u64;

/// What a receiver needs for a file, in the form of its answer: refusal 1, 2 or 3, or the length.
pub type Need = fn(&[u8], &[u8], &[u8], &[u8]) -> u64;

/// One side of the comparison.
#[derive(Clone, Copy)]
pub struct Side {
    pub receiver: Receiver,
    pub need: Need,
}

pub const INDEPENDENT: Side = Side { receiver: independent, need: independent_need };
pub const PROVED: Side = Side { receiver: proved::acknowledge, need: proved::need };

/// The answer of the independent receiver.
pub fn independent(transmission: &[u8], pack: &[u8], date: &[u8], name: &[u8], out: &mut [u8]) -> u64 {
    number(twin::acknowledge(transmission, pack, date, name, out))
}

/// The need of the independent receiver.
pub fn independent_need(transmission: &[u8], pack: &[u8], date: &[u8], name: &[u8]) -> u64 {
    number(twin::need(transmission, pack, date, name))
}

/// A length or a refusal in the form that both sides share.
pub fn number(answer: Result<usize, Refusal>) -> u64 {
    match answer {
        Ok(length) => length as u64,
        Err(refusal) => (refusal as u64) << 32,
    }
}

const CASES: u64 = 1_000_000;
const SEED: u64 = 4868;

const USAGE: &str = "usage: bench/run [compare [CASES [SEED]] | speed | case SEED | vectors FOLDER..]";

fn main() -> ExitCode {
    let arguments: Vec<String> = std::env::args().skip(1).collect();
    let arguments: Vec<&str> = arguments.iter().map(String::as_str).collect();
    match run(&arguments) {
        Some(true) => ExitCode::SUCCESS,
        Some(false) => ExitCode::FAILURE,
        None => {
            eprintln!("{USAGE}");
            ExitCode::from(2)
        }
    }
}

/// Whether all was as it should be; nothing if the arguments are not understood.
fn run(arguments: &[&str]) -> Option<bool> {
    let passed = match *arguments {
        [] => compare_all(CASES, SEED) && speed::run(),
        ["compare"] => compare_all(CASES, SEED),
        ["compare", cases] => compare_all(cases.parse().ok()?, SEED),
        ["compare", cases, seed] => compare_all(cases.parse().ok()?, seed.parse().ok()?),
        ["speed"] => speed::run(),
        ["case", seed] => {
            let seed = u64::from_str_radix(seed.strip_prefix("0x")?, 16).ok()?;
            compare::show(PROVED, seed)
        }
        ["vectors", ref folders @ ..] => vectors::run(folders),
        _ => return None,
    };
    Some(passed)
}

fn compare_all(cases: u64, seed: u64) -> bool {
    compare::try_faults() && compare::sweep(PROVED) && compare::compare(PROVED, cases, seed)
}
