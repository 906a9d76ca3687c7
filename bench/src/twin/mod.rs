//! The independent receiver: document 01 with the requests on foreign payments, on birth dates and on how much room to
//! lend, in safe Rust, written for speed. Nothing is allocated: the walk notes each record's place and kind in a row on
//! the stack, the judgment adds the set of its findings and a 4868's birth code, the length follows from the counts, and
//! the file is written in one go. Without the writing, that length is the need.

#![forbid(unsafe_code)]

mod bytes;
mod file;
mod judge;
pub mod layout;
mod pack;
pub mod rules;
pub mod walk;

use bytes::is_date;
pub use file::File;
use file::Rejection;
use judge::Receiver;
use layout::{recap, trana};
use pack::Pack;
use walk::{Entry, LONGEST, MOST_RECORDS, SHORTEST_RECORD};

/// A row of this many records does for a small transmission, and costs less to set up.
const FEW_RECORDS: usize = 64;

#[derive(Clone, Copy, PartialEq, Eq, Debug)]
pub enum Refusal {
    Transmission = 1,
    Pack = 2,
    DateOrName = 3,
    Output = 4,
}

/// Writes the acknowledgment file and gives its length, or refuses and leaves the output as it was.
pub fn acknowledge(
    transmission: &[u8],
    pack: &[u8],
    date: &[u8],
    name: &[u8],
    out: &mut [u8],
) -> Result<usize, Refusal> {
    before_writing(transmission, pack, date, name, |file| {
        let length = file.length();
        let out = out.get_mut(..length).ok_or(Refusal::Output)?;
        file.write(out);
        Ok(length)
    })?
}

/// The length of the acknowledgment file without writing it, or the refusal that any output would meet.
pub fn need(transmission: &[u8], pack: &[u8], date: &[u8], name: &[u8]) -> Result<usize, Refusal> {
    before_writing(transmission, pack, date, name, |file| file.length())
}

/// Lends the file before it is written.
pub fn before_writing<T>(
    transmission: &[u8],
    pack: &[u8],
    date: &[u8],
    name: &[u8],
    look: impl FnOnce(&File) -> T,
) -> Result<T, Refusal> {
    if transmission.len() > LONGEST {
        return Err(Refusal::Transmission);
    }
    let pack = Pack::read(pack).ok_or(Refusal::Pack)?;
    let date: &[u8; 8] = date.try_into().map_err(|_| Refusal::DateOrName)?;
    let name: &[u8; 20] = name.try_into().map_err(|_| Refusal::DateOrName)?;
    if !is_date(date) || !is_file_name(name) {
        return Err(Refusal::DateOrName);
    }
    let receiver = Receiver { pack, date, name };
    let mut few;
    let mut many;
    let entries: &mut [Entry] = if transmission.len() / SHORTEST_RECORD <= FEW_RECORDS {
        few = [Entry::NONE; FEW_RECORDS];
        &mut few
    } else {
        many = [Entry::NONE; MOST_RECORDS];
        &mut many
    };
    Ok(look(&answer(transmission, &receiver, entries)))
}

fn is_file_name(name: &[u8; 20]) -> bool {
    name.iter().all(|byte| (32..=126).contains(byte))
}

fn answer<'a, 'e>(transmission: &'a [u8], receiver: &'a Receiver, entries: &'e mut [Entry]) -> File<'a, 'e> {
    let Some(mut walked) = walk::walk(transmission, entries) else {
        return File::Rejected(Rejection::NoStructure);
    };
    let digits = trana::TWELVE_DIGITS.of(walked.trana);
    let accepted_before = receiver.pack.has_transmission(digits);
    let recap_differs = recap::TWELVE_DIGITS.of(walked.recap) != digits;
    if accepted_before || recap_differs {
        return File::Rejected(Rejection::Numbers { digits, accepted_before, recap_differs });
    }
    judge::judge(&mut walked, receiver);
    File::Judged(walked, receiver)
}
