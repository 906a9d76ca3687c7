//! The smallest case of a disagreement that can be found: fewer documents, fewer records, fewer lines in the pack.

use crate::cases::{Case, Room};
use crate::compare::{Bench, Outcome, most_needed, output_length};
use crate::sound::{self, put};
use crate::twin::layout::recap;
use std::ops::Range;

const RECORD: usize = 120;

/// Shrinks the case as long as the receivers disagree on it.
pub fn shrink(bench: &mut Bench, case: Case) -> Case {
    let mut least = case;
    loop {
        let size = size_of(&least);
        plain_surroundings(bench, &mut least);
        drop_pieces(bench, &mut least, documents);
        drop_pieces(bench, &mut least, records);
        drop_lines(bench, &mut least);
        if size_of(&least) == size {
            return least;
        }
    }
}

fn size_of(case: &Case) -> usize {
    case.transmission.len() + case.pack.len()
}

/// Takes the candidate if the receivers still disagree on it.
fn take(bench: &mut Bench, least: &mut Case, candidate: Case) -> bool {
    let taken = bench.differs(&candidate);
    if taken {
        *least = candidate;
    }
    taken
}

/// A sound date, a sound name, just the room of the file, and an empty transmission or pack, where they do.
fn plain_surroundings(bench: &mut Bench, least: &mut Case) {
    let plain = |change: &dyn Fn(&mut Case)| {
        let mut candidate = least.clone();
        change(&mut candidate);
        candidate
    };
    let candidates = [
        plain(&|case| case.date = sound::SOUND_DATE.to_vec()),
        plain(&|case| case.name = sound::SOUND_NAME.to_vec()),
        plain(&|case| case.room = Room::Beyond(0)),
        plain(&|case| case.transmission.clear()),
        plain(&|case| case.pack = sound::Lines::default().pack()),
    ];
    for candidate in candidates {
        take(bench, least, candidate);
    }
}

/// Drops one piece of the transmission after the other.
fn drop_pieces(bench: &mut Bench, least: &mut Case, pieces: fn(&[u8]) -> Vec<Range<usize>>) {
    let mut place = 0;
    while let Some(piece) = pieces(&least.transmission).get(place).cloned() {
        let mut candidate = least.clone();
        candidate.transmission.drain(piece);
        let mut counted = candidate.clone();
        recount(&mut counted.transmission);
        if !take(bench, least, counted) && !take(bench, least, candidate) {
            place += 1;
        }
    }
}

/// The records, as far as byte counts lead; what follows is the last piece.
fn records(transmission: &[u8]) -> Vec<Range<usize>> {
    let mut pieces = Vec::new();
    let mut start = 0;
    while start < transmission.len() {
        let count = transmission.get(start..start + 4).and_then(|count| std::str::from_utf8(count).ok()?.parse().ok());
        let length = count.filter(|count: &usize| *count >= 8).unwrap_or(usize::MAX);
        let end = start.saturating_add(length).min(transmission.len());
        pieces.push(start..end);
        start = end;
    }
    pieces
}

fn opens(record: &[u8]) -> bool {
    record.get(8..14) == Some(b"FRM   ") && record.get(14..20) != Some(b"PMT   ")
}

fn is_recap(record: &[u8]) -> bool {
    record.get(8..14) == Some(b"RECAP ")
}

/// The documents: from an opening record to just before the next, or RECAP.
fn documents(transmission: &[u8]) -> Vec<Range<usize>> {
    let mut pieces: Vec<Range<usize>> = Vec::new();
    let mut open = false;
    for record in records(transmission) {
        let bytes = &transmission[record.clone()];
        if opens(bytes) {
            open = true;
            pieces.push(record);
        } else if is_recap(bytes) {
            open = false;
        } else if let (true, Some(piece)) = (open, pieces.last_mut()) {
            piece.end = record.end;
        }
    }
    pieces
}

/// How many records open a document.
pub fn openings(transmission: &[u8]) -> usize {
    documents(transmission).len()
}

/// Makes the count of a last RECAP right.
fn recount(transmission: &mut [u8]) {
    let count = openings(transmission);
    let Some(last) = records(transmission).pop() else {
        return;
    };
    let record = &mut transmission[last];
    if is_recap(record) && record.len() == recap::LENGTH {
        put(record, recap::DOCUMENT_COUNT, format!("{count:06}").as_bytes());
    }
}

const WIDTHS: [usize; 5] = [33, 10, 9, 8, 12];

/// Drops lines of the pack, many at once and then one by one.
fn drop_lines(bench: &mut Bench, least: &mut Case) {
    for (block, width) in WIDTHS.iter().enumerate() {
        let mut count = lines_of(&least.pack, block).len() / width;
        while count > 0 {
            let mut place = 0;
            while place * width < lines_of(&least.pack, block).len() {
                let mut candidate = least.clone();
                remove_lines(&mut candidate.pack, block, place * width..(place + count) * width);
                if !take(bench, least, candidate) {
                    place += count;
                }
            }
            count /= 2;
        }
    }
}

/// Where the lines of a block stand, as far as the lengths lead.
fn lines_of(pack: &[u8], block: usize) -> Range<usize> {
    let mut start = 0;
    for place in 0..=block {
        let Some(length) = pack.get(start..start + 4) else {
            return 0..0;
        };
        let length = u32::from_le_bytes(length.try_into().unwrap()) as usize;
        let end = (start + 6).saturating_add(length);
        if end > pack.len() {
            return 0..0;
        }
        if place == block {
            return start + 6..end;
        }
        start = end;
    }
    0..0
}

fn remove_lines(pack: &mut Vec<u8>, block: usize, lines: Range<usize>) {
    let all = lines_of(pack, block);
    let from = all.start + lines.start;
    let to = (all.start + lines.end).min(all.end);
    let left = all.len() - (to - from);
    pack.drain(from..to);
    pack[all.start - 6..all.start - 2].copy_from_slice(&(left as u32).to_le_bytes());
}

/// Shrinks the case and prints it.
pub fn report(bench: &mut Bench, case: Case) {
    let before = (case.transmission.len(), case.pack.len());
    let least = shrink(bench, case);
    let after = (least.transmission.len(), least.pack.len());
    println!("transmission of {} bytes and pack of {}, shrunk to {} and {}", before.0, before.1, after.0, after.1);
    print(bench, &least);
}

/// Prints a case with the outcomes of both receivers.
pub fn print(bench: &mut Bench, case: &Case) {
    println!("date {:?}, name {:?}", text(&case.date), text(&case.name));
    println!("output of {} bytes, at most {} needed", output_length(case), most_needed(case.transmission.len()));
    println!("transmission");
    for record in records(&case.transmission) {
        println!("  {}", text(&case.transmission[record]));
    }
    println!("pack of {} bytes", case.pack.len());
    for (block, width) in WIDTHS.iter().enumerate() {
        for line in case.pack[lines_of(&case.pack, block)].chunks(*width) {
            println!("  {} {}", block + 1, text(line));
        }
    }
    let [expected, found] = bench.outcomes(case);
    let differs = expected.output.iter().zip(found.output).position(|(a, b)| a != b);
    match differs {
        Some(place) => println!("outputs differ from byte {place} on"),
        None => println!("outputs are equal"),
    }
    print_outcome("independent", &expected, differs);
    print_outcome("proved", &found, differs);
}

/// Prints the need, the answer, and the record in which the outputs first differ, or the whole file.
fn print_outcome(name: &str, outcome: &Outcome, differs: Option<usize>) {
    let length = outcome.answer as u32 as usize;
    println!("{name} need: refusal {}, length {}", outcome.need >> 32, outcome.need as u32);
    println!("{name}: refusal {}, length {length}", outcome.answer >> 32);
    let shown = match differs {
        Some(place) => place / RECORD * RECORD..(place / RECORD + 1) * RECORD,
        None => 0..length,
    };
    let shown = shown.start..shown.end.min(outcome.output.len());
    for record in outcome.output[shown].chunks(RECORD) {
        println!("  {}", text(record));
    }
}

fn text(bytes: &[u8]) -> String {
    bytes.escape_ascii().to_string()
}
