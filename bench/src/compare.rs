//! The mass comparison: both receivers on the same cases, byte for byte.

use crate::cases::{Case, LONGEST, Room, case, sound_case};
use crate::prng::Prng;
use crate::shrink;
use crate::tally::Tally;
use crate::twin::layout::{ack_key, form};
use crate::twin::{self, File, Refusal};
use crate::{INDEPENDENT, Need, Receiver, Side, independent, independent_need, number};

/// No longer output is lent: it is enough for the longest transmission that is not refused.
const LONGEST_OUTPUT: usize = most_needed(LONGEST);
/// The answer to two accepted documents: TRANA and TRANB, a Key each, and the Recap.
const ACCEPTED: u64 = 600;
const RECORD: usize = 120;
/// TRANA and TRANB.
const HEAD: usize = 2 * RECORD;
/// TRANA, TRANB and the Recap.
const FRAME: usize = HEAD + RECORD;
/// Bytes after the output, which must stay as well.
const GUARD: usize = 32;

/// What a receiver gave back: its need, its answer, and the output with the guard.
pub struct Outcome<'b> {
    pub need: u64,
    pub answer: u64,
    pub output: &'b [u8],
}

/// The buffers that all cases share.
pub struct Bench {
    other: Side,
    expected: Vec<u8>,
    found: Vec<u8>,
}

impl Bench {
    /// Compares `other` with the independent receiver.
    pub fn new(other: Side) -> Self {
        let buffer = || vec![0; LONGEST_OUTPUT + GUARD];
        Bench { other, expected: buffer(), found: buffer() }
    }

    /// The outcomes of the independent receiver and of the other one.
    pub fn outcomes(&mut self, case: &Case) -> [Outcome<'_>; 2] {
        let length = output_length(case);
        let expected = run(INDEPENDENT, case, &mut self.expected, length);
        let found = run(self.other, case, &mut self.found, length);
        [expected, found]
    }

    pub fn differs(&mut self, case: &Case) -> bool {
        !agree(case, &self.outcomes(case))
    }
}

/// The output length that a case's room asks for, as far as the buffers have it.
pub fn output_length(case: &Case) -> usize {
    let file = independent_need(&case.transmission, &case.pack, &case.date, &case.name) as u32 as usize;
    let length = match case.room {
        Room::Beyond(more) => file + more,
        Room::Short(less) => file.saturating_sub(less),
        Room::Enough => most_needed(case.transmission.len()),
        Room::Any(length) => length,
    };
    length.min(LONGEST_OUTPUT)
}

fn run<'b>(side: Side, case: &Case, buffer: &'b mut [u8], length: usize) -> Outcome<'b> {
    let buffer = &mut buffer[..length + GUARD];
    for (place, byte) in buffer.iter_mut().enumerate() {
        *byte = (place as u8).wrapping_mul(7) ^ case.pattern;
    }
    let need = (side.need)(&case.transmission, &case.pack, &case.date, &case.name);
    let answer = (side.receiver)(&case.transmission, &case.pack, &case.date, &case.name, &mut buffer[..length]);
    Outcome { need, answer, output: buffer }
}

/// Both did the same, and the need is as it should be.
fn agree(case: &Case, [expected, found]: &[Outcome; 2]) -> bool {
    expected.need == found.need
        && expected.answer == found.answer
        && expected.output == found.output
        && is_right_need(expected.need, &case.transmission, expected.answer, expected.output.len() - GUARD)
}

/// The need of a file is within its bound, and the answer with an output of this length follows from the need.
pub fn is_right_need(need: u64, transmission: &[u8], answer: u64, length: usize) -> bool {
    let refuses = matches!(need >> 32, 1..=3);
    let follows = if refuses || need <= length as u64 { need } else { number(Err(Refusal::Output)) };
    (refuses || need <= most_needed(transmission.len()) as u64) && answer == follows
}

/// No file for a transmission of this length needs more.
pub const fn most_needed(length: usize) -> usize {
    360 + 31 * length
}

/// Runs `count` cases; reports what occurred, or the first disagreement with its smallest case.
pub fn compare(other: Side, count: u64, seed: u64) -> bool {
    println!("comparing {count} cases from seed {seed}");
    let mut bench = Bench::new(other);
    let mut tally = Tally::new();
    let mut seeds = Prng::new(seed);
    for _ in 0..count {
        let seed = seeds.next();
        let case = case(seed);
        let outcomes = bench.outcomes(&case);
        if !agree(&case, &outcomes) {
            println!("disagreement on the case of seed {seed:#018x}");
            shrink::report(&mut bench, case);
            return false;
        }
        let [expected, _] = outcomes;
        tally.add(&case.transmission, expected.answer, expected.output);
    }
    println!("{count} cases agree: need, answer, length, every byte of the output and after it");
    tally.report()
}

/// The sweep: a sound case, each byte of which takes each of the 256 byte values in turn. Reports the first disagreement.
pub fn sweep(other: Side) -> bool {
    let result = swept(other);
    match result {
        Ok(count) => println!("{count} cases agree: each byte of a sound case as each of the 256 byte values"),
        Err((part, place, byte)) => println!("disagreement where byte {place} of the {part} is {byte}"),
    }
    result.is_ok()
}

/// How many cases the sweep has, or the part, place and value of the first disagreement.
fn swept(other: Side) -> Result<usize, (&'static str, usize, u8)> {
    let parts: [(&str, fn(&mut Case) -> &mut Vec<u8>); 4] = [
        ("transmission", |case| &mut case.transmission),
        ("pack", |case| &mut case.pack),
        ("date", |case| &mut case.date),
        ("name", |case| &mut case.name),
    ];
    let mut bench = Bench::new(other);
    let mut case = sound_case();
    let [sound, _] = bench.outcomes(&case);
    assert_eq!(sound.answer, ACCEPTED, "both documents of the sound case are accepted, so that one byte can change it");
    let mut count = 0;
    for (name, part) in parts {
        for place in 0..part(&mut case).len() {
            let own = part(&mut case)[place];
            for byte in 0..=255 {
                part(&mut case)[place] = byte;
                if bench.differs(&case) {
                    return Err((name, place, byte));
                }
                count += 1;
            }
            part(&mut case)[place] = own;
        }
    }
    Ok(count)
}

/// Shows the case of a seed, and whether the receivers agree on it.
pub fn show(other: Side, seed: u64) -> bool {
    let mut bench = Bench::new(other);
    let case = case(seed);
    let differs = bench.differs(&case);
    if differs {
        shrink::report(&mut bench, case);
    } else {
        shrink::print(&mut bench, &case);
    }
    !differs
}

/// Tries the comparison on receivers with known faults: each must be found, those of the generated cases be shrunk to one
/// document.
pub fn try_faults() -> bool {
    let swept_faults: [(&str, Receiver); 2] =
        [("a letter more in a line", letter_more), ("a letter more in a name", name_more)];
    let all_swept = swept_faults.iter().all(|(name, receiver)| {
        let found = swept(Side { receiver: *receiver, ..INDEPENDENT }).is_err();
        println!("known fault, {name}: {}", if found { "found" } else { "NOT FOUND" });
        found
    });
    let receivers: [(&str, Receiver); 5] = [
        ("a wrong code", wrong_code),
        ("birth dates of sound ATHs alone", sound_births),
        ("a byte after the file", touches_after),
        ("an output touched by a refusal", touches_refused),
        ("a wrong answer", wrong_answer),
    ];
    let needs: [(&str, Need); 3] = [
        ("a need without the Recap", need_without_recap),
        ("a need with findings past the 96th", need_with_all_findings),
        ("a need with one code of a whole rejection", need_of_one_code),
    ];
    let receivers = receivers.map(|(name, receiver)| (name, Side { receiver, ..INDEPENDENT }));
    let needs = needs.map(|(name, need)| (name, Side { need, ..INDEPENDENT }));
    all_swept
        && receivers.iter().chain(&needs).all(|(name, side)| {
            let found = find_fault(*side);
            println!("known fault, {name}: {}", if found { "found and shrunk" } else { "NOT FOUND" });
            found
        })
}

fn find_fault(side: Side) -> bool {
    let mut bench = Bench::new(side);
    let mut seeds = Prng::new(1);
    let found = (0..20_000).map(|_| case(seeds.next())).find(|case| bench.differs(case));
    found.is_some_and(|case| {
        let least = shrink::shrink(&mut bench, case);
        bench.differs(&least) && shrink::openings(&least.transmission) <= 1
    })
}

/// Takes a byte past the ASCII ones for a letter of a line's control.
fn letter_more(transmission: &[u8], pack: &[u8], date: &[u8], name: &[u8], out: &mut [u8]) -> u64 {
    let pack: Vec<u8> = pack.iter().map(|&byte| if byte == 218 { b'Z' } else { byte }).collect();
    independent(transmission, &pack, date, name, out)
}

/// Takes a byte past the ASCII ones for a letter of the first document's name, which no record of the file shows.
fn name_more(transmission: &[u8], pack: &[u8], date: &[u8], name: &[u8], out: &mut [u8]) -> u64 {
    let mut transmission = transmission.to_vec();
    let start = HEAD + form::NAME_LINE.start;
    for byte in &mut transmission[start..start + 35] {
        if *byte == 218 {
            *byte = b'Z';
        }
    }
    independent(&transmission, pack, date, name, out)
}

fn wrong_code(transmission: &[u8], pack: &[u8], date: &[u8], name: &[u8], out: &mut [u8]) -> u64 {
    let answer = independent(transmission, pack, date, name, out);
    for record in out[..answer as u32 as usize].chunks_mut(120).filter(|record| record.starts_with(b"0120****ACKR")) {
        if record[60..64] == *b"0397" {
            record[63] = b'8';
        }
    }
    answer
}

/// Compares the birth dates only where no ATH has a finding.
fn sound_births(transmission: &[u8], pack: &[u8], date: &[u8], name: &[u8], out: &mut [u8]) -> u64 {
    let answer = independent(transmission, pack, date, name, out);
    for key in out[..answer as u32 as usize].chunks_mut(120).filter(|record| record.starts_with(b"0120****ACK   ")) {
        if key[ack_key::PIN_PRESENCE.start] == b' ' {
            key[ack_key::BIRTH_VALIDITY.start] = b'0';
        }
    }
    answer
}

fn touches_after(transmission: &[u8], pack: &[u8], date: &[u8], name: &[u8], out: &mut [u8]) -> u64 {
    let answer = independent(transmission, pack, date, name, out);
    if let (0, Some(after)) = (answer >> 32, out.get_mut(answer as usize)) {
        *after = after.wrapping_add(1);
    }
    answer
}

fn touches_refused(transmission: &[u8], pack: &[u8], date: &[u8], name: &[u8], out: &mut [u8]) -> u64 {
    let answer = independent(transmission, pack, date, name, out);
    if answer >> 32 == 4 && out.len() >= 240 {
        out.fill(b' ');
    }
    answer
}

fn wrong_answer(transmission: &[u8], pack: &[u8], date: &[u8], name: &[u8], out: &mut [u8]) -> u64 {
    match independent(transmission, pack, date, name, out) >> 32 {
        3 => 2 << 32,
        _ => independent(transmission, pack, date, name, out),
    }
}

fn need_without_recap(transmission: &[u8], pack: &[u8], date: &[u8], name: &[u8]) -> u64 {
    number(twin::before_writing(transmission, pack, date, name, |file| match file {
        File::Judged(..) => file.length() - RECORD,
        File::Rejected(_) => file.length(),
    }))
}

fn need_with_all_findings(transmission: &[u8], pack: &[u8], date: &[u8], name: &[u8]) -> u64 {
    number(twin::before_writing(transmission, pack, date, name, |file| match file {
        File::Judged(walked, _) => {
            let findings: u32 = walked.entries.iter().map(|entry| entry.findings.count_ones()).sum();
            FRAME + RECORD * (walked.documents + findings as usize)
        }
        File::Rejected(_) => file.length(),
    }))
}

fn need_of_one_code(transmission: &[u8], pack: &[u8], date: &[u8], name: &[u8]) -> u64 {
    number(twin::before_writing(transmission, pack, date, name, |file| match file {
        File::Judged(..) => file.length(),
        File::Rejected(_) => 2 * RECORD,
    }))
}
