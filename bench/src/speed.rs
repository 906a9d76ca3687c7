//! Nanoseconds a call of both receivers on the same inputs, and the ratio of the proved to the hand-written.

use crate::prng::Prng;
use crate::sound::{self, Lines, Record, Shape, World, blank_record};
use crate::twin::layout::{Place, authentication, form, payment, summary};
use crate::{Receiver, independent, proved};
use std::hint::black_box;
use std::time::{Duration, Instant};

const FULL: usize = 65_536;
/// TRANA, TRANB and RECAP.
const FRAME: usize = 360;
/// As many as go into a full pack with some of every other kind.
const MOST_TAXPAYERS: usize = 1_900;
const OUTPUT: usize = 1 << 20;
const ROUNDS: usize = 7;
const ROUND: Duration = Duration::from_millis(20);

/// The kinds of transmission that are measured.
#[derive(Clone, Copy)]
enum Content {
    Sound,
    ManyFindings,
    UnknownForms,
    SingleDocument,
}

impl Content {
    fn name(self) -> &'static str {
        match self {
            Content::Sound => "sound documents",
            Content::ManyFindings => "very many findings",
            Content::UnknownForms => "unknown forms of 43 bytes",
            Content::SingleDocument => "a single sound document",
        }
    }

    /// The transmission with its pack.
    fn input(self, size: usize, taxpayers: usize) -> Input {
        let mut rng = Prng::new(4868);
        let mut world = world(&mut rng, taxpayers);
        let records = match self {
            Content::Sound => sound_documents(&mut rng, &mut world, size - FRAME),
            Content::ManyFindings => ruined_documents(&mut rng, &mut world, size - FRAME),
            Content::UnknownForms => unknown_forms(size - FRAME),
            Content::SingleDocument => nth_document(&mut rng, &mut world, 0, 1, true),
        };
        let documents = records.iter().filter(|record| opens(record)).count();
        let [trana, tranb] = sound::head(&world.digits);
        let recap = sound::tail(&world.digits, documents);
        let transmission = [trana, tranb, records.concat(), recap].concat();
        Input { name: self.name(), transmission, pack: world.lines.pack() }
    }
}

fn opens(record: &Record) -> bool {
    record[8..14] == *b"FRM   " && record[14..20] != *b"PMT   "
}

struct Input {
    name: &'static str,
    transmission: Vec<u8>,
    pack: Vec<u8>,
}

/// A world whose pack has this many taxpayers; with the most of them it is full to the last byte.
fn world(rng: &mut Prng, taxpayers: usize) -> World {
    let mut world = World::new(rng, 1);
    let lines = &mut world.lines;
    let mut line = lines.taxpayers[0];
    lines.taxpayers.clear();
    for running in 0..taxpayers {
        line[..9].copy_from_slice(format!("{:09}", 100_000_007 + running * 450_001).as_bytes());
        lines.taxpayers.push(line);
    }
    if taxpayers == MOST_TAXPAYERS {
        fill(rng, lines);
    }
    world
}

/// Adds banks, filed numbers, states and transmissions until the pack is full to the last byte.
fn fill(rng: &mut Prng, lines: &mut Lines) {
    while lines.banks.len() < 100 {
        let mut bank = *b"010000000N";
        bank[2..9].copy_from_slice(&rng.digits::<7>());
        lines.banks.push(bank);
    }
    lines.filed.extend((0..102).map(|_| rng.digits::<9>()));
    for running in lines.states.len()..51 {
        let letter = b'A' + (running % 26) as u8;
        lines.states.push([b'Q', letter, b'1', b'0', b'0' + (running / 26) as u8, b'9', b'9', b'9']);
    }
    lines.transmissions.extend((0..40).map(|_| rng.digits::<12>()));
    lines.sort();
}

/// The n-th document, with taxpayers of its own as far as the pack has them.
fn nth_document(rng: &mut Prng, world: &mut World, n: usize, payments: usize, authenticated: bool) -> Vec<Record> {
    let shape = Shape {
        foreign: n % 4 == 3,
        joint: n % 2 == 1,
        self_gift: n % 5 == 4,
        spouse_gift: n % 6 == 5,
        payments,
        gift_only: false,
        pin_type: authenticated.then_some(b"SPO"[n % 3]),
    };
    let taxpayers = &world.lines.taxpayers;
    let primary = taxpayers[(n * 37) % taxpayers.len()];
    let spouse = taxpayers[(n * 37 + 19) % taxpayers.len()];
    sound::document(rng, world, shape, primary, spouse)
}

/// Sound documents of exactly this length if there is a way, else a little less.
fn sound_documents(rng: &mut Prng, world: &mut World, length: usize) -> Vec<Record> {
    let (documents, payments, authentications) = makeup(length);
    let mut records = Vec::new();
    for n in 0..documents {
        let own = payments / documents + usize::from(n < payments % documents);
        records.extend(nth_document(rng, world, n, own, n < authentications));
    }
    records
}

/// Numbers of documents, payments and ATHs that come nearest to the length from below.
fn makeup(length: usize) -> (usize, usize, usize) {
    let bare = form::LENGTH + summary::LENGTH;
    let mut best = (0, (1, 0, 0));
    for documents in length / 1161..=length / bare {
        for authentications in 0..=documents {
            let Some(left) = length.checked_sub(documents * bare + authentications * authentication::LENGTH) else {
                break;
            };
            let payments = (left / payment::LENGTH).min(3 * documents);
            let used = length - left + payments * payment::LENGTH;
            if payments >= authentications && used > best.0 {
                best = (used, (documents, payments, authentications));
            }
        }
    }
    best.1
}

/// Documents in which hardly a field may stand: each has more findings than are written.
fn ruined_documents(rng: &mut Prng, world: &mut World, length: usize) -> Vec<Record> {
    let mut records = Vec::new();
    let mut left = length;
    for n in 0.. {
        let mut document = nth_document(rng, world, n, 3, true);
        let Some(rest) = left.checked_sub(document.iter().map(Vec::len).sum()) else {
            break;
        };
        left = rest;
        document.iter_mut().for_each(ruin);
        records.extend(document);
    }
    records
}

fn ruin(record: &mut Record) {
    let table: &[Place] = match &record[8..11] {
        b"ATH" => authentication::TABLE,
        b"SUM" => summary::TABLE,
        _ if record.len() == payment::LENGTH => payment::TABLE,
        _ => form::TABLE,
    };
    for place in &table[2..] {
        record[place.start] = b'x';
    }
}

/// Unknown forms of 43 bytes, and of 44 as far as needed to fill the length.
fn unknown_forms(length: usize) -> Vec<Record> {
    let longer = length % 43;
    (0..length / 43).map(|n| blank_record(b"FRM   9999  PG01 ", 43 + usize::from(n < longer))).collect()
}

/// The least time of several rounds, both receivers in turn, in nanoseconds a call.
fn measure(input: &Input, receivers: [Receiver; 2], out: &mut [u8]) -> [f64; 2] {
    let mut calls = [1, 1];
    let mut least = [f64::MAX; 2];
    for round in 0..=ROUNDS {
        for (place, receiver) in receivers.iter().enumerate() {
            let mut taken = time(input, *receiver, calls[place], out);
            while round == 0 && taken < ROUND {
                calls[place] *= 2;
                taken = time(input, *receiver, calls[place], out);
            }
            least[place] = least[place].min(taken.as_nanos() as f64 / calls[place] as f64);
        }
    }
    least
}

fn time(input: &Input, receiver: Receiver, calls: usize, out: &mut [u8]) -> Duration {
    let start = Instant::now();
    for _ in 0..calls {
        let transmission = black_box(&input.transmission[..]);
        let pack = black_box(&input.pack[..]);
        black_box(receiver(transmission, pack, sound::SOUND_DATE, sound::SOUND_NAME, black_box(out)));
    }
    start.elapsed()
}

/// Prints one line of the table; false if the receivers disagree.
fn line(input: &Input, out: &mut [u8]) -> bool {
    let receivers: [Receiver; 2] = [proved::acknowledge, independent];
    let mut answer = |receiver: Receiver| {
        let answer = receiver(&input.transmission, &input.pack, sound::SOUND_DATE, sound::SOUND_NAME, out);
        (answer, out[..answer as u32 as usize].to_vec())
    };
    let [proved_answer, (file, bytes)] = receivers.map(&mut answer);
    if proved_answer != (file, bytes.clone()) {
        println!("{}: the receivers disagree", input.name);
        return false;
    }
    let letters = b"ARD".map(|letter| {
        let is_key = |record: &&[u8]| record[8..14] == *b"ACK   " && record[53] == letter;
        bytes.chunks_exact(120).filter(is_key).count()
    });
    let [proved, hand_written] = measure(input, receivers, out);
    println!(
        "{:<26} {:>6} {:>6} {:>4} {:>5} {:>4} {:>7} {:>11.0} {:>11.0} {:>6.2}",
        input.name,
        input.transmission.len(),
        input.pack.len(),
        letters[0],
        letters[1],
        letters[2],
        file,
        proved,
        hand_written,
        proved / hand_written
    );
    true
}

fn title(text: &str) {
    println!("{text}");
    println!(
        "{:<26} {:>6} {:>6} {:>4} {:>5} {:>4} {:>7} {:>11} {:>11} {:>6}",
        "", "bytes", "pack", "A", "R", "D", "file", "proved", "by hand", "ratio"
    );
}

pub fn run() -> bool {
    if std::env::var_os("EMULATED").is_some() {
        println!("under an emulator: the nanoseconds mean nothing, and the ratios little");
    }
    let mut out = vec![0; OUTPUT];
    let full = [Content::Sound, Content::ManyFindings, Content::UnknownForms];
    title("nanoseconds a call, full pack");
    let mut agree = true;
    for content in full.into_iter().chain([Content::SingleDocument]) {
        agree &= line(&content.input(FULL, MOST_TAXPAYERS), &mut out);
    }
    title("growth with the transmission: an eighth, a quarter, a half, the whole");
    for content in full {
        for part in [8, 4, 2, 1] {
            agree &= line(&content.input(FULL / part, MOST_TAXPAYERS), &mut out);
        }
    }
    title("growth with the pack: 1, 100 and 1,900 taxpayers");
    for content in full.into_iter().chain([Content::SingleDocument]) {
        for taxpayers in [1, 100, MOST_TAXPAYERS] {
            agree &= line(&content.input(FULL, taxpayers), &mut out);
        }
    }
    agree
}
