//! How often each code, letter, birth code, refusal and whole rejection occurred, and payments on a last day or the day
//! after.

use crate::twin::layout::{ack_key, form, payment};
use crate::twin::rules::{self, Rule};
use crate::twin::walk::{Kind, step};
use std::collections::BTreeMap;

const RECORD: usize = 120;
const LETTERS: [u8; 3] = *b"ARD";
/// What Key 0117 says.
const BIRTH_CODES: [u8; 5] = *b"01234";
const WHOLE_CODES: [u16; 3] = [822, 823, 840];
const REFUSALS: [&str; 5] = ["answered", "refusal 1", "refusal 2", "refusal 3", "refusal 4"];
const ADDRESSES: [&str; 2] = ["domestic", "foreign"];
/// The last days of payments, domestic and foreign, each with the day after.
const COUNTED_DATES: [&str; 4] = ["20040415", "20040416", "20040615", "20040616"];

/// The rules of one record kind, with how often each was a finding.
struct Rules {
    name: &'static str,
    rules: &'static [Rule],
    counts: Vec<u64>,
}

pub struct Tally {
    refusals: [u64; 5],
    whole: [u64; 3],
    letters: [u64; 3],
    birth_codes: [u64; 5],
    /// Documents with the most Error records that are written.
    full: u64,
    /// Payments by their document's address and by date.
    payments: [[u64; 4]; 2],
    findings: [Rules; 5],
}

impl Tally {
    pub fn new() -> Self {
        let tables: [(&str, &[Rule]); 5] = [
            ("4868", &rules::FORM),
            ("payment", &rules::PAYMENT),
            ("authentication", &rules::AUTHENTICATION),
            ("summary", &rules::SUMMARY),
            ("unknown form", &rules::UNKNOWN_FORM),
        ];
        Tally {
            refusals: [0; 5],
            whole: [0; 3],
            letters: [0; 3],
            birth_codes: [0; 5],
            full: 0,
            payments: [[0; 4]; 2],
            findings: tables.map(|(name, rules)| Rules { name, rules, counts: vec![0; rules.len()] }),
        }
    }

    /// Adds the answer and the file on which both receivers agree, and the payments of the transmission.
    pub fn add(&mut self, transmission: &[u8], answer: u64, output: &[u8]) {
        let refusal = (answer >> 32) as usize;
        self.refusals[refusal] += 1;
        let mut file = &output[..answer as u32 as usize];
        if file.starts_with(b"0120****TRANA ") {
            file = &file[2 * RECORD..];
            self.add_payments(transmission);
        }
        for record in file.chunks_exact(RECORD) {
            match &record[8..14] {
                b"ACK   " => self.add_key(record),
                b"ACKR  " => self.add_error(record),
                _ => {}
            }
        }
    }

    /// Adds the payments of the 4868 documents of a transmission that was not rejected whole.
    fn add_payments(&mut self, transmission: &[u8]) {
        let mut rest = transmission;
        let mut address = None;
        while let Some((length, kind)) = step(rest) {
            match kind {
                Kind::Form => address = Some(usize::from(rest[form::ADDRESS_INDICATOR.start] == b'3')),
                Kind::UnknownForm => address = None,
                Kind::Payment => {
                    let written = &rest[payment::PAYMENT_DATE.start..][..8];
                    let date = COUNTED_DATES.iter().position(|date| date.as_bytes() == written);
                    if let (Some(address), Some(date)) = (address, date) {
                        self.payments[address][date] += 1;
                    }
                }
                _ => {}
            }
            rest = &rest[length..];
        }
    }

    fn add_key(&mut self, key: &[u8]) {
        if let Some(letter) = LETTERS.iter().position(|letter| *letter == key[53]) {
            self.letters[letter] += 1;
            let written = key[ack_key::BIRTH_VALIDITY.start];
            let code = BIRTH_CODES.iter().position(|code| *code == written).expect("a birth code");
            self.birth_codes[code] += 1;
        }
        self.full += u64::from(key[81..83] == *b"96");
    }

    fn add_error(&mut self, error: &[u8]) {
        let rule = (number(&error[56..60]), number(&error[60..64]));
        let kind = match (&error[32..38], &error[38..44]) {
            (b"FRM   ", b"4868  ") => 0,
            (b"FRM   ", b"PMT   ") => 1,
            (b"ATH   ", _) => 2,
            (b"SUM   ", _) => 3,
            (b"FRM   ", _) => 4,
            _ => {
                let code = WHOLE_CODES.iter().position(|code| *code == rule.1).expect("a code of a whole rejection");
                self.whole[code] += 1;
                return;
            }
        };
        let Rules { rules, counts, .. } = &mut self.findings[kind];
        counts[rules.binary_search(&rule).expect("a rule of the record")] += 1;
    }

    /// Prints the counts; false if something never occurred.
    pub fn report(&self) -> bool {
        let mut never = Vec::new();
        let mut line = |name: String, count: u64| {
            if count == 0 {
                never.push(name.clone());
            }
            format!("{name}: {count}")
        };
        let answers: Vec<_> = REFUSALS.iter().zip(self.refusals).map(|(name, n)| line(name.to_string(), n)).collect();
        println!("{}", answers.join("  "));
        let whole: Vec<_> = WHOLE_CODES.iter().zip(self.whole).map(|(code, n)| line(format!("{code:04}"), n)).collect();
        println!("rejected whole  {}", whole.join("  "));
        let letters = LETTERS.iter().zip(self.letters).map(|(letter, n)| line((*letter as char).to_string(), n));
        println!("letters  {}", letters.collect::<Vec<_>>().join("  "));
        let codes = BIRTH_CODES.iter().zip(self.birth_codes);
        let codes = codes.map(|(code, n)| line(format!("birth code {}", *code as char), n));
        println!("{}", codes.collect::<Vec<_>>().join("  "));
        println!("{}", line("documents with 96 Error records".to_string(), self.full));
        for (address, counts) in ADDRESSES.iter().zip(self.payments) {
            let dates = COUNTED_DATES.iter().zip(counts).map(|(date, n)| line(format!("{address} payment {date}"), n));
            println!("{}", dates.collect::<Vec<_>>().join("  "));
        }
        let codes: Vec<_> = self.codes().into_iter().map(|(code, n)| line(format!("{code:04}"), n)).collect();
        println!("findings by code");
        for row in codes.chunks(8) {
            println!("  {}", row.iter().map(|text| format!("{text:<14}")).collect::<String>().trim_end());
        }
        for Rules { name, rules, counts } in &self.findings {
            let seen = counts.iter().filter(|count| **count > 0).count();
            let least = counts.iter().min().unwrap();
            println!("rules of {name}: {seen} of {} occurred, the rarest {least} times", rules.len());
            for ((field, code), count) in rules.iter().zip(counts) {
                line(format!("{name} {field:04} {code:04}"), *count);
            }
        }
        for name in &never {
            println!("never occurred: {name}");
        }
        never.is_empty()
    }

    fn codes(&self) -> BTreeMap<u16, u64> {
        let mut codes = BTreeMap::new();
        for Rules { rules, counts, .. } in &self.findings {
            for ((_, code), count) in rules.iter().zip(counts) {
                *codes.entry(*code).or_default() += count;
            }
        }
        codes
    }
}

fn number(digits: &[u8]) -> u16 {
    digits.iter().fold(0, |number, digit| number * 10 + u16::from(digit.wrapping_sub(b'0')))
}
