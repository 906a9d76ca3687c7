//! The acknowledgment file: Key, Error and Recap records.

use super::bytes::{digits_of, is_digits, number};
use super::judge::Receiver;
use super::layout::{Field, ack_error, ack_key, authentication, form, payment, recap, trana, tranb};
use super::rules;
use super::walk::{Entry, Kind, LONGEST, Walked};

pub const RECORD: usize = 120;
const COPIED: usize = trana::LENGTH + tranb::LENGTH;
const MOST_ERRORS: u32 = 96;
const MOST_FORMS: usize = LONGEST / form::LENGTH;

type Record = [u8; RECORD];

/// A record of blanks with its byte count, sentinel, id and terminus.
const fn blank_record(id: &[u8; 6]) -> Record {
    let start = *b"0120****";
    let mut record = [b' '; RECORD];
    let mut i = 0;
    while i < 8 {
        record[i] = start[i];
        i += 1;
    }
    record[RECORD - 1] = b'#';
    lay(record, Field::<6> { start: 8 }, id)
}

const fn lay<const WIDTH: usize>(mut record: Record, field: Field<WIDTH>, value: &[u8; WIDTH]) -> Record {
    let mut i = 0;
    while i < WIDTH {
        record[field.start + i] = value[i];
        i += 1;
    }
    record
}

/// A Key with zeros in every number.
const KEY: Record = {
    let key = blank_record(b"ACK   ");
    let key = lay(key, ack_key::PRIMARY_SSN, &[b'0'; 9]);
    let key = lay(key, ack_key::SEQUENCE_NUMBER, &[b'0'; 16]);
    let key = lay(key, ack_key::DATE_ACCEPTED, &[b'0'; 8]);
    let key = lay(key, ack_key::CONTROL_NUMBER, &[b'0'; 14]);
    let key = lay(key, ack_key::ERROR_COUNT, b"00");
    let key = lay(key, ack_key::ATTACHMENT_SEQUENCE, b"00");
    lay(key, ack_key::BIRTH_VALIDITY, b"0")
};

/// An Error of a document, without its number.
const ERROR: Record = {
    let error = blank_record(b"ACKR  ");
    let error = lay(error, ack_error::PRIMARY_SSN, &[b'0'; 9]);
    let error = lay(error, ack_error::PAGE, b"00001");
    lay(error, ack_error::OCCURRENCE, b"0000001")
};

/// An Error of a whole rejection, without its code.
const REJECTION_ERROR: Record = {
    let error = lay(ERROR, ack_error::PAGE, b"00000");
    let error = lay(error, ack_error::OCCURRENCE, b"0000000");
    lay(error, ack_error::FIELD_NUMBER, b"0000")
};

const RECAP: Record = {
    let recap = blank_record(b"RECAP ");
    let recap = lay(recap, recap::RESERVE_20, b"000000");
    let recap = lay(recap, recap::RESERVE_80, b"000000");
    let recap = lay(recap, recap::RESERVE_100, b"000000");
    lay(recap, recap::RESERVE_110, b"000000")
};

static UNKNOWN_FORM: [[u8; 8]; 1] = rules::written(&rules::UNKNOWN_FORM);
static FORM: [[u8; 8]; 38] = rules::written(&rules::FORM);
static PAYMENT: [[u8; 8]; 14] = rules::written(&rules::PAYMENT);
static AUTHENTICATION: [[u8; 8]; 43] = rules::written(&rules::AUTHENTICATION);
static SUMMARY: [[u8; 8]; 44] = rules::written(&rules::SUMMARY);

/// A kind's rules as they are written.
fn written_rules(kind: Kind) -> &'static [[u8; 8]] {
    match kind {
        Kind::Form => &FORM,
        Kind::Payment => &PAYMENT,
        Kind::Authentication => &AUTHENTICATION,
        Kind::Summary => &SUMMARY,
        _ => &UNKNOWN_FORM,
    }
}

/// The records of each document.
fn documents(entries: &[Entry]) -> impl Iterator<Item = &[Entry]> {
    entries.chunk_by(|_, next| !next.kind.opens())
}

fn count_findings(records: &[Entry]) -> u32 {
    records.iter().map(|entry| entry.findings.count_ones()).sum()
}

/// The acknowledgment file before it is written.
pub enum File<'a, 'e> {
    Rejected(Rejection<'a>),
    Judged(Walked<'a, 'e>, &'a Receiver<'a>),
}

impl File<'_, '_> {
    pub fn length(&self) -> usize {
        match self {
            File::Rejected(rejection) => rejection.length(),
            File::Judged(walked, _) => length(walked),
        }
    }

    /// Writes the file into an output of its length.
    pub fn write(&self, out: &mut [u8]) {
        match self {
            File::Rejected(rejection) => rejection.write(out),
            File::Judged(walked, receiver) => write(walked, receiver, out),
        }
    }
}

/// The length of the file of a judged transmission.
fn length(walked: &Walked) -> usize {
    let sets = documents(walked.entries).map(|records| 1 + count_findings(records).min(MOST_ERRORS) as usize);
    COPIED + RECORD * (sets.sum::<usize>() + 1)
}

/// Lays one record after another into the output.
struct Writer<'o> {
    slots: std::slice::IterMut<'o, Record>,
}

impl Writer<'_> {
    #[inline(always)]
    fn put(&mut self, record: &Record) {
        *self.slots.next().unwrap() = *record;
    }
}

/// The numbers of the documents that got A.
struct Accepted {
    numbers: [u32; MOST_FORMS],
    count: usize,
}

impl Accepted {
    fn has(&self, ssn: u32) -> bool {
        self.numbers[..self.count].iter().fold(false, |found, number| found | (*number == ssn))
    }

    fn add(&mut self, ssn: u32) {
        self.numbers[self.count] = ssn;
        self.count += 1;
    }
}

/// Writes the file of a judged transmission into an output of its length.
fn write(walked: &Walked, receiver: &Receiver, out: &mut [u8]) {
    let (copied, rest) = out.split_at_mut(COPIED);
    copied.copy_from_slice(&walked.transmission[..COPIED]);
    let mut writer = Writer { slots: rest.as_chunks_mut().0.iter_mut() };
    let mut accepted = Accepted { numbers: [0; MOST_FORMS], count: 0 };
    for records in documents(walked.entries) {
        write_document(walked.transmission, records, receiver, &mut accepted, &mut writer);
    }
    write_recap(walked, receiver, accepted.count, &mut writer);
}

fn write_document(
    transmission: &[u8],
    records: &[Entry],
    receiver: &Receiver,
    accepted: &mut Accepted,
    writer: &mut Writer,
) {
    let findings = count_findings(records);
    let mut key = KEY;
    ack_key::ERROR_COUNT.set(&mut key, &digits_of(findings.min(MOST_ERRORS) as usize));
    ack_key::PIN_PRESENCE.set(&mut key, b"0");
    ack_key::ACCEPTANCE.set(&mut key, b"R");
    if records[0].kind == Kind::Form {
        let form = records[0].record(transmission);
        lay_numbers(&mut key, form);
        ack_key::PIN_PRESENCE.set(&mut key, &[pin_presence(transmission, records)]);
        ack_key::BIRTH_VALIDITY.set(&mut key, &[records[0].birth_code]);
        if findings == 0 {
            lay_letter(&mut key, records, form::PRIMARY_SSN.of(form), receiver, accepted);
        }
    }
    writer.put(&key);
    if findings > 0 {
        write_errors(transmission, records, ack_key::PRIMARY_SSN.of(&key), writer);
    }
}

fn lay_numbers(key: &mut Record, form: &[u8; form::LENGTH]) {
    let ssn = form::PRIMARY_SSN.of(form);
    if is_digits(ssn) {
        ack_key::PRIMARY_SSN.set(key, ssn);
    }
    let sequence_number = form::SEQUENCE_NUMBER.of(form);
    if is_digits(sequence_number) {
        ack_key::SEQUENCE_NUMBER.set(key, sequence_number);
    }
    let control_number = form::CONTROL_NUMBER.of(form);
    if is_digits(control_number) {
        ack_key::CONTROL_NUMBER.set(key, control_number);
    }
}

/// The letter of a document without findings, and what goes with A.
fn lay_letter(key: &mut Record, records: &[Entry], ssn: &[u8; 9], receiver: &Receiver, accepted: &mut Accepted) {
    let known = number(ssn);
    if receiver.pack.is_filed(ssn) || accepted.has(known) {
        ack_key::ACCEPTANCE.set(key, b"D");
        return;
    }
    accepted.add(known);
    ack_key::ACCEPTANCE.set(key, b"A");
    ack_key::DATE_ACCEPTED.set(key, receiver.date);
    if records.iter().any(|entry| entry.kind == Kind::Payment) {
        ack_key::PAYMENT_LITERAL.set(key, b"PYMNT RQST RECD");
    }
}

/// Key 0065 of a 4868 document.
fn pin_presence(transmission: &[u8], records: &[Entry]) -> u8 {
    let mut authentications = records.iter().filter(|entry| entry.kind == Kind::Authentication);
    let Some(first) = authentications.next() else {
        return b'0';
    };
    if first.findings != 0 || authentications.any(|entry| entry.findings != 0) {
        return b' ';
    }
    match authentication::PIN_TYPE.byte(first.record::<{ authentication::LENGTH }>(transmission)) {
        b'P' => b'1',
        b'S' => b'2',
        _ => b'3',
    }
}

fn write_errors(transmission: &[u8], records: &[Entry], ssn: &[u8; 9], writer: &mut Writer) {
    let mut sequence = 0;
    for entry in records.iter().filter(|entry| entry.findings != 0) {
        let mut error = error_of(transmission, entry, ssn);
        let written = written_rules(entry.kind);
        let mut left = entry.findings;
        while left != 0 {
            if sequence == MOST_ERRORS {
                return;
            }
            sequence += 1;
            let rule = &written[left.trailing_zeros() as usize];
            left &= left - 1;
            ack_error::ERROR_SEQUENCE.set(&mut error, &digits_of(sequence as usize));
            ack_error::FIELD_AND_CODE.set(&mut error, rule);
            writer.put(&error);
        }
    }
}

/// The Error of a record, without sequence number, field and code.
fn error_of(transmission: &[u8], entry: &Entry, ssn: &[u8; 9]) -> Record {
    // Every record of a document is longer than the fields that are read here.
    let head: &[u8; 42] = entry.record(transmission);
    let mut error = ERROR;
    ack_error::PRIMARY_SSN.set(&mut error, ssn);
    ack_error::ERROR_RECORD_ID.set(&mut error, form::RECORD_ID.of(head));
    if entry.kind != Kind::Summary {
        ack_error::ERROR_RECORD_TYPE.set(&mut error, form::FORM_NUMBER.of(head));
    }
    let occurrence = payment::OCCURRENCE.of(head);
    if matches!(entry.kind, Kind::Payment | Kind::Authentication) && is_digits(occurrence) {
        ack_error::OCCURRENCE.set(&mut error, occurrence);
    }
    error
}

fn write_recap(walked: &Walked, receiver: &Receiver, accepted: usize, writer: &mut Writer) {
    let mut record = RECAP;
    recap::DOCUMENT_COUNT.set(&mut record, recap::DOCUMENT_COUNT.of(walked.recap));
    recap::TWELVE_DIGITS.set(&mut record, trana::TWELVE_DIGITS.of(walked.trana));
    recap::ACCEPTED.set(&mut record, &digits_of(accepted));
    recap::REJECTED.set(&mut record, &digits_of(walked.documents - accepted));
    recap::COMPUTED_COUNT.set(&mut record, &digits_of(walked.documents));
    recap::FILE_NAME.set(&mut record, receiver.name);
    writer.put(&record);
}

/// The codes that reject a transmission whole, ascending.
pub enum Rejection<'t> {
    NoStructure,
    Numbers { digits: &'t [u8; 12], accepted_before: bool, recap_differs: bool },
}

impl Rejection<'_> {
    fn codes(&self) -> ([&'static [u8; 4]; 2], usize) {
        match self {
            Rejection::NoStructure => ([b"0823", b"0823"], 1),
            Rejection::Numbers { accepted_before: true, recap_differs: true, .. } => ([b"0822", b"0840"], 2),
            Rejection::Numbers { accepted_before: true, .. } => ([b"0822", b"0822"], 1),
            Rejection::Numbers { .. } => ([b"0840", b"0840"], 1),
        }
    }

    /// The length of the file of a whole rejection.
    fn length(&self) -> usize {
        RECORD * (1 + self.codes().1)
    }

    /// Writes the file of a whole rejection into an output of its length.
    fn write(&self, out: &mut [u8]) {
        let (codes, count) = self.codes();
        let mut writer = Writer { slots: out.as_chunks_mut().0.iter_mut() };
        let mut key = KEY;
        if let Rejection::Numbers { digits, .. } = self {
            let twelve = Field::<12> { start: ack_key::SEQUENCE_NUMBER.start };
            twelve.set(&mut key, digits);
        }
        ack_key::ACCEPTANCE.set(&mut key, b"T");
        ack_key::ERROR_COUNT.set(&mut key, &digits_of(count));
        writer.put(&key);
        for (before, code) in codes[..count].iter().enumerate() {
            let mut error = REJECTION_ERROR;
            ack_error::ERROR_SEQUENCE.set(&mut error, &digits_of(before + 1));
            ack_error::REJECT_CODE.set(&mut error, code);
            writer.put(&error);
        }
    }
}
