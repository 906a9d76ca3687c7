//! Walking the records, and the structure that 0823 asks for.

use super::bytes::{is_digits, number};
use super::layout::{authentication, form, payment, recap, summary, trana, tranb};

pub const LONGEST: usize = 65_536;
pub const SHORTEST_RECORD: usize = 43;
/// No transmission has more records.
pub const MOST_RECORDS: usize = LONGEST / SHORTEST_RECORD;

#[derive(Clone, Copy, PartialEq, Eq, Debug)]
pub enum Kind {
    TranA,
    TranB,
    Form,
    UnknownForm,
    Payment,
    Authentication,
    Summary,
    Recap,
}

impl Kind {
    /// The record opens a document.
    pub fn opens(self) -> bool {
        matches!(self, Kind::Form | Kind::UnknownForm)
    }
}

/// A record: where it starts, what it is, the set of its findings, and of a 4868 what Key 0117 says on birth dates.
#[derive(Clone, Copy)]
pub struct Entry {
    pub start: u32,
    pub kind: Kind,
    pub birth_code: u8,
    pub findings: u64,
}

impl Entry {
    pub const NONE: Entry = Entry { start: 0, kind: Kind::Recap, birth_code: b'0', findings: 0 };

    #[inline(always)]
    pub fn record<'t, const LENGTH: usize>(&self, transmission: &'t [u8]) -> &'t [u8; LENGTH] {
        transmission[self.start as usize..].first_chunk().unwrap()
    }
}

/// The length and the kind of the record at the start of `rest`, if there is one of a known id and a right length.
#[inline(always)]
pub fn step(rest: &[u8]) -> Option<(usize, Kind)> {
    let head: &[u8; SHORTEST_RECORD] = rest.first_chunk()?;
    let [count @ .., b'*', b'*', b'*', b'*'] = head.first_chunk::<8>()? else {
        return None;
    };
    let count: &[u8; 4] = count;
    if !is_digits(count) {
        return None;
    }
    let length = number(count) as usize;
    if length < SHORTEST_RECORD || rest.get(length - 1) != Some(&b'#') {
        return None;
    }
    let kind = kind_of(head)?;
    length_of(kind).is_none_or(|right| right == length).then_some((length, kind))
}

#[inline(always)]
fn kind_of(head: &[u8; SHORTEST_RECORD]) -> Option<Kind> {
    match form::RECORD_ID.of(head) {
        b"FRM   " => Some(match form::FORM_NUMBER.of(head) {
            b"4868  " => Kind::Form,
            b"PMT   " => Kind::Payment,
            _ => Kind::UnknownForm,
        }),
        b"ATH   " => Some(Kind::Authentication),
        b"SUM   " => Some(Kind::Summary),
        b"RECAP " => Some(Kind::Recap),
        b"TRANA " => Some(Kind::TranA),
        b"TRANB " => Some(Kind::TranB),
        _ => None,
    }
}

/// The one length of a kind; an unknown form has none.
fn length_of(kind: Kind) -> Option<usize> {
    match kind {
        Kind::TranA => Some(trana::LENGTH),
        Kind::TranB => Some(tranb::LENGTH),
        Kind::Form => Some(form::LENGTH),
        Kind::UnknownForm => None,
        Kind::Payment => Some(payment::LENGTH),
        Kind::Authentication => Some(authentication::LENGTH),
        Kind::Summary => Some(summary::LENGTH),
        Kind::Recap => Some(recap::LENGTH),
    }
}

/// A transmission in which 0823 does not hold.
pub struct Walked<'t, 'e> {
    pub transmission: &'t [u8],
    pub trana: &'t [u8; trana::LENGTH],
    pub recap: &'t [u8; recap::LENGTH],
    /// The records of the documents, in file order.
    pub entries: &'e mut [Entry],
    pub documents: usize,
}

/// Walks the transmission, or finds that 0823 holds.
pub fn walk<'t, 'e>(transmission: &'t [u8], entries: &'e mut [Entry]) -> Option<Walked<'t, 'e>> {
    let (trana, rest) = transmission.split_first_chunk()?;
    let (tranb, mut rest) = rest.split_first_chunk::<{ tranb::LENGTH }>()?;
    if step(trana)?.1 != Kind::TranA || step(tranb)?.1 != Kind::TranB {
        return None;
    }
    let mut count = 0;
    let mut documents = 0;
    let mut open = false;
    loop {
        let (length, kind) = step(rest)?;
        match kind {
            Kind::TranA | Kind::TranB => return None,
            Kind::Form | Kind::UnknownForm => {
                documents += 1;
                open = true;
            }
            Kind::Payment | Kind::Authentication if open => {}
            Kind::Summary if open => open = false,
            Kind::Payment | Kind::Authentication | Kind::Summary => return None,
            Kind::Recap => break,
        }
        let start = (transmission.len() - rest.len()) as u32;
        entries[count] = Entry { start, kind, ..Entry::NONE };
        count += 1;
        rest = &rest[length..];
    }
    // RECAP is reached and must be the rest.
    let recap: &[u8; recap::LENGTH] = rest.try_into().ok()?;
    let right = documents > 0
        && is_digits(trana::TWELVE_DIGITS.of(trana))
        && is_digits(recap::DOCUMENT_COUNT.of(recap))
        && number(recap::DOCUMENT_COUNT.of(recap)) as usize == documents;
    right.then_some(Walked { transmission, trana, recap, entries: &mut entries[..count], documents })
}
