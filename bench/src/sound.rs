//! Sound documents in all shapes, and a pack that fits them.

use crate::prng::Prng;
use crate::twin::layout::{Field, authentication, form, payment, recap, summary, trana, tranb};

pub type Record = Vec<u8>;
pub type Taxpayer = [u8; 33];

pub const SOUND_DATE: &[u8] = b"20040401";
pub const SOUND_NAME: &[u8] = b"ACK00000000000000001";

/// Lays `text` into a field, filled with blanks.
pub fn put<const WIDTH: usize>(record: &mut [u8], field: Field<WIDTH>, text: &[u8]) {
    let bytes = &mut record[field.start..field.start + WIDTH];
    bytes.fill(b' ');
    bytes[..text.len()].copy_from_slice(text);
}

/// A record of blanks with byte count, sentinel, id and terminus.
pub fn blank_record(id: &[u8], length: usize) -> Record {
    let mut record = vec![b' '; length];
    set_count(&mut record);
    record[4..8].copy_from_slice(b"****");
    record[8..8 + id.len()].copy_from_slice(id);
    record[length - 1] = b'#';
    record
}

/// Makes the byte count the record's length.
pub fn set_count(record: &mut [u8]) {
    let count = record.len();
    put(record, Field::<4> { start: 0 }, format!("{:04}", count % 10_000).as_bytes());
}

/// The lines of a pack, by block.
#[derive(Clone, Default)]
pub struct Lines {
    pub taxpayers: Vec<Taxpayer>,
    pub banks: Vec<[u8; 10]>,
    pub filed: Vec<[u8; 9]>,
    pub states: Vec<[u8; 8]>,
    pub transmissions: Vec<[u8; 12]>,
}

impl Lines {
    /// Brings the lines into order, one of each key.
    pub fn sort(&mut self) {
        self.taxpayers.sort_unstable();
        self.taxpayers.dedup_by(|a, b| a[..9] == b[..9]);
        self.banks.sort_unstable();
        self.banks.dedup_by(|a, b| a[..9] == b[..9]);
        self.filed.sort_unstable();
        self.filed.dedup();
        self.states.sort_unstable();
        self.states.dedup();
        self.transmissions.sort_unstable();
        self.transmissions.dedup();
    }

    /// The blocks by kind, with the lines in the order they have.
    pub fn blocks(&self) -> Vec<(u16, &[u8])> {
        vec![
            (1, self.taxpayers.as_flattened()),
            (2, self.banks.as_flattened()),
            (3, self.filed.as_flattened()),
            (4, self.states.as_flattened()),
            (5, self.transmissions.as_flattened()),
        ]
    }

    pub fn pack(&self) -> Vec<u8> {
        pack_of(&self.blocks())
    }
}

/// The pack of these blocks.
pub fn pack_of(blocks: &[(u16, &[u8])]) -> Vec<u8> {
    let mut pack = Vec::new();
    for (kind, lines) in blocks {
        pack.extend_from_slice(&(lines.len() as u32).to_le_bytes());
        pack.extend_from_slice(&kind.to_le_bytes());
        pack.extend_from_slice(lines);
    }
    pack
}

/// What a sound transmission draws on: the lines of its pack and the numbers that go up from document to document.
pub struct World {
    pub lines: Lines,
    pub digits: [u8; 12],
    pub documents: usize,
}

const CONTROLS: [&[u8]; 8] = [b"LEE ", b"SMIT", b"O-NE", b"DE L", b"ABCD", b"ZZZZ", b"    ", b"X-  "];

/// Birth dates of taxpayers.
const SOUND_BIRTH_DATES: [&[u8]; 4] = [b"19600229", b"19611231", b"19600228", b"20000101"];

/// States with their lines; a state may have several.
const STATES: [&[u8; 8]; 9] = [
    b"AA340340", b"CT060069", b"DC200205", b"MA010027", b"MA055055", b"NY005005", b"NY100149", b"TX750799", b"WY820831",
];

/// Starts of routing numbers, at both ends of the two ranges and beside them.
const ROUTING_STARTS: [&[u8; 2]; 10] = [b"01", b"12", b"21", b"32", b"07", b"25", b"00", b"13", b"20", b"33"];
/// So many of them are in range.
const IN_RANGE: usize = 6;

/// Dates of sound payments.
const PAYMENT_DATES: [&[u8]; 7] =
    [b"20040415", b"20040401", b"20040229", b"20040416", b"20040520", b"20040614", b"20040615"];
/// So many of them will do for a domestic payment.
const BY_APRIL: usize = 3;

impl World {
    /// A world of this many taxpayers, with some banks and states.
    pub fn new(rng: &mut Prng, taxpayers: usize) -> Self {
        let mut lines = Lines::default();
        let mut ssn: [u8; 9] = rng.digits();
        for _ in 0..taxpayers {
            // Neighbours differ in their last digits alone, strangers in all.
            match rng.below(3) {
                0 => ssn[8] = rng.pick(b"0123456789"),
                1 => ssn[7] = rng.pick(b"0123456789"),
                _ => ssn = rng.digits(),
            }
            lines.taxpayers.push(taxpayer(rng, &ssn));
        }
        for start in &ROUTING_STARTS[..IN_RANGE] {
            if rng.one_in(2) {
                lines.banks.push(bank(rng, start, b'Y'));
            }
        }
        let (in_range, beside) = ROUTING_STARTS.split_at(IN_RANGE);
        for (starts, transfer) in [(in_range, b'Y'), (in_range, b'N'), (beside, b'Y')] {
            let start = rng.pick(starts);
            lines.banks.push(bank(rng, start, transfer));
        }
        lines.states.extend(STATES.iter().map(|line| **line));
        lines.sort();
        World { lines, digits: rng.digits(), documents: 0 }
    }

    /// The routing number of a bank that may be used.
    fn routing_number(&self, rng: &mut Prng) -> [u8; 9] {
        loop {
            let line = &self.lines.banks[rng.below(self.lines.banks.len())];
            if line[9] == b'Y' && matches!(&line[..2], b"01" | b"12" | b"21" | b"32" | b"07" | b"25") {
                return *line.first_chunk().unwrap();
            }
        }
    }
}

fn taxpayer(rng: &mut Prng, ssn: &[u8; 9]) -> Taxpayer {
    let mut line = [b'0'; 33];
    line[..9].copy_from_slice(ssn);
    line[9..13].copy_from_slice(rng.pick(&CONTROLS));
    line[13..21].copy_from_slice(rng.pick(&SOUND_BIRTH_DATES));
    if !rng.one_in(8) {
        line[21..].copy_from_slice(&rng.digits::<12>());
    }
    line
}

fn bank(rng: &mut Prng, start: &[u8; 2], transfer: u8) -> [u8; 10] {
    let mut line = [b'0'; 10];
    line[..2].copy_from_slice(start);
    line[2..9].copy_from_slice(&rng.digits::<7>());
    line[9] = transfer;
    line
}

/// Which records a document has, and who files and pays.
#[derive(Clone, Copy)]
pub struct Shape {
    pub foreign: bool,
    pub joint: bool,
    pub self_gift: bool,
    pub spouse_gift: bool,
    pub payments: usize,
    /// All payments are gift payments of the one who gives alone.
    pub gift_only: bool,
    /// The PIN type, if there is an ATH.
    pub pin_type: Option<u8>,
}

impl Shape {
    pub fn random(rng: &mut Prng) -> Self {
        let joint = rng.one_in(2);
        let payments = rng.below(4);
        let self_gift = rng.one_in(3);
        let spouse_gift = joint && rng.one_in(3);
        Shape {
            foreign: rng.one_in(4),
            joint,
            self_gift,
            spouse_gift,
            payments,
            gift_only: self_gift != spouse_gift && rng.one_in(2),
            pin_type: (payments > 0 && !rng.one_in(4)).then(|| rng.pick(b"PSO")),
        }
    }

    fn spouse_only(&self) -> bool {
        self.gift_only && self.spouse_gift
    }

    fn self_only(&self) -> bool {
        self.gift_only && self.self_gift
    }
}

/// The records of a sound document of these two taxpayers; a spouse is only looked at in a joint one.
pub fn document(rng: &mut Prng, world: &mut World, shape: Shape, primary: Taxpayer, spouse: Taxpayer) -> Vec<Record> {
    world.documents += 1;
    let control_number = format!("00654321{:05}4", world.documents);
    let people = People { primary, spouse: shape.joint.then_some(spouse) };
    let mut records = vec![form_record(rng, world, shape, &people, control_number.as_bytes())];
    for running in 1..=shape.payments {
        records.push(payment_record(rng, world, shape, &people, running));
    }
    if let Some(pin_type) = shape.pin_type {
        let record = authentication_record(rng, shape, pin_type, &people);
        let place = if rng.one_in(4) { rng.between(1, records.len()) } else { records.len() };
        records.insert(place, record);
    }
    let count = records.len() + 1;
    records.push(summary_record(rng, &people, &control_number.as_bytes()[2..8], count, shape.payments));
    records
}

/// Who files.
struct People {
    primary: Taxpayer,
    spouse: Option<Taxpayer>,
}

fn form_record(rng: &mut Prng, world: &World, shape: Shape, people: &People, control_number: &[u8]) -> Record {
    let mut record = blank_record(b"FRM   4868  PG01 ", form::LENGTH);
    put(&mut record, form::TAXPAYER, &people.primary[..9]);
    put(&mut record, form::PERIOD, b"200312");
    let sequence_number = [&world.digits[..], format!("{:04}", world.documents).as_bytes()].concat();
    put(&mut record, form::SEQUENCE_NUMBER, &sequence_number);
    put(&mut record, form::CONTROL_NUMBER, control_number);
    put(&mut record, form::PRIMARY_CONTROL, &people.primary[9..13]);
    put(&mut record, form::PRIMARY_SSN, &people.primary[..9]);
    if let Some(spouse) = people.spouse {
        put(&mut record, form::SPOUSE_CONTROL, &spouse[9..13]);
        put(&mut record, form::SPOUSE_SSN, &spouse[..9]);
        put(&mut record, form::NAME_LINE, rng.pick(&[b"ANN & BOB<LEE", b"ANN&BOB<LEE", b"A B & C D<DE LA-O"]));
    } else {
        put(&mut record, form::NAME_LINE, rng.pick(&[b"ANN<LEE", b"ANN LEE", b"A B-C<D<JR"]));
    }
    put_address(rng, &mut record, shape.foreign);
    put_money(rng, &mut record, shape);
    record
}

fn put_address(rng: &mut Prng, record: &mut Record, foreign: bool) {
    if foreign {
        put(record, form::FOREIGN_STREET, rng.pick(&[b"5 RUE A/B", b"ROUTE 9-2"]));
        put(record, form::FOREIGN_CITY, rng.pick(&[b"PARIS 75001", b"4 BONN"]));
        put(record, form::FOREIGN_COUNTRY, rng.pick(&[b"FRANCE", b"NEW ZEALAND"]));
        put(record, form::ZIP, rng.pick(&[b"", b"0", b"00000", b"000000000000"]));
        put(record, form::ADDRESS_INDICATOR, b"3");
    } else {
        let (state, zip): (&[u8; 2], &[u8]) = match rng.below(6) {
            0 => (b"MA", b"01001"),
            1 => (b"MA", b"055551234"),
            2 => (b"DC", b"20500"),
            3 => (b"NY", b"149010000000"),
            4 => (b"NY", b"00501"),
            _ => (b"TX", b"799990000"),
        };
        put(record, form::STREET, rng.pick(&[b"1 MAIN ST", b"A/B-C 5", b"RR 2"]));
        put(record, form::CITY, rng.pick(&[b"ANYTOWN", b"NEW YORK", b"ABC"]));
        put(record, form::STATE, state);
        put(record, form::ZIP, zip);
        put(record, form::ADDRESS_INDICATOR, &[rng.pick(b" 12")]);
    }
}

fn put_money(rng: &mut Prng, record: &mut Record, shape: Shape) {
    for field in [form::TAX_LIABILITY, form::TOTAL_PAYMENTS, form::BALANCE_DUE, form::AMOUNT_DUE, form::AMOUNT_PAYING] {
        let amount: [u8; 12] = rng.digits();
        put(record, field, rng.pick(&[b"", b"000000000000", &amount]));
    }
    let gifts = [
        (shape.self_gift, form::SELF_GIFT_BOX, form::SELF_GIFT_TAX),
        (shape.spouse_gift, form::SPOUSE_GIFT_BOX, form::SPOUSE_GIFT_TAX),
    ];
    for (given, gift_box, gift_tax) in gifts {
        if given {
            put(record, gift_box, b"X");
            put(record, gift_tax, rng.pick(&[b"000000000001", b"000000120000", b"100000000000"]));
        } else if rng.one_in(3) {
            put(record, gift_tax, b"000000000000");
        }
    }
}

fn payment_record(rng: &mut Prng, world: &World, shape: Shape, people: &People, running: usize) -> Record {
    let mut record = blank_record(b"FRM   PMT   PG01 ", payment::LENGTH);
    put(&mut record, payment::TAXPAYER, &people.primary[..9]);
    put(&mut record, payment::OCCURRENCE, format!("{running:07}").as_bytes());
    put(&mut record, payment::PRIMARY_SSN, &people.primary[..9]);
    if let Some(spouse) = people.spouse
        && !rng.one_in(4)
    {
        put(&mut record, payment::SECONDARY_SSN, &spouse[..9]);
    }
    put(&mut record, payment::ROUTING_NUMBER, &world.routing_number(rng));
    put(&mut record, payment::ACCOUNT_NUMBER, rng.pick(&[b"12-34", b"0-0", b"A", b"12345678901234567"]));
    put(&mut record, payment::ACCOUNT_TYPE, &[rng.pick(b"12")]);
    put(&mut record, payment::AMOUNT, rng.pick(&[b"000000000001", b"000000120000"]));
    let tax_type = match (shape.self_only(), shape.spouse_only()) {
        (true, _) => b"0709P",
        (_, true) => b"0709S",
        _ => rng.pick(&[b"4868E", b"4868E", b"0709P", b"0709S"]),
    };
    put(&mut record, payment::TAX_TYPE, tax_type);
    let dates = if shape.foreign { &PAYMENT_DATES[..] } else { &PAYMENT_DATES[..BY_APRIL] };
    put(&mut record, payment::PAYMENT_DATE, rng.pick(dates));
    put(&mut record, payment::PHONE, rng.pick(&[b"", b"4135550100"]));
    record
}

fn authentication_record(rng: &mut Prng, shape: Shape, pin_type: u8, people: &People) -> Record {
    let mut record = blank_record(b"ATH         PG01 ", authentication::LENGTH);
    put(&mut record, authentication::TAXPAYER, &people.primary[..9]);
    put(&mut record, authentication::OCCURRENCE, b"0000001");
    put(&mut record, authentication::PIN_TYPE, &[pin_type]);
    put(&mut record, authentication::SIGNATURE_DATE, b"20040401");
    let self_select = pin_type != b'P';
    put(&mut record, authentication::JURAT, if self_select { b"E" } else { b"I" });
    if self_select || rng.one_in(2) {
        put(&mut record, authentication::PIN_AUTHORIZATION, &[rng.pick(b"1234")]);
    }
    if !(self_select && shape.spouse_only() && rng.one_in(2)) {
        put(&mut record, authentication::PRIMARY_PIN, b"12345");
        if self_select || rng.one_in(2) {
            put(&mut record, authentication::PRIMARY_BIRTH, &people.primary[13..21]);
            put(&mut record, authentication::PRIMARY_INCOME, &people.primary[21..]);
        }
    }
    if let Some(spouse) = people.spouse
        && !((!self_select || shape.self_only()) && rng.one_in(2))
    {
        put(&mut record, authentication::SPOUSE_BIRTH, &spouse[13..21]);
        put(&mut record, authentication::SPOUSE_INCOME, &spouse[21..]);
        put(&mut record, authentication::SPOUSE_PIN, b"00001");
    }
    record
}

fn summary_record(rng: &mut Prng, people: &People, efin: &[u8], records: usize, payments: usize) -> Record {
    let mut record = blank_record(b"SUM   ", summary::LENGTH);
    put(&mut record, summary::TAXPAYER, &people.primary[..9]);
    put(&mut record, summary::ORIGINATOR_NAME, b"PRACTICE ORIGINATOR");
    put(&mut record, summary::ORIGINATOR_EFIN, efin);
    put(&mut record, summary::LOGICAL_RECORDS, format!("{records:06}").as_bytes());
    put(&mut record, summary::PAYMENT_FORMS, format!("{payments:04}").as_bytes());
    put(&mut record, summary::SOFTWARE_NUMBER, b"12345678");
    put(&mut record, summary::SOFTWARE_VERSION, b"1.0");
    if rng.one_in(2) {
        put(&mut record, summary::POSTMARK_DATE, rng.pick(&[b"20040401", b"20040101", b"20041231"]));
        put(&mut record, summary::POSTMARK_TIME, rng.pick(&[b"0000", b"2359", b"1200"]));
        put(&mut record, summary::POSTMARK_ZONE, &[rng.pick(b"ECGMPAH")]);
    }
    record
}

/// TRANA and TRANB.
pub fn head(digits: &[u8; 12]) -> [Record; 2] {
    let mut trana = blank_record(b"TRANA ", trana::LENGTH);
    put(&mut trana, trana::EMPLOYER_NUMBER, b"123456789");
    put(&mut trana, trana::NAME, b"PRACTICE FIRM");
    put(&mut trana, trana::TYPE, b"Preparer");
    put(&mut trana, trana::SITE, b"C");
    put(&mut trana, trana::DATE, SOUND_DATE);
    put(&mut trana, trana::TWELVE_DIGITS, digits);
    put(&mut trana, trana::FORMAT, b"A");
    put(&mut trana, trana::RECORD_TYPE, b"F");
    put(&mut trana, trana::EFIN, b"654321");
    let mut tranb = blank_record(b"TRANB ", tranb::LENGTH);
    put(&mut tranb, tranb::EMPLOYER_NUMBER, b"123456789");
    put(&mut tranb, tranb::ADDRESS, b"1 MAIN ST");
    put(&mut tranb, tranb::CITY_STATE_ZIP, b"ANYTOWN MA 01001");
    put(&mut tranb, tranb::TELEPHONE, b"4135550100");
    [trana, tranb]
}

/// RECAP.
pub fn tail(digits: &[u8; 12], documents: usize) -> Record {
    let mut recap = blank_record(b"RECAP ", recap::LENGTH);
    put(&mut recap, recap::DOCUMENT_COUNT, format!("{documents:06}").as_bytes());
    put(&mut recap, recap::TWELVE_DIGITS, digits);
    recap
}
