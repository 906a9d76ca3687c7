//! Cases for the comparison: sound transmissions with packs that fit, and edits of every part.

use crate::edges;
use crate::prng::Prng;
use crate::sound::{self, Record, Shape, World, blank_record, put, set_count};
use crate::twin::layout::{Place, authentication, form, payment, recap, summary, trana, tranb};
use crate::twin::walk::Kind;

/// A longer transmission is refused, and so is a longer pack.
pub const LONGEST: usize = 65_536;

/// How long the output is.
#[derive(Clone, Copy, PartialEq, Debug)]
pub enum Room {
    /// The file and so many bytes more.
    Beyond(usize),
    /// So many bytes too short.
    Short(usize),
    /// 360 bytes and 31 times the length of the transmission, with which refusal 4 never comes.
    Enough,
    /// A length that has nothing to do with the file.
    Any(usize),
}

#[derive(Clone)]
pub struct Case {
    pub transmission: Vec<u8>,
    pub pack: Vec<u8>,
    pub date: Vec<u8>,
    pub name: Vec<u8>,
    pub room: Room,
    /// What the output holds before: this and the place decide the byte.
    pub pattern: u8,
}

/// The case of a seed.
pub fn case(seed: u64) -> Case {
    let rng = &mut Prng::new(seed);
    let taxpayers = match rng.below(100) {
        0 => rng.between(20, 400),
        _ => rng.between(1, 8),
    };
    let mut world = World::new(rng, taxpayers);
    let mut records = documents(rng, &mut world);
    edit_documents(rng, &mut world, &mut records);
    let mut records = framed(rng, &world, records);
    if rng.one_in(8) {
        for _ in 0..rng.between(1, 2) {
            edit_structure(rng, &mut records);
        }
    }
    let mut transmission = records.concat();
    edit_length(rng, &mut transmission);
    Case {
        transmission,
        pack: pack(rng, world),
        date: date(rng),
        name: name(rng),
        room: room(rng),
        pattern: rng.next() as u8,
    }
}

/// A sound case of two documents, the one domestic and joint, with a payment and an ATH, the other foreign, with a
/// payment. Each payment is dated on the last day that it may have, and the ATH's birth dates are those of the lines.
pub fn sound_case() -> Case {
    // With this seed there are two lines, and their birth dates differ.
    let rng = &mut Prng::new(4870);
    let mut world = World::new(rng, 2);
    let [primary, spouse] = [world.lines.taxpayers[0], world.lines.taxpayers[1]];
    let mut documents = Vec::new();
    for foreign in [false, true] {
        let shape = Shape {
            foreign,
            joint: !foreign,
            self_gift: false,
            spouse_gift: false,
            payments: 1,
            gift_only: false,
            pin_type: (!foreign).then_some(b'O'),
        };
        let [first, second] = if foreign { [spouse, primary] } else { [primary, spouse] };
        documents.extend(sound::document(rng, &mut world, shape, first, second));
    }
    let payments = documents.iter_mut().filter(|record| kind_of(record) == Some(Kind::Payment));
    for (record, last_day) in payments.zip([b"20040415", b"20040615"]) {
        put(record, payment::PAYMENT_DATE, last_day);
    }
    for record in documents.iter_mut().filter(|record| kind_of(record) == Some(Kind::Summary)) {
        put(record, summary::POSTMARK_DATE, b"20040401");
        put(record, summary::POSTMARK_TIME, b"2359");
        put(record, summary::POSTMARK_ZONE, b"E");
    }
    let [trana, tranb] = sound::head(&world.digits);
    let recap = sound::tail(&world.digits, 2);
    world.lines.filed.push(*b"000000001");
    world.lines.transmissions.push(*b"000000000001");
    Case {
        transmission: [trana, tranb, documents.concat(), recap].concat(),
        pack: world.lines.pack(),
        date: sound::SOUND_DATE.to_vec(),
        name: sound::SOUND_NAME.to_vec(),
        room: Room::Beyond(0),
        pattern: 0,
    }
}

/// Some documents, most of them sound so far, all in shapes of their own.
fn documents(rng: &mut Prng, world: &mut World) -> Vec<Record> {
    let count = match rng.below(200) {
        0 => rng.between(5, 40),
        1..20 => rng.between(3, 6),
        _ => rng.between(1, 2),
    };
    let mut documents = Vec::new();
    for _ in 0..count {
        let shape = Shape::random(rng);
        let primary = rng.pick(&world.lines.taxpayers);
        let spouse = rng.pick(&world.lines.taxpayers);
        let document = sound::document(rng, world, shape, primary, spouse);
        if rng.one_in(20) {
            documents.push(unknown_form(rng, &document));
        }
        documents.push(document.clone());
        if rng.one_in(12) {
            // The same once more: a duplicate, if its numbers go up.
            let mut again = document;
            if !rng.one_in(3) {
                raise_numbers(world, &mut again[0]);
            }
            documents.push(again);
        }
    }
    if rng.one_in(6) {
        for place in 0..documents.len() {
            let other = rng.below(documents.len());
            documents.swap(place, other);
        }
    }
    documents.concat()
}

fn raise_numbers(world: &mut World, form: &mut Record) {
    world.documents += 1;
    let running = world.documents;
    let sequence_number = [&world.digits[..], format!("{running:04}").as_bytes()].concat();
    put(form, form::SEQUENCE_NUMBER, &sequence_number);
    put(form, form::CONTROL_NUMBER, format!("00654321{running:05}4").as_bytes());
}

/// A document of an unknown form, with or without records of a known one.
fn unknown_form(rng: &mut Prng, document: &[Record]) -> Vec<Record> {
    let length = match rng.below(4) {
        0 => 43,
        1 => rng.between(43, 50),
        2 => form::LENGTH,
        _ => rng.between(43, 1200),
    };
    let mut opening = blank_record(b"FRM   ", length);
    put(&mut opening, form::FORM_NUMBER, rng.pick(edges::UNKNOWN_FORMS));
    let mut records = vec![opening];
    records.extend(document[1..].iter().filter(|_| rng.one_in(2)).cloned());
    records
}

/// TRANA, TRANB, the documents and RECAP, right in most cases.
fn framed(rng: &mut Prng, world: &World, documents: Vec<Record>) -> Vec<Record> {
    let [trana, tranb] = sound::head(&world.digits);
    let count = documents.iter().filter(|record| kind_of(record).is_some_and(Kind::opens)).count();
    let mut recap = sound::tail(&world.digits, count);
    if rng.one_in(40) {
        let place = recap::TWELVE_DIGITS.start + rng.below(12);
        recap[place] = rng.pick(edges::BYTES);
    }
    if rng.one_in(8) {
        borrow_ten(&mut recap[recap::DOCUMENT_COUNT.start..recap::DOCUMENT_COUNT.start + 6]);
    }
    let mut frame = [trana, tranb, recap];
    if rng.one_in(8) {
        edit_field(rng, world, &mut frame);
    }
    let [trana, tranb, recap] = frame;
    let mut records = vec![trana, tranb];
    records.extend(documents);
    records.push(recap);
    records
}

fn kind_of(record: &[u8]) -> Option<Kind> {
    match record.get(8..20)? {
        [b'F', b'R', b'M', b' ', b' ', b' ', b'4', b'8', b'6', b'8', b' ', b' '] => Some(Kind::Form),
        [b'F', b'R', b'M', b' ', b' ', b' ', b'P', b'M', b'T', b' ', b' ', b' '] => Some(Kind::Payment),
        [b'F', ..] => Some(Kind::UnknownForm),
        [b'A', ..] => Some(Kind::Authentication),
        [b'S', ..] => Some(Kind::Summary),
        [b'R', ..] => Some(Kind::Recap),
        [b'T', b'R', b'A', b'N', b'A', ..] => Some(Kind::TranA),
        [b'T', ..] => Some(Kind::TranB),
        _ => None,
    }
}

fn table_of(kind: Kind) -> &'static [Place] {
    match kind {
        Kind::TranA => trana::TABLE,
        Kind::TranB => tranb::TABLE,
        Kind::Form => form::TABLE,
        Kind::UnknownForm => &form::TABLE[..7],
        Kind::Payment => payment::TABLE,
        Kind::Authentication => authentication::TABLE,
        Kind::Summary => summary::TABLE,
        Kind::Recap => recap::TABLE,
    }
}

/// Edits inside the documents: none, a few, many, or a document in ruins.
fn edit_documents(rng: &mut Prng, world: &mut World, records: &mut Vec<Record>) {
    let fields = match rng.below(20) {
        0..5 => 0,
        5..13 => 1,
        13..17 => rng.between(2, 5),
        17..19 => rng.between(6, 40),
        _ => rng.between(100, 300),
    };
    if rng.one_in(8) {
        edit_makeup(rng, records);
    }
    if rng.one_in(8) {
        edit_payment_dates(rng, records);
    }
    if rng.one_in(4) {
        edit_birth_dates(rng, world, records);
    }
    for _ in 0..fields {
        edit_field(rng, world, records);
    }
    if rng.one_in(50) {
        ruin(rng, records);
    }
}

/// Edits which records a document has, and their order.
fn edit_makeup(rng: &mut Prng, records: &mut Vec<Record>) {
    let place = rng.below(records.len());
    let kind = kind_of(&records[place]);
    match rng.below(5) {
        0 if kind == Some(Kind::Summary) || rng.one_in(3) => {
            records.remove(place);
        }
        4 => records.retain(|record| kind_of(record) != Some(Kind::Payment)),
        1 if matches!(kind, Some(Kind::Payment | Kind::Authentication)) || rng.one_in(10) => {
            for _ in 0..rng.between(1, 3) {
                let mut again = records[place].clone();
                if kind == Some(Kind::Payment) && rng.one_in(2) {
                    put(&mut again, payment::OCCURRENCE, format!("{:07}", rng.between(2, 4)).as_bytes());
                }
                records.insert(place + 1, again);
            }
        }
        2 if place + 1 < records.len() => records.swap(place, place + 1),
        _ => {
            let record = records.remove(place);
            let to = rng.between(0, records.len());
            records.insert(to, record);
        }
    }
    if records.is_empty() {
        records.push(blank_record(b"FRM   9999  PG01 ", 43));
    }
}

/// Dates each payment on one of the two last days or beside it, whatever the address.
fn edit_payment_dates(rng: &mut Prng, records: &mut [Record]) {
    for record in records.iter_mut().filter(|record| kind_of(record) == Some(Kind::Payment)) {
        put(record, payment::PAYMENT_DATE, rng.pick(edges::LAST_PAYMENT_DAYS));
    }
}

/// Gives lines and ATHs birth dates that agree, differ or are blank, whoever files; at times a second ATH, of any type,
/// follows the first.
fn edit_birth_dates(rng: &mut Prng, world: &mut World, records: &mut Vec<Record>) {
    for line in &mut world.lines.taxpayers {
        line[13..21].copy_from_slice(rng.pick(edges::BIRTH_DATES));
    }
    let is_authentication = |record: &Record| kind_of(record) == Some(Kind::Authentication);
    if rng.one_in(4)
        && let Some(place) = records.iter().position(is_authentication)
    {
        let mut again = records[place].clone();
        put(&mut again, authentication::PIN_TYPE, &[rng.pick(b"PSO")]);
        records.insert(place + 1, again);
    }
    for record in records.iter_mut().filter(|record| is_authentication(record)) {
        for field in [authentication::PRIMARY_BIRTH, authentication::SPOUSE_BIRTH] {
            put(record, field, if rng.one_in(4) { b"" } else { rng.pick(edges::BIRTH_DATES) });
        }
    }
}

/// Edits one field of one record.
fn edit_field(rng: &mut Prng, world: &World, records: &mut [Record]) {
    let chosen = rng.below(records.len());
    let Some(kind) = kind_of(&records[chosen]) else {
        return;
    };
    let table = table_of(kind);
    // Ids and form numbers are the business of other edits; an ATH's form number is judged.
    let first = if kind == Kind::Authentication || kind == Kind::Summary { 1 } else { 2 };
    let place = table[rng.between(first, table.len() - 1)];
    if place.start + place.width >= records[chosen].len() {
        return;
    }
    let values = edges::values(kind, place.number);
    match rng.below(11) {
        0..4 if !values.is_empty() => fill_field(&mut records[chosen], place, rng.pick(values)),
        10 => {
            if let Some(value) = value_of_pack(rng, world, place.width) {
                fill_field(&mut records[chosen], place, &value);
            }
        }
        4 | 5 => records[chosen][place.start..place.start + place.width].fill(b' '),
        6 => {
            let fill = rng.pick(b"0019AX");
            records[chosen][place.start..place.start + place.width].fill(fill);
        }
        7 => copy_field(rng, records, chosen, place),
        8 => step_digit(rng, &mut records[chosen][place.start..place.start + place.width]),
        _ => {
            let at = place.start + rng.below(place.width);
            records[chosen][at] = rng.pick(edges::BYTES);
        }
    }
}

/// Lays as much of the value as goes into the field, filled with blanks.
fn fill_field(record: &mut Record, place: Place, value: &[u8]) {
    let field = &mut record[place.start..place.start + place.width];
    field.fill(b' ');
    let length = value.len().min(place.width);
    field[..length].copy_from_slice(&value[..length]);
}

/// A number, control, birth date, income or state that the pack has.
fn value_of_pack(rng: &mut Prng, world: &World, width: usize) -> Option<Vec<u8>> {
    let taxpayer = rng.pick(&world.lines.taxpayers);
    match width {
        2 => Some(rng.pick(&world.lines.states)[..2].to_vec()),
        4 => Some(taxpayer[9..13].to_vec()),
        8 => Some(taxpayer[13..21].to_vec()),
        9 if rng.one_in(2) => Some(taxpayer[..9].to_vec()),
        9 => Some(rng.pick(&world.lines.banks)[..9].to_vec()),
        12 => Some(taxpayer[21..].to_vec()),
        _ => None,
    }
}

/// Takes the bytes of a field of the same width from some record.
fn copy_field(rng: &mut Prng, records: &mut [Record], to: usize, place: Place) {
    let from = rng.below(records.len());
    let Some(kind) = kind_of(&records[from]) else {
        return;
    };
    let table = table_of(kind);
    let mut others = table.iter().cycle().skip(rng.below(table.len())).take(table.len());
    let Some(source) = others.find(|other| other.width == place.width) else {
        return;
    };
    if let Some(bytes) = records[from].get(source.start..source.start + source.width) {
        let bytes = bytes.to_vec();
        records[to][place.start..place.start + place.width].copy_from_slice(&bytes);
    }
}

/// One digit up or down, the last one most often; or the same number with a last byte beyond the digits.
fn step_digit(rng: &mut Prng, field: &mut [u8]) {
    if rng.one_in(4) {
        return borrow_ten(field);
    }
    let place = if rng.one_in(2) { field.len() - 1 } else { rng.below(field.len()) };
    field[place] = if rng.one_in(2) { field[place].wrapping_add(1) } else { field[place].wrapping_sub(1) };
}

/// Writes the number with a tens digit one lower and a last byte ten higher, which is no digit.
fn borrow_ten(field: &mut [u8]) {
    if let [.., tens @ b'1'..=b'9', ones @ b'0'..=b'9'] = field {
        *tens -= 1;
        *ones += 10;
    }
}

/// Leaves hardly a field of a document as it was, so that there are more findings than are written.
fn ruin(rng: &mut Prng, records: &mut Vec<Record>) {
    if rng.one_in(2)
        && let Some(place) = records.iter().position(|record| kind_of(record) == Some(Kind::Payment))
    {
        for _ in 0..rng.between(1, 9) {
            records.insert(place, records[place].clone());
        }
    }
    let damage = rng.pick(b"x?0 ");
    for record in records.iter_mut() {
        let Some(kind) = kind_of(record).filter(|_| !rng.one_in(6)) else {
            continue;
        };
        for place in &table_of(kind)[2..] {
            let at = place.start + rng.below(place.width);
            if at + 1 < record.len() && !rng.one_in(12) {
                record[at] = if rng.one_in(4) { rng.pick(edges::BYTES) } else { damage };
            }
        }
    }
}

/// Edits what 0823, 0822 and 0840 look at.
fn edit_structure(rng: &mut Prng, records: &mut Vec<Record>) {
    if records.is_empty() {
        return;
    }
    let place = rng.below(records.len());
    let other = rng.below(records.len());
    match rng.below(16) {
        0 => {
            records.remove(place);
        }
        1 => records.insert(other, records[place].clone()),
        2 => records.swap(place, other),
        3 => edit_id(rng, &mut records[place]),
        4 => edit_form_number(rng, &mut records[place]),
        5 => edit_count(rng, &mut records[place]),
        6 | 7 => edit_record_length(rng, &mut records[place]),
        8 => records[place][4 + rng.below(4)] = rng.pick(b"*+)X# "),
        9 => {
            let last = records[place].len() - 1;
            records[place][last] = rng.pick(edges::BYTES);
        }
        10 | 11 => edit_frame(rng, records),
        12 => records.insert(other, blank_record(b"FRM   9999  ", rng.between(42, 45))),
        13 => {
            let digits = rng.digits();
            records.push(sound::tail(&digits, 1));
        }
        14 if rng.one_in(2) => records.clear(),
        14 => {
            // The frame alone, and a count that agrees.
            records.retain(|record| matches!(kind_of(record), Some(Kind::TranA | Kind::TranB | Kind::Recap)));
            for record in records.iter_mut().filter(|record| kind_of(record) == Some(Kind::Recap)) {
                put(record, recap::DOCUMENT_COUNT, b"000000");
            }
        }
        _ => {
            let at = rng.below(records[place].len());
            records[place][at] = rng.pick(edges::BYTES);
        }
    }
}

fn edit_id(rng: &mut Prng, record: &mut Record) {
    if rng.one_in(2) {
        put(record, form::RECORD_ID, rng.pick(edges::IDS));
    } else {
        record[form::RECORD_ID.start + rng.below(6)] = rng.pick(b" ABFHMPRSTX");
    }
}

fn edit_form_number(rng: &mut Prng, record: &mut Record) {
    put(record, form::FORM_NUMBER, rng.pick(edges::FORM_NUMBERS));
}

/// A byte count that is not the length.
fn edit_count(rng: &mut Prng, record: &mut Record) {
    let length = record.len();
    let count = match rng.below(7) {
        0 => format!("{:04}", length + 1),
        1 => format!("{:04}", length - 1),
        2 => format!("{length:<4}"),
        3 => format!("{length:>4}"),
        4 => format!("{:04}", rng.pick(&[0, 1, 8, 42, 43, 44, 9999])),
        5 => "01A0".to_string(),
        _ => return borrow_ten(&mut record[..4]),
    };
    record[..4].copy_from_slice(&count.as_bytes()[..4]);
}

/// A record a little longer or shorter, and a count that says so.
fn edit_record_length(rng: &mut Prng, record: &mut Record) {
    let last = record.len() - 1;
    if rng.one_in(2) {
        record.insert(last, b' ');
    } else {
        record.remove(last - 1);
    }
    set_count(record);
}

/// TRANA's digits or RECAP's count.
fn edit_frame(rng: &mut Prng, records: &mut [Record]) {
    for record in records.iter_mut() {
        match kind_of(record) {
            Some(Kind::TranA) if rng.one_in(2) => {
                record[trana::TWELVE_DIGITS.start + rng.below(12)] = rng.pick(edges::BYTES);
            }
            Some(Kind::Recap) => {
                put(record, recap::DOCUMENT_COUNT, rng.pick(edges::COUNTS));
            }
            _ => {}
        }
    }
}

/// Cuts the transmission, adds to it, or fills it to the longest length and beyond.
fn edit_length(rng: &mut Prng, transmission: &mut Vec<u8>) {
    match rng.below(2000) {
        0..20 => transmission.truncate(rng.below(transmission.len() + 1)),
        20..30 => transmission.push(rng.pick(b"0 #\n")),
        30 => fill(rng, transmission, LONGEST),
        31 => fill(rng, transmission, LONGEST + 1),
        32..36 => transmission.resize(rng.between(LONGEST, LONGEST + 2), b'0'),
        _ => {}
    }
}

/// Adds documents of unknown forms before RECAP until the transmission has this length.
fn fill(rng: &mut Prng, transmission: &mut Vec<u8>, length: usize) {
    let Some(end) = transmission.len().checked_sub(recap::LENGTH) else {
        return;
    };
    let mut recap = transmission.split_off(end);
    let mut documents = count_of(&recap);
    let longest = if rng.one_in(2) { 9_000 } else { 100 };
    while transmission.len() + recap::LENGTH < length {
        let left = length - recap::LENGTH - transmission.len();
        let next = match left {
            0..43 => return,
            43..86 => left,
            86..9_086 => rng.between(43, longest.min(left - 43)),
            _ => rng.between(43, longest),
        };
        transmission.extend(blank_record(b"FRM   9999  ", next));
        documents += 1;
    }
    put(&mut recap, recap::DOCUMENT_COUNT, format!("{:06}", documents % 1_000_000).as_bytes());
    transmission.extend(recap);
}

fn count_of(recap: &[u8]) -> usize {
    let text = &recap[recap::DOCUMENT_COUNT.start..recap::DOCUMENT_COUNT.start + 6];
    std::str::from_utf8(text).ok().and_then(|text| text.parse().ok()).unwrap_or(0)
}

/// The world's pack, with fewer, other and more lines, or damaged.
fn pack(rng: &mut Prng, world: World) -> Vec<u8> {
    let mut lines = world.lines;
    for _ in 0..rng.below(6) {
        let ssn = rng.digits();
        lines.filed.push(if rng.one_in(8) { first_nine(rng, &lines.taxpayers) } else { ssn });
    }
    for _ in 0..rng.below(4) {
        // One digit away from the transmission's own.
        let mut digits = world.digits;
        let place = rng.below(12);
        digits[place] = if digits[place] == b'9' { b'0' } else { digits[place] + 1 };
        lines.transmissions.push(digits);
    }
    if rng.one_in(25) {
        lines.transmissions.push(world.digits);
    }
    if rng.one_in(4) {
        for _ in 0..rng.between(1, 3) {
            edit_lines(rng, &mut lines);
        }
    }
    if rng.one_in(2000) {
        swell(rng, &mut lines);
    }
    lines.sort();
    let mut pack = lines.pack();
    if rng.one_in(25) {
        damage_pack(rng, lines, &mut pack);
    }
    pack
}

fn first_nine<const WIDTH: usize>(rng: &mut Prng, lines: &[[u8; WIDTH]]) -> [u8; 9] {
    *lines[rng.below(lines.len())].first_chunk().unwrap()
}

/// A change after which the pack is still well formed.
fn edit_lines(rng: &mut Prng, lines: &mut sound::Lines) {
    let taxpayer = rng.below(lines.taxpayers.len());
    let bank = rng.below(lines.banks.len());
    match rng.below(9) {
        0 if lines.taxpayers.len() > 1 => {
            lines.taxpayers.remove(taxpayer);
        }
        1 => lines.taxpayers[taxpayer][9 + rng.below(4)] = rng.pick(b"AZ- "),
        2 => lines.taxpayers[taxpayer][13 + rng.below(20)] = rng.pick(b"0123456789"),
        3 if lines.banks.len() > 1 => {
            lines.banks.remove(bank);
        }
        4 => lines.banks[bank][9] = rng.pick(b"YN"),
        5 => {
            lines.states.remove(rng.below(lines.states.len().max(2) - 1));
            lines
                .states
                .push(*rng.pick(&[b"DC204205", b"MA010010", b"MA010999", b"ZZ000999", b"MA000000", b"NY149149"]));
        }
        6 => lines.states = vec![*b"MA010027"],
        7 => lines.states = vec![*b"DC200205", *b"TX799799"],
        _ => {
            for _ in 0..rng.between(1, 20) {
                let mut line = lines.taxpayers[taxpayer];
                line[rng.below(9)] = rng.pick(b"0123456789");
                lines.taxpayers.push(line);
            }
        }
    }
}

/// Fills the pack to the longest length, or a little less or more.
fn swell(rng: &mut Prng, lines: &mut sound::Lines) {
    lines.sort();
    let length = LONGEST - 12 + rng.below(40);
    let mut line = lines.taxpayers[0];
    let mut left = length.saturating_sub(lines.pack().len());
    for running in 0..left / 33 {
        line[..9].copy_from_slice(format!("{:09}", 17 + running * 500_009).as_bytes());
        lines.taxpayers.push(line);
    }
    left %= 33;
    while left >= 9 {
        lines.filed.push(rng.digits());
        left -= 9;
    }
}

/// Damage that most often leaves the pack not well formed.
fn damage_pack(rng: &mut Prng, mut lines: sound::Lines, pack: &mut Vec<u8>) {
    let place = rng.below(pack.len());
    match rng.below(13) {
        0 => pack[place] = rng.pick(edges::BYTES),
        1 => pack[place] ^= 1 << rng.below(8),
        2 => pack.truncate(place),
        3 => pack.push(rng.pick(b"0 \0")),
        4 => {
            pack.remove(place);
        }
        5 => pack.clear(),
        6 => pack.resize(rng.between(LONGEST, LONGEST + 2), 0),
        7 => {
            swap_or_repeat(rng, &mut lines.taxpayers);
            *pack = lines.pack();
        }
        8 => {
            swap_or_repeat(rng, &mut lines.banks);
            *pack = lines.pack();
        }
        9 => {
            swap_or_repeat(rng, &mut lines.filed);
            swap_or_repeat(rng, &mut lines.transmissions);
            *pack = lines.pack();
        }
        10 => {
            swap_or_repeat(rng, &mut lines.states);
            *pack = lines.pack();
        }
        11 => *pack = damaged_blocks(rng, &lines),
        _ => {
            // A low prefix at, above or below the high one.
            let line = rng.below(lines.states.len());
            lines.states[line][2..].copy_from_slice(rng.pick(&[b"500500", b"501500", b"500501", b"510509"]));
            *pack = lines.pack();
        }
    }
}

/// A block too many or too few, out of order, of another kind, or of no whole number of lines.
fn damaged_blocks(rng: &mut Prng, lines: &sound::Lines) -> Vec<u8> {
    let mut blocks = lines.blocks();
    let place = rng.below(blocks.len());
    let torn = [blocks[place].1, b"0"].concat();
    match rng.below(6) {
        0 => blocks[place].0 = rng.below(7) as u16,
        1 => blocks.swap(place, 4),
        2 => {
            blocks.remove(place);
        }
        3 => blocks.push((6, b"")),
        4 => blocks[place].1 = &torn,
        _ => blocks[place].1 = &torn[..torn.len().saturating_sub(2)],
    }
    sound::pack_of(&blocks)
}

fn swap_or_repeat<Line: Copy>(rng: &mut Prng, lines: &mut Vec<Line>) {
    if lines.is_empty() {
        return;
    }
    let place = rng.below(lines.len());
    if rng.one_in(2) && place > 0 {
        lines.swap(place - 1, place);
    } else {
        lines.insert(place, lines[place]);
    }
}

fn date(rng: &mut Prng) -> Vec<u8> {
    match rng.below(50) {
        0..38 => sound::SOUND_DATE.to_vec(),
        38..49 => rng.pick(edges::RECEIVING_DATES).to_vec(),
        _ => rng.pick(edges::WRONG_DATES).to_vec(),
    }
}

fn name(rng: &mut Prng) -> Vec<u8> {
    let mut name = sound::SOUND_NAME.to_vec();
    match rng.below(100) {
        0 => name.truncate(rng.below(20)),
        1 => name.push(b'A'),
        2..8 => {
            let place = rng.below(20);
            name[place] = rng.pick(b" ~AZaz#*");
        }
        8 => {
            let place = rng.below(20);
            name[place] = rng.pick(b"\0\x1F\x7F\x80\xFF");
        }
        _ => {}
    }
    name
}

fn room(rng: &mut Prng) -> Room {
    match rng.below(20) {
        0..13 => Room::Beyond(rng.below(300)),
        13 => Room::Enough,
        14..17 => Room::Beyond(0),
        17 => Room::Short(1),
        18 => Room::Short(rng.between(2, 500)),
        _ => Room::Any(rng.below(2_000)),
    }
}
