//! The conditions on a document: each record's findings as a set of places in its rule table, and a 4868's birth code.

use super::bytes::*;
use super::layout::{authentication, form, payment, summary};
use super::pack::{Pack, Taxpayer, birth_of, control_of, income_of, spans};
use super::rules;
use super::walk::{Entry, Kind, Walked};

const LAST_DAY: [u8; 8] = *b"20040415";
const LAST_FOREIGN_PAYMENT_DAY: [u8; 8] = *b"20040615";
const PAGE: [u8; 5] = *b"PG01 ";
const FIRST_OCCURRENCE: [u8; 7] = *b"0000001";
const MOST_PAYMENTS: usize = 3;

/// What the receiver knows besides the transmission.
pub struct Receiver<'a> {
    pub pack: Pack<'a>,
    pub date: &'a [u8; 8],
    pub name: &'a [u8; 20],
}

/// The numbers of the nearest earlier 4868 documents in which they are digits.
#[derive(Default)]
struct Earlier<'t> {
    sequence_number: Option<&'t [u8; 16]>,
    control_number: Option<&'t [u8; 14]>,
}

/// What is known of a 4868 document before its records are judged.
struct Document<'a> {
    form: &'a [u8; form::LENGTH],
    primary_ssn: &'a [u8; 9],
    primary_is_digits: bool,
    primary: Option<&'a Taxpayer>,
    spouse_ssn: &'a [u8; 9],
    spouse_is_digits: bool,
    joint: bool,
    spouse: Option<&'a Taxpayer>,
    has_summary: bool,
    payments: usize,
    all_self_gift: bool,
    all_spouse_gift: bool,
    first_authentication: Option<&'a [u8; authentication::LENGTH]>,
}

impl Document<'_> {
    /// 0004: the record's number is not nine digits, or not that of the document.
    fn is_not_of(&self, taxpayer: &[u8; 9]) -> bool {
        !self.primary_is_digits || taxpayer != self.primary_ssn
    }

    /// 0397: the last day for which a payment may be requested. A wrong address indicator is domestic.
    fn last_payment_day(&self) -> [u8; 8] {
        match form::ADDRESS_INDICATOR.byte(self.form) {
            b'3' => LAST_FOREIGN_PAYMENT_DAY,
            _ => LAST_DAY,
        }
    }

    fn spouse_only(&self) -> bool {
        self.joint
            && self.all_spouse_gift
            && is_significant(form::SPOUSE_GIFT_TAX.of(self.form))
            && !is_significant(form::SELF_GIFT_TAX.of(self.form))
    }

    fn self_only(&self) -> bool {
        self.all_self_gift
            && is_significant(form::SELF_GIFT_TAX.of(self.form))
            && !is_significant(form::SPOUSE_GIFT_TAX.of(self.form))
    }

    /// Key 0117: which birth dates of the first ATH are not those of the taxpayer lines. They are only compared for the
    /// types S and O, with a payment.
    fn birth_code(&self) -> u8 {
        let Some(record) = self.first_authentication else {
            return b'0';
        };
        if self.payments == 0 || !is_self_select(authentication::PIN_TYPE.byte(record)) {
            return b'0';
        }
        let primary = authentication::PRIMARY_BIRTH.of(record);
        let spouse = authentication::SPOUSE_BIRTH.of(record);
        match (is_other_birth(primary, self.primary), is_other_birth(spouse, self.spouse)) {
            (true, true) => b'4',
            (false, true) => b'3',
            (true, false) => b'2',
            _ if is_blank(primary) && is_blank(spouse) => b'0',
            _ => b'1',
        }
    }
}

/// The types of a self-selected PIN.
fn is_self_select(pin_type: u8) -> bool {
    matches!(pin_type, b'S' | b'O')
}

/// Present, and not the birth date of the taxpayer.
fn is_other_birth(birth: &[u8; 8], taxpayer: Option<&Taxpayer>) -> bool {
    is_present(birth) && taxpayer.is_none_or(|taxpayer| birth_of(taxpayer) != birth)
}

/// The findings that stand where `fault` holds.
#[inline(always)]
fn when(fault: bool, findings: u64) -> u64 {
    if fault { findings } else { 0 }
}

/// Joins the findings of a record's conditions: field, code, fault.
macro_rules! findings {
    ($rules:ident: $($field:literal $code:literal $fault:expr;)*) => {
        0 $(| when($fault, const { rules::place(&rules::$rules, $field, $code) }))*
    };
}

/// Sets the findings of every record.
pub fn judge(walked: &mut Walked, receiver: &Receiver) {
    let transmission = walked.transmission;
    let mut earlier = Earlier::default();
    for records in walked.entries.chunk_by_mut(|_, next| !next.kind.opens()) {
        if records[0].kind == Kind::Form {
            judge_document(transmission, records, receiver, &mut earlier);
        } else {
            records[0].findings = 1;
        }
    }
}

fn judge_document<'t>(transmission: &'t [u8], records: &mut [Entry], receiver: &Receiver, earlier: &mut Earlier<'t>) {
    let document = prepare(transmission, records, &receiver.pack);
    records[0].birth_code = document.birth_code();
    let mut payments = 0;
    let mut authentications = 0;
    for entry in records {
        entry.findings = match entry.kind {
            Kind::Form => judge_form(entry.record(transmission), &document, receiver, earlier),
            Kind::Payment => {
                payments += 1;
                judge_payment(entry.record(transmission), &document, &receiver.pack, payments)
            }
            Kind::Authentication => {
                authentications += 1;
                judge_authentication(entry.record(transmission), &document, authentications)
            }
            _ => judge_summary(entry.record(transmission), &document),
        };
    }
}

fn prepare<'t>(transmission: &'t [u8], records: &[Entry], pack: &Pack<'t>) -> Document<'t> {
    let form = records[0].record(transmission);
    let primary_ssn = form::PRIMARY_SSN.of(form);
    let spouse_ssn = form::SPOUSE_SSN.of(form);
    let primary_is_digits = is_digits(primary_ssn);
    let spouse_is_digits = is_digits(spouse_ssn);
    let mut document = Document {
        form,
        primary_ssn,
        primary_is_digits,
        primary: if primary_is_digits { pack.taxpayer(primary_ssn) } else { None },
        spouse_ssn,
        spouse_is_digits,
        joint: is_present(spouse_ssn),
        spouse: if spouse_is_digits { pack.taxpayer(spouse_ssn) } else { None },
        has_summary: false,
        payments: 0,
        all_self_gift: true,
        all_spouse_gift: true,
        first_authentication: None,
    };
    for entry in &records[1..] {
        match entry.kind {
            Kind::Payment => {
                let tax_type = payment::TAX_TYPE.of(entry.record::<{ payment::LENGTH }>(transmission));
                document.payments += 1;
                document.all_self_gift &= tax_type == b"0709P";
                document.all_spouse_gift &= tax_type == b"0709S";
            }
            Kind::Authentication => {
                document.first_authentication.get_or_insert(entry.record(transmission));
            }
            Kind::Summary => document.has_summary = true,
            _ => {}
        }
    }
    document
}

#[inline(always)]
fn judge_form<'t>(
    record: &'t [u8; form::LENGTH],
    document: &Document,
    receiver: &Receiver,
    earlier: &mut Earlier<'t>,
) -> u64 {
    let spouse_ssn = document.spouse_ssn;
    let (wrong_name, has_ampersand) = name_line(form::NAME_LINE.of(record));
    let box_is_wrong = |gift_box| !matches!(gift_box, b'X' | b' ');
    let findings = findings! { FORM:
        0000 0001 !document.has_summary;
        0000 0044 *form::PAGE.of(record) != PAGE;
        0000 0045 form::FILLER_4.byte(record) != b' ' || form::FILLER_6.byte(record) != b' ';
        0000 0310 *receiver.date > LAST_DAY;
        0003 0004 document.is_not_of(form::TAXPAYER.of(record));
        0005 0003 form::PERIOD.of(record) != b"200312";
        0010 0315 document.primary_is_digits && !has_control(document.primary, form::PRIMARY_CONTROL.of(record));
        0020 0316 document.spouse_is_digits && !has_control(document.spouse, form::SPOUSE_CONTROL.of(record));
        0030 0020 wrong_name;
        0030 0312 has_ampersand != document.joint;
        0080 0010 !matches!(form::ADDRESS_INDICATOR.byte(record), b'1' | b'2' | b'3' | b' ');
        0090 0010 !document.primary_is_digits;
        0100 0010 document.joint && !document.spouse_is_digits;
        0100 0071 document.joint && (!document.spouse_is_digits || is_zeros(spouse_ssn) || spouse_ssn == b"999999999");
        0100 0314 is_significant(form::SPOUSE_GIFT_TAX.of(record))
            && form::SPOUSE_GIFT_BOX.byte(record) == b'X'
            && !document.joint;
        0112 0010 box_is_wrong(form::SELF_GIFT_BOX.byte(record));
        0114 0010 box_is_wrong(form::SPOUSE_GIFT_BOX.byte(record));
        0120 0010 present_but_not_digits(form::TAX_LIABILITY.of(record));
        0130 0010 present_but_not_digits(form::TOTAL_PAYMENTS.of(record));
        0140 0010 present_but_not_digits(form::BALANCE_DUE.of(record));
        0170 0010 present_but_not_digits(form::SELF_GIFT_TAX.of(record));
        0180 0010 present_but_not_digits(form::SPOUSE_GIFT_TAX.of(record));
        0200 0010 present_but_not_digits(form::AMOUNT_DUE.of(record));
        0210 0010 present_but_not_digits(form::AMOUNT_PAYING.of(record));
    };
    let address = match form::ADDRESS_INDICATOR.byte(record) {
        b'3' => judge_foreign_address(record),
        _ => judge_domestic_address(record, &receiver.pack),
    };
    findings | address | judge_numbers(record, earlier)
}

fn has_control(taxpayer: Option<&Taxpayer>, control: &[u8; 4]) -> bool {
    taxpayer.is_some_and(|taxpayer| control_of(taxpayer) == control)
}

/// The conditions on 0007 and 0008, and what they leave to later documents.
#[inline(always)]
fn judge_numbers<'t>(record: &'t [u8; form::LENGTH], earlier: &mut Earlier<'t>) -> u64 {
    let mut findings = 0;
    let sequence_number = form::SEQUENCE_NUMBER.of(record);
    if is_digits(sequence_number) {
        let before = earlier.sequence_number.replace(sequence_number);
        findings |= findings! { FORM:
            0007 0060 before.is_some_and(|before| sequence_number <= before);
        };
    } else {
        findings |= findings! { FORM: 0007 0031 true; };
    }
    let control_number = form::CONTROL_NUMBER.of(record);
    if is_digits(control_number) {
        let before = earlier.control_number.replace(control_number);
        findings |= findings! { FORM:
            0008 0061 before.is_some_and(|before| control_number <= before);
            0008 0062 control_number[..2] != *b"00";
            0008 0064 control_number[13] != b'4';
        };
    } else {
        findings |= findings! { FORM: 0008 0032 true; };
    }
    findings
}

#[inline(always)]
fn judge_domestic_address(record: &[u8; form::LENGTH], pack: &Pack) -> u64 {
    let lines = pack.state(form::STATE.of(record));
    let zip = form::ZIP.of(record);
    findings! { FORM:
        0040 0007 is_wrong_street(form::STREET.of(record));
        0050 0023 is_wrong_city(form::CITY.of(record));
        0060 0022 lines.is_empty();
        0070 0016 !is_zip(zip) || !spans(lines, &zip[..3]) || (zip[3..5] == *b"00" && zip[..5] != *b"20500");
    }
}

fn judge_foreign_address(record: &[u8; form::LENGTH]) -> u64 {
    let street = form::FOREIGN_STREET.of(record);
    let city = form::FOREIGN_CITY.of(record);
    let country = form::FOREIGN_COUNTRY.of(record);
    let some_foreign_is_blank = is_blank(street) || is_blank(city) || is_blank(country);
    let some_domestic_is_present = is_present(form::STREET.of(record))
        || is_present(form::CITY.of(record))
        || is_present(form::STATE.of(record))
        || !is_empty_zip(form::ZIP.of(record));
    findings! { FORM:
        0032 0007 is_wrong_street(street);
        0034 0007 is_wrong_street(city);
        0036 0023 is_wrong_city(country);
        0080 0306 some_foreign_is_blank || some_domestic_is_present;
    }
}

#[inline(always)]
fn judge_payment(record: &[u8; payment::LENGTH], document: &Document, pack: &Pack, running: usize) -> u64 {
    let primary_ssn = payment::PRIMARY_SSN.of(record);
    let secondary_ssn = payment::SECONDARY_SSN.of(record);
    let amount = payment::AMOUNT.of(record);
    let payment_date = payment::PAYMENT_DATE.of(record);
    findings! { PAYMENT:
        0000 0044 *payment::PAGE.of(record) != PAGE;
        0000 0045 payment::FILLER_4.byte(record) != b' '
            || running > MOST_PAYMENTS
            || *payment::OCCURRENCE.of(record) != digits_of(running);
        0003 0004 document.is_not_of(payment::TAXPAYER.of(record));
        0010 0010 !is_digits(primary_ssn);
        0010 0395 primary_ssn != document.primary_ssn;
        0020 0010 present_but_not_digits(secondary_ssn);
        0020 0395 is_present(secondary_ssn) && secondary_ssn != document.spouse_ssn;
        0030 0396 is_wrong_routing_number(payment::ROUTING_NUMBER.of(record), pack);
        0040 0396 is_wrong_account(payment::ACCOUNT_NUMBER.of(record));
        0050 0396 !matches!(payment::ACCOUNT_TYPE.byte(record), b'1' | b'2');
        0060 0010 !is_digits(amount) || is_zeros(amount);
        0070 0010 !matches!(payment::TAX_TYPE.of(record), b"4868E" | b"0709P" | b"0709S");
        0080 0397 !is_date(payment_date) || *payment_date > document.last_payment_day();
        0090 0010 present_but_not_digits(payment::PHONE.of(record));
    }
}

fn is_wrong_routing_number(routing_number: &[u8; 9], pack: &Pack) -> bool {
    !is_digits(routing_number)
        || !matches!(number(routing_number.first_chunk::<2>().unwrap()), 1..=12 | 21..=32)
        || !pack.takes_transfers(routing_number)
}

#[inline(always)]
fn judge_authentication(record: &[u8; authentication::LENGTH], document: &Document, running: usize) -> u64 {
    let pin_type = authentication::PIN_TYPE.byte(record);
    let self_select = is_self_select(pin_type);
    let jurat = authentication::JURAT.byte(record);
    let wrong_date = |field: &[u8; 8]| is_present(field) && !is_date(field);
    let wrong_pin = |field: &[u8; 5]| is_present(field) && (!is_digits(field) || is_zeros(field));
    let findings = findings! { AUTHENTICATION:
        0000 0030 document.payments == 0;
        0000 0044 *authentication::PAGE.of(record) != PAGE;
        0000 0045 authentication::FILLER_4.byte(record) != b' '
            || is_present(authentication::FORM_NUMBER.of(record))
            || running > 1
            || *authentication::OCCURRENCE.of(record) != FIRST_OCCURRENCE;
        0003 0004 document.is_not_of(authentication::TAXPAYER.of(record));
        0008 0010 !matches!(pin_type, b'P' | b'S' | b'O');
        0010 0010 wrong_date(authentication::PRIMARY_BIRTH.of(record));
        0020 0010 present_but_not_digits(authentication::PRIMARY_INCOME.of(record));
        0035 0010 wrong_pin(authentication::PRIMARY_PIN.of(record));
        0040 0010 wrong_date(authentication::SPOUSE_BIRTH.of(record));
        0050 0010 present_but_not_digits(authentication::SPOUSE_INCOME.of(record));
        0065 0010 wrong_pin(authentication::SPOUSE_PIN.of(record));
        0070 0010 wrong_date(authentication::SIGNATURE_DATE.of(record));
        0080 0010 !matches!(authentication::PIN_AUTHORIZATION.byte(record), b'1'..=b'4' | b' ');
        0075 0326 (self_select && jurat != b'E') || (pin_type == b'P' && jurat != b'I');
        0020 0679 self_select && is_other_income(authentication::PRIMARY_INCOME.of(record), document.primary);
        0050 0680 self_select && is_other_income(authentication::SPOUSE_INCOME.of(record), document.spouse);
    };
    findings | judge_required_entries(record, document, pin_type)
}

/// Present, and not the prior income of the taxpayer.
fn is_other_income(income: &[u8; 12], taxpayer: Option<&Taxpayer>) -> bool {
    is_present(income) && taxpayer.is_none_or(|taxpayer| income_of(taxpayer) != income)
}

/// The entries that a PIN type requires: a finding at each blank one.
#[inline(always)]
fn judge_required_entries(record: &[u8; authentication::LENGTH], document: &Document, pin_type: u8) -> u64 {
    macro_rules! blanks {
        ($code:literal: $($field:literal $name:ident,)*) => {
            findings! { AUTHENTICATION: $($field $code is_blank(authentication::$name.of(record));)* }
        };
    }
    macro_rules! of_primary {
        ($code:literal) => {
            blanks! { $code:
                0010 PRIMARY_BIRTH,
                0020 PRIMARY_INCOME,
                0035 PRIMARY_PIN,
                0070 SIGNATURE_DATE,
                0075 JURAT,
                0080 PIN_AUTHORIZATION,
            }
        };
    }
    macro_rules! of_spouse {
        ($code:literal) => {
            blanks! { $code:
                0040 SPOUSE_BIRTH,
                0050 SPOUSE_INCOME,
                0065 SPOUSE_PIN,
                0070 SIGNATURE_DATE,
                0075 JURAT,
                0080 PIN_AUTHORIZATION,
            }
        };
    }
    let asks_primary = document.payments > 0 && !document.spouse_only();
    let asks_spouse = document.payments > 0 && document.joint && !document.self_only();
    match pin_type {
        b'S' => when(asks_primary, of_primary!(0670)) | when(asks_spouse, of_spouse!(0671)),
        b'O' => when(asks_primary, of_primary!(0681)) | when(asks_spouse, of_spouse!(0682)),
        b'P' => blanks! { 0697: 0035 PRIMARY_PIN, 0070 SIGNATURE_DATE, 0075 JURAT, },
        _ => 0,
    }
}

#[inline(always)]
fn judge_summary(record: &[u8; summary::LENGTH], document: &Document) -> u64 {
    let efin = summary::ORIGINATOR_EFIN.of(record);
    let date = summary::POSTMARK_DATE.of(record);
    let time = summary::POSTMARK_TIME.of(record);
    let zone = summary::POSTMARK_ZONE.byte(record);
    let postmarked = is_present(date) || is_present(time) || zone != b' ';
    let findings = findings! { SUMMARY:
        0000 0045 is_present(summary::FILLER_1.of(record)) || is_present(summary::FILLER_3.of(record));
        0002 0004 document.is_not_of(summary::TAXPAYER.of(record));
        0010 0027 is_blank(summary::ORIGINATOR_NAME.of(record));
        0020 0010 !is_digits(efin);
        0020 0027 *efin != form::CONTROL_NUMBER.of(document.form)[2..8];
        0040 0010 !is_digits(summary::LOGICAL_RECORDS.of(record));
        0090 0010 !is_digits(summary::PAYMENT_FORMS.of(record));
        0260 0010 is_present(date) && !is_date(date);
        0260 0490 is_present(date) && date[..4] != *b"2004";
        0260 0491 postmarked && is_blank(date);
        0270 0010 is_present(time) && !is_time(time);
        0270 0491 postmarked && is_blank(time);
        0280 0010 !matches!(zone, b'E' | b'C' | b'G' | b'M' | b'P' | b'A' | b'H' | b' ');
        0280 0491 postmarked && zone == b' ';
    };
    let reserves_are_blank = is_blank(summary::RESERVES_50_TO_80.of(record))
        && is_blank(summary::RESERVES_100_TO_220.of(record))
        && is_blank(summary::RESERVED_250.of(record))
        && is_blank(summary::RESERVE_290.of(record));
    if reserves_are_blank { findings } else { findings | judge_reserves(record) }
}

fn judge_reserves(record: &[u8; summary::LENGTH]) -> u64 {
    macro_rules! reserves {
        ($($field:literal $name:ident,)*) => {
            findings! { SUMMARY: $($field 0014 is_present(summary::$name.of(record));)* }
        };
    }
    reserves! {
        0050 RESERVE_50,
        0055 RESERVE_55,
        0060 RESERVE_60,
        0063 RESERVE_63,
        0070 RESERVE_70,
        0075 RESERVE_75,
        0080 RESERVE_80,
        0100 RESERVE_100,
        0110 RESERVE_110,
        0120 RESERVE_120,
        0130 RESERVE_130,
        0133 RESERVE_133,
        0135 RESERVE_135,
        0140 RESERVE_140,
        0150 RESERVE_150,
        0170 RESERVE_170,
        0180 RESERVE_180,
        0185 RESERVE_185,
        0188 RESERVE_188,
        0189 RESERVE_189,
        0190 RESERVE_190,
        0195 RESERVE_195,
        0200 RESERVE_200,
        0210 RESERVE_210,
        0215 RESERVE_215,
        0217 RESERVE_217,
        0219 RESERVE_219,
        0220 RESERVE_220,
        0250 RESERVED_250,
        0290 RESERVE_290,
    }
}
