//! Where the fields stand: the layout tables of Section 7 and Section 2, field by field with the printed widths.
//! The byte count and the sentinel take the first eight bytes of every record, the terminus its last one.

/// A field's number, its first byte and its width.
#[derive(Clone, Copy)]
pub struct Place {
    pub number: u16,
    pub start: usize,
    pub width: usize,
}

/// A field of `WIDTH` bytes, for use where the record is known.
#[derive(Clone, Copy)]
pub struct Field<const WIDTH: usize> {
    pub start: usize,
}

impl<const WIDTH: usize> Field<WIDTH> {
    #[inline(always)]
    pub fn of<const LENGTH: usize>(self, record: &[u8; LENGTH]) -> &[u8; WIDTH] {
        record[self.start..].first_chunk().unwrap()
    }

    #[inline(always)]
    pub fn byte<const LENGTH: usize>(self, record: &[u8; LENGTH]) -> u8 {
        record[self.start]
    }

    #[inline(always)]
    pub fn set<const LENGTH: usize>(self, record: &mut [u8; LENGTH], value: &[u8; WIDTH]) {
        *record[self.start..].first_chunk_mut().unwrap() = *value;
    }
}

const FIRST: usize = 8;

const fn places<const COUNT: usize>(printed: [(u16, usize); COUNT]) -> [Place; COUNT] {
    let mut table = [Place { number: 0, start: FIRST, width: 0 }; COUNT];
    let mut start = FIRST;
    let mut row = 0;
    while row < COUNT {
        let (number, width) = printed[row];
        table[row] = Place { number, start, width };
        start += width;
        row += 1;
    }
    table
}

const fn start_of(table: &[Place], number: u16) -> usize {
    let mut row = 0;
    while table[row].number != number {
        row += 1;
    }
    table[row].start
}

macro_rules! layout {
    ($length:literal: $($number:literal $name:ident $width:literal,)*) => {
        pub const LENGTH: usize = $length;
        pub const TABLE: &[Place] = &places([$(($number, $width)),*]);
        $(pub const $name: Field<$width> = Field { start: start_of(TABLE, $number) };)*
        const _: () = {
            let last = TABLE[TABLE.len() - 1];
            assert!(last.start + last.width + 1 == LENGTH);
        };
    };
}

#[allow(dead_code)]
pub mod trana {
    use super::*;
    layout! { 120:
        0000 RECORD_ID 6,
        0010 EMPLOYER_NUMBER 9,
        0020 NAME 35,
        0030 TYPE 16,
        0040 SITE 1,
        0050 DATE 8,
        0060 TRANSMITTER 7,
        0070 JULIAN_DAY 3,
        0080 SEQUENCE 2,
        0090 FORMAT 1,
        0100 RECORD_TYPE 1,
        0110 EFIN 6,
        0120 FILLER 5,
        0130 RESERVED_130 1,
        0140 RESERVED_140 1,
        0150 RESERVED_150 6,
        0160 PRODUCTION_TEST 1,
        0170 TRANSMISSION_TYPE 1,
        0180 RESERVED_180 1,
    }
    /// Fields 0060 to 0080 as one.
    pub const TWELVE_DIGITS: Field<12> = Field { start: TRANSMITTER.start };
}

#[allow(dead_code)]
pub mod tranb {
    use super::*;
    layout! { 120:
        0000 RECORD_ID 6,
        0010 EMPLOYER_NUMBER 9,
        0020 ADDRESS 35,
        0030 CITY_STATE_ZIP 35,
        0040 TELEPHONE 10,
        0050 FILLER 16,
    }
}

/// The 4868.
#[allow(dead_code)]
pub mod form {
    use super::*;
    layout! { 384:
        0000 RECORD_ID 6,
        0001 FORM_NUMBER 6,
        0002 PAGE 5,
        0003 TAXPAYER 9,
        0004 FILLER_4 1,
        0005 PERIOD 6,
        0006 FILLER_6 1,
        0007 SEQUENCE_NUMBER 16,
        0008 CONTROL_NUMBER 14,
        0010 PRIMARY_CONTROL 4,
        0020 SPOUSE_CONTROL 4,
        0030 NAME_LINE 35,
        0032 FOREIGN_STREET 35,
        0034 FOREIGN_CITY 35,
        0036 FOREIGN_COUNTRY 22,
        0040 STREET 35,
        0050 CITY 22,
        0060 STATE 2,
        0070 ZIP 12,
        0080 ADDRESS_INDICATOR 1,
        0090 PRIMARY_SSN 9,
        0100 SPOUSE_SSN 9,
        0112 SELF_GIFT_BOX 1,
        0114 SPOUSE_GIFT_BOX 1,
        0120 TAX_LIABILITY 12,
        0130 TOTAL_PAYMENTS 12,
        0140 BALANCE_DUE 12,
        0170 SELF_GIFT_TAX 12,
        0180 SPOUSE_GIFT_TAX 12,
        0200 AMOUNT_DUE 12,
        0210 AMOUNT_PAYING 12,
    }
}

#[allow(dead_code)]
pub mod payment {
    use super::*;
    layout! { 123:
        0000 RECORD_ID 6,
        0001 FORM_NUMBER 6,
        0002 PAGE 5,
        0003 TAXPAYER 9,
        0004 FILLER_4 1,
        0005 OCCURRENCE 7,
        0010 PRIMARY_SSN 9,
        0020 SECONDARY_SSN 9,
        0030 ROUTING_NUMBER 9,
        0040 ACCOUNT_NUMBER 17,
        0050 ACCOUNT_TYPE 1,
        0060 AMOUNT 12,
        0070 TAX_TYPE 5,
        0080 PAYMENT_DATE 8,
        0090 PHONE 10,
    }
}

#[allow(dead_code)]
pub mod authentication {
    use super::*;
    layout! { 340:
        0000 RECORD_ID 6,
        0001 FORM_NUMBER 6,
        0002 PAGE 5,
        0003 TAXPAYER 9,
        0004 FILLER_4 1,
        0005 OCCURRENCE 7,
        0008 PIN_TYPE 1,
        0010 PRIMARY_BIRTH 8,
        0020 PRIMARY_INCOME 12,
        0035 PRIMARY_PIN 5,
        0040 SPOUSE_BIRTH 8,
        0050 SPOUSE_INCOME 12,
        0065 SPOUSE_PIN 5,
        0070 SIGNATURE_DATE 8,
        0075 JURAT 1,
        0080 PIN_AUTHORIZATION 1,
        0090 ERO_EFIN_PIN 11,
        0100 PREPARER_SIGNATURE 35,
        0110 SIGNATURE_EXPLANATION 80,
        0120 FIDUCIARY_NAME_1 35,
        0130 FIDUCIARY_TITLE_1 20,
        0140 FIDUCIARY_NAME_2 35,
        0150 FIDUCIARY_TITLE_2 20,
    }
}

#[allow(dead_code)]
pub mod summary {
    use super::*;
    layout! { 314:
        0000 RECORD_ID 6,
        0001 FILLER_1 11,
        0002 TAXPAYER 9,
        0003 FILLER_3 8,
        0010 ORIGINATOR_NAME 35,
        0020 ORIGINATOR_EFIN 6,
        0030 SERVICE_PROVIDER 6,
        0040 LOGICAL_RECORDS 6,
        0050 RESERVE_50 2,
        0055 RESERVE_55 2,
        0060 RESERVE_60 2,
        0063 RESERVE_63 2,
        0070 RESERVE_70 2,
        0075 RESERVE_75 2,
        0080 RESERVE_80 3,
        0090 PAYMENT_FORMS 4,
        0100 RESERVE_100 5,
        0110 RESERVE_110 2,
        0120 RESERVE_120 2,
        0130 RESERVE_130 2,
        0133 RESERVE_133 5,
        0135 RESERVE_135 5,
        0140 RESERVE_140 1,
        0150 RESERVE_150 1,
        0170 RESERVE_170 1,
        0180 RESERVE_180 1,
        0185 RESERVE_185 1,
        0188 RESERVE_188 1,
        0189 RESERVE_189 1,
        0190 RESERVE_190 39,
        0195 RESERVE_195 50,
        0200 RESERVE_200 8,
        0210 RESERVE_210 6,
        0215 RESERVE_215 2,
        0217 RESERVE_217 9,
        0219 RESERVE_219 17,
        0220 RESERVE_220 1,
        0230 SOFTWARE_NUMBER 8,
        0240 SOFTWARE_VERSION 15,
        0250 RESERVED_250 2,
        0260 POSTMARK_DATE 8,
        0270 POSTMARK_TIME 4,
        0280 POSTMARK_ZONE 1,
        0290 RESERVE_290 1,
    }
    /// Fields 0050 to 0080, all reserve.
    pub const RESERVES_50_TO_80: Field<15> = Field { start: RESERVE_50.start };
    /// Fields 0100 to 0220, all reserve.
    pub const RESERVES_100_TO_220: Field<160> = Field { start: RESERVE_100.start };
}

#[allow(dead_code)]
pub mod recap {
    use super::*;
    layout! { 120:
        0000 RECORD_ID 6,
        0010 RESERVE_10 8,
        0020 RESERVE_20 6,
        0030 DOCUMENT_COUNT 6,
        0040 TRANSMITTER 7,
        0050 JULIAN_DAY 3,
        0060 SEQUENCE 2,
        0070 ACCEPTED 6,
        0080 RESERVE_80 6,
        0090 REJECTED 6,
        0100 RESERVE_100 6,
        0110 RESERVE_110 6,
        0120 COMPUTED_COUNT 6,
        0130 RESERVED_130 6,
        0135 RESERVED_135 6,
        0137 FILLER 5,
        0140 FILE_NAME 20,
    }
    /// Fields 0040 to 0060 as one.
    pub const TWELVE_DIGITS: Field<12> = Field { start: TRANSMITTER.start };
}

#[allow(dead_code)]
pub mod ack_key {
    use super::*;
    layout! { 120:
        0000 RECORD_ID 6,
        0005 RESERVED_5 1,
        0010 FILLER 1,
        0020 PRIMARY_SSN 9,
        0030 SEQUENCE_NUMBER 16,
        0040 EXTENSION 12,
        0050 ACCEPTANCE 1,
        0060 RESERVED_60 3,
        0065 PIN_PRESENCE 1,
        0070 RESERVED_70 1,
        0080 DATE_ACCEPTED 8,
        0090 CONTROL_NUMBER 14,
        0100 ERROR_COUNT 2,
        0110 ATTACHMENT_SEQUENCE 2,
        0111 FILLER_111 11,
        0115 PAYMENT_LITERAL 15,
        0117 BIRTH_VALIDITY 1,
        0119 RESERVED_119 4,
        0120 RESERVE_120 1,
        0130 RESERVE_130 2,
    }
}

#[allow(dead_code)]
pub mod ack_error {
    use super::*;
    layout! { 120:
        0000 RECORD_ID 6,
        0010 PRIMARY_SSN 9,
        0020 RESERVED 7,
        0030 ERROR_SEQUENCE 2,
        0040 ERROR_RECORD_ID 6,
        0050 ERROR_RECORD_TYPE 6,
        0060 PAGE 5,
        0070 OCCURRENCE 7,
        0080 FIELD_NUMBER 4,
        0090 REJECT_CODE 4,
        0100 FILLER 55,
    }
    /// Fields 0080 and 0090 as one.
    pub const FIELD_AND_CODE: Field<8> = Field { start: FIELD_NUMBER.start };
}
