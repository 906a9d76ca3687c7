//! Values at the edge of every condition, on both sides of it, by record and field.

use crate::twin::walk::Kind;

const PAGES: &[&[u8]] = &[b"PG01 ", b"PG02 ", b"PG01X", b"pg01 ", b"PG1  ", b" PG01"];
const NUMBERS: &[&[u8]] =
    &[b"000000000", b"000000001", b"999999998", b"999999999", b"12345678", b" 12345678", b"12345678A"];
const OCCURRENCES: &[&[u8]] =
    &[b"0000000", b"0000001", b"0000002", b"0000003", b"0000004", b"0000011", b"1000001", b"1", b"      1", b"000000A"];
const DATES: &[&[u8]] = &[
    b"20040415", b"20040416", b"20040414", b"20030229", b"20040229", b"20000229", b"19000229", b"20040431",
    b"20040430", b"20040630", b"20040631", b"20040731", b"20040831", b"20040930", b"20040931", b"20041231",
    b"20041301", b"20040001", b"20040100", b"20040132", b"00010101", b"00000101", b"99991231", b"00000000", b"2004041",
    b"2004 415", b"2004041A", b"20050101", b"20031231", b"20030415", b"20040614", b"20040615", b"20040616",
];
const MONEY: &[&[u8]] = &[
    b"000000000000", b"000000000001", b"100000000000", b"00000000000", b" 00000000000", b"00000000000A",
    b"-00000000001", b"            ", b"0           ", b"           0",
];
const STREETS: &[&[u8]] = &[
    b"1 MAIN ST", b"MAIN", b"A", b"9", b" 1 MAIN", b"1  MAIN", b"1 MAIN  ST", b"-MAIN", b"/MAIN", b"1 MAIN/2", b"1-2",
    b"1 MAIN & 2", b"1 MAIN #2", b"1 MAIN.", b"1 Main", b"ABCDEFGHIJKLMNOPQRSTUVWXYZ012345678",
    b"A                                 Z", b"                                  Z",
    b"A B C D E F G H I J K L M N O P Q R", b"A  B",
];
const CITIES: &[&[u8]] = &[
    b"NY", b"NYC", b"N Y", b"N Y C", b"A BC", b" NYC", b"NEW  YORK", b"NYC1", b"ST-LOUIS", b"Nyc",
    b"ABCDEFGHIJKLMNOPQRSTUV", b"A B C D E F G H I J K", b"AB                   C", b"A", b"@BC", b"AB[", b"AB CD  E",
];
const NAMES: &[&[u8]] = &[
    b"ANN<LEE", b"ANN <LEE", b"ANN< LEE", b"ANN<", b"<LEE", b"A", b"A<B<C", b"A<<B", b"ANN  LEE", b" ANN LEE",
    b"ANN LEE  JR", b"ANN-LEE", b"ANN -LEE", b"-ANN", b"&ANN", b"ANN&BOB", b"ANN & BOB<LEE", b"ANN &", b"1ANN",
    b"ANN1", b"ANN/LEE", b"ANN,LEE", b"ann", b"ABCDEFGHIJKLMNOPQRSTUVWXYZABCDEFGHI",
    b"ABCDEFGHIJKLMNOPQRSTUVWXYZABCDEFGH<", b"ABCDEFGHIJKLMNOPQRSTUVWXYZABCDEFG<",
    b"ABCDEFGHIJKLMNOPQRSTUVWXYZABCDEFG <", b"A&B                               C", b"@NN", b"ANN[", b"ANN< ",
];
const ZIPS: &[&[u8]] = &[
    b"20500", b"20400", b"20501", b"20600", b"205000000", b"205001234567", b"204000000", b"01001", b"00999", b"02799",
    b"02899", b"05500", b"05501", b"05599", b"05699", b"05401", b"00501", b"00601", b"10001", b"09999", b"14999",
    b"15001", b"34000", b"34001", b"0100", b"010011", b"01001123", b"010011234", b"0100112345", b"01001123456",
    b"010011234567", b"01001 1", b" 01001", b"0100A", b"01001123A", b"01001123456A", b"0", b"00000", b"000000000",
    b"000000000000", b"0 0", b"00000000000A", b"0000A", b"           0",
];
const STATES: &[&[u8]] =
    &[b"MA", b"DC", b"NY", b"AA", b"TX", b"WY", b"CT", b"ZZ", b"M ", b" A", b"ma", b"A", b"MB", b"LZ", b"@A", b"00"];
const BOXES: &[&[u8]] = &[b"X", b" ", b"x", b"Y", b"0", b"W"];
const PINS: &[&[u8]] = &[b"00000", b"00001", b"99999", b"1234", b" 1234", b"1234A", b"10000", b"0000 "];
const RESERVES: &[&[u8]] = &[b"", b"0", b"X", b" "];

/// The values for a field; none where only damage at large is of use.
pub fn values(kind: Kind, field: u16) -> &'static [&'static [u8]] {
    match kind {
        Kind::Form => form_values(field),
        Kind::Payment => payment_values(field),
        Kind::Authentication => authentication_values(field),
        Kind::Summary => summary_values(field),
        _ => &[],
    }
}

fn form_values(field: u16) -> &'static [&'static [u8]] {
    match field {
        2 => PAGES,
        3 | 90 | 100 => NUMBERS,
        4 | 6 => RESERVES,
        5 => &[b"200312", b"200311", b"200412", b"20031", b"200313", b"00312"],
        7 => &[b"0000000000000000", b"9999999999999999", b"000000000000001", b" 000000000000001", b"000000000000000A"],
        8 => &[
            b"00000000000004", b"99999999999994", b"00999999999994", b"01000000000004", b"10000000000004",
            b"00654321000010", b"00654321000013", b"00654321000015", b"0065432100001", b"0065432100001 ",
            b" 0065432100014", b"0A654321000014",
        ],
        10 | 20 => &[b"LEE ", b"LEE", b"LE", b" LEE", b"lee ", b"", b"X-", b"ZZZZ"],
        30 => NAMES,
        32 | 34 | 40 => STREETS,
        36 | 50 => CITIES,
        60 => STATES,
        70 => ZIPS,
        80 => &[b"", b"1", b"2", b"3", b"4", b"0", b"A"],
        112 | 114 => BOXES,
        120.. => MONEY,
        _ => &[],
    }
}

fn payment_values(field: u16) -> &'static [&'static [u8]] {
    match field {
        2 => PAGES,
        3 | 10 | 20 => NUMBERS,
        4 => RESERVES,
        5 => OCCURRENCES,
        30 => &[
            b"000000000", b"010000000", b"120000000", b"130000000", b"200000000", b"210000000", b"320000000",
            b"330000000", b"01000000", b"0A0000000",
        ],
        40 => &[
            b"000", b"0-0", b"", b"-", b"---", b"0", b"1", b"A", b"Z", b"00000000000000000", b"00000000000000001",
            b" 1", b"1 1", b"0 0", b"1-", b"-1", b"1/2", b"1a", b"@1", b"1[", b"1:", b"12345678901234567",
            b"-----------------",
        ],
        50 => &[b"0", b"1", b"2", b"3", b""],
        60 => MONEY,
        70 => &[b"4868E", b"0709P", b"0709S", b"2350E", b"4868", b"0709", b"0709p", b"0709PS", b" 4868"],
        80 => DATES,
        90 => &[b"0000000000", b"4135550100", b"413555010", b"413 555010", b"413555010A", b"413-555010"],
        _ => &[],
    }
}

fn authentication_values(field: u16) -> &'static [&'static [u8]] {
    match field {
        1 => &[b"", b"X", b"     X", b"PMT", b"4868"],
        2 => PAGES,
        3 => NUMBERS,
        4 => RESERVES,
        5 => OCCURRENCES,
        8 => &[b"P", b"S", b"O", b"", b"p", b"Q", b"T", b"0"],
        10 | 40 | 70 => DATES,
        20 | 50 => MONEY,
        35 | 65 => PINS,
        75 => &[b"E", b"I", b"", b"e", b"F", b"D"],
        80 => &[b"0", b"1", b"2", b"3", b"4", b"5", b"", b"A"],
        _ => &[],
    }
}

fn summary_values(field: u16) -> &'static [&'static [u8]] {
    match field {
        1 | 3 => &[b"", b"X", b"       X", b"  0"],
        2 => NUMBERS,
        10 => &[b"", b"A", b"                                  Z"],
        20 => &[b"654321", b"654320", b"65432", b"65432A", b"000000", b""],
        40 => &[b"000002", b"009999", b"00000", b"     2", b"00000A", b""],
        90 => &[b"0000", b"0999", b"000", b"   0", b"000A", b""],
        260 => DATES,
        270 => &[
            b"0000", b"2359", b"2400", b"2360", b"0060", b"0059", b"1999", b"1959", b"123", b"12 4", b"12:4", b"A000",
            b"",
        ],
        280 => &[b"E", b"C", b"G", b"M", b"P", b"A", b"H", b"B", b"D", b"e", b"0", b""],
        30 | 230 | 240 => &[],
        _ => RESERVES,
    }
}

/// Bytes just inside and just outside each kind of byte.
pub const BYTES: &[u8] = b"\0\x1F !#%&',-./019:;<=@ABYZ[`az{~\x7F\xFF";

/// The last days of payments, domestic and foreign, and the days beside them.
pub const LAST_PAYMENT_DAYS: &[&[u8]] = &[b"20040414", b"20040415", b"20040416", b"20040614", b"20040615", b"20040616"];

/// Birth dates, so few that two of them often agree: some differ in one digit, and the last is no date.
pub const BIRTH_DATES: &[&[u8]] = &[b"19600229", b"19600228", b"29600229", b"00000000"];

/// Receiving dates: most are valid.
pub const RECEIVING_DATES: &[&[u8]] = &[
    b"20040415", b"20040416", b"20040414", b"20040229", b"20000229", b"00010101", b"99991231", b"20040531",
    b"20031231", b"20030415", b"20050101", b"10000101",
];
pub const WRONG_DATES: &[&[u8]] = &[
    b"20030229", b"19000229", b"20040431", b"00000101", b"20041301", b"20040001", b"20040400", b"20040432", b"2004040",
    b"200404011", b"", b"2004040A", b" 0040401", b"2004 401", b"20040631", b"20040931", b"20041131", b"20040230",
    b"/0040401", b"2004040:",
];

pub const IDS: &[&[u8]] = &[
    b"TRANA", b"TRANB", b"FRM", b"ATH", b"SUM", b"RECAP", b"SCH", b"", b"FRMX", b"TRANAX", b"frm", b" FRM", b"RECAPB",
];
pub const FORM_NUMBERS: &[&[u8]] = &[b"4868", b"PMT", b"PMTX", b"9999", b"PMT  X", b"4868 0", b"", b" PMT"];
pub const UNKNOWN_FORMS: &[&[u8]] = &[b"9999", b"2688", b"PMTX", b"4868 A", b"48680", b" 4868", b"", b"pmt"];

/// Document counts of RECAP.
pub const COUNTS: &[&[u8]] = &[
    b"000000", b"000001", b"000002", b"000003", b"     1", b"1", b"00001", b"00000A", b"100001", b"999999", b"00000:",
    b"00000/",
];
