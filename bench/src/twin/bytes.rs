//! What the paper says of bytes and of single fields: digits, blank, present, spaced, names, streets, dates.

const EIGHT_BLANKS: [u8; 8] = [b' '; 8];

/// All eight bytes of a word are digits, tested at once: high halves are 3, and stay 3 when 6 is added.
#[inline(always)]
fn word_is_digits(word: [u8; 8]) -> bool {
    const HIGH: u64 = 0xF0F0_F0F0_F0F0_F0F0;
    const SIX: u64 = 0x0606_0606_0606_0606;
    const THREES: u64 = 0x3333_3333_3333_3333;
    let word = u64::from_le_bytes(word);
    (word & HIGH) | ((word.wrapping_add(SIX) & HIGH) >> 4) == THREES
}

#[inline(always)]
pub fn is_digits<const N: usize>(field: &[u8; N]) -> bool {
    match field.last_chunk::<8>() {
        Some(last) => {
            let (words, _) = field.as_chunks::<8>();
            words.iter().fold(word_is_digits(*last), |all, word| all & word_is_digits(*word))
        }
        None => field.iter().fold(true, |all, byte| all & byte.is_ascii_digit()),
    }
}

#[inline(always)]
pub fn is_blank<const N: usize>(field: &[u8; N]) -> bool {
    *field == [b' '; N]
}

#[inline(always)]
pub fn is_present<const N: usize>(field: &[u8; N]) -> bool {
    !is_blank(field)
}

#[inline(always)]
pub fn is_zeros<const N: usize>(field: &[u8; N]) -> bool {
    *field == [b'0'; N]
}

#[inline(always)]
pub fn present_but_not_digits<const N: usize>(field: &[u8; N]) -> bool {
    !is_digits(field) && is_present(field)
}

/// A money field that is present and not all zeros.
#[inline(always)]
pub fn is_significant(money: &[u8; 12]) -> bool {
    is_present(money) && !is_zeros(money)
}

#[inline(always)]
pub fn number<const N: usize>(digits: &[u8; N]) -> u32 {
    digits.iter().fold(0, |number, digit| number * 10 + u32::from(digit - b'0'))
}

/// The number as `N` digits.
pub fn digits_of<const N: usize>(mut number: usize) -> [u8; N] {
    let mut digits = [b'0'; N];
    for digit in digits.iter_mut().rev() {
        *digit = b'0' + (number % 10) as u8;
        number /= 10;
    }
    digits
}

/// A Gregorian date of the years 0001 to 9999.
#[inline(always)]
pub fn is_date(field: &[u8; 8]) -> bool {
    if !is_digits(field) {
        return false;
    }
    let [y1, y2, y3, y4, m1, m2, d1, d2] = *field;
    let year = number(&[y1, y2, y3, y4]);
    let month = number(&[m1, m2]);
    let day = number(&[d1, d2]);
    year > 0 && (1..=12).contains(&month) && day > 0 && day <= days_of(year, month)
}

#[inline(always)]
fn days_of(year: u32, month: u32) -> u32 {
    match month {
        2 if year % 4 == 0 && (year % 100 != 0 || year % 400 == 0) => 29,
        2 => 28,
        4 | 6 | 9 | 11 => 30,
        _ => 31,
    }
}

/// HHMM, 0000 to 2359.
pub fn is_time(field: &[u8; 4]) -> bool {
    is_digits(field) && number(&[field[0], field[1]]) < 24 && field[2] < b'6'
}

/// The bytes before the trailing blanks.
#[inline(always)]
pub fn without_trailing_blanks(field: &[u8]) -> &[u8] {
    let mut rest = field;
    while let Some((before, &EIGHT_BLANKS)) = rest.split_last_chunk() {
        rest = before;
    }
    while let [before @ .., b' '] = rest {
        rest = before;
    }
    rest
}

const LETTER: u8 = 1;
const DIGIT: u8 = 2;
const SPACE: u8 = 4;
const HYPHEN: u8 = 8;
const SLASH: u8 = 16;
const AMPERSAND: u8 = 32;
const LESS: u8 = 64;
const OTHER: u8 = 128;

/// The kind of each of the 256 byte values.
static KINDS: [u8; 256] = {
    let mut kinds = [OTHER; 256];
    let mut byte = 0;
    while byte < 256 {
        kinds[byte] = match byte as u8 {
            b'A'..=b'Z' => LETTER,
            b'0'..=b'9' => DIGIT,
            b' ' => SPACE,
            b'-' => HYPHEN,
            b'/' => SLASH,
            b'&' => AMPERSAND,
            b'<' => LESS,
            _ => OTHER,
        };
        byte += 1;
    }
    kinds
};

#[inline(always)]
fn kind(byte: u8) -> u8 {
    KINDS[usize::from(byte)]
}

pub fn is_letter(byte: u8) -> bool {
    byte.is_ascii_uppercase()
}

/// The kinds of bytes in a taxpayer line's name control.
#[inline(always)]
pub fn is_control(control: &[u8; 4]) -> bool {
    let kinds = control.iter().fold(0, |kinds, byte| kinds | kind(*byte));
    kinds & !(LETTER | HYPHEN | SPACE) == 0
}

/// What one look at a line of text tells.
struct Text {
    kinds: u8,
    letters: u32,
    spaced: bool,
    less_beside_space: bool,
}

#[inline(always)]
fn look_at<const N: usize>(field: &[u8; N]) -> Text {
    let written = without_trailing_blanks(field);
    let mut kinds = 0;
    let mut letters = 0;
    let mut doubled = 0;
    let mut less_beside_space = false;
    // A leading space is found as one that follows another.
    let mut before = SPACE;
    for &byte in written {
        let here = kind(byte);
        kinds |= here;
        letters += u32::from(here & LETTER);
        doubled |= before & here & SPACE;
        less_beside_space |= before | here == LESS | SPACE;
        before = here;
    }
    less_beside_space |= before == LESS && written.len() < N;
    Text { kinds, letters, spaced: doubled == 0 && !written.is_empty(), less_beside_space }
}

/// 0020: a name line that may not stand; and whether it has an ampersand, which 0312 asks.
#[inline(always)]
pub fn name_line(field: &[u8; 35]) -> (bool, bool) {
    let text = look_at(field);
    let wrong = !text.spaced
        || !is_letter(field[0])
        || text.kinds & !(LETTER | SPACE | AMPERSAND | HYPHEN | LESS) != 0
        || text.less_beside_space;
    (wrong, text.kinds & AMPERSAND != 0)
}

/// 0007: a street that may not stand.
#[inline(always)]
pub fn is_wrong_street(field: &[u8; 35]) -> bool {
    let text = look_at(field);
    !text.spaced
        || kind(field[0]) & (LETTER | DIGIT) == 0
        || text.kinds & !(LETTER | DIGIT | SPACE | HYPHEN | SLASH) != 0
}

/// 0023: a city or country that may not stand.
#[inline(always)]
pub fn is_wrong_city(field: &[u8; 22]) -> bool {
    let text = look_at(field);
    !text.spaced || text.letters < 3 || text.kinds & !(LETTER | SPACE) != 0
}

/// 0396 at 0040: an account number that may not stand.
#[inline(always)]
pub fn is_wrong_account(field: &[u8; 17]) -> bool {
    let written = without_trailing_blanks(field);
    let kinds = written.iter().fold(0, |kinds, byte| kinds | kind(*byte));
    kinds & (LETTER | DIGIT) == 0 || kinds & !(LETTER | DIGIT | HYPHEN) != 0 || written.iter().all(|byte| *byte == b'0')
}

/// Five, nine or twelve digits, then blanks.
#[inline(always)]
pub fn is_zip(field: &[u8; 12]) -> bool {
    let written = without_trailing_blanks(field);
    matches!(written.len(), 5 | 9 | 12) && written.iter().all(u8::is_ascii_digit)
}

/// Blank, or zeros and then only blanks.
pub fn is_empty_zip(field: &[u8; 12]) -> bool {
    without_trailing_blanks(field).iter().all(|byte| *byte == b'0')
}
