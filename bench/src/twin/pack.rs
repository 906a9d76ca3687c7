//! The reference pack: five blocks of sorted lines, looked up by binary search.

use super::bytes::{is_control, is_digits, is_letter};

pub type Taxpayer = [u8; 33];
pub type Bank = [u8; 10];
pub type State = [u8; 8];

pub const LONGEST: usize = 65_536;

pub struct Pack<'a> {
    taxpayers: &'a [Taxpayer],
    banks: &'a [Bank],
    filed: &'a [[u8; 9]],
    states: &'a [State],
    transmissions: &'a [[u8; 12]],
}

impl<'a> Pack<'a> {
    /// The pack, if it is well formed.
    pub fn read(bytes: &'a [u8]) -> Option<Self> {
        if bytes.len() > LONGEST {
            return None;
        }
        let (taxpayers, rest) = block(bytes, 1)?;
        let (banks, rest) = block(rest, 2)?;
        let (filed, rest) = block(rest, 3)?;
        let (states, rest) = block(rest, 4)?;
        let (transmissions, rest) = block(rest, 5)?;
        let sound = rest.is_empty()
            && lines_are(taxpayers, is_taxpayer, nine)
            && lines_are(banks, is_bank, nine)
            && lines_are(filed, is_digits, nine)
            && lines_are(states, is_state, |line| u64::from_be_bytes(*line))
            && lines_are(transmissions, is_digits, twelve);
        sound.then_some(Pack { taxpayers, banks, filed, states, transmissions })
    }

    pub fn taxpayer(&self, ssn: &[u8; 9]) -> Option<&'a Taxpayer> {
        let key = nine(ssn);
        let place = self.taxpayers.binary_search_by_key(&key, nine).ok()?;
        Some(&self.taxpayers[place])
    }

    /// A bank with this routing number takes electronic transfers.
    pub fn takes_transfers(&self, routing_number: &[u8; 9]) -> bool {
        let key = nine(routing_number);
        let place = self.banks.binary_search_by_key(&key, nine);
        place.is_ok_and(|place| self.banks[place][9] == b'Y')
    }

    pub fn is_filed(&self, ssn: &[u8; 9]) -> bool {
        self.filed.binary_search_by_key(&nine(ssn), nine).is_ok()
    }

    /// The lines of a state; none for an unknown one.
    pub fn state(&self, letters: &[u8; 2]) -> &'a [State] {
        let first = self.states.partition_point(|line| line[..2] < letters[..]);
        let from = &self.states[first..];
        let count = from.iter().take_while(|line| line[..2] == letters[..]).count();
        &from[..count]
    }

    pub fn has_transmission(&self, digits: &[u8; 12]) -> bool {
        self.transmissions.binary_search_by_key(&twelve(digits), twelve).is_ok()
    }
}

pub fn control_of(taxpayer: &Taxpayer) -> &[u8; 4] {
    taxpayer[9..].first_chunk().unwrap()
}

pub fn birth_of(taxpayer: &Taxpayer) -> &[u8; 8] {
    taxpayer[13..].first_chunk().unwrap()
}

pub fn income_of(taxpayer: &Taxpayer) -> &[u8; 12] {
    taxpayer.last_chunk().unwrap()
}

/// One of the state's lines spans the three-digit prefix.
pub fn spans(lines: &[State], prefix: &[u8]) -> bool {
    lines.iter().any(|line| line[2..5] <= *prefix && *prefix <= line[5..8])
}

/// The lines of the block at the start of `bytes`, and what follows it.
fn block<const WIDTH: usize>(bytes: &[u8], kind: u16) -> Option<(&[[u8; WIDTH]], &[u8])> {
    let (length, bytes) = bytes.split_first_chunk()?;
    let (found, bytes) = bytes.split_first_chunk()?;
    let length = usize::try_from(u32::from_le_bytes(*length)).ok()?;
    let (lines, rest) = bytes.split_at_checked(length)?;
    let (lines, torn) = lines.as_chunks();
    (u16::from_le_bytes(*found) == kind && torn.is_empty()).then_some((lines, rest))
}

/// Every line is sound and the keys strictly ascend.
#[inline(always)]
fn lines_are<Line, Key: Ord>(lines: &[Line], is_sound: impl Fn(&Line) -> bool, key: impl Fn(&Line) -> Key) -> bool {
    let Some((first, rest)) = lines.split_first() else {
        return true;
    };
    let mut before = key(first);
    is_sound(first)
        && rest.iter().all(|line| {
            let here = key(line);
            let ascends = before < here;
            before = here;
            ascends & is_sound(line)
        })
}

#[inline(always)]
fn is_taxpayer(line: &Taxpayer) -> bool {
    let ssn = line.first_chunk::<9>().unwrap();
    let birth_and_income = line.last_chunk::<20>().unwrap();
    is_digits(ssn) & is_digits(birth_and_income) & is_control(control_of(line))
}

#[inline(always)]
fn is_bank(line: &Bank) -> bool {
    is_digits(line.first_chunk::<9>().unwrap()) & matches!(line[9], b'Y' | b'N')
}

fn is_state(line: &State) -> bool {
    let [a, b, prefixes @ ..] = line;
    is_letter(*a) && is_letter(*b) && is_digits(prefixes) && prefixes[..3] <= prefixes[3..]
}

/// The first nine bytes, which are digits, as a number that sorts as they do: the first digit takes the place of the
/// second one's high half.
#[inline(always)]
fn nine<const WIDTH: usize>(line: &[u8; WIDTH]) -> u64 {
    let [first, others @ ..] = line.first_chunk::<9>().unwrap();
    u64::from_be_bytes(*others) & (u64::MAX >> 4) | u64::from(*first) << 60
}

/// The twelve bytes as a number that sorts as they do.
#[inline(always)]
fn twelve(line: &[u8; 12]) -> (u64, u32) {
    (u64::from_be_bytes(*line.first_chunk().unwrap()), u32::from_be_bytes(*line.last_chunk().unwrap()))
}
