//! Configurations and records to compare on: random ones with values that no
//! setter takes, and damaged ones.

use crate::added::record::{self, RESERVED, WORDS};
use crate::cases::random::Random;
use crate::model::configuration::{at, Numbers};
use crate::model::limits::{BYPASS, FACTORS, OSCILLATOR, REQUESTS};
use crate::sizes::{CONFIG, RECORD};

/// Everything present, and no value that `DEFAULTS` has there.
pub const FULL: Numbers = [
    2, 25_000_000, 2, 1,
    1, 200_000_000, 1, 216_000_000, 1, 50_000_000, 1, 100_000_000,
    1, 2, 25, 432, 1, 9,
    1, 300, 2, 7,
    1, 200, 3, 5,
    1, 2, 3, 4,
];

/// The longest that a record is made.
pub const LONGEST: u32 = 130;

/// Numbers that are flags, kinds or codes: number, how many values.
const CODES: [(usize, u32); 12] = [
    (at::LSE_KIND, 3),
    (at::LSI, 2),
    (at::USE_PLL, 2),
    (at::CHOICE, 3),
    (at::P, 4),
    (at::USE_SAI, 2),
    (at::SAI_P, 4),
    (at::USE_I2S, 2),
    (at::MCO1, 4),
    (at::MCO1PRE, 5),
    (at::MCO2, 4),
    (at::MCO2PRE, 5),
];

/// A configuration that a record can hold. Some have every value within its limits, some
/// a few that may be beyond, some all of them: so no refusal hides behind a lesser one.
pub fn random_configuration(random: &mut Random) -> Numbers {
    let doubtful = random.one_of(&[0, 12, 12, 4, 1]);
    with_doubtful(random, doubtful)
}

/// A configuration with every value within its limits.
pub fn random_within_limits(random: &mut Random) -> Numbers {
    with_doubtful(random, 0)
}

/// A configuration in which one of so many values may be beyond its limits, 0 for none.
fn with_doubtful(random: &mut Random, doubtful: u32) -> Numbers {
    let value = |random: &mut Random, (low, high), largest| {
        if doubtful > 0 && random.once_in(doubtful) {
            random.around(low, high) & largest
        } else {
            random.within(low, high)
        }
    };
    let mut numbers = [0; CONFIG];
    for (number, values) in CODES {
        numbers[number] = random.below(values);
    }
    numbers[at::HSE_KIND] = random.below(3);
    numbers[at::HSE] = match numbers[at::HSE_KIND] {
        0 => 0,
        1 => value(random, OSCILLATOR, u32::MAX),
        _ => value(random, BYPASS, u32::MAX),
    };
    for (flag, limits) in REQUESTS {
        numbers[flag] = random.below(2);
        numbers[flag + 1] = numbers[flag] * value(random, limits, u32::MAX);
    }
    for (number, limits, largest) in FACTORS {
        numbers[number] = value(random, limits, largest);
    }
    numbers
}

/// A record with some damage, which now and then leaves it well-formed.
pub fn damaged(random: &mut Random) -> Vec<u8> {
    let mut record = record::write(&random_configuration(random)).to_vec();
    match random.below(8) {
        0 => record.resize(random.below(LONGEST + 1) as usize, 0),
        1 => record[1] |= random.one_of(&[0x40, 0x80]),
        2 => record[random.one_of(&RESERVED)] = random.within(1, 255) as u8,
        3 => {
            let (byte, end) = random.one_of(&record::codes());
            record[byte] = random.within(end, 255) as u8;
        }
        4 => record = unflagged(&record, random.below(5) as usize, random.below(32)),
        5 => orphan(&mut record, random.below(3) as usize),
        6 => record[random.below(RECORD as u32) as usize] ^= 1 << random.below(8),
        _ => record.fill_with(|| random.any() as u8),
    }
    record
}

/// The record with one of its five u32 holding one bit while its flag is off.
pub fn unflagged(record: &[u8], word: usize, bit: u32) -> Vec<u8> {
    let mut record = record.to_vec();
    record[0] &= [!0b11, !0b100, !0b1000, !0b1_0000, !0b10_0000][word];
    let first = WORDS[word].1;
    record[first..first + 4].copy_from_slice(&(1u32 << bit).to_le_bytes());
    record
}

/// Sets a child bit (HSE bypass, LSE bypass, choice is PLLSAI) and clears its parent.
fn orphan(record: &mut [u8], pair: usize) {
    let (byte, parent) = [(0, 0), (0, 6), (1, 2)][pair];
    record[byte] = record[byte] & !(1 << parent) | 2 << parent;
    if pair == 0 {
        record[20..24].fill(0);
    }
}
