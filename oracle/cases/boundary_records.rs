//! The records that every run compares: each rule of the layout and each limit
//! of a value, alone, and each combination of refusals.

use crate::added::record::{self, RESERVED, WORDS};
use crate::cases::records::{unflagged, FULL, LONGEST};
use crate::model::configuration::{at, Numbers, DEFAULTS};
use crate::model::limits::{Limits, BYPASS, FACTORS, HSE, OSCILLATOR, REQUESTS};
use crate::sizes::RECORD;

/// Each length up to 130; each reserved bit, each value of each code byte and each bit of a
/// u32 without its flag, alone; each of the 65,536 flags; each factor and limit, alone;
/// each combination of refusals.
pub fn all() -> Vec<Vec<u8>> {
    let base = record::write(&DEFAULTS);
    let full = record::write(&FULL);
    let mut records: Vec<Vec<u8>> = Vec::new();
    for length in 0..=LONGEST as usize {
        let mut record = full.to_vec();
        record.resize(length, 0);
        records.push(record);
    }
    for byte in RESERVED {
        records.extend((0..8).map(|bit| with_byte(&full, byte, 1 << bit)));
    }
    for (byte, _) in record::codes() {
        records.extend((0..=255).map(|code| with_byte(&full, byte, code)));
    }
    for word in 0..WORDS.len() {
        records.extend((0..32).map(|bit| unflagged(&full, word, bit)));
        records.extend((0..32).map(|bit| unflagged(&base, word, bit)));
    }
    records.extend((0..=u16::MAX).map(|flags| with_flags(&full, flags)));
    let configurations = boundary_configurations().into_iter().chain(every_combination());
    records.extend(configurations.map(|numbers| record::write(&numbers).to_vec()));
    records
}

fn with_byte(record: &[u8; RECORD], byte: usize, value: u8) -> Vec<u8> {
    let mut record = record.to_vec();
    record[byte] = value;
    record
}

/// The record under other flags, its five u32 kept only where their flag is on.
fn with_flags(record: &[u8; RECORD], flags: u16) -> Vec<u8> {
    let mut record = record.to_vec();
    record[..2].copy_from_slice(&flags.to_le_bytes());
    for (word, bit) in [0, 2, 3, 4, 5].into_iter().enumerate() {
        if flags >> bit & 1 == 0 {
            record[WORDS[word].1..][..4].fill(0);
        }
    }
    record
}

/// One value at or beside a limit, the rest as they were.
fn boundary_configurations() -> Vec<Numbers> {
    let mut all = Vec::new();
    let mut put = |number: usize, value: u32, kind: u32| {
        let mut numbers = FULL;
        numbers[at::HSE_KIND] = kind;
        numbers[number] = value;
        all.push(numbers);
    };
    for (kind, _) in HSE {
        for limit in [BYPASS.0, OSCILLATOR.0, OSCILLATOR.1, BYPASS.1] {
            (limit - 1..=limit + 1).for_each(|hertz| put(at::HSE, hertz, kind));
        }
        put(at::HSE, 0, kind);
        put(at::HSE, u32::MAX, kind);
    }
    for (flag, limits) in REQUESTS {
        for hertz in beside(limits, u32::MAX) {
            put(flag + 1, hertz, 2);
        }
    }
    for (number, limits, largest) in FACTORS {
        (0..=largest.min(600)).for_each(|value| put(number, value, 2));
        for value in beside(limits, largest) {
            put(number, value, 2);
        }
    }
    all
}

/// The 64 ways to deserve some of the refusals 1 to 6 and not the others.
fn every_combination() -> impl Iterator<Item = Numbers> {
    let refused = [at::HSE, at::HCLK + 1, at::SYSCLK + 1, at::PCLK1 + 1, at::PCLK2 + 1, at::M];
    (0..64).map(move |chosen| {
        let mut numbers = FULL;
        for (bit, number) in refused.into_iter().enumerate() {
            if chosen >> bit & 1 == 1 {
                // Beyond every limit, and as large as the record can hold it.
                numbers[number] = if number == at::M { 255 } else { u32::MAX };
            }
        }
        numbers
    })
}

/// 0, both ends and one beside each, and the largest.
pub fn beside((low, high): Limits, largest: u32) -> [u32; 8] {
    [0, low.saturating_sub(1), low, low + 1, high - 1, high, high + 1, largest]
}
