//! The request record, which the Rust does not have: where each number of a configuration stands in
//! it, and a plain writer and reader.

use crate::added::refusals::MALFORMED;
use crate::model::configuration::{at, Numbers};
use crate::sizes::{CONFIG, RECORD};

/// Numbers that are one flag bit of the record: number, bit.
const FLAGS: [(usize, u32); 8] = [
    (at::HCLK, 2),
    (at::SYSCLK, 3),
    (at::PCLK1, 4),
    (at::PCLK2, 5),
    (at::LSI, 8),
    (at::USE_PLL, 9),
    (at::USE_SAI, 12),
    (at::USE_I2S, 13),
];

/// Numbers with two flag bits, a parent and a child: 0 neither, 1 the parent, 2 both.
const KINDS: [(usize, u32); 3] = [(at::HSE_KIND, 0), (at::LSE_KIND, 6), (at::CHOICE, 10)];

/// Numbers that are one byte of the record: number, byte, end of the values allowed.
const BYTES: [(usize, usize, u32); 11] = [
    (at::M, 2, 256),
    (at::P, 3, 4),
    (at::Q, 4, 256),
    (at::SAI_P, 5, 4),
    (at::SAI_Q, 6, 256),
    (at::I2S_R, 7, 256),
    (at::I2S_Q, 8, 256),
    (at::MCO1, 9, 4),
    (at::MCO1PRE, 10, 5),
    (at::MCO2, 11, 4),
    (at::MCO2PRE, 12, 5),
];

/// Numbers that are a u16 of the record: number, first byte.
const SHORTS: [(usize, usize); 3] = [(at::N, 14), (at::SAI_N, 16), (at::I2S_N, 18)];

/// Numbers that are a u32 of the record: number, first byte, the number that is its flag.
pub const WORDS: [(usize, usize, usize); 5] = [
    (at::HSE, 20, at::HSE_KIND),
    (at::HCLK + 1, 24, at::HCLK),
    (at::SYSCLK + 1, 28, at::SYSCLK),
    (at::PCLK1 + 1, 32, at::PCLK1),
    (at::PCLK2 + 1, 36, at::PCLK2),
];

/// Bytes that are always zero: one in the midst, and all from `FREE` on.
const GAP: usize = 13;
const FREE: usize = 40;
pub const RESERVED: [usize; 1 + RECORD - FREE] = {
    let mut bytes = [GAP; 1 + RECORD - FREE];
    let mut i = 1;
    while i < bytes.len() {
        bytes[i] = FREE + i - 1;
        i += 1;
    }
    bytes
};

/// Bytes that hold a code: byte, end of the codes.
pub fn codes() -> Vec<(usize, u32)> {
    let some = BYTES.iter().filter(|(_, _, end)| *end < 256);
    some.map(|&(_, byte, end)| (byte, end)).collect()
}

/// Document 01's layout.
pub fn write(numbers: &Numbers) -> [u8; RECORD] {
    let mut record = [0; RECORD];
    let mut flags = 0u16;
    for (number, bit) in FLAGS {
        flags |= (numbers[number] as u16) << bit;
    }
    for (number, bit) in KINDS {
        flags |= [0b00, 0b01, 0b11][numbers[number] as usize] << bit;
    }
    record[..2].copy_from_slice(&flags.to_le_bytes());
    for (number, byte, _) in BYTES {
        record[byte] = numbers[number] as u8;
    }
    for (number, byte) in SHORTS {
        record[byte..byte + 2].copy_from_slice(&(numbers[number] as u16).to_le_bytes());
    }
    for (number, byte, _) in WORDS {
        record[byte..byte + 4].copy_from_slice(&numbers[number].to_le_bytes());
    }
    record
}

/// The configuration of a record, or 14 if the record is malformed.
pub fn read(record: &[u8]) -> Result<Numbers, u32> {
    well_formed(record).ok_or(MALFORMED)
}

fn well_formed(record: &[u8]) -> Option<Numbers> {
    if record.len() != RECORD {
        return None;
    }
    let flags = u16::from_le_bytes([record[0], record[1]]);
    if flags >> 14 != 0 || record[GAP] != 0 || record[FREE..].iter().any(|&byte| byte != 0) {
        return None;
    }
    let mut numbers = [0; CONFIG];
    for (number, bit) in FLAGS {
        numbers[number] = u32::from(flags >> bit & 1);
    }
    for (number, bit) in KINDS {
        numbers[number] = [Some(0), Some(1), None, Some(2)][usize::from(flags >> bit & 3)]?;
    }
    read_values(record, &mut numbers).then_some(numbers)
}

/// Takes the values after the flags; false if one of them may not stand there.
fn read_values(record: &[u8], numbers: &mut Numbers) -> bool {
    let little_endian = |first: usize, bytes: usize| {
        (0..bytes).rev().fold(0, |sum, i| sum << 8 | u32::from(record[first + i]))
    };
    for (number, byte, _) in BYTES {
        numbers[number] = little_endian(byte, 1);
    }
    for (number, byte) in SHORTS {
        numbers[number] = little_endian(byte, 2);
    }
    for (number, byte, _) in WORDS {
        numbers[number] = little_endian(byte, 4);
    }
    BYTES.iter().all(|&(number, _, end)| numbers[number] < end)
        && WORDS.iter().all(|&(number, _, flag)| numbers[flag] != 0 || numbers[number] == 0)
}
