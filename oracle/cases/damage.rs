//! Damaged records: what a broken file, a stream that slipped or a stray write would hand over.
//! Each kind of damage has a row.

use crate::added::answers;
use crate::added::check;
use crate::added::record;
use crate::added::refusals::Assertions;
use crate::cases::boundary_records::beside;
use crate::cases::fleet;
use crate::cases::random::Random;
use crate::model::configuration::{at, Numbers};
use crate::model::limits::{FACTORS, HSE, REQUESTS};
use crate::model::table::{Group, Row};
use crate::sizes::RECORD;

/// So many records of a fleet, those of them that are accepted, are what is damaged.
const FLEET: u64 = 20_000;

const LONGEST: u32 = 200;

/// A kind of damage: its row, its share of the records, and how it is done.
type Kind = (&'static str, u32, fn(&Damage, &mut Random) -> Vec<u8>);

const KINDS: [Kind; 9] = [
    ("random bytes", 1, |_, random| random_bytes(random, RECORD)),
    ("random bytes of any length", 1, |_, random| any_length(random)),
    ("cut short or lengthened", 1, Damage::of_another_length),
    ("one bit flipped", 3, |damage, random| damage.changed(random, 1, flipped)),
    ("one byte set", 2, |damage, random| damage.changed(random, 1, |_, any| any as u8)),
    ("several bytes set", 2, Damage::several_bytes),
    ("one field at a boundary", 3, Damage::at_boundary),
    ("two spliced", 2, Damage::spliced),
    ("all zeros or all ones", 1, |_, random| all_alike(random)),
];

const SHARES: u32 = {
    let (mut sum, mut i) = (0, 0);
    while i < KINDS.len() {
        sum += KINDS[i].1;
        i += 1;
    }
    sum
};

const NAMES: [&str; KINDS.len()] = {
    let (mut names, mut i) = ([""; KINDS.len()], 0);
    while i < KINDS.len() {
        names[i] = KINDS[i].0;
        i += 1;
    }
    names
};

pub const ROWS: Group = ("damage", &NAMES);

/// Flags at a boundary: none, one, all that there are, and those that must be zero.
const FLAGS: [u16; 6] = [0, 1, 0x3FFF, 0x4000, 0x8000, 0xFFFF];

pub struct Damage {
    good: Vec<Numbers>,
}

impl Damage {
    pub fn new(rust: &Assertions, seed: u64) -> Self {
        let fleet = fleet::records(rust, fleet::FLEET, FLEET, seed);
        let read = fleet.chunks(RECORD).filter_map(|record| check::checked(rust, record).ok());
        Damage { good: read.filter(|numbers| answers::planned(rust, numbers).is_ok()).collect() }
    }

    /// The row of a damage, and the damaged record, now and then still a good one. It takes no more
    /// room than its length, so that a memory checker sees what is read past its end.
    pub fn record(&self, random: &mut Random) -> (Row, Box<[u8]>) {
        let mut share = random.below(SHARES);
        for (name, shares, damaged) in KINDS {
            if share < shares {
                return ((ROWS.0, name), damaged(self, random).into_boxed_slice());
            }
            share -= shares;
        }
        unreachable!("a share is below their sum")
    }

    /// Records of 64 bytes, which can stand one after the other in a file, and a short tail.
    pub fn file(&self, count: u64, random: &mut Random) -> Vec<u8> {
        let any = std::iter::repeat_with(|| self.record(random).1);
        let whole = any.filter(|record| record.len() == RECORD).take(count as usize);
        let mut records = whole.collect::<Vec<_>>().concat();
        records.extend(random_bytes(random, RECORD - 1));
        records
    }

    fn good(&self, random: &mut Random) -> Vec<u8> {
        record::write(&random.one_of(&self.good)).to_vec()
    }

    /// A good record with so many bytes, wherever they stand, made anew from what they were and
    /// any number.
    fn changed(&self, random: &mut Random, bytes: u32, anew: fn(u8, u32) -> u8) -> Vec<u8> {
        let mut record = self.good(random);
        for _ in 0..bytes {
            let byte = &mut record[random.below(RECORD as u32) as usize];
            *byte = anew(*byte, random.any());
        }
        record
    }

    fn several_bytes(&self, random: &mut Random) -> Vec<u8> {
        let bytes = random.within(2, 8);
        self.changed(random, bytes, |_, any| any as u8)
    }

    /// Lengthened by zeros or by any bytes.
    fn of_another_length(&self, random: &mut Random) -> Vec<u8> {
        let mut record = self.good(random);
        let any = random.below(LONGEST + 1) as usize;
        let length = random.one_of(&[RECORD - 1, RECORD + 1, 2 * RECORD, any]);
        let mask = random.one_of(&[0, 0xFF]);
        record.resize_with(length, || random.any() as u8 & mask);
        record
    }

    /// A value about a limit, 0, 1 or the largest; a u32 with its flag or as the flag was; or the
    /// flags.
    fn at_boundary(&self, random: &mut Random) -> Vec<u8> {
        let mut numbers = random.one_of(&self.good);
        let (kind, place, limits, largest) = match random.below(8) {
            0 => return with_flags(&numbers, random.one_of(&FLAGS)),
            1 | 2 => {
                let (kind, limits) = random.one_of(&HSE);
                (kind, at::HSE, limits, u32::MAX)
            }
            3 | 4 => {
                let (flag, limits) = random.one_of(&REQUESTS);
                (1, flag + 1, limits, u32::MAX)
            }
            _ => {
                let (place, limits, largest) = random.one_of(&FACTORS);
                (0, place, limits, largest)
            }
        };
        numbers[place] = random.one_of(&[&beside(limits, largest)[..], &[1]].concat());
        if kind > 0 && random.once_in(2) {
            numbers[place - 1] = kind;
        }
        record::write(&numbers).to_vec()
    }

    /// The first bytes of one and the rest of another, or the end of one and the start of the next.
    fn spliced(&self, random: &mut Random) -> Vec<u8> {
        let (one, other) = (self.good(random), self.good(random));
        let cut = random.within(1, RECORD as u32 - 1) as usize;
        match random.once_in(2) {
            true => [&one[..cut], &other[cut..]].concat(),
            false => [&one[cut..], &other[..cut]].concat(),
        }
    }
}

fn flipped(byte: u8, any: u32) -> u8 {
    byte ^ 1 << (any % 8)
}

fn with_flags(numbers: &Numbers, flags: u16) -> Vec<u8> {
    let mut record = record::write(numbers).to_vec();
    record[..2].copy_from_slice(&flags.to_le_bytes());
    record
}

fn random_bytes(random: &mut Random, length: usize) -> Vec<u8> {
    std::iter::repeat_with(|| random.any() as u8).take(length).collect()
}

fn any_length(random: &mut Random) -> Vec<u8> {
    let length = random.below(LONGEST + 1) as usize;
    random_bytes(random, length)
}

fn all_alike(random: &mut Random) -> Vec<u8> {
    let any = random.below(LONGEST + 1) as usize;
    vec![random.one_of(&[0, 0xFF]); random.one_of(&[RECORD, any])]
}
