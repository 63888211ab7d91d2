//! Records of a fleet: boards as one meets them, requests for some SYSCLK and requests of every
//! kind, in all about half of them accepted.

use crate::added::answers;
use crate::added::record;
use crate::added::refusals::Assertions;
use crate::cases::random::Random;
use crate::cases::requests::Requests;
use crate::cases::searches;
use crate::model::configuration::{at, Numbers, DEFAULTS};
use crate::model::limits::N;
use crate::model::ways;
use crate::sizes::RECORD;

const MHZ: u32 = 1_000_000;

/// HSE kind and MHz: HSI, crystals, clocks by bypass.
const SOURCES: [(u32, u32); 8] =
    [(0, 0), (0, 0), (1, 8), (1, 12), (1, 16), (1, 25), (2, 8), (2, 25)];

/// What boards run at, in MHz.
const SYSCLKS: [u32; 9] = [216, 216, 216, 200, 180, 168, 144, 100, 48];

/// How many shares of the records are boards, ask for some SYSCLK, and are of every kind.
pub type Mixture = [u32; 3];

pub const FLEET: Mixture = [2, 1, 1];
pub const BOARDS: Mixture = [1, 0, 0];
pub const EVERY_KIND: Mixture = [0, 0, 1];

/// So many records of a mixture, which follow from the seed.
pub fn records(rust: &Assertions, [boards, some, any]: Mixture, count: u64, seed: u64) -> Vec<u8> {
    let (requests, mut random) = (Requests::new(), Random::new(seed));
    let mut records = Vec::new();
    for _ in 0..count {
        let share = random.below(boards + some + any);
        let mut record = if share < boards {
            record::write(&board(rust, &mut random)).to_vec()
        } else if share < boards + some {
            record::write(&some_sysclk(&mut random)).to_vec()
        } else {
            requests.record(rust, &mut random)
        };
        record.resize(RECORD, 0);
        records.extend(record);
    }
    records
}

/// A board: SYSCLK at a usual frequency, the 48 MHz clock from either PLL, bus clocks asked for
/// by some.
fn board(rust: &Assertions, random: &mut Random) -> Numbers {
    let mut numbers = DEFAULTS;
    let (kind, mhz) = random.one_of(&SOURCES);
    let low_speed = [random.below(3), random.below(2)];
    numbers[at::HSE_KIND..=at::HSE].copy_from_slice(&[kind, mhz * MHZ]);
    numbers[at::LSE_KIND..=at::LSI].copy_from_slice(&low_speed);
    numbers[at::SYSCLK..at::SYSCLK + 2].copy_from_slice(&[1, random.one_of(&SYSCLKS) * MHZ]);
    numbers[at::USE_PLL] = 1;
    numbers[at::CHOICE] = random.one_of(&[0, 0, 0, 1, 1, 2]);
    for (flag, asked) in [(at::HCLK, [216, 108]), (at::PCLK1, [54, 27]), (at::PCLK2, [108, 54])] {
        if random.once_in(4) {
            numbers[flag..flag + 2].copy_from_slice(&[1, random.one_of(&asked) * MHZ]);
        }
    }
    if numbers[at::CHOICE] == 2 {
        let planned = answers::configured(rust, &numbers).unwrap_or(numbers);
        let n = 384 * MHZ / (ways::input(&numbers) / planned[at::M]);
        numbers[at::USE_SAI..=at::SAI_P].copy_from_slice(&[1, n.clamp(N.0, N.1), 3]);
    }
    numbers
}

/// A clock by bypass and a SYSCLK of any usual frequency, with the 48 MHz clock and without.
fn some_sysclk(random: &mut Random) -> Numbers {
    let mut numbers = DEFAULTS;
    numbers[at::HSE_KIND..=at::HSE].copy_from_slice(&[2, searches::usual_input(random)]);
    numbers[at::SYSCLK..at::SYSCLK + 2].copy_from_slice(&[1, searches::usual_sysclk(random)]);
    numbers[at::CHOICE] = random.below(2);
    numbers
}
