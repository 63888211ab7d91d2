//! Searches to compare and to time on: what a board would ask, and anything.

use crate::cases::random::Random;
use crate::model::limits::{Limits, BYPASS, N, SYSCLK};
use crate::model::walk::{vco, Window, P_DIVIDERS, Q_DIVIDERS};
use crate::model::ways::{wanted, USB};

#[derive(Clone, Copy, Debug)]
pub struct Case {
    pub input: u32,
    pub p: Window,
    pub q: Window,
}

pub const CRYSTALS: [u32; 10] = [
    16_000_000, 4_000_000, 8_000_000, 10_000_000, 12_000_000, 20_000_000, 24_000_000, 25_000_000,
    26_000_000, 50_000_000,
];

/// A frequency within the limits as people ask for one: of whole MHz, kHz or any.
fn usual_hertz(random: &mut Random, (low, high): Limits) -> u32 {
    let step = random.one_of(&[1_000_000, 1_000_000, 500_000, 1_000, 16, 1]);
    random.within(low, high).next_multiple_of(step).min(high)
}

pub fn usual_input(random: &mut Random) -> u32 {
    match random.below(3) {
        0 => random.one_of(&CRYSTALS),
        _ => usual_hertz(random, BYPASS),
    }
}

pub fn usual_sysclk(random: &mut Random) -> u32 {
    usual_hertz(random, SYSCLK)
}

/// What a planner asks: a SYSCLK, with and without the 48 MHz clock.
pub fn usual(random: &mut Random) -> Case {
    let input = usual_input(random);
    let p = wanted(usual_sysclk(random));
    let q = random.once_in(2).then_some(USB);
    Case { input, p, q }
}

/// Half are usual; the other half may be anything.
pub fn any(random: &mut Random) -> Case {
    if random.once_in(2) {
        return usual(random);
    }
    let input = match random.below(8) {
        0 => random.any(),
        1 => random.below(130_000_000),
        2 | 3 => {
            let m = random.within(2, 63);
            random.one_of(&[m * 1_000_000, m * 2_000_001]) - 2 + random.below(4)
        }
        _ => usual_input(random),
    };
    let sysclk = usual_sysclk(random);
    let vco = some_vco(random, input);
    let p = any_window(random, vco, &P_DIVIDERS, (sysclk - 1, sysclk + 1));
    let q = any_window(random, vco, &Q_DIVIDERS, USB);
    Case { input, p, q }
}

/// The VCO of some N and an M that fits the input, if one does.
fn some_vco(random: &mut Random, input: u32) -> u64 {
    let least = (input / 2_000_001 + 1).clamp(2, 63);
    let greatest = (input / 1_000_000).clamp(least, 63);
    vco(input, random.within(least, greatest), random.within(N.0, N.1))
}

fn any_window(random: &mut Random, vco: u64, dividers: &[u32], usual: (u32, u32)) -> Window {
    match random.below(10) {
        0..=2 => None,
        3 | 4 => Some(usual),
        5 | 6 => {
            let output = (vco / u64::from(random.one_of(dividers))) as u32;
            let low = output.saturating_sub(1).saturating_add(random.below(3));
            Some((low, low.saturating_add(random.below(3))))
        }
        7 => {
            let low = random.below(220_000_000);
            Some((low, low + random.below(20_000_000)))
        }
        8 => {
            let high = random.below(220_000_000);
            Some((high + random.within(1, 20_000_000), high))
        }
        _ => Some((random.any(), random.any())),
    }
}
