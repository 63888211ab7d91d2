//! Configurations to compare plans on: random ones, made so that each refusal,
//! each row of the derived clocks and each way through `pll_configure` comes out often.

use crate::added::answers;
use crate::added::record;
use crate::added::refusals::Assertions;
use crate::cases::random::Random;
use crate::cases::records;
use crate::cases::searches;
use crate::model::clocks;
use crate::model::configuration::{at, Numbers, DEFAULTS};
use crate::model::limits::{self, within, BYPASS, FACTORS, N, OSCILLATOR, REQUESTS};
use crate::model::walk::{output, vco, walk, P_DIVIDERS};
use crate::model::ways::{self, p_divider, USB};

/// The ends of the rows of HPRE and of PPRE.
pub const HPRE_ENDS: [u32; 8] = [1, 2, 5, 11, 39, 95, 191, 383];
pub const PPRE_ENDS: [u32; 4] = [1, 2, 6, 12];

/// SYSCLKs in MHz where wait states, voltage scale, over-drive or caps change, and the limit.
pub const STEPS: [u32; 10] = [30, 60, 90, 120, 144, 150, 168, 180, 210, 216];

/// VCO/2 where VCO/9 is the lower end of the Q window.
const MISSED_SYSCLK: u32 = USB.0 / 2 * 9;

pub struct Requests {
    /// Inputs for which a search for Q alone is answered and the 48 MHz clock yet not valid.
    missed: Vec<u32>,
}

impl Requests {
    pub fn new() -> Self {
        Requests { missed: missed_inputs() }
    }

    /// A record: damaged once in 16, else of a random configuration.
    pub fn record(&self, rust: &Assertions, random: &mut Random) -> Vec<u8> {
        if random.once_in(16) {
            return records::damaged(random);
        }
        record::write(&self.random(rust, random)).to_vec()
    }

    pub fn random(&self, rust: &Assertions, random: &mut Random) -> Numbers {
        let mut numbers = records::random_within_limits(random);
        for (flag, _) in REQUESTS {
            numbers[flag..flag + 2].fill(0);
        }
        if random.once_in(16) {
            self.put_missed(random, &mut numbers);
        } else {
            put_input(random, &mut numbers);
            put_factors(random, &mut numbers);
            put_sysclk(random, &mut numbers);
        }
        put_prescaled(rust, random, &mut numbers);
        put_other_plls(rust, random, &mut numbers);
        if random.once_in(6) {
            spoil(random, &mut numbers);
        }
        numbers
    }

    /// A search for Q that is answered with a clock that is not valid, for some beside one for P.
    fn put_missed(&self, random: &mut Random, numbers: &mut Numbers) {
        numbers[at::HSE_KIND..=at::HSE].copy_from_slice(&[2, random.one_of(&self.missed)]);
        numbers[at::CHOICE] = 1;
        if random.once_in(2) {
            numbers[at::SYSCLK..at::SYSCLK + 2].copy_from_slice(&[1, MISSED_SYSCLK]);
        }
    }
}

/// Those whose VCO/Q is just the lower end of the Q window: the output is then 16 Hz less.
fn missed_inputs() -> Vec<u32> {
    let mut inputs = Vec::new();
    for (m, n) in (2..=50).flat_map(|m| (50..=432).map(move |n| (m, n))) {
        let products = (2..=9).map(|q| u64::from(USB.0) / 16 * q * m);
        let whole = products.filter(|product| product % n == 0);
        inputs.extend(whole.map(|product| 16 * (product / n) as u32));
    }
    inputs.retain(|&input| within(BYPASS, input) && is_missed(input));
    inputs.sort_unstable();
    inputs.dedup();
    inputs
}

fn is_missed(input: u32) -> bool {
    let (refusal, [_, m, n, _, q]) = walk(input, None, Some(USB));
    refusal == 0 && output(input, m, n, q) < u64::from(USB.0)
}

fn put_input(random: &mut Random, numbers: &mut Numbers) {
    let input = searches::usual_input(random);
    numbers[at::HSE] = match numbers[at::HSE_KIND] {
        0 => 0,
        1 => input.clamp(OSCILLATOR.0, OSCILLATOR.1),
        _ => input,
    };
}

/// M, N, P and Q: the defaults, any, or an M and N with a VCO that the PLL takes.
fn put_factors(random: &mut Random, numbers: &mut Numbers) {
    match random.below(4) {
        0 => numbers[at::M..=at::Q].copy_from_slice(&DEFAULTS[at::M..=at::Q]),
        1 => {}
        _ => {
            let (m, n) = some_pair(random, ways::input(numbers), numbers[at::CHOICE]);
            numbers[at::M..=at::N].copy_from_slice(&[m, n]);
        }
    }
}

/// An M and N that fit the input; with 48 MHz from PLLQ the VCO is near a multiple of that.
fn some_pair(random: &mut Random, input: u32, choice: u32) -> (u32, u32) {
    let least = input.div_ceil(2_000_000).max(2);
    let m = if random.once_in(3) {
        least
    } else {
        random.within(least, (input / 1_000_000).max(least))
    };
    let wanted = match choice {
        1 => 48_000_000 * u64::from(random.within(2, 9)),
        _ => u64::from(random.within(50_000_000, 432_000_000)),
    };
    let n = wanted * u64::from(m) / u64::from(input);
    (m, (n as u32).clamp(N.0, N.1))
}

/// No request; the input itself; what the settings give already; what some pair gives; any;
/// or at a step. One that no setter takes is left out.
fn put_sysclk(random: &mut Random, numbers: &mut Numbers) {
    let input = ways::input(numbers);
    let [m, n, p] = [at::M, at::N, at::P].map(|place| numbers[place]);
    let hertz = match random.below(8) {
        0 => return,
        1 => u64::from(input),
        2 | 3 => output(input, m, n, p_divider(p)),
        4 | 5 => {
            let (m, n) = some_pair(random, input, numbers[at::CHOICE]);
            let below = vco(input, m, n) / u64::from(random.one_of(&P_DIVIDERS)) - 1;
            below + u64::from(random.below(3))
        }
        6 => u64::from(searches::usual_sysclk(random)),
        _ => u64::from(random.one_of(&STEPS) * 1_000_000 - 17 + random.below(35)),
    };
    if (12_500_000..=216_000_000).contains(&hertz) {
        numbers[at::SYSCLK..at::SYSCLK + 2].copy_from_slice(&[1, hertz as u32]);
    }
}

/// The clocks that a configuration is planned to, or those of the settings as they stand.
fn aimed_at(rust: &Assertions, numbers: &Numbers) -> Option<(Numbers, clocks::Clocks)> {
    let config = answers::configured(rust, numbers).unwrap_or(*numbers);
    answers::derived(rust, &config).ok().map(|clocks| (config, clocks))
}

/// Requests of HCLK and of both PCLKs, most of them near an end of a row.
fn put_prescaled(rust: &Assertions, random: &mut Random, numbers: &mut Numbers) {
    let Some((_, clocks)) = aimed_at(rust, numbers) else {
        return;
    };
    if random.below(8) > 2 {
        let hertz = some_hclk(random, clocks[clocks::at::SYSCLK]);
        numbers[at::HCLK..at::HCLK + 2].copy_from_slice(&[1, hertz]);
    }
    let Some((_, clocks)) = aimed_at(rust, numbers) else {
        return;
    };
    for (flag, high) in [(at::PCLK1, limits::PCLK1.1), (at::PCLK2, limits::PCLK2.1)] {
        if random.below(3) > 0 {
            let hertz = some_pclk(random, clocks[clocks::at::HCLK], high);
            numbers[flag..flag + 2].copy_from_slice(&[1, hertz]);
        }
    }
}

fn some_hclk(random: &mut Random, sysclk: u32) -> u32 {
    let hertz = match random.below(8) {
        0 => random.below(2) * random.below(50_000),
        1 => random.below(216_000_001),
        2 | 3 => sysclk / random.one_of(&[1, 2, 4, 8, 16, 64, 128, 256, 512]),
        _ => {
            let end = random.one_of(&HPRE_ENDS);
            near(random, sysclk / end, 20)
        }
    };
    hertz.min(216_000_000)
}

fn some_pclk(random: &mut Random, hclk: u32, high: u32) -> u32 {
    let hertz = match random.below(8) {
        0 | 1 => near(random, 12_500_000, 2),
        2 => random.within(12_500_000, high),
        3 => {
            let cap = random.one_of(&[high, high / 6 * 5]);
            near(random, cap, 2)
        }
        4 => high,
        _ => {
            let end = random.one_of(&PPRE_ENDS);
            near(random, hclk / end, 8)
        }
    };
    hertz.clamp(12_500_000, high)
}

fn near(random: &mut Random, hertz: u32, most: u32) -> u32 {
    (hertz + random.below(2 * most + 1)).saturating_sub(most)
}

/// PLLSAI and PLLI2S: any settings or, with the M planned, a VCO about its limits or 48 MHz.
fn put_other_plls(rust: &Assertions, random: &mut Random, numbers: &mut Numbers) {
    let Some((config, _)) = aimed_at(rust, numbers) else {
        return;
    };
    let each = u64::from(ways::source(numbers) / config[at::M]).max(1);
    numbers[at::USE_SAI] = u32::from(random.below(5) > 2);
    numbers[at::USE_I2S] = u32::from(random.below(5) > 2);
    if random.below(8) > 0 {
        numbers[at::SAI_P] = random.one_of(&[3, 3, 3, 3, 2, 1, 0]);
        let wanted = 48_000_000 * p_divider(numbers[at::SAI_P]);
        let limits = [192_000_000, 432_000_000, 384_000_000, 288_000_000];
        let vco = if random.once_in(3) { wanted } else { random.one_of(&limits) };
        numbers[at::SAI_N] = (u64::from(vco) / each) as u32 + random.once_in(3) as u32;
    }
    if random.below(8) > 0 {
        let within = random.within(192_000_000, 432_000_000);
        let vco = random.one_of(&[192_000_000, 432_000_000, within]);
        numbers[at::I2S_N] = (u64::from(vco) / each) as u32 + random.once_in(3) as u32;
    }
    for place in [at::SAI_N, at::I2S_N] {
        numbers[place] = numbers[place].clamp(N.0, N.1);
    }
}

/// One to three values at, beside or beyond their limits.
fn spoil(random: &mut Random, numbers: &mut Numbers) {
    for _ in 0..random.within(1, 3) {
        if random.once_in(2) {
            let (place, (low, high), largest) = random.one_of(&FACTORS);
            numbers[place] = random.around(low, high) & largest;
        } else if numbers[at::HSE_KIND] > 0 && random.once_in(3) {
            numbers[at::HSE] = random.around(OSCILLATOR.0, OSCILLATOR.1);
        } else {
            let (flag, (low, high)) = random.one_of(&REQUESTS);
            numbers[flag..flag + 2].copy_from_slice(&[1, random.around(low, high)]);
        }
    }
}
