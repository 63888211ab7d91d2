//! The configurations whose plans every run compares: document 01's examples, and
//! each edge of its sections "Whether the PLL is used" and "Derived clocks".

use crate::cases::requests::{HPRE_ENDS, PPRE_ENDS, STEPS};
use crate::model::configuration::{at, Numbers, DEFAULTS};
use crate::model::limits::{self, within};
use crate::model::walk::output;

const MHZ: u32 = 1_000_000;

/// Changes of the defaults: number, value.
type Changes<'a> = &'a [(usize, u32)];

fn changed(mut numbers: Numbers, changes: Changes) -> Numbers {
    changes.iter().for_each(|&(place, value)| numbers[place] = value);
    numbers
}

fn of_defaults(changes: Changes) -> Numbers {
    changed(DEFAULTS, changes)
}

/// The configuration with a request of so many hertz.
fn asking(numbers: &Numbers, flag: usize, hertz: u32) -> Numbers {
    changed(*numbers, &[(flag, 1), (flag + 1, hertz)])
}

/// Clocks by bypass, HCLK requests, and the end of a row of HPRE that their ratio lies just above:
/// f32 rounds it down to that end. By whole numbers the divider would be the next row's, so these
/// tell f32 from an exact ceiling at ends where the HCLKs beside SYSCLK over the end do not.
pub const PARTED: [(u32, u32, u32); 2] = [(25_102_176, 131_425, 191), (25_100_672, 65_537, 383)];

pub fn all() -> Vec<Numbers> {
    let mut all = lists();
    all.extend(PARTED.map(|(hertz, hclk, _)| {
        let bypass = of_defaults(&[(at::HSE_KIND, 2), (at::HSE, hertz)]);
        asking(&bypass, at::HCLK, hclk)
    }));
    all
}

/// The long lists, of which the sample has one in so many.
pub fn lists() -> Vec<Numbers> {
    let mut all = examples();
    all.extend(hclk_rows());
    all.extend(pclk_rows());
    all.extend(steps());
    all.extend(inputs());
    all.extend(other_plls());
    all.extend(other_pll_edges());
    all
}

/// Document 01's, in its order.
pub fn examples() -> Vec<Numbers> {
    let hsi = asking(&DEFAULTS, at::SYSCLK, 216 * MHZ);
    let bypass = |hertz| changed(hsi, &[(at::HSE_KIND, 2), (at::HSE, hertz)]);
    let at_200 = asking(&DEFAULTS, at::SYSCLK, 200 * MHZ);
    let i2s = |n| of_defaults(&[(at::M, 8), (at::USE_I2S, 1), (at::I2S_N, n)]);
    let sai = |p| of_defaults(&[(at::M, 8), (at::USE_SAI, 1), (at::SAI_N, 192), (at::SAI_P, p)]);
    vec![
        DEFAULTS,
        changed(hsi, &[(at::CHOICE, 1)]),
        changed(hsi, &[(at::HSE_KIND, 1), (at::HSE, 25 * MHZ)]),
        bypass(2 * MHZ),
        bypass(1_999_999),
        at_200,
        changed(at_200, &[(at::USE_PLL, 1)]),
        asking(&hsi, at::HCLK, 215_999_999),
        asking(&hsi, at::HCLK, 43_200_000),
        asking(&hsi, at::HCLK, 0),
        asking(&hsi, at::PCLK1, 36 * MHZ),
        asking(&hsi, at::PCLK1, 12_500_000),
        i2s(95),
        i2s(96),
        i2s(216),
        i2s(217),
        sai(0),
        sai(3),
    ]
}

/// Each combination of the sections of document 01's list of stores and waits, all accepted.
pub fn sections() -> Vec<Numbers> {
    let hse = |kind| [(at::HSE_KIND, kind), (at::HSE, 16 * MHZ)];
    let sysclk = |mhz| [(at::SYSCLK, 1), (at::SYSCLK + 1, mhz * MHZ)];
    let parts: [&[Changes]; 7] = [
        &[&[], &hse(1), &hse(2)],
        &[&[], &sysclk(144), &sysclk(216)],
        &[&[], &[(at::LSE_KIND, 1)], &[(at::LSE_KIND, 2)]],
        &[&[], &[(at::LSI, 1)]],
        &[&[], &[(at::USE_SAI, 1)]],
        &[&[], &[(at::CHOICE, 1)], &[(at::CHOICE, 2)]],
        &[&[], &[(at::USE_I2S, 1)]],
    ];
    let with = |all: Vec<Numbers>, part: &&[Changes]| {
        let each = |numbers| part.iter().map(move |changes| changed(numbers, changes));
        all.into_iter().flat_map(each).collect()
    };
    parts.iter().fold(vec![of_defaults(&[(at::M, 8), (at::SAI_P, 3)])], with)
}

/// Some configurations of many SYSCLKs, the PLL used by most.
fn sources() -> Vec<Numbers> {
    let crystal = of_defaults(&[(at::HSE_KIND, 1), (at::HSE, 25 * MHZ)]);
    let bypass = of_defaults(&[(at::HSE_KIND, 2), (at::HSE, 8 * MHZ), (at::USE_PLL, 1)]);
    let sysclks = [13, 48, 100, 168, 180, 200, 216].map(|sysclk| sysclk * MHZ);
    let mut sources = vec![DEFAULTS, crystal];
    for base in [of_defaults(&[(at::USE_PLL, 1)]), bypass] {
        sources.extend(sysclks.map(|sysclk| asking(&base, at::SYSCLK, sysclk)));
    }
    sources
}

fn sysclk_of(numbers: &Numbers) -> u32 {
    match (numbers[at::SYSCLK], numbers[at::HSE_KIND]) {
        (1, _) => numbers[at::SYSCLK + 1],
        (_, 0) => 16 * MHZ,
        _ => numbers[at::HSE],
    }
}

/// HCLK requests up to 20 Hz beside SYSCLK over each end of a row, and the ends of its limits.
fn hclk_rows() -> Vec<Numbers> {
    let mut all = Vec::new();
    for source in sources() {
        for end in HPRE_ENDS {
            let hertz = sysclk_of(&source) / end;
            let beside = hertz.saturating_sub(20)..=(hertz + 20).min(216 * MHZ);
            all.extend(beside.map(|hertz| asking(&source, at::HCLK, hertz)));
        }
        all.extend([0, 1, 216 * MHZ].map(|hertz| asking(&source, at::HCLK, hertz)));
    }
    all
}

/// PCLK requests up to 8 Hz beside HCLK over each end of a row, at their caps and limits, for
/// HCLK as SYSCLK and as its half.
fn pclk_rows() -> Vec<Numbers> {
    let mut all = Vec::new();
    for source in sources() {
        let sysclk = sysclk_of(&source);
        let halved = asking(&source, at::HCLK, sysclk / 2);
        for (source, hclk) in [(source, sysclk), (halved, sysclk / 2)] {
            for (flag, high) in [(at::PCLK1, 54 * MHZ), (at::PCLK2, 108 * MHZ)] {
                let ends = PPRE_ENDS.map(|end| hclk / end);
                let limits = [12_500_000, high, high / 6 * 5];
                let beside = ends.into_iter().chain(limits).flat_map(|hertz| hertz - 8..=hertz + 8);
                let allowed = beside.filter(|hertz| (12_500_000..=high).contains(hertz));
                all.extend(allowed.map(|hertz| asking(&source, flag, hertz)));
            }
        }
    }
    all
}

/// SYSCLK at each step and 16 Hz to either side: by settings as they stand, which derive just
/// that, kept and not, and by a search for it and for one hertz beside.
fn steps() -> Vec<Numbers> {
    let mut all = Vec::new();
    for step in STEPS {
        for sysclk in [step * MHZ - 16, step * MHZ, step * MHZ + 16] {
            let Some(settings) = settings_for(sysclk) else {
                continue;
            };
            all.push(settings);
            if sysclk > 216 * MHZ {
                continue;
            }
            for wanted in (sysclk - 2..=sysclk + 2).filter(|&hertz| hertz <= 216 * MHZ) {
                let kept = asking(&settings, at::SYSCLK, wanted);
                all.push(kept);
                all.push(changed(kept, &[(at::USE_PLL, 0)]));
                all.push(changed(kept, &[(at::M, 2), (at::N, 50), (at::P, 0)]));
            }
        }
    }
    all
}

/// A bypass clock with M, N and P such that the PLL, which is used, gives just this SYSCLK.
fn settings_for(sysclk: u32) -> Option<Numbers> {
    let wanted = u64::from(sysclk);
    let fits = |m: u32, n: u32| {
        let input = 16 * (wanted / 16 * 2 * u64::from(m)).div_ceil(u64::from(n)) as u32;
        let usual = (MHZ..=2 * MHZ).contains(&(input / m));
        (usual && output(input, m, n, 2) == wanted).then_some((input, m, n))
    };
    let pairs = (2..=24).flat_map(|m| (50..=432).map(move |n| (m, n)));
    let (input, m, n) = pairs.into_iter().find_map(|(m, n)| fits(m, n))?;
    Some(of_defaults(&[
        (at::HSE_KIND, 2),
        (at::HSE, input),
        (at::USE_PLL, 1),
        (at::M, m),
        (at::N, n),
    ]))
}

/// Inputs that are no multiple of 16, requested as they are, cut, and beside.
fn inputs() -> Vec<Numbers> {
    let mut all = Vec::new();
    for input in [16 * MHZ, 12_500_000, 25 * MHZ, 30 * MHZ, 48 * MHZ, 50 * MHZ - 16] {
        for more in [0, 1, 8, 15] {
            let hse = [(at::HSE_KIND, 2), (at::HSE, input + more)];
            for other in [&[][..], &[(at::USE_PLL, 1)], &[(at::CHOICE, 1)], &[(at::CHOICE, 2)]] {
                let source = changed(of_defaults(&hse), other);
                all.push(source);
                let beside = [input - 1, input, input + 1, input + more, input + 16];
                let asked = beside.into_iter().filter(|&hertz| hertz >= 12_500_000);
                all.extend(asked.map(|hertz| asking(&source, at::SYSCLK, hertz)));
            }
        }
    }
    all
}

/// PLLSAI and PLLI2S about their limits, each and both used, with M as given and as planned.
fn other_plls() -> Vec<Numbers> {
    let given = of_defaults(&[(at::M, 8)]);
    let planned = asking(&DEFAULTS, at::SYSCLK, 216 * MHZ);
    let mut all = Vec::new();
    let with_choice = [changed(planned, &[(at::CHOICE, 1)]), changed(given, &[(at::CHOICE, 2)])];
    for base in [given, planned].into_iter().chain(with_choice) {
        for n in [50, 95, 96, 97, 144, 145, 191, 192, 193, 215, 216, 217, 432] {
            for p in 0..4 {
                let sai = changed(base, &[(at::USE_SAI, 1), (at::SAI_N, n), (at::SAI_P, p)]);
                all.push(sai);
                all.push(changed(sai, &[(at::USE_SAI, 0)]));
                all.extend([95, 96].map(|n| changed(sai, &[(at::USE_I2S, 1), (at::I2S_N, n)])));
            }
            let i2s = changed(base, &[(at::USE_I2S, 1), (at::I2S_N, n)]);
            all.push(i2s);
            all.push(changed(i2s, &[(at::USE_I2S, 0)]));
        }
    }
    all
}

/// Inputs for which floor(input/M) × N is just at or beside a limit of the VCO, or the P output
/// at 48 MHz by its floor; the last 15 Hz of an input count here.
fn other_pll_edges() -> Vec<Numbers> {
    let limits = [(192, 3), (384, 3), (288, 2), (192, 1), (432, 3)];
    let mut all = Vec::new();
    for (limit, p) in limits.map(|(mhz, p)| (mhz * MHZ, p)) {
        for n in [96, 97, 128, 192, 215, 240, 255, 256, 383, 384, 432] {
            for each in [limit / n, limit / n + 1] {
                for m in [2, 7, 16, 25] {
                    let inputs = [each * m - 1, each * m, each * m + m - 1];
                    all.extend(inputs.into_iter().flat_map(|hse| edge(hse, m, n, p)));
                }
            }
        }
    }
    all
}

/// Either PLL used with this N, and PLLSAI with this P; nothing for an input that is none.
fn edge(hse: u32, m: u32, n: u32, p: u32) -> Vec<Numbers> {
    if !within(limits::BYPASS, hse) {
        return Vec::new();
    }
    let source = of_defaults(&[(at::HSE_KIND, 2), (at::HSE, hse), (at::M, m)]);
    vec![
        changed(source, &[(at::USE_SAI, 1), (at::SAI_N, n), (at::SAI_P, p)]),
        changed(source, &[(at::USE_I2S, 1), (at::I2S_N, n)]),
    ]
}
