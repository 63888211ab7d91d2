//! Comparison 4: the PLL's output of settings as they stand. The Rust has no such function: a P
//! output is its SYSCLK with the PLL used, and of any divider as Q it says whether 48 MHz is met.

use crate::added::answers;
use crate::cases::random::Random;
use crate::cases::searches;
use crate::compare::run::Run;
use crate::compare::tally::Tally;
use crate::library;
use crate::model::clocks;
use crate::model::configuration::{at, Numbers, DEFAULTS};
use crate::model::limits::{self, Limits, M, N, Q};
use crate::model::walk::P_DIVIDERS;
use crate::model::ways::USB;

/// What `library::output` leaves in the lent number on a refusal.
const UNTOUCHED: u64 = library::UNTOUCHED_HERTZ;

const MHZ_216: u64 = limits::SYSCLK.1 as u64;

/// Input, M, N and the output's divider.
type Settings = [u32; 4];

const LIMITS: [Limits; 4] = [limits::BYPASS, M, N, Q];

struct Outputs<'a> {
    run: &'a mut Run,
    tally: Tally,
    /// P outputs compared as SYSCLK, and outputs above 216 MHz, which the Rust only refuses.
    as_sysclk: u64,
    above: u64,
}

/// Compares the ends of every limit, then random settings; answers how many there were.
pub fn run(run: &mut Run) -> u64 {
    let tally = Tally::default();
    let mut outputs = Outputs { run, tally, as_sysclk: 0, above: 0 };
    for settings in boundary_settings() {
        outputs.compare(settings);
    }
    for _ in 0..outputs.run.count {
        let settings = random_settings(&mut outputs.run.random);
        outputs.compare(settings);
    }
    outputs.print();
    outputs.tally.total
}

impl Outputs<'_> {
    fn compare(&mut self, settings: Settings) {
        let [input, m, n, d] = settings;
        let ours = library::output(input, m, n, d);
        self.tally.count(ours.0);
        let within = |at: usize| limits::within(LIMITS[at], settings[at]);
        let refusal = if !within(0) { 1 } else if (1..4).all(within) { 0 } else { 6 };
        let what = || format!("output {settings:?}");
        if refusal > 0 {
            self.run.differences.compare(ours, (refusal, UNTOUCHED), what);
            return;
        }
        self.run.differences.compare(ours.0, 0, what);
        let valid = self.derived(settings, false).map(|(_, valid)| valid);
        let met = (u64::from(USB.0)..=u64::from(USB.1)).contains(&ours.1);
        self.run.differences.compare(Ok(met), valid, what);
        if P_DIVIDERS.contains(&d) {
            self.compare_sysclk(settings, ours.1);
        }
    }

    /// Above 216 MHz the Rust's assertion fails (8), and says nothing of how far.
    fn compare_sysclk(&mut self, settings: Settings, ours: u64) {
        let sysclk = self.derived(settings, true).map(|(sysclk, _)| sysclk);
        self.as_sysclk += 1;
        self.above += u64::from(ours > MHZ_216);
        let ours = if ours > MHZ_216 { Err(8) } else { Ok(ours) };
        self.run.differences.compare(ours, sysclk, || format!("output {settings:?} as SYSCLK"));
    }

    /// SYSCLK, and whether Q's output is a valid 48 MHz clock, of the Rust's `calculate_clocks`.
    fn derived(&self, [input, m, n, d]: Settings, use_pll: bool) -> Result<(u64, bool), u32> {
        let mut numbers: Numbers = DEFAULTS;
        numbers[at::HSE_KIND] = 2;
        numbers[at::HSE] = input;
        numbers[at::USE_PLL] = u32::from(use_pll);
        numbers[at::CHOICE] = 1;
        numbers[at::M] = m;
        numbers[at::N] = n;
        numbers[at::P] = if use_pll { d / 2 - 1 } else { 0 };
        numbers[at::Q] = d;
        let clocks = answers::derived(&self.run.assertions, &numbers)?;
        Ok((u64::from(clocks[clocks::at::SYSCLK]), clocks[clocks::at::VALID] > 0))
    }

    fn print(&self) {
        let Outputs { as_sysclk, above, .. } = self;
        say!(
            "outputs: {} settings, of them {as_sysclk} as SYSCLK, {above} of these above 216 MHz",
            self.tally.total
        );
        self.tally.print("outputs");
    }
}

/// Every combination of values at or beside a limit.
fn boundary_settings() -> Vec<Settings> {
    let beside = |at: usize| {
        let (low, high) = LIMITS[at];
        [0, low - 1, low, high, high + 1, u32::MAX]
    };
    let mut all = Vec::new();
    for input in beside(0) {
        for m in beside(1) {
            for n in beside(2) {
                all.extend(beside(3).map(|d| [input, m, n, d]));
            }
        }
    }
    all
}

/// Within the limits most often; half of those have a VCO that a divider brings near 48 MHz.
fn random_settings(random: &mut Random) -> Settings {
    if random.once_in(4) {
        return LIMITS.map(|(low, high)| random.around(low, high));
    }
    let input = searches::usual_input(random);
    let (m, d) = (random.within(M.0, M.1), random.within(Q.0, Q.1));
    if random.once_in(2) {
        return [input, m, random.within(N.0, N.1), d];
    }
    let n = u64::from(m * d) * 48_000_000 / u64::from(input);
    [input, m, (n as u32 + random.below(2)).clamp(N.0, N.1), d]
}
