// The library from Rust: a record is made, planned, and its clocks are told; then one that is refused. `./woolturret example` builds
// and runs it; by hand: rustc examples/plan.rs -L target/staticlib -l static=woolturret -o target/plan
use std::process::ExitCode;

mod woolturret {
    // What is wanted of include/woolturret.h, which says what each function asks and answers: its sizes, and a declaration.
    pub const CONFIG: usize = 30;
    pub const CLOCKS: usize = 16;
    pub const RECORD: usize = 64;
    extern "C" {
        fn woolturret_plan(
            bytes: *const u8,
            length: usize,
            config: *mut u32,
            clocks: *mut u32,
            passes: *mut u32,
        ) -> u32;
    }

    /// A plan, numbered as the header has it.
    pub struct Plan {
        pub config: [u32; CONFIG],
        pub clocks: [u32; CLOCKS],
        pub passes: u32,
    }

    /// The plan of a request record, or the number of its refusal. Any bytes have an answer.
    pub fn plan(record: &[u8]) -> Result<Plan, u32> {
        let mut plan = Plan { config: [0; CONFIG], clocks: [0; CLOCKS], passes: 0 };
        // SAFETY: the pointers are to CONFIG, CLOCKS and 1 numbers and to record.len() bytes, and none overlaps another.
        let number = unsafe {
            woolturret_plan(
                record.as_ptr(),
                record.len(),
                plan.config.as_mut_ptr(),
                plan.clocks.as_mut_ptr(),
                &mut plan.passes,
            )
        };
        if number == 0 { Ok(plan) } else { Err(number) }
    }
}

/// The record of the Rust's defaults with an HSE crystal and a SYSCLK request, both in hertz.
fn record(hse: u32, sysclk: u32) -> [u8; woolturret::RECORD] {
    let mut bytes = [0; woolturret::RECORD];
    bytes[0] = 1 | 1 << 3; // flags: HSE, SYSCLK
    bytes[2..9].copy_from_slice(&[2, 0, 2, 0, 2, 2, 2]); // M, P code, Q; PLLSAI P code, Q; PLLI2S R, Q
    for (offset, n) in [(14, 50u16), (16, 192), (18, 192)] {
        bytes[offset..offset + 2].copy_from_slice(&n.to_le_bytes());
    }
    bytes[20..24].copy_from_slice(&hse.to_le_bytes());
    bytes[28..32].copy_from_slice(&sysclk.to_le_bytes());
    bytes
}

fn tell(what: &str, record: &[u8]) -> bool {
    match woolturret::plan(record) {
        Ok(plan) => {
            let [sysclk, hclk, pclk1, pclk2, ..] = plan.clocks;
            let [m, n, p] = [plan.config[14], plan.config[15], 2 * (plan.config[16] + 1)];
            println!("{what}: SYSCLK {sysclk}, HCLK {hclk}, PCLK1 {pclk1}, PCLK2 {pclk2} by M {m}, N {n}, P {p}, {} passes", plan.passes);
            true
        }
        Err(number) => {
            println!("{what}: refused, {number}");
            false
        }
    }
}

fn main() -> ExitCode {
    let good = tell("25 MHz crystal, 216 MHz", &record(25_000_000, 216_000_000));
    let refused = [
        tell("25 MHz crystal, 217 MHz", &record(25_000_000, 217_000_000)),
        tell("63 bytes", &record(25_000_000, 216_000_000)[..woolturret::RECORD - 1]),
        tell("no bytes", &[]),
    ];
    if good && refused == [false; 3] { ExitCode::SUCCESS } else { ExitCode::FAILURE }
}
