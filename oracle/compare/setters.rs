//! Comparison 1: each setter call, ours against the Rust's, in all numbers of
//! the configuration handed back and in the refusal number of a failed assertion.

use crate::added::answers;
use crate::added::record;
use crate::added::refusals::MALFORMED;
use crate::added::setters::{Argument, Call, HSE, SETTERS};
use crate::cases::boundary_records::beside;
use crate::cases::random::Random;
use crate::cases::records;
use crate::compare::run::Run;
use crate::compare::tally::Tally;
use crate::library::{self, UNTOUCHED};
use crate::model::configuration::{Numbers, DEFAULTS};
use crate::model::limits::OSCILLATOR;
use crate::sizes::CONFIG;

pub struct Setters<'a> {
    run: &'a mut Run,
    tally: Tally,
    /// Calls that the Rust cannot be given: the argument does not fit its parameter.
    unfit: u64,
    /// Calls with an unknown setter or code.
    unknown: u64,
    /// Calls on a malformed record.
    malformed: u64,
}

/// Compares every boundary call, then random ones; answers how many there were.
pub fn run(run: &mut Run) -> u64 {
    let tally = Tally::default();
    let mut setters = Setters { run, tally, unfit: 0, unknown: 0, malformed: 0 };
    for call in boundary_calls() {
        setters.call(&record::write(&DEFAULTS), call);
        setters.call(&record::write(&records::FULL), call);
    }
    setters.random_calls();
    setters.print();
    setters.tally.total
}

impl Setters<'_> {
    /// One call on the configuration of a record; answers the configuration after it.
    fn call(&mut self, record: &[u8], call: Call) -> Option<Numbers> {
        let expected = self.expected(record, call);
        let ours = library::set(record, call.setter, call.a, call.b);
        self.tally.count(ours.0);
        self.run.differences.compare(ours, expected, || {
            let name = SETTERS.get(call.setter as usize).map_or("unknown", |setter| setter.0);
            format!("{name} {call:?} on the record {record:02x?}")
        });
        (expected.0 != MALFORMED).then_some(expected.1)
    }

    /// A refused call hands back the configuration that it came with; 14 writes nothing.
    fn expected(&mut self, record: &[u8], call: Call) -> (u32, Numbers) {
        let Ok(before) = record::read(record) else {
            self.malformed += 1;
            return (MALFORMED, [UNTOUCHED; CONFIG]);
        };
        self.unknown += u64::from(!call.is_known());
        self.unfit += u64::from(call.is_known() && !call.fits());
        match answers::set(&self.run.assertions, &before, call) {
            Ok(after) => (0, after),
            Err(MALFORMED) => (MALFORMED, [UNTOUCHED; CONFIG]),
            Err(number) => (number, before),
        }
    }

    /// Chains of calls, most from the Rust's defaults, some from a configuration that no
    /// setters build; now and then a call on a damaged record instead.
    fn random_calls(&mut self) {
        let mut now = DEFAULTS;
        for _ in 0..self.run.count {
            let random = &mut self.run.random;
            if random.once_in(24) {
                let from_defaults = random.below(3) > 0;
                now = match from_defaults {
                    true => DEFAULTS,
                    false => records::random_configuration(random),
                };
            }
            let call = random_call(random);
            if random.once_in(16) {
                let record = records::damaged(random);
                self.call(&record, call);
            } else {
                now = self.call(&record::write(&now), call).unwrap_or(now);
            }
        }
    }

    fn print(&self) {
        let Setters { unfit, unknown, malformed, .. } = self;
        say!(
            "setters: {} calls, of them {unfit} with a value that the Rust's parameter \
             can't hold (6), {unknown} with an unknown setter or code (14), {malformed} on a \
             malformed record (14)",
            self.tally.total
        );
        self.tally.print("setters");
    }
}

fn random_call(random: &mut Random) -> Call {
    if random.once_in(40) {
        let setter = random.around(SETTERS.len() as u32, 300);
        return Call { setter, a: random.any(), b: random.any() };
    }
    let setter = random.below(SETTERS.len() as u32);
    let mode = if random.once_in(32) { random.any() } else { random.below(2) };
    let a = match SETTERS[setter as usize].1 {
        Argument::Nothing => random.any(),
        // The limits of an oscillator, which lie within those of a bypass.
        Argument::Frequency(_) if setter == HSE && mode == 0 => {
            random.around(OSCILLATOR.0, OSCILLATOR.1)
        }
        Argument::Frequency((low, high)) | Argument::Factor((low, high), _) => {
            random.around(low, high)
        }
        Argument::Code { values } if random.once_in(16) => random.around(values, 300),
        Argument::Code { values } => random.below(values),
    };
    let b = if setter == HSE { mode } else { random.any() };
    Call { setter, a, b }
}

/// Each setter with each value at or beside a limit, and the first unknown setters.
fn boundary_calls() -> Vec<Call> {
    let mut calls = Vec::new();
    for setter in 0..SETTERS.len() as u32 + 3 {
        for a in boundary_values(setter) {
            for b in [0, 1, 2, 255, 256, u32::MAX] {
                calls.push(Call { setter, a, b });
            }
        }
    }
    calls.extend([255, 256, 65_536, u32::MAX].map(|setter| Call { setter, a: 0, b: 0 }));
    calls
}

fn boundary_values(setter: u32) -> Vec<u32> {
    let mut values = vec![0, 1, 255, 256, 257, 65_535, 65_536, 65_537, u32::MAX];
    match SETTERS.get(setter as usize).map(|setter| setter.1) {
        None | Some(Argument::Nothing) => {}
        Some(Argument::Frequency(limits)) => {
            values.extend(beside(limits, u32::MAX));
            if setter == HSE {
                values.extend(beside(OSCILLATOR, u32::MAX));
            }
        }
        Some(Argument::Factor((low, high), largest)) => {
            values.extend(0..=high + 2);
            // What would be within the limits if only the low bits were looked at.
            values.extend([low, high].map(|limit| largest + 1 + limit));
        }
        Some(Argument::Code { values: codes }) => values.extend(0..=codes + 1),
    }
    values
}
