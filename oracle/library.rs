//! The C functions of the static library, declared once, behind safe functions
//! that also notice an answer written where none belongs.

use crate::added::starts::Started;
use crate::model::clocks::Clocks;
use crate::model::configuration::Numbers;
use crate::model::walk::Window;
use crate::sizes::{CLOCKS, CONFIG, LINE, SEARCH};

/// What an answer's numbers hold before a call, to see which are written.
pub const UNTOUCHED: u32 = 0xA5A5_5A5A;

pub const UNTOUCHED_HERTZ: u64 = 0xA5A5_5A5A_A5A5_5A5A;

pub const UNTOUCHED_BYTE: u8 = 0xA5;

/// Bytes on either side of the buffer that a line is written to: nobody lent them.
pub const GUARD: usize = 64;

/// The refusal, the configuration as planned, its clocks, and the passes.
pub type Planned = (u32, Numbers, Clocks, u32);

/// The length of a line, and the buffer that it stands in between its guards.
pub type Lined = (u32, [u8; GUARD + LINE + GUARD]);

mod c {
    use crate::added::starts::Started;

    extern "C" {
        pub fn woolturret_search(
            input: u32,
            p: bool,
            pmin: u32,
            pmax: u32,
            q: bool,
            qmin: u32,
            qmax: u32,
            out: *mut u32,
        ) -> u32;
        pub fn woolturret_output(input: u32, m: u32, n: u32, d: u32, out: *mut u64) -> u32;
        pub fn woolturret_check(record: *const u8, length: usize) -> u32;
        pub fn woolturret_set(
            record: *const u8,
            length: usize,
            setter: u32,
            a: u32,
            b: u32,
            out: *mut u32,
        ) -> u32;
        pub fn woolturret_configure(
            record: *const u8,
            length: usize,
            config: *mut u32,
            passes: *mut u32,
        ) -> u32;
        pub fn woolturret_derive(record: *const u8, length: usize, clocks: *mut u32) -> u32;
        pub fn woolturret_plan(
            record: *const u8,
            length: usize,
            config: *mut u32,
            clocks: *mut u32,
            passes: *mut u32,
        ) -> u32;
        pub fn woolturret_line(record: *const u8, length: usize, out: *mut u8) -> u32;
        pub fn woolturret_start(
            record: *const u8,
            length: usize,
            file: *mut u32,
            places: usize,
            answers: *const u8,
            answered: usize,
            limit: u32,
            cut: u8,
            clocks: *mut u32,
        ) -> Started;
    }
}

/// The refusal, and passes, M, N, P, Q.
#[inline]
pub fn search(input: u32, p: Window, q: Window) -> (u32, [u32; SEARCH]) {
    // An absent window's ends are passed over; these would change the answer if not.
    let (pmin, pmax) = p.unwrap_or((0, u32::MAX));
    let (qmin, qmax) = q.unwrap_or((0, u32::MAX));
    let mut out = [UNTOUCHED; SEARCH];
    // SAFETY: `out` is as long as the function writes.
    let answer = unsafe {
        c::woolturret_search(
            input,
            p.is_some(),
            pmin,
            pmax,
            q.is_some(),
            qmin,
            qmax,
            out.as_mut_ptr(),
        )
    };
    (answer, out)
}

/// The refusal, and the output in hertz.
pub fn output(input: u32, m: u32, n: u32, d: u32) -> (u32, u64) {
    let mut out = UNTOUCHED_HERTZ;
    // SAFETY: `out` is the one number that the function writes.
    let answer = unsafe { c::woolturret_output(input, m, n, d, &mut out) };
    (answer, out)
}

pub fn check(record: &[u8]) -> u32 {
    // SAFETY: pointer and length are those of one slice, which is only read.
    unsafe { c::woolturret_check(record.as_ptr(), record.len()) }
}

/// The refusal, and the configuration handed back.
pub fn set(record: &[u8], setter: u32, a: u32, b: u32) -> (u32, Numbers) {
    let mut out = [UNTOUCHED; CONFIG];
    // SAFETY: pointer and length are those of one slice, which is only read, and
    // `out` is as long as the function writes.
    let answer =
        unsafe { c::woolturret_set(record.as_ptr(), record.len(), setter, a, b, out.as_mut_ptr()) };
    (answer, out)
}

/// The refusal, the configuration as planned, and the passes.
pub fn configure(record: &[u8]) -> (u32, Numbers, u32) {
    let (mut config, mut passes) = ([UNTOUCHED; CONFIG], UNTOUCHED);
    // SAFETY: pointer and length are those of one slice, which is only read, and
    // `config` and `passes` are as long as the function writes.
    let answer = unsafe {
        let length = record.len();
        c::woolturret_configure(record.as_ptr(), length, config.as_mut_ptr(), &mut passes)
    };
    (answer, config, passes)
}

/// The refusal, and the clocks of the settings as they stand.
pub fn derive(record: &[u8]) -> (u32, Clocks) {
    let mut clocks = [UNTOUCHED; CLOCKS];
    // SAFETY: pointer and length are those of one slice, which is only read, and
    // `clocks` is as long as the function writes.
    let answer =
        unsafe { c::woolturret_derive(record.as_ptr(), record.len(), clocks.as_mut_ptr()) };
    (answer, clocks)
}

pub fn plan(record: &[u8]) -> Planned {
    let (mut config, mut clocks) = ([UNTOUCHED; CONFIG], [UNTOUCHED; CLOCKS]);
    let mut passes = UNTOUCHED;
    // SAFETY: pointer and length are those of one slice, which is only read, and
    // `config`, `clocks` and `passes` are as long as the function writes.
    let answer = unsafe {
        c::woolturret_plan(
            record.as_ptr(),
            record.len(),
            config.as_mut_ptr(),
            clocks.as_mut_ptr(),
            &mut passes,
        )
    };
    (answer, config, clocks, passes)
}

pub fn line(record: &[u8]) -> Lined {
    let mut out = [UNTOUCHED_BYTE; GUARD + LINE + GUARD];
    let lent = &mut out[GUARD..GUARD + LINE];
    // SAFETY: pointer and length are those of one slice, which is only read, and
    // `lent` is as long as the function writes.
    let answer = unsafe { c::woolturret_line(record.as_ptr(), record.len(), lent.as_mut_ptr()) };
    (answer, out)
}

/// What the start came to, the file as it left it, and the clocks.
pub fn start(
    record: &[u8],
    first: &[u32],
    answers: &[u8],
    limit: u32,
    cut: u8,
) -> (Started, Vec<u32>, Clocks) {
    let (mut file, mut clocks) = (first.to_vec(), [UNTOUCHED; CLOCKS]);
    // SAFETY: each pointer and length are those of one slice, of which `file` alone is written,
    // and `clocks` is as long as the function writes.
    let started = unsafe {
        c::woolturret_start(
            record.as_ptr(),
            record.len(),
            file.as_mut_ptr(),
            file.len(),
            answers.as_ptr(),
            answers.len(),
            limit,
            cut,
            clocks.as_mut_ptr(),
        )
    };
    (started, file, clocks)
}
