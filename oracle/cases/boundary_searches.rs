//! The searches that every run compares: at each edge of a rule of document 01's
//! section "Search".

use crate::cases::searches::{Case, CRYSTALS};
use crate::model::walk::{vco, Window, P_DIVIDERS, Q_DIVIDERS};
use crate::model::ways::USB;

/// Where floor(input/M) crosses 1,000,000 or 2,000,000 for some M up to both ends of the
/// range, and inputs beyond it; from 126,000,063 on no M up to 63 fits.
fn boundary_inputs() -> Vec<u32> {
    let edges = (1..=50).flat_map(|m| [m * 1_000_000, m * 2_000_001]);
    let beside = edges.flat_map(|edge| edge - 1..=edge + 1);
    let mut inputs: Vec<u32> = beside.filter(|&input| input <= 50_000_001).collect();
    inputs.extend(CRYSTALS);
    inputs.extend(CRYSTALS.map(|input| input + 15));
    inputs.extend([0, 1, 63_000_000, 126_000_062, 126_000_063, u32::MAX - 1, u32::MAX]);
    inputs.sort_unstable();
    inputs.dedup();
    inputs
}

/// Windows for either output that hold nothing, everything, or just an edge.
const WINDOWS: [Window; 9] = [
    None,
    Some((0, 0)),
    Some((0, u32::MAX)),
    Some((u32::MAX, u32::MAX)),
    Some((0, 3_333_333)),
    Some((48_000_001, 47_999_999)),
    Some(USB),
    Some((216_000_000, 216_000_000)),
    Some((216_000_001, u32::MAX)),
];

/// Windows for P: requests, and the ends of what VCO and dividers can give.
const P_WINDOWS: [Window; 10] = [
    Some((12_499_999, 12_500_001)),
    Some((24_999_999, 25_000_001)),
    Some((47_999_999, 48_000_001)),
    Some((167_999_999, 168_000_001)),
    Some((199_999_999, 200_000_001)),
    Some((215_999_999, 216_000_001)),
    Some((0, 6_250_000)),
    Some((0, 6_249_999)),
    Some((54_000_000, 54_000_000)),
    Some((108_000_000, 108_000_000)),
];

/// Windows for Q, likewise.
const Q_WINDOWS: [Window; 4] = [
    Some((48_000_000, 48_000_000)),
    Some((28_800_000, 28_800_000)),
    Some((0, 3_333_332)),
    Some((144_000_001, 216_000_000)),
];

/// VCOs at the ends of what is allowed and beside them, a VCO being a multiple of 16.
const EDGES: [u64; 6] = [49_999_984, 50_000_000, 50_000_016, 431_999_984, 432_000_000, 432_000_016];

/// Every boundary input with every pair of windows, and windows at exact outputs of the
/// VCOs of some pairs.
pub fn all() -> Vec<Case> {
    let mut cases = Vec::new();
    for input in boundary_inputs() {
        for p in WINDOWS.into_iter().chain(P_WINDOWS) {
            for q in WINDOWS.into_iter().chain(Q_WINDOWS) {
                cases.push(Case { input, p, q });
            }
        }
    }
    for input in CRYSTALS {
        for m in [input.div_ceil(2_000_000).max(2), input / 1_000_000] {
            for n in [50, 51, 199, 215, 216, 217, 431, 432] {
                exact_outputs(&mut cases, input, vco(input, m, n));
            }
        }
    }
    for edge in EDGES {
        for input in (2..=50).filter_map(|m| input_for(edge, m)) {
            exact_outputs(&mut cases, input, edge);
        }
    }
    cases
}

/// An input for which this M fits and some N gives just this VCO.
fn input_for(wanted: u64, m: u32) -> Option<u32> {
    (50..=432).rev().find_map(|n| {
        let input = 16 * (wanted / 16 * u64::from(m)).div_ceil(u64::from(n)) as u32;
        let fits = (1_000_000..=2_000_000).contains(&(input / m)) && input <= 50_000_000;
        (fits && vco(input, m, n) == wanted).then_some(input)
    })
}

/// Windows of one hertz at each output of a VCO and one beside it.
fn exact_outputs(cases: &mut Vec<Case>, input: u32, vco: u64) {
    for off in [-1, 0, 1] {
        let point = |d: u32| {
            let at = (vco as u32 / d).saturating_add_signed(off);
            Some((at, at))
        };
        cases.extend(P_DIVIDERS.map(|d| Case { input, p: point(d), q: None }));
        cases.extend(Q_DIVIDERS.map(|d| Case { input, p: None, q: point(d) }));
    }
}
