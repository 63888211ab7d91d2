//! Document 01's sections "Fixed point" and "Search" word for word: the plain walk.

use crate::sizes::SEARCH;

/// The lowest and the highest output that is good, ends included.
pub type Window = Option<(u32, u32)>;

pub const P_DIVIDERS: [u32; 4] = [2, 4, 6, 8];
pub const Q_DIVIDERS: [u32; 14] = [2, 3, 4, 5, 6, 7, 8, 9, 10, 11, 12, 13, 14, 15];

/// r(d) = floor((floor(2^31 / d) + 1) / 2).
fn r(d: u32) -> u64 {
    ((1u64 << 31) / u64::from(d) + 1) / 2
}

/// 16 × V with V = floor(b × N × r(M) / 2^30) and b = floor(f/16).
pub fn vco(f: u32, m: u32, n: u32) -> u64 {
    16 * (u64::from(f / 16) * u64::from(n) * r(m) / (1 << 30))
}

/// 16 × floor(V × r(d) / 2^30).
pub fn output(f: u32, m: u32, n: u32, d: u32) -> u64 {
    16 * (vco(f, m, n) / 16 * r(d) / (1 << 30))
}

/// The largest divider whose output lies in the window.
fn largest(dividers: &[u32], vco: u64, (low, high): (u32, u32)) -> Option<u32> {
    let inside = |d: &&u32| (u64::from(low)..=u64::from(high)).contains(&(vco / u64::from(**d)));
    dividers.iter().rev().find(inside).copied()
}

/// The dividers for both windows, 0 for an absent one; nothing if one has none.
fn dividers(vco: u64, p: Window, q: Window) -> Option<(u32, u32)> {
    let p = p.map_or(Some(0), |window| largest(&P_DIVIDERS, vco, window))?;
    let q = q.map_or(Some(0), |window| largest(&Q_DIVIDERS, vco, window))?;
    Some((p, q))
}

/// The refusal, and passes, M, N, P, Q. For an input within 1 to 50 MHz.
pub fn walk(f: u32, p: Window, q: Window) -> (u32, [u32; SEARCH]) {
    if p.is_none() && q.is_none() {
        return (7, [0; SEARCH]);
    }
    let (mut m, mut n, mut passes) = (2, 432, 0);
    loop {
        passes += 1;
        if m > 63 || f / m < 1_000_000 {
            return (7, [passes, 0, 0, 0, 0]);
        }
        let vco = vco(f, m, n);
        if f / m > 2_000_000 || n < 50 || vco < 50_000_000 {
            (m, n) = (m + 1, 432);
            continue;
        }
        if vco <= 432_000_000 {
            if let Some((p, q)) = dividers(vco, p, q) {
                return (0, [passes, m, n, p, q]);
            }
        }
        n -= 1;
    }
}
