//! What random starts are given besides a record: a file, answers, a limit and a cut.

use crate::added::answers::File;
use crate::added::starts::{stores, Asked, Event};
use crate::cases::random::Random;
use crate::sizes::{MOST_POLLS, PLACES};

/// Zeros, ones, all bits set, small numbers, any, or as an earlier start left it.
pub fn file(random: &mut Random, earlier: &File) -> File {
    match random.below(6) {
        0 => [0; PLACES],
        1 => [1; PLACES],
        2 => [u32::MAX; PLACES],
        3 => [(); PLACES].map(|()| random.below(4)),
        4 => [(); PLACES].map(|()| random.any()),
        _ => *earlier,
    }
}

/// The file, or once in 16 one of another length.
pub fn of_some_length(random: &mut Random, file: &File) -> Vec<u32> {
    let mut places = file.to_vec();
    if random.once_in(16) {
        let any = random.below(200) as usize;
        places.resize(random.one_of(&[0, 1, PLACES - 1, PLACES + 1, 2 * PLACES, any]), 7);
    }
    places
}

/// For a start with these stores and waits.
pub fn asked(random: &mut Random, log: &[Event]) -> Asked {
    let stores = stores(log).len();
    let limit = limit(random);
    let answers = answers(random, limit, (log.len() - stores) as u32);
    let cut = match random.below(4) {
        0 => random.below(stores as u32 + 3),
        1 => random.below(256),
        _ => 255,
    };
    Asked { answers, limit, cut: cut as u8 }
}

/// The largest takes many polls where nothing answers, so it is rare.
fn limit(random: &mut Random) -> u32 {
    match random.below(64) {
        0 => MOST_POLLS,
        1 => random.within(1, MOST_POLLS),
        2..=4 => random.one_of(&[0, MOST_POLLS + 1, u32::MAX]),
        5 => random.any(),
        6..=20 => random.within(4, 40),
        _ => random.within(1, 3),
    }
}

const BYTES: [u8; 6] = [0, 1, 1, 2, 254, 255];

/// Any bytes; or an answer within the limit to each of some waits, with anything after it.
fn answers(random: &mut Random, limit: u32, waits: u32) -> Vec<u8> {
    let mut answers = Vec::new();
    if random.below(4) > 0 {
        for _ in 0..random.below(waits + 2) {
            let idle = random.below(limit.clamp(1, 5));
            answers.extend((0..idle).map(|_| not_ready(random)));
            answers.push(1);
        }
    }
    let length = random.one_of(&[0, 0, 3, 40]);
    for _ in 0..random.below(length + 1) {
        let any = random.any() as u8;
        answers.push(if random.once_in(4) { any } else { random.one_of(&BYTES) });
    }
    answers
}

fn not_ready(random: &mut Random) -> u8 {
    match random.one_of(&BYTES) {
        1 => random.within(2, 255) as u8,
        byte => byte,
    }
}
