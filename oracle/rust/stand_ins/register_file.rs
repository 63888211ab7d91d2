//! The modelled registers: the numbers of document 01's section "Start-up",
//! and a log of the stores and waits made through the register blocks.

use std::cell::RefCell;

use crate::sizes::RUST_PLACES;

pub type File = [u32; RUST_PLACES];

/// The places of the file, in document 01's order and groups.
#[derive(Clone, Copy, Debug, PartialEq, Eq)]
pub enum Place {
    HSION, HSEBYP, HSEON, PLLON, PLLSAION, PLLI2SON,
    SW, MCO1, MCO1PRE, MCO2, MCO2PRE, PPRE1, PPRE2, HPRE,
    PLLM, PLLN, PLLP, PLLQ, PLLSRC,
    PWREN,
    VOS, ODEN, ODSWEN,
    LSEBYP, LSEON,
    LSION,
    PLLSAIN, PLLSAIP, PLLSAIQ,
    CK48MSEL,
    PLLI2SN, PLLI2SR, PLLI2SQ,
    LATENCY, OTHER,
}

#[derive(Clone, Debug, PartialEq, Eq)]
pub enum Event {
    /// One `modify` or `write`: the places it named, in its order, and their new values.
    Store(Vec<(Place, u32)>),
    /// One look at a ready flag, by document 01's number of the wait.
    Wait(u32),
}

struct State {
    file: File,
    log: Vec<Event>,
}

thread_local! {
    static STATE: RefCell<State> = const {
        RefCell::new(State { file: [0; RUST_PLACES], log: Vec::new() })
    };
}

/// Puts a file in place and empties the log.
pub fn load(file: File) {
    STATE.with_borrow_mut(|state| *state = State { file, log: Vec::new() });
}

/// The file as it stands, and what happened since it was loaded.
pub fn look() -> (File, Vec<Event>) {
    STATE.with_borrow(|state| (state.file, state.log.clone()))
}

pub(super) fn store(changes: Vec<(Place, u32)>) {
    STATE.with_borrow_mut(|state| {
        for &(place, value) in &changes {
            state.file[place as usize] = value;
        }
        state.log.push(Event::Store(changes));
    });
}

pub(super) fn wait(number: u32) {
    STATE.with_borrow_mut(|state| state.log.push(Event::Wait(number)));
}

pub(super) fn value(place: Place) -> u32 {
    STATE.with_borrow(|state| state.file[place as usize])
}
