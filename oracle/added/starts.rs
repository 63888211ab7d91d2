//! A start as far as the Rust has nothing of it: limited polls, the cut and 12 to 14, over the list
//! of stores and waits that the Rust's own `freeze` made.

use hal::pac::register_file;
pub use hal::pac::register_file::{Event, Place};

use crate::added::answers::{File, Frozen};
use crate::added::refusals::MALFORMED;
use crate::model::clocks::Clocks;
use crate::sizes::{MOST_POLLS, WAITS};

/// What a start came to, as the library hands it back.
#[repr(C)]
#[derive(Clone, Copy, Debug, Default, PartialEq, Eq)]
pub struct Started {
    pub refusal: u32,
    pub cut: u32,
    pub wait: u32,
    pub polls: u32,
}

/// What a start takes besides a record and a file.
pub struct Asked {
    pub answers: Vec<u8>,
    pub limit: u32,
    pub cut: u8,
}

impl Asked {
    /// Every wait answered at once.
    pub fn answered(cut: u8) -> Self {
        Asked { answers: vec![1; WAITS], limit: 1, cut }
    }

    /// Each of the most waits answered at its last poll, the last wait also one poll too late; more
    /// answers follow.
    pub fn at_the_last_poll(limit: u32, late: bool) -> Self {
        let idle = vec![0; limit as usize - 1];
        let mut answers = [idle, vec![1]].concat().repeat(WAITS);
        if late {
            answers.insert((WAITS - 1) * limit as usize, 0);
        }
        answers.extend([1; 20]);
        Asked { answers, limit, cut: u8::MAX }
    }

    /// A row of answers can be long: its first are told, and its length.
    pub fn told(&self) -> String {
        let Asked { answers, limit, cut } = self;
        let first = &answers[..answers.len().min(80)];
        format!("limit {limit}, cut {cut}, {} answers {first:?}", answers.len())
    }

    /// How many polls a wait makes if so many were made before; nothing if it isn't answered.
    fn polls_of_a_wait(&self, before: u32) -> Option<u32> {
        let row = self.answers.get(before as usize..).unwrap_or(&[]);
        let ready = row.iter().take(self.limit as usize).position(|&byte| byte == 1);
        ready.map(|place| place as u32 + 1)
    }
}

/// What a start with a limit that is allowed comes to, and the file that it leaves.
pub fn start(log: &[Event], first: &File, asked: &Asked) -> (Started, File) {
    let (mut started, mut file, mut stores) = (Started::default(), *first, 0);
    for event in log {
        if stores == asked.cut {
            started.cut = 1;
            break;
        }
        match event {
            Event::Store(changes) => {
                changes.iter().for_each(|&(place, value)| file[place as usize] = value);
                stores += 1;
            }
            Event::Wait(number) => match asked.polls_of_a_wait(started.polls) {
                Some(polls) => started.polls += polls,
                None => {
                    started.polls += asked.limit;
                    (started.refusal, started.wait) = (12, *number);
                    break;
                }
            },
        }
    }
    (started, file)
}

/// The first place that each store names.
pub fn stores(log: &[Event]) -> Vec<Place> {
    let place = |event: &Event| match event {
        Event::Store(changes) => changes.first().map(|change| change.0),
        Event::Wait(_) => None,
    };
    log.iter().filter_map(place).collect()
}

/// The stores that the Rust has made since a file was loaded, also where it then refused.
pub fn stored() -> usize {
    stores(&register_file::look().1).len()
}

/// What a start comes to, the file that it leaves, and its clocks: 13 and 14 before what the Rust
/// refuses; refused with any number but 12, nothing is written.
pub fn started(
    rust: &Result<Frozen, u32>,
    first: &[u32],
    asked: &Asked,
) -> (Started, Vec<u32>, Option<Clocks>) {
    let refused = |refusal| (Started { refusal, ..Started::default() }, first.to_vec(), None);
    match (rust, first.try_into()) {
        _ if !(1..=MOST_POLLS).contains(&asked.limit) => refused(13),
        (_, Err(_)) => refused(MALFORMED),
        (Err(number), _) => refused(*number),
        (Ok(frozen), Ok(file)) => {
            let (started, file) = start(&frozen.log, file, asked);
            (started, file.to_vec(), (started.refusal == 0).then_some(frozen.plan.1))
        }
    }
}
