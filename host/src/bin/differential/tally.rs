//! Counts which call reached which refusal, and knows which pairs must be reached.

use crate::inputs::{FLAT_13, FLAT_14, FLAT_16, FLAT_21, OUTCOMES};
use crate::table::Table;

#[derive(Clone, Copy, Debug, PartialEq, Eq)]
pub enum Call {
    Send,
    SignalWrite,
    Forward,
    ForwardTray,
    Read,
    Fresh,
    Arrive,
    ArriveValue,
    SignalRead,
    Fill,
    NoiseLevel,
    Link,
    Taken,
    WatchStart,
    WatchTell,
    LineAdd,
    LineNext,
    QueueFresh,
    QueueEnter,
    QueueTake,
    QueueFreed,
}

pub const CALLS: usize = 21;

impl Call {
    pub const ALL: [Call; CALLS] = [
        Call::Send,
        Call::SignalWrite,
        Call::Forward,
        Call::ForwardTray,
        Call::Read,
        Call::Fresh,
        Call::Arrive,
        Call::ArriveValue,
        Call::SignalRead,
        Call::Fill,
        Call::NoiseLevel,
        Call::Link,
        Call::Taken,
        Call::WatchStart,
        Call::WatchTell,
        Call::LineAdd,
        Call::LineNext,
        Call::QueueFresh,
        Call::QueueEnter,
        Call::QueueTake,
        Call::QueueFreed,
    ];

    pub fn name(self) -> &'static str {
        match self {
            Call::Send => "send",
            Call::SignalWrite => "signal_write",
            Call::Forward => "forward",
            Call::ForwardTray => "forward_tray",
            Call::Read => "read",
            Call::Fresh => "fresh",
            Call::Arrive => "arrive",
            Call::ArriveValue => "arrive_value",
            Call::SignalRead => "signal_read",
            Call::Fill => "fill",
            Call::NoiseLevel => "noise_level",
            Call::Link => "link",
            Call::Taken => "taken",
            Call::WatchStart => "watch_start",
            Call::WatchTell => "watch_tell",
            Call::LineAdd => "line_add",
            Call::LineNext => "line_next",
            Call::QueueFresh => "queue_fresh",
            Call::QueueEnter => "queue_enter",
            Call::QueueTake => "queue_take",
            Call::QueueFreed => "queue_freed",
        }
    }

    /// Every refusal that the call can give, in its order: the flat form's, then its own.
    pub fn order(self) -> &'static [usize] {
        match self {
            Call::Send => &[FLAT_16, FLAT_13, 14, 13, 6, 12, 11, 10, 15, 16],
            Call::SignalWrite => &[FLAT_16, 12, 15, 16],
            Call::Forward => &[FLAT_16, 10, 15, 1, 2, 3, 24, 4, 5, 6, 7, 8, 9, 16],
            // Its frames' numbers stand in the list, and are counted there.
            Call::ForwardTray => &[FLAT_16, 27],
            Call::Read => &[FLAT_16, 1, 2, 3, 24, 4, 5, 19, 6, 7, 8, 9],
            Call::Fresh => &[FLAT_14],
            Call::Arrive | Call::ArriveValue => &[FLAT_16, FLAT_14, 14, 18, 1, 2, 3, 24, 4, 5, 19, 6, 7, 8, 9, 17, 20],
            Call::SignalRead => &[FLAT_16, 14, 1, 2, 3, 24, 4, 5, 19, 7, 8, 9, 17],
            Call::Fill => &[FLAT_16],
            Call::NoiseLevel => &[FLAT_16, 12],
            Call::Link => &[FLAT_16, 1, 2, 3, 24, 4, 5],
            Call::Taken => &[FLAT_16, 1, 2, 3, 24, 4, 5, 6, 7, 8, 9],
            Call::WatchStart => &[FLAT_14, 21, 18],
            Call::WatchTell => &[FLAT_16, FLAT_21, FLAT_14, 21, 14, 18, 12],
            Call::LineAdd => &[FLAT_16, 14, 1, 16],
            Call::LineNext => &[FLAT_16, 14, 22, 23, 1, 16],
            Call::QueueFresh => &[FLAT_14],
            Call::QueueEnter => &[FLAT_14, 14, 1, 2, 3, 24, 4, 5, 6, 7, 8, 9, 25],
            Call::QueueTake => &[FLAT_16, FLAT_14, 14, 26, 10, 15, 1, 2, 3, 24, 4, 5, 6, 7, 8, 9, 16],
            Call::QueueFreed => &[FLAT_16, FLAT_14, 14, 10],
        }
    }

    fn allows(self, outcome: usize) -> bool {
        outcome == 0 || self.order().contains(&outcome)
    }
}

pub fn label(outcome: usize) -> String {
    match outcome {
        0 => "done".into(),
        FLAT_13 => "flat 13".into(),
        FLAT_14 => "flat 14".into(),
        FLAT_16 => "flat 16".into(),
        FLAT_21 => "flat 21".into(),
        number => number.to_string(),
    }
}

pub struct Tally {
    pub table: Table,
}

impl Tally {
    pub fn new() -> Tally {
        let names = Call::ALL.iter().map(|call| call.name().into()).collect();
        let outcomes = (0..OUTCOMES).map(label).collect();
        Tally { table: Table::new(outcomes, names, |outcome, call| Call::ALL[call].allows(outcome)) }
    }

    /// Counts a refusal of the flat form apart, where the input was made to be refused by it.
    pub fn count(&mut self, call: Call, flat: Option<usize>, number: u8) {
        let outcome = match (flat, number) {
            (Some(FLAT_13), 13) | (Some(FLAT_14), 14) | (Some(FLAT_16), 16) | (Some(FLAT_21), 21) | (None, _) => {
                flat.unwrap_or(number.into())
            }
            (Some(expected), _) => panic!("{}: {} was to be reached, not {number}", call.name(), label(expected)),
        };
        self.table.count(outcome, call as usize);
    }

    pub fn total(&self) -> u64 {
        (0..CALLS).map(|call| self.table.of_column(call)).sum()
    }
}
