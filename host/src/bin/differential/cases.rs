//! Counts which cases the events of a watch met: the rules of both ends and of the frames sent, the
//! edges of each timer, clocks and numbers, and what a watch damaged in one field was refused by.

use crate::inputs::{CLOCK_MAX, PROVISIONS, TIMERS, WATCH_FIELDS};
use crate::table::{crossed, Table};
use pelgrant_host::document::Refusal;
use pelgrant_host::flat;
use pelgrant_host::watch::{Cause, Event, Terminating, Told, Watch};

const PROVISION_NAMES: [&str; 5] = ["none", "refresh only", "2 states", "4 states", "16 states"];
const NUMBERS: [&str; 7] =
    ["clock as before", "clock 2^62", "18, back", "18, past 2^62", "12, kept bits", "12, bits read", "12, N/A"];
/// What a watch damaged in one field can be answered.
const DAMAGE_NUMBERS: [u8; 5] = [0, 12, 14, 18, 21];

pub struct Cases {
    terminating: Table,
    originating: Table,
    sent: Table,
    edges: Table,
    numbers: Table,
    damage: Table,
}

impl Cases {
    pub fn new() -> Cases {
        let readings =
            ["no reading", "alarm, same", "alarm, other", "same bits", "unused alone", "bits in use"].as_slice();
        let timers = TIMERS.iter().map(|(refresh, keepalive)| format!("REF {refresh}, KA {keepalive}")).collect();
        let damage_numbers = DAMAGE_NUMBERS.iter().map(|number| number.to_string()).collect();
        Cases {
            terminating: Table::new(
                crossed(&[&["NORM", "L_ALARM", "R_ALARM", "none"], &["in time", "run out"]]),
                crossed(&[&["passing", "reading", "N/A 0", "N/A 1"]]),
                |_, _| true,
            ),
            originating: Table::new(
                crossed(&[&PROVISION_NAMES, &["NORM", "ALARM"], &["not due", "due"]]),
                crossed(&[readings]),
                |row, column| match (PROVISIONS[row / 4], readings[column]) {
                    (states, "bits in use") => states > 1,
                    (states, "unused alone") => states < 16,
                    _ => true,
                },
            ),
            sent: Table::new(
                crossed(&[&["transition", "refresh"], &["NORM", "ALARM"]]),
                crossed(&[&["NORM", "L_ALARM", "R_ALARM"]]),
                // In ALARM there are no transitions.
                |row, _| row != 1,
            ),
            edges: Table::new(timers, crossed(&[&["KA", "REF"], &["1 before", "at", "1 after"]]), |_, _| true),
            numbers: Table::new(crossed(&[&NUMBERS]), crossed(&[&PROVISION_NAMES]), |_, _| true),
            damage: Table::new(crossed(&[&WATCH_FIELDS]), damage_numbers, |field, column| {
                let possible: &[u8] = match WATCH_FIELDS[field] {
                    "states" | "keepalive" => &[0, 14, 21],
                    // No TSIG_KA is offered with two of TSIG_REF.
                    "refresh" => &[14, 21],
                    "bits" => &[0, 12, 14],
                    "last clock" => &[0, 14, 18],
                    _ => &[0, 14],
                };
                possible.contains(&DAMAGE_NUMBERS[column])
            }),
        }
    }

    /// Counts an event that the flat form has nothing against.
    pub fn met(&mut self, watch: &[u64], clock: u64, event: u8, bits: u8, flag: u8) {
        let (Ok(before), Ok(event)) = (flat::watch_of(watch), flat::event_of(event, bits, flag)) else { return };
        let Some(provision) = PROVISIONS.iter().position(|states| *states == before.states) else { return };
        let mut after = before;
        match after.tell(clock, event) {
            Ok(told) => {
                self.by_rule(provision, before, clock, event, told, after);
                self.by_edge(before, clock, event, told);
                self.number("clock as before", provision, clock == before.last_clock);
                self.number("clock 2^62", provision, clock == CLOCK_MAX);
            }
            Err(Refusal::Clock) => {
                self.number("18, back", provision, clock < before.last_clock);
                self.number("18, past 2^62", provision, clock > CLOCK_MAX);
            }
            Err(Refusal::FourBits) => {
                self.number("12, kept bits", provision, before.bits > 15);
                self.number("12, bits read", provision, matches!(event, Event::Reading { bits: 16.., .. }));
                self.number("12, N/A", provision, matches!(event, Event::Taken { na: 2.. }));
            }
            Err(_) => {}
        }
    }

    fn number(&mut self, name: &str, provision: usize, met: bool) {
        if met {
            let row = NUMBERS.iter().position(|known| *known == name);
            self.numbers.count(row.unwrap(), provision);
        }
    }

    fn by_rule(&mut self, provision: usize, before: Watch, clock: u64, event: Event, told: Told, after: Watch) {
        let run_out = clock >= before.last_taken + u64::from(before.keepalive);
        let due = clock >= before.last_sent + u64::from(before.refresh);
        let state = if before.states == 0 { 3 } else { before.terminating as usize };
        let brought = match event {
            Event::Passing => 0,
            Event::Reading { .. } => 1,
            Event::Taken { na } => 2 + usize::from(na),
        };
        self.terminating.count(2 * state + usize::from(run_out), brought);

        let read = match event {
            Event::Reading { bits, facility_alarm: true } => 1 + usize::from(bits != before.bits),
            Event::Reading { bits, .. } if bits == before.bits => 3,
            Event::Reading { bits, .. } => 4 + usize::from((bits ^ before.bits) & before.bits_in_use() != 0),
            _ => 0,
        };
        self.originating.count(4 * provision + 2 * before.originating as usize + usize::from(due), read);

        if let Some(sending) = told.sending {
            let refresh = usize::from(sending.cause == Cause::Refresh);
            self.sent.count(2 * refresh + after.originating as usize, after.terminating as usize);
        }
    }

    /// Counts the events at an edge and one ms beside it, where the answer or the state shows which.
    fn by_edge(&mut self, before: Watch, clock: u64, event: Event, told: Told) {
        let Watch { states, refresh, keepalive, .. } = before;
        let Some(timers) = TIMERS.iter().position(|pair| *pair == (refresh, keepalive)) else { return };
        if states == 0 {
            return;
        }
        let beside = |since: u64, time: u32| (clock + 1).checked_sub(since + u64::from(time)).filter(|past| *past < 3);
        let shows_keepalive = before.terminating == Terminating::Norm && !matches!(event, Event::Taken { .. });
        if let Some(past) = beside(before.last_taken, keepalive).filter(|_| shows_keepalive) {
            self.edges.count(timers, past as usize);
        }
        let transition = told.sending.is_some_and(|sending| sending.cause == Cause::Transition);
        if let Some(past) = beside(before.last_sent, refresh).filter(|_| !transition) {
            self.edges.count(timers, 3 + past as usize);
        }
    }

    /// Counts what a watch damaged in this field alone was answered.
    pub fn damaged(&mut self, field: usize, number: u8) {
        let column = DAMAGE_NUMBERS.iter().position(|known| *known == number);
        self.damage.count(field, column.expect("a number that a damaged watch can be answered"));
    }

    pub fn tables(&self) -> [(&'static str, &Table); 6] {
        [
            ("The terminating end, by its state, TSIG_KA and the event", &self.terminating),
            ("The originating end, by provision, its state, TSIG_REF and the event", &self.originating),
            ("Frames sent, by the states of the originating and the terminating end", &self.sent),
            ("Events at the edges of the timers, and one ms beside them", &self.edges),
            ("Clocks and numbers by provision", &self.numbers),
            ("Watches damaged in one field, by the number answered", &self.damage),
        ]
    }
}
