//! The host's side of the card: document 01, its check once more by division, the signalling watch, the line of bits,
//! the waiting room and the tray in plain Rust, and the proved library beside them under one trait, so that the same
//! program can call, compare and time both.

pub mod division;
pub mod document;
pub mod flat;
pub mod line;
pub mod queue;
pub mod random;
pub mod ring;
pub mod sseq;
pub mod tray;
pub mod watch;

// What is printed for apprentices, written once more from the documents.
#[cfg(test)]
mod page;
#[cfg(test)]
mod wrong;

#[cfg(feature = "card")]
pub mod abi;
#[cfg(feature = "card")]
pub mod foreign;
#[cfg(feature = "card")]
pub mod yardstick;

/// The calls of `pelgrant.h`, which says what each of them does. Every call answers a refusal
/// number, 0 when done.
#[allow(clippy::too_many_arguments)]
pub trait Calls {
    fn send(
        &self, sseq: &mut u8, step: u8, coding: u8, noise: u8, samples: &[u8], level: u8, from: u32, to: u32,
        address: u16, out: &mut [u8], answer: &mut [u64],
    ) -> u8;
    fn signal_write(
        &self, bits: u8, na: u8, from: u32, to: u32, address: u16, out: &mut [u8], answer: &mut [u64],
    ) -> u8;
    fn forward(
        &self, frame: &[u8], level: u8, from: u32, to: u32, address: u16, out: &mut [u8], answer: &mut [u64],
    ) -> u8;
    fn forward_tray(
        &self, tray: &[u8], level: u8, from: u32, to: u32, address: u16, out: &mut [u8], list: &mut [u8],
        answer: &mut [u64],
    ) -> u8;
    fn read(&self, frame: &[u8], answer: &mut [u64], samples: &mut [u8]) -> u8;
    fn fresh(&self, build_out: u8, record: &mut [u64]) -> u8;
    fn arrive(&self, record: &mut [u64], frame: &[u8], clock: u64, answer: &mut [u64], samples: &mut [u8]) -> u8;
    fn arrive_value(
        &self, record: &[u64], frame: &[u8], clock: u64, after: &mut [u64], answer: &mut [u64], samples: &mut [u8],
    ) -> u8;
    fn signal_read(&self, build_out: u8, frame: &[u8], answer: &mut [u64]) -> u8;
    fn fill(&self, last: &[u8], noise: &[u8], m_last: u8, out: &mut [u8], answer: &mut [u64]) -> u8;
    fn noise_level(&self, code: u8, answer: &mut [u64], level: &mut [f64]) -> u8;
    fn link(&self, frame: &[u8], answer: &mut [u64]) -> u8;
    fn taken(&self, frame: &[u8], answer: &mut [u64]) -> u8;
    fn watch_start(&self, states: u8, refresh: u32, keepalive: u32, clock: u64, watch: &mut [u64]) -> u8;
    fn watch_tell(&self, watch: &mut [u64], clock: u64, event: u8, bits: u8, flag: u8, answer: &mut [u64]) -> u8;
    fn line_add(&self, line: &mut [u8], count: usize, frame: &[u8], answer: &mut [u64]) -> u8;
    fn line_next(&self, line: &[u8], count: usize, place: usize, out: &mut [u8], answer: &mut [u64]) -> u8;
    fn queue_fresh(&self, queue: &mut [u32]) -> u8;
    fn queue_enter(&self, store: &mut [u8], queue: &mut [u32], frame: &[u8], clock: u32) -> u8;
    fn queue_take(
        &self, store: &[u8], queue: &mut [u32], to: u32, level: u8, address: u16, out: &mut [u8], answer: &mut [u64],
    ) -> u8;
    fn queue_freed(&self, queue: &[u32], level: u8, answer: &mut [u64]) -> u8;
}
