//! The bare work of the calls in C, called safely. See `yardstick.c`.

use crate::document::{self, Coding, Departure, Packet, Step, SAMPLES};
use std::sync::Once;

const HEADER: usize = 8;
const BLOCK: usize = 16;

mod c {
    extern "C" {
        pub fn yardstick_prepare();
        pub fn yardstick_check_by_octet(octets: *const u8, length: usize) -> u16;
        pub fn yardstick_check_by_four(octets: *const u8, length: usize) -> u16;
        pub fn yardstick_pack(samples: *const u8, sample_bits: u8, voice_field: *mut u8, blocks: usize);
        pub fn yardstick_unpack(voice_field: *const u8, blocks: usize, words: *mut u8);
    }
}

/// The yardsticks, with their tables made.
#[derive(Clone, Copy)]
pub struct Yardstick(());

// Sound: the C functions reach no further than these lengths, whatever the number of bits.
impl Yardstick {
    /// Tries every yardstick against the independent implementation before it is used.
    pub fn tried() -> Yardstick {
        static TABLES: Once = Once::new();
        TABLES.call_once(|| unsafe { c::yardstick_prepare() });
        let yardstick = Yardstick(());
        yardstick.try_all();
        yardstick
    }

    pub fn check_by_octet(&self, octets: &[u8]) -> u16 {
        unsafe { c::yardstick_check_by_octet(octets.as_ptr(), octets.len()) }
    }

    pub fn check_by_four(&self, octets: &[u8]) -> u16 {
        unsafe { c::yardstick_check_by_four(octets.as_ptr(), octets.len()) }
    }

    pub fn pack(&self, samples: &[u8; SAMPLES], sample_bits: u8, voice_field: &mut [u8]) {
        unsafe { c::yardstick_pack(samples.as_ptr(), sample_bits, voice_field.as_mut_ptr(), voice_field.len() / BLOCK) }
    }

    pub fn unpack(&self, voice_field: &[u8], words: &mut [u8; SAMPLES]) {
        unsafe { c::yardstick_unpack(voice_field.as_ptr(), voice_field.len() / BLOCK, words.as_mut_ptr()) }
    }

    /// Checks of every length, and voice in every coding at every level.
    fn try_all(&self) {
        let mut state = 764_u64;
        let mut octet = || {
            state = state.wrapping_mul(6364136223846793005).wrapping_add(1442695040888963407);
            (state >> 56) as u8
        };
        for length in 0..500 {
            let octets: Vec<u8> = (0..length).map(|_| octet()).collect();
            let right = document::check_sequence(&octets);
            assert_eq!((self.check_by_octet(&octets), self.check_by_four(&octets)), (right, right), "{length} octets");
        }
        let departure = Departure { from: 0, to: 0, address: 128 };
        for number in (0..32).flat_map(|number| [number; 10]) {
            let Some(coding) = Coding::of(number) else { continue };
            let samples: [u8; SAMPLES] = std::array::from_fn(|_| octet() >> (8 - coding.sample_bits));
            for level in 0..=coding.droppable {
                let packet = Packet { step: Step::Start, coding: number, noise: 0, samples: &samples };
                let mut frame = vec![0; coding.frame_length(level)];
                document::send(&mut 0, &packet, level, &departure, &mut frame).unwrap();
                let voice_field = &frame[HEADER..frame.len() - 2];
                let mut packed = vec![0; voice_field.len()];
                self.pack(&samples, coding.sample_bits, &mut packed);
                assert_eq!(packed, voice_field, "type {number}, level {level}");
                let mut heard = [0xFF; SAMPLES];
                self.unpack(voice_field, &mut heard);
                assert_eq!(heard, document::read(&frame).unwrap().words, "type {number}, level {level}");
            }
        }
    }
}
