//! What a call is lent, with a guard before and behind each slice, so that octets written
//! outside it are seen as well.

use crate::inputs;
use pelgrant_host::flat::RECORD;
use pelgrant_host::queue::QUEUE;
use pelgrant_host::random::Random;
use std::fmt::{Debug, Formatter};
use std::ops::Range;

const GUARD: usize = 4;

#[derive(Clone, Default)]
pub struct Guarded<T> {
    whole: Vec<T>,
    lent: Range<usize>,
}

/// What a call is not lent is empty, and asked about first: empty slices may be slow to compare, since
/// they point nowhere.
impl<T: PartialEq> PartialEq for Guarded<T> {
    fn eq(&self, other: &Guarded<T>) -> bool {
        let not_lent = self.whole.is_empty() && other.whole.is_empty();
        self.lent == other.lent && (not_lent || self.whole == other.whole)
    }
}

/// Shows what is lent with its guards, and of the longest only the start.
impl<T: Debug> Debug for Guarded<T> {
    fn fmt(&self, formatter: &mut Formatter) -> std::fmt::Result {
        const SHOWN: usize = 600;
        write!(formatter, "{:?} of {:?}", self.lent, &self.whole[..self.whole.len().min(SHOWN)])
    }
}

impl<T: Copy> Guarded<T> {
    fn new(before: Vec<T>, lent: &[T], behind: Vec<T>) -> Guarded<T> {
        let range = before.len()..before.len() + lent.len();
        Guarded { whole: [&before, lent, &behind].concat(), lent: range }
    }

    pub fn part(&self) -> &[T] {
        &self.whole[self.lent.clone()]
    }

    pub fn part_mut(&mut self) -> &mut [T] {
        &mut self.whole[self.lent.clone()]
    }
}

pub fn octets(random: &mut Random, lent: &[u8]) -> Guarded<u8> {
    Guarded::new(random.octets(2 * GUARD), lent, random.octets(2 * GUARD))
}

pub fn numbers(random: &mut Random, lent: &[u64]) -> Guarded<u64> {
    Guarded::new(random.numbers(GUARD), lent, random.numbers(GUARD))
}

/// The record of a waiting room.
pub fn queue(random: &mut Random, lent: &[u32]) -> Guarded<u32> {
    let mut guard = || random.numbers(GUARD).into_iter().map(|number| number as u32).collect();
    let (before, behind) = (guard(), guard());
    Guarded::new(before, lent, behind)
}

/// Numbers to be written over.
pub fn slots(random: &mut Random, length: usize) -> Guarded<u64> {
    let unused = random.numbers(length);
    numbers(random, &unused)
}

/// Octets to be written over.
pub fn buffer(random: &mut Random, length: usize) -> Guarded<u8> {
    let unused = random.octets(length);
    octets(random, &unused)
}

pub fn levels(random: &mut Random, length: usize) -> Guarded<f64> {
    let mut unused =
        |length| random.octets(length).into_iter().map(|octet| f64::from(octet) + 0.25).collect::<Vec<f64>>();
    let (before, lent, behind) = (unused(GUARD), unused(length), unused(GUARD));
    Guarded::new(before, &lent, behind)
}

/// All that any call is lent. What a call only reads is here too, so that it is seen to be left alone.
#[derive(Clone, Debug, Default)]
pub struct Lent {
    pub sseq: u8,
    pub record: Guarded<u64>,
    pub after: Guarded<u64>,
    pub line: Guarded<u8>,
    pub store: Guarded<u8>,
    pub queue: Guarded<u32>,
    pub frame: Guarded<u8>,
    pub tray: Guarded<u8>,
    pub noise: Guarded<u8>,
    pub samples: Guarded<u8>,
    pub out: Guarded<u8>,
    pub list: Guarded<u8>,
    pub answer: Guarded<u64>,
    pub level: Guarded<f64>,
}

impl Lent {
    /// A frame, and what any call that reads one is lent besides: a fresh record with the greatest build-out but for its
    /// counts, an empty waiting room, and room for every answer.
    pub fn to_read(random: &mut Random, frame: &[u8]) -> Lent {
        let [scheduled, late, missing] = [(); 3].map(|()| inputs::count(random, false));
        Lent {
            record: numbers(random, &[199, 0, 0, 0, 0, 0, scheduled, late, missing]),
            after: slots(random, RECORD),
            store: buffer(random, 490),
            queue: queue(random, &[0; QUEUE]),
            frame: octets(random, frame),
            samples: buffer(random, 128),
            out: buffer(random, 490),
            answer: slots(random, 5),
            ..Lent::default()
        }
    }

    /// The first thing that is not the same.
    pub fn difference(&self, other: &Lent) -> Option<&'static str> {
        let bits = |lent: &Lent| lent.level.whole.iter().map(|level| level.to_bits()).collect::<Vec<u64>>();
        let same = [
            ("sseq", self.sseq == other.sseq),
            ("record", self.record == other.record),
            ("after", self.after == other.after),
            ("line", self.line == other.line),
            ("store", self.store == other.store),
            ("queue", self.queue == other.queue),
            ("frame", self.frame == other.frame),
            ("tray", self.tray == other.tray),
            ("noise", self.noise == other.noise),
            ("samples", self.samples == other.samples),
            ("out", self.out == other.out),
            ("list", self.list == other.list),
            ("answer", self.answer == other.answer),
            ("level", bits(self) == bits(other)),
        ];
        same.iter().find(|(_, same)| !same).map(|(name, _)| *name)
    }
}
