//! The works that are timed: each is one call, or the bare work of one in C, on buffers of its own.
//!
//! What is lent stands in vectors, not in arrays, so that its length is hidden with the rest.

use crate::timing::{repeated, Work};
use pelgrant_host::document::{Coding, Departure, SAMPLES};
use pelgrant_host::flat::RECORD;
use pelgrant_host::foreign::Stack;
use pelgrant_host::queue::{given_back, CLOCKS, COUNT, LENGTHS, LEVELS, QUEUE, TOTALS};
use pelgrant_host::tray::{self, Passed};
use pelgrant_host::yardstick::Yardstick;
use pelgrant_host::Calls;

/// Where a frame goes in these measurements: level, clock readings and outgoing address.
#[derive(Clone, Copy)]
pub struct Hop {
    pub level: u8,
    pub from: u32,
    pub to: u32,
    pub address: u16,
}

pub const HOP: Hop = Hop { level: 0, from: 100, to: 103, address: 200 };

#[derive(Clone)]
pub struct Origin {
    pub sseq: u8,
    pub step: u8,
    pub coding: u8,
    pub noise: u8,
    pub samples: Vec<u8>,
    pub hop: Hop,
    pub room: usize,
}

fn sample_bits(coding: u8) -> u8 {
    Coding::of(coding).map_or(8, |facts| facts.sample_bits)
}

impl Origin {
    /// In the midst of a burst, every packet with more to follow.
    pub fn data(coding: u8) -> Origin {
        let samples = (0..128u32).map(|n| (n * 37) as u8 >> (8 - sample_bits(coding))).collect();
        Origin { sseq: 1, step: 1, coding, noise: 3, samples, hop: HOP, room: 138 }
    }
}

// ---- Calls ----

pub fn send<C: Calls + 'static>(calls: C, number: u8, origin: &Origin) -> Work {
    let lent = (origin.clone(), vec![0; origin.room], vec![0]);
    repeated(number, lent, move |(origin, out, answer)| {
        let Origin { sseq, step, coding, noise, samples, hop, .. } = origin;
        calls.send(sseq, *step, *coding, *noise, samples, hop.level, hop.from, hop.to, hop.address, out, answer)
    })
}

pub fn signal_write<C: Calls + 'static>(calls: C, number: u8) -> Work {
    repeated(number, (10, 0, HOP, vec![0; 10], vec![0]), move |(bits, na, hop, out, answer)| {
        calls.signal_write(*bits, *na, hop.from, hop.to, hop.address, out, answer)
    })
}

pub fn forward<C: Calls + 'static>(calls: C, number: u8, frame: &[u8], hop: Hop, room: usize) -> Work {
    repeated(number, (frame.to_vec(), hop, vec![0; room], vec![0]), move |(frame, hop, out, answer)| {
        calls.forward(frame, hop.level, hop.from, hop.to, hop.address, out, answer)
    })
}

pub fn read<C: Calls + 'static>(calls: C, number: u8, frame: &[u8]) -> Work {
    repeated(number, (frame.to_vec(), vec![0; 3], vec![0; 128]), move |(frame, answer, samples)| {
        calls.read(frame, answer, samples)
    })
}

pub fn fresh<C: Calls + 'static>(calls: C, number: u8) -> Work {
    repeated(number, (100, vec![0; RECORD]), move |(build_out, record)| calls.fresh(*build_out, record))
}

/// The first frame of a burst, every 16 ms, so that each is scheduled and each but the first counts a lost stop; a clock
/// that stands still where refused.
pub fn arrive<C: Calls + 'static>(
    calls: C, number: u8, record: [u64; RECORD], frame: &[u8], clock: u64, tick: u64,
) -> Work {
    let lent = (record.to_vec(), frame.to_vec(), clock, vec![0; 5], vec![0; 128]);
    repeated(number, lent, move |(record, frame, clock, answer, samples)| {
        *clock += tick;
        calls.arrive(record, frame, *clock, answer, samples)
    })
}

/// The same, each record the one after the call before.
pub fn arrive_value<C: Calls + 'static>(calls: C, number: u8, record: [u64; RECORD], frame: &[u8]) -> Work {
    let lent = (record.to_vec(), frame.to_vec(), 0, vec![0; RECORD], vec![0; 5], vec![0; 128]);
    repeated(number, lent, move |(record, frame, clock, after, answer, samples)| {
        *clock += 16;
        let number = calls.arrive_value(record, frame, *clock, after, answer, samples);
        std::mem::swap(record, after);
        number
    })
}

pub fn signal_read<C: Calls + 'static>(calls: C, number: u8, build_out: u8, frame: &[u8]) -> Work {
    repeated(number, (build_out, frame.to_vec(), vec![0; 3]), move |(build_out, frame, answer)| {
        calls.signal_read(*build_out, frame, answer)
    })
}

pub fn fill<C: Calls + 'static>(calls: C, number: u8) -> Work {
    let lent = (vec![1; 128], vec![2; 128], 1, vec![0; 128], vec![0]);
    repeated(number, lent, move |(last, noise, m_last, out, answer)| calls.fill(last, noise, *m_last, out, answer))
}

pub fn noise_level<C: Calls + 'static>(calls: C, number: u8) -> Work {
    repeated(number, (3, vec![0], vec![0.0]), move |(code, answer, level)| calls.noise_level(*code, answer, level))
}

pub fn link<C: Calls + 'static>(calls: C, number: u8, frame: &[u8]) -> Work {
    repeated(number, (frame.to_vec(), vec![0; 2]), move |(frame, answer)| calls.link(frame, answer))
}

pub fn taken<C: Calls + 'static>(calls: C, number: u8, frame: &[u8]) -> Work {
    repeated(number, (frame.to_vec(), vec![0; 3]), move |(frame, answer)| calls.taken(frame, answer))
}

pub fn watch_start<C: Calls + 'static>(calls: C, number: u8) -> Work {
    let lent = (16, 10_000, 25_000, 0, vec![0; 9]);
    repeated(number, lent, move |(states, refresh, keepalive, clock, watch)| {
        calls.watch_start(*states, *refresh, *keepalive, *clock, watch)
    })
}

/// An event every 3 ms; the bits of a reading are never those of the one before, so each is a transition.
pub fn watch_tell<C: Calls + 'static>(calls: C, number: u8, watch: [u64; 9], event: u8) -> Work {
    repeated(number, (watch.to_vec(), 0, event, 0, vec![0; 4]), move |(watch, clock, event, flag, answer)| {
        *clock += 3;
        calls.watch_tell(watch, *clock, *event, *clock as u8 & 15, *flag, answer)
    })
}

// ---- Waiting rooms: before each call that changes a record six numbers are put back, so that as many wait ----

/// A store with its record.
#[derive(Clone)]
pub struct Room {
    store: Vec<u8>,
    queue: Vec<u32>,
}

impl Room {
    /// One frame waits so many times in a store of so many octets, if they hold it.
    pub fn of(frame: &[u8], waiting: usize, octets: usize) -> Room {
        let (mut store, mut queue) = (frame.repeat(waiting), vec![0; QUEUE]);
        store.resize(octets, 0);
        queue[COUNT] = waiting as u32;
        queue[LENGTHS..][..waiting].fill(frame.len() as u32);
        queue[CLOCKS..][..waiting].fill(HOP.from);
        let totals = [1, 2, 3].map(|level| waiting as u32 * given_back(frame, level));
        Room { store, queue }.with_totals(totals)
    }

    pub fn with_totals(mut self, totals: [u32; LEVELS]) -> Room {
        self.queue[TOTALS..].copy_from_slice(&totals);
        self
    }

    fn kept(&self) -> Kept {
        let (first_three, totals) = (&self.queue[..LENGTHS], &self.queue[TOTALS..]);
        Kept { first_three: first_three.try_into().unwrap(), totals: totals.try_into().unwrap() }
    }
}

/// HEAD, FIRST, COUNT and the totals, the only numbers by which a call changes what waits and what it gives back. A
/// total that went on growing would soon be 14.
struct Kept {
    first_three: [u32; LENGTHS],
    totals: [u32; LEVELS],
}

impl Kept {
    fn put_back(&self, queue: &mut [u32]) {
        queue[..LENGTHS].copy_from_slice(&self.first_three);
        queue[TOTALS..].copy_from_slice(&self.totals);
    }
}

pub fn queue_enter<C: Calls + 'static>(calls: C, number: u8, room: &Room, frame: &[u8]) -> Work {
    let lent = (room.clone(), room.kept(), frame.to_vec(), HOP.to);
    repeated(number, lent, move |(Room { store, queue }, kept, frame, clock)| {
        kept.put_back(queue);
        calls.queue_enter(store, queue, frame, *clock)
    })
}

pub fn queue_take<C: Calls + 'static>(calls: C, number: u8, room: &Room, octets: usize) -> Work {
    let lent = (room.clone(), room.kept(), HOP, vec![0; octets], vec![0]);
    repeated(number, lent, move |(Room { store, queue }, kept, hop, out, answer)| {
        kept.put_back(queue);
        calls.queue_take(store, queue, hop.to, hop.level, hop.address, out, answer)
    })
}

pub fn queue_freed<C: Calls + 'static>(calls: C, number: u8, room: &Room, level: u8) -> Work {
    repeated(number, (room.queue.clone(), level, vec![0]), move |(queue, level, answer)| {
        calls.queue_freed(queue, *level, answer)
    })
}

// ---- Trays: all records of one at a time ----

/// A tray and what is lent with it.
#[derive(Clone)]
pub struct Tray {
    pub octets: Vec<u8>,
    pub records: usize,
    pub hop: Hop,
    pub room: usize,
}

impl Tray {
    /// With as much room as any level leaves need of.
    pub fn of(frames: &[Vec<u8>], hop: Hop) -> Tray {
        let record = |frame: &Vec<u8>| [&(frame.len() as u16 + 2).to_le_bytes()[..], &[1, 0], frame].concat();
        let octets: Vec<u8> = frames.iter().flat_map(record).collect();
        Tray { records: frames.len(), hop, room: octets.len(), octets }
    }

    fn lent(&self) -> (Vec<u8>, Hop, Vec<u8>, Vec<u8>) {
        (self.octets.clone(), self.hop, vec![0; self.room], vec![0; self.records])
    }

    /// What a call makes of it: the number, what is written, the list and the answer.
    pub fn sent_on(&self, calls: &impl Calls) -> (u8, Vec<u8>, Vec<u8>, [u64; 2]) {
        let ((octets, hop, mut out, mut list), mut answer) = (self.lent(), [0; 2]);
        let Hop { level, from, to, address } = hop;
        let number = calls.forward_tray(&octets, level, from, to, address, &mut out, &mut list, &mut answer);
        (number, out, list, answer)
    }

    /// The same frame by frame.
    pub fn sent_singly(&self, calls: &impl Calls) -> (u8, Vec<u8>, Vec<u8>, [u64; 2]) {
        let ((octets, hop, mut out, mut list), mut answer) = (self.lent(), [0; 2]);
        let number = singly(calls, &octets, &hop, &mut out, &mut list, &mut answer);
        (number, out, list, answer)
    }
}

pub fn forward_tray<C: Calls + 'static>(calls: C, number: u8, tray: &Tray) -> Work {
    repeated(number, (tray.lent(), vec![0; 2]), move |((tray, hop, out, list), answer)| {
        calls.forward_tray(tray, hop.level, hop.from, hop.to, hop.address, out, list, answer)
    })
}

/// A host that has the node's call alone.
pub fn frame_by_frame<C: Calls + 'static>(calls: C, number: u8, tray: &Tray) -> Work {
    repeated(number, (tray.lent(), [0; 2]), move |((tray, hop, out, list), answer)| {
        singly(&calls, tray, hop, out, list, answer)
    })
}

fn singly(calls: &impl Calls, tray: &[u8], hop: &Hop, out: &mut [u8], list: &mut [u8], answer: &mut [u64; 2]) -> u8 {
    let &Hop { level, from, to, address } = hop;
    match tray::frame_by_frame(calls, tray, level, &Departure { from, to, address }, out, list) {
        Ok(Passed { records, written }) => {
            *answer = [records as u64, written as u64];
            0
        }
        Err(refusal) => refusal as u8,
    }
}

// ---- Lines: all frames of one at a time ----

/// Frames on a line, one behind the other.
#[derive(Clone)]
pub struct Line {
    pub frames: Vec<Vec<u8>>,
    octets: Vec<u8>,
    count: usize,
}

impl Line {
    pub fn of<C: Calls>(calls: C, frames: Vec<Vec<u8>>) -> Line {
        let room = frames.iter().map(|frame| 2 * frame.len() + 2).sum();
        let (mut octets, mut count) = (vec![0; room], [0]);
        for frame in &frames {
            assert_eq!(calls.line_add(&mut octets, count[0] as usize, frame, &mut count), 0);
        }
        let count = count[0] as usize;
        octets.truncate(count.div_ceil(8));
        Line { frames, octets, count }
    }
}

/// Puts all frames on an empty line, with `check` after a link of each.
pub fn line_add<C: Calls + 'static>(calls: C, line: &Line, check: bool) -> Work {
    let lent = (line.frames.clone(), line.octets.clone(), vec![0], vec![0; 2]);
    repeated(0, lent, move |(frames, octets, count, answer)| {
        count[0] = 0;
        frames.iter().fold(0, |refused, frame| {
            let link = if check { calls.link(frame, answer) } else { 0 };
            refused | link | calls.line_add(octets, count[0] as usize, frame, count)
        })
    })
}

/// Takes all frames off a line, with `check` before a link of each.
pub fn line_next<C: Calls + 'static>(calls: C, line: &Line, check: bool) -> Work {
    let lent = (line.octets.clone(), line.count, line.frames.len(), vec![0; 490], vec![0; 3], vec![0; 2]);
    repeated(0, lent, move |(octets, count, frames, out, answer, link_answer)| {
        answer[2] = 0;
        (0..*frames).fold(0, |refused, _| {
            let number = calls.line_next(octets, *count, answer[2] as usize, out, answer);
            let link = if check { calls.link(&out[..answer[1] as usize], link_answer) } else { 0 };
            refused | number | link
        })
    })
}

/// The same frames by a foreign stack, which makes the last two octets of each itself, on the shortest line
/// that it gets them on: isdnhdlc begins a second flag behind a frame that does not end with an octet.
pub fn foreign_write(stack: &'static Stack, line: &Line) -> Work {
    let frames: Vec<&[u8]> = line.frames.iter().map(|frame| &frame[..frame.len() - 2]).collect();
    let lengths: Vec<usize> = frames.iter().map(|frame| frame.len()).collect();
    let (count, frames) = (frames.len(), frames.concat());
    let holds = |room: &usize| stack.write_turned(&frames, &lengths, 1, &mut vec![0; *room]) == count;
    let room = (line.octets.len() + 1..).find(holds).unwrap();
    repeated(count as u8, (frames, lengths, vec![0; room]), move |(frames, lengths, octets)| {
        stack.write_turned(frames, lengths, 1, octets) as u8
    })
}

/// The same line by a foreign stack, in its order of bits already.
pub fn foreign_read(stack: &'static Stack, line: &Line) -> Work {
    let mut octets = line.octets.clone();
    stack.turn(&mut octets);
    repeated(line.frames.len() as u8, octets, move |octets| stack.count_turned(octets) as u8)
}

// ---- Bare work in C, hidden from the compiler in the same way ----

pub fn bare_check_by_octet(yardstick: Yardstick, octets: &[u8]) -> Work {
    repeated(0, (octets.to_vec(), 0), move |(octets, check)| {
        *check = yardstick.check_by_octet(octets);
        0
    })
}

pub fn bare_check(yardstick: Yardstick, octets: &[u8]) -> Work {
    repeated(0, (octets.to_vec(), 0), move |(octets, check)| {
        *check = yardstick.check_by_four(octets);
        0
    })
}

/// A node's: the check of the head that came, and that of the head that leaves.
pub fn bare_forward(yardstick: Yardstick, frame: &[u8]) -> Work {
    repeated(0, (frame[..8].to_vec(), frame[..8].to_vec(), [0; 2]), move |(came, leaves, checks)| {
        *checks = [yardstick.check_by_four(came), yardstick.check_by_four(leaves)];
        0
    })
}

pub fn bare_send(yardstick: Yardstick, origin: &Origin) -> Work {
    let bits = sample_bits(origin.coding);
    let samples: [u8; SAMPLES] = origin.samples[..].try_into().unwrap();
    let lent = (vec![0; 8], samples, bits, vec![0; 16 * usize::from(bits)], 0);
    repeated(0, lent, move |(head, samples, bits, voice_field, check)| {
        yardstick.pack(samples, *bits, voice_field);
        *check = yardstick.check_by_four(head);
        0
    })
}

pub fn bare_read(yardstick: Yardstick, frame: &[u8]) -> Work {
    let (head, voice_field) = frame[..frame.len() - 2].split_at(8);
    repeated(0, (head.to_vec(), voice_field.to_vec(), 0, [0; SAMPLES]), move |(head, voice_field, check, words)| {
        *check = yardstick.check_by_four(head);
        yardstick.unpack(voice_field, words);
        0
    })
}
