//! What the calls of a waiting room are tried with: stores, records and frames that suit each other or just do
//! not, records and stores that the host overwrote, and long sequences of calls, with questions what a level would
//! give back. And which cases were met.

use crate::inputs::{self, another, Draft, Faults, FLAT_14, FLAT_16};
use crate::lent::{self, Guarded, Lent};
use crate::table::{crossed, Table};
use pelgrant_host::document::Refusal;
use pelgrant_host::queue::{
    Room, CLOCKS, COUNT, FIRST, FRAMES, HEAD, LENGTHS, LENGTH_MAX, LEVELS, QUEUE, STORE_MAX, TOTALS, TOTAL_MAX,
};
use pelgrant_host::random::Random;
use std::cmp::Ordering;

/// The octets of every frame that a node takes.
const FRAME_LENGTHS: [usize; 9] = [10, 26, 42, 58, 74, 90, 106, 122, 138];

/// The stores of sequences. 320 and 4,416 octets are full with 32 of the shortest and of the longest frames.
pub const STORES: [usize; 10] = [0, 10, 137, 138, 320, 500, 2000, 4416, STORE_MAX, STORE_MAX + 1];

/// A record of another length.
pub fn wrong_length(random: &mut Random) -> usize {
    random.pick(&[0, 1, 3, 67, 69, 71, 140])
}

/// Whether a number of a right record is to be overwritten; now and then with a fault besides: a room which is full or
/// empty, or a level that is none.
pub fn overwriting(random: &mut Random, faults: Faults, besides: usize) -> (bool, Faults) {
    let overwriting = faults.none() && random.one_in(4);
    (overwriting, if overwriting && random.one_in(4) { Faults::of(&[besides]) } else { faults })
}

// ---- Rooms ----

/// A store and its record.
#[derive(Clone)]
pub struct WaitingRoom {
    pub store: Vec<u8>,
    pub queue: Vec<u32>,
}

impl WaitingRoom {
    /// As a call left it; a question is lent no store.
    pub fn after(self, step: &Step, lent: &Lent) -> WaitingRoom {
        let queue = lent.queue.part().to_vec();
        match step {
            Step::Ask { .. } => WaitingRoom { queue, ..self },
            _ => WaitingRoom { store: lent.store.part().to_vec(), queue },
        }
    }

    /// Any octets, with frames of these lengths from a place and a slot on, any numbers in the other slots, and totals
    /// that need not be those of the frames.
    fn of(random: &mut Random, octets: usize, head: usize, lengths: &[usize]) -> WaitingRoom {
        let any_slot = random.size_below(FRAMES);
        let first = random.pick(&[0, FRAMES - 1, (FRAMES - lengths.len()) % FRAMES, any_slot]);
        let mut queue: Vec<u32> = random.numbers(QUEUE).into_iter().map(|number| number as u32).collect();
        queue[LENGTHS..CLOCKS].iter_mut().for_each(|length| *length &= LENGTH_MAX);
        [queue[HEAD], queue[FIRST], queue[COUNT]] = [head, first, lengths.len()].map(|number| number as u32);
        for (slot, length) in (first..).zip(lengths) {
            queue[LENGTHS + slot % FRAMES] = *length as u32;
        }
        queue[TOTALS..].fill_with(|| total_in_range(random));
        WaitingRoom { store: random.octets(octets), queue }
    }

    /// A room that a frame of so many octets can enter, unless it is to be stopped by 14 or 25.
    pub fn to_enter(random: &mut Random, length: usize, faults: Faults) -> WaitingRoom {
        let length = length.min(STORE_MAX / 2);
        // Past 32 frames or past the store, or both.
        let past_frames = faults.has(25) && random.one_in(2);
        let past_store = faults.has(25) && (!past_frames || random.one_in(4));
        let mut lengths = waiting(random, length, if past_frames { FRAMES } else { FRAMES - 1 }, past_frames);
        let octets = if random.one_in(4) {
            // Filled as far as these lengths go, or as far as leaves room for the frame.
            let octets = random.pick(&STORES).min(STORE_MAX);
            let most = if past_store { octets } else { octets.saturating_sub(length) };
            while total(&lengths) > most {
                lengths.pop();
            }
            octets
        } else if past_store {
            let (one_less, fewer) = (length.saturating_sub(1), random.size_below(length.max(1)));
            total(&lengths) + random.pick(&[0, one_less, one_less, fewer])
        } else {
            store_for(random, total(&lengths) + length)
        };
        // The frame begins behind those that wait.
        let begins = place_of(random, octets, length);
        let head = if octets == 0 { 0 } else { (begins + octets - total(&lengths) % octets) % octets };
        // The store's end is the same place as its beginning.
        let head = if head == 0 && random.one_in(2) { octets } else { head };
        WaitingRoom::of(random, octets, head, &lengths).with(random, faults)
    }

    /// A room whose first frame can be taken, unless there is to be none or it is to be stopped by 14.
    pub fn to_take(random: &mut Random, frame: &[u8], from: u32, faults: Faults) -> WaitingRoom {
        let lengths = match faults.has(26) {
            true => Vec::new(),
            false => [vec![frame.len()], waiting(random, frame.len(), FRAMES - 1, false)].concat(),
        };
        let octets = store_for(random, total(&lengths));
        let head = place_of(random, octets, frame.len());
        let mut room = WaitingRoom::of(random, octets, head, &lengths);
        if !lengths.is_empty() {
            let slot = room.queue[FIRST] as usize;
            room.queue[CLOCKS + slot] = from;
            room.lay(head, frame);
        }
        room.with(random, faults)
    }

    /// A room that can be asked about, unless that is to be stopped by 14. The longest store stands for the one that a
    /// question is not lent.
    pub fn to_ask(random: &mut Random, faults: Faults) -> WaitingRoom {
        let length = random.pick(&FRAME_LENGTHS);
        let lengths = waiting(random, length, FRAMES, false);
        let head = place_of(random, STORE_MAX, length);
        let mut room = WaitingRoom::of(random, STORE_MAX, head, &lengths);
        if faults.has(14) {
            room.pass_a_limit(random);
        }
        room.unfit(random, faults)
    }

    /// How many wait; of a record that 14 stops no more than there can be.
    pub fn waiting(&self) -> usize {
        FRAMES.min(self.queue[COUNT] as usize)
    }

    fn slots(&self) -> impl Iterator<Item = usize> + '_ {
        (0..self.waiting()).map(|frame| (self.queue[FIRST] as usize + frame) % FRAMES)
    }

    /// The octets of those that wait.
    fn held(&self) -> usize {
        self.slots().map(|slot| self.queue[LENGTHS + slot] as usize).sum()
    }

    /// The length and the clock reading of the first that waits.
    fn first(&self) -> (usize, u32) {
        let slot = self.queue[FIRST] as usize;
        (self.queue[LENGTHS + slot] as usize, self.queue[CLOCKS + slot])
    }

    /// How far each number of `LIMITED` is past its limit, or before it, where HEAD may be as far as this. Of the
    /// lengths the greatest counts.
    fn past_limits(&self, end: usize) -> [i64; LIMITED.len()] {
        let queue = &self.queue;
        let longest = queue[LENGTHS..CLOCKS].iter().fold(0, |longest, length| longest.max(*length));
        let past = |number: u32, limit: usize| i64::from(number) - limit as i64;
        let past_total = |level| past(queue[TOTALS + level - 1], TOTAL_MAX as usize);
        let (head, first) = (past(queue[HEAD], end), past(queue[FIRST], FRAMES - 1));
        let (count, length) = (past(queue[COUNT], FRAMES), past(longest, LENGTH_MAX as usize));
        [head, first, count, length, past_total(1), past_total(2), past_total(3)]
    }

    /// Blocks that may be dropped from the first that waits, where that is a frame.
    fn first_left(&self) -> u8 {
        self.store[(self.queue[HEAD] as usize + 4) % self.store.len()] & 3
    }

    /// Brought out of range where that is wanted, by the record or by the store.
    fn with(mut self, random: &mut Random, faults: Faults) -> WaitingRoom {
        if faults.has(14) {
            let held = self.held();
            match random.below(6) {
                // The lengths together are more than the store by one octet, or by more.
                0 if held > 0 => {
                    let fewer = random.size_below(held);
                    self.store.truncate(random.pick(&[held - 1, held - 1, fewer]));
                    self.queue[HEAD] = self.queue[HEAD].min(self.store.len() as u32);
                }
                0 | 1 => {
                    let longer = random.size_below(5000);
                    let octets = STORE_MAX + random.pick(&[1, 1, 2, 1 + longer]);
                    self.store.resize(octets, 0);
                }
                _ => self.pass_a_limit(random),
            }
        }
        self.unfit(random, faults)
    }

    /// Brings one number of the record past its limit.
    fn pass_a_limit(&mut self, random: &mut Random) {
        let (octets, total) = (self.store.len() as u32, TOTALS + random.size_below(LEVELS));
        let limits = [(HEAD, octets), (FIRST, FRAMES as u32 - 1), (COUNT, FRAMES as u32), (total, TOTAL_MAX)];
        let (at, limit) = random.pick(&limits);
        let any = (random.number() as u32).max(limit);
        self.queue[at] = random.pick(&[limit + 1, limit + 2, u32::MAX, any.saturating_add(1)]);
    }

    /// Of the flat form's 14, where that is wanted: a number that fits no field, or a record of another length.
    fn unfit(mut self, random: &mut Random, faults: Faults) -> WaitingRoom {
        if faults.has(FLAT_14) {
            if random.one_in(2) {
                self.queue.resize(wrong_length(random), 0);
            } else {
                let slot = random.size_below(FRAMES);
                let any = random.number() as u32;
                let unfit = random.pick(&[LENGTH_MAX + 1, LENGTH_MAX + 1, 266, 1 << 16, 1 << 31, u32::MAX, any]);
                self.queue[LENGTHS + slot] = unfit.max(LENGTH_MAX + 1);
            }
        }
        self
    }

    /// The host writes over one number of the record: this gives its place in `FIELDS`, if it was another.
    pub fn overwrite(&mut self, random: &mut Random) -> Option<usize> {
        let (octets, nth) = (self.store.len() as u32, random.size_below(FRAMES));
        let (slot, in_use) = ((self.queue[FIRST] as usize + nth) % FRAMES, nth < self.waiting());
        let total = TOTALS + random.size_below(LEVELS);
        let at = random.pick(&[HEAD, FIRST, COUNT, LENGTHS + slot, CLOCKS + slot, total, total]);
        let (was, any, flipped) = (self.queue[at], random.number() as u32, 1 << random.below(32));
        let (field, likely) = match at {
            HEAD => (0, random.pick(&[0, octets.saturating_sub(1), octets, octets + 1, any % (octets + 1)])),
            FIRST => (1, random.pick(&[0, 31, 32, 33, was.wrapping_add(1) % 32, any % 32])),
            COUNT => (2, random.pick(&[0, 1, 31, 32, 33, was.wrapping_add(1), was.wrapping_sub(1), any % 33])),
            LENGTHS..CLOCKS => {
                // As long as there is room for, and one more.
                let most = (octets as usize + was as usize).saturating_sub(self.held()) as u32;
                let likely = random.pick(&[0, 9, 10, 138, 139, 255, 256, most, most.saturating_add(1), any % 256]);
                (if in_use { 3 } else { 4 }, likely)
            }
            CLOCKS..TOTALS => (if in_use { 5 } else { 6 }, any),
            total => {
                let (lower, higher) = (was.saturating_sub(any % 64), was.saturating_add(any % 64));
                let other = total_in_range(random);
                (7 + total - TOTALS, random.pick(&[lower, higher, TOTAL_MAX, TOTAL_MAX + 1, other]))
            }
        };
        self.queue[at] = random.pick(&[likely, likely, likely, likely, likely, was ^ flipped, any, u32::MAX]);
        (self.queue[at] != was).then_some(field)
    }

    /// What a host may do between two calls: mostly nothing, or overwrite a number, an octet or a frame. A record that
    /// is out of range is soon made afresh.
    pub fn disturb(&mut self, random: &mut Random) {
        let out_of_range = Room::of(&self.store, &self.queue).is_err();
        match random.below(48) {
            0..=3 => drop(self.overwrite(random)),
            4..=6 if !self.store.is_empty() => {
                let at = random.size_below(self.store.len());
                self.store[at] ^= 1 << random.below(8);
            }
            7 => self.queue.fill(0),
            8..=20 if out_of_range => self.queue.fill(0),
            21..=23 if !out_of_range && self.waiting() > 0 => self.exchange_first(random),
            _ => {}
        }
    }

    /// Puts another frame of as many octets, if there can be one, where the first that waits lies: it may give back
    /// more or less than what entered.
    fn exchange_first(&mut self, random: &mut Random) {
        let (length, _) = self.first();
        if FRAME_LENGTHS.contains(&length) {
            let other = another(random, |random| frame(random, Faults::NONE), |frame| frame.len() == length);
            self.lay(self.queue[HEAD] as usize, &other);
        }
    }

    /// A frame from a place of the store on, round its end where it reaches that.
    fn lay(&mut self, head: usize, frame: &[u8]) {
        let octets = self.store.len();
        (head..).zip(frame).for_each(|(at, octet)| self.store[at % octets] = *octet);
    }
}

/// The lengths of those that wait, up to so many or, with `all`, so many; some are all as long as the frame that
/// enters or is taken.
fn waiting(random: &mut Random, length: usize, most: usize, all: bool) -> Vec<usize> {
    let any = random.size_below(most + 1);
    let count = if all { most } else { random.pick(&[0, 1, most, any, any]) };
    let way = random.below(4);
    let one = |random: &mut Random| match way {
        0 => length.min(LENGTH_MAX as usize),
        1 => random.pick(&[0, 1, 9, 139, 254, 255]),
        2 => random.size_below(256),
        _ => random.pick(&FRAME_LENGTHS),
    };
    (0..count).map(|_| one(random)).collect()
}

fn total(lengths: &[usize]) -> usize {
    lengths.iter().sum()
}

/// What a level may give back: nothing, a few blocks, a few less than the most, or anything.
fn total_in_range(random: &mut Random) -> u32 {
    let (blocks, any) = (16 * random.below(5) as u32, random.below(u64::from(TOTAL_MAX) + 1) as u32);
    random.pick(&[0, blocks, any % 48, TOTAL_MAX - blocks, TOTAL_MAX - any % 48, any])
}

/// The length of a store with room for so many octets: just so, one more, one of those of sequences, or any.
fn store_for(random: &mut Random, octets: usize) -> usize {
    let (more, any, known) = (octets + random.size_below(200), random.size_below(2000), random.pick(&STORES));
    random.pick(&[octets, octets, octets + 1, known, more, any]).max(octets).min(STORE_MAX)
}

/// Where a frame of so many octets begins: at either end of the store, up to its end, round it, or anywhere.
fn place_of(random: &mut Random, octets: usize, length: usize) -> usize {
    let (any, some) = (random.size_below(octets + 1), 1 + random.size_below(length.max(1)));
    random.pick(&[0, octets, octets.saturating_sub(length), octets.saturating_sub(some), any])
}

/// A frame as it may wait: of up to 255 octets, with those faults or with any.
pub fn waiting_frame(random: &mut Random, faults: Faults) -> Vec<u8> {
    another(random, |random| frame(random, faults), |frame| frame.len() <= LENGTH_MAX as usize)
}

/// A frame with those faults, as far as they are a frame's, or with any. From many of them blocks may be dropped.
pub fn frame(random: &mut Random, faults: Faults) -> Vec<u8> {
    match random.below(8) {
        0 | 1 => inputs::frame(random),
        2 | 3 => Draft::signalling(random, faults).octets(random),
        4 | 5 => Draft::voice(random, faults).octets(random),
        _ => with_blocks(random, faults, 1),
    }
}

/// A voice frame with those faults from which at least so many blocks may be dropped.
fn with_blocks(random: &mut Random, faults: Faults, least: u8) -> Vec<u8> {
    another(random, |random| Draft::voice(random, faults), |draft| draft.head[4] & 3 >= least).octets(random)
}

// ---- Sequences ----

/// One call on a waiting room.
#[derive(Debug)]
pub enum Step {
    Enter { frame: Vec<u8>, clock: u32 },
    Take { to: u32, level: u8, address: u16, out: Guarded<u8>, answer: Guarded<u64> },
    Ask { level: u8, answer: Guarded<u64> },
}

impl Step {
    /// What it is refused by, whatever the room, since it lacks an answer slot.
    pub fn flat(&self) -> Option<usize> {
        let lacks = matches!(self, Step::Take { answer, .. } | Step::Ask { answer, .. } if answer.part().is_empty());
        lacks.then_some(FLAT_16)
    }

    /// What a plain list makes of it: the number, and buffer and answer after.
    pub fn listed(&self, list: &mut Room) -> (u8, Vec<u8>, Vec<u64>) {
        match self {
            Step::Enter { frame, clock } => (number(list.enter(frame, *clock)), vec![], vec![]),
            Step::Take { to, level, address, out, answer } => {
                let (mut out, mut answer) = (out.part().to_vec(), answer.part().to_vec());
                let Some(length) = answer.first_mut() else { return (16, out, answer) };
                let taken = list.take(*to, *level, *address, &mut out);
                *length = taken.unwrap_or(0) as u64;
                (number(taken), out, answer)
            }
            Step::Ask { level, answer } => {
                let mut answer = answer.part().to_vec();
                let Some(octets) = answer.first_mut() else { return (16, vec![], answer) };
                let freed = list.freed(*level);
                *octets = freed.unwrap_or(0).into();
                (number(freed), vec![], answer)
            }
        }
    }
}

/// The number of a call's result.
fn number<T>(result: Result<T, Refusal>) -> u8 {
    result.map_or_else(|refusal| refusal as u8, |_| 0)
}

/// How a sequence goes on: for a while most calls fill the room, then most empty it, with a clock that goes round and
/// with questions in between.
pub struct Course {
    clock: u32,
    calls_left: u64,
    /// Of ten calls so many enter a frame.
    entering: u64,
    /// The frames of this while: the shortest alone, the longest alone, those that give back most alone, or any.
    frames: u64,
}

impl Course {
    pub fn new(random: &mut Random) -> Course {
        Course { clock: u32::MAX - random.below(1000) as u32, calls_left: 0, entering: 0, frames: 0 }
    }

    pub fn next(&mut self, random: &mut Random) -> Step {
        if self.calls_left == 0 {
            self.entering = random.pick(&[1, 3, 5, 7, 9, 10]);
            self.frames = random.below(4);
            // Of the two kinds that are alone for longer 32 can come to wait, and no others.
            let longer = if matches!(self.frames, 0 | 2) { 100 } else { 0 };
            self.calls_left = 20 + random.below(150) + longer;
        }
        self.calls_left -= 1;
        let (soon, later) = (random.below(8) as u32, random.below(120) as u32);
        let passed = if random.one_in(300) { random.pick(&[1 << 30, 1 << 31]) } else { random.pick(&[0, soon, later]) };
        self.clock = self.clock.wrapping_add(passed);
        if random.one_in(8) {
            return ask(random);
        }
        match random.below(10) < self.entering {
            true => Step::Enter { frame: self.frame(random), clock: self.clock },
            false => self.take(random),
        }
    }

    fn frame(&self, random: &mut Random) -> Vec<u8> {
        if random.one_in(40) {
            return inputs::frame(random);
        }
        let right = |random: &mut Random| frame(random, Faults::NONE);
        match self.frames {
            0 => Draft::signalling(random, Faults::NONE).octets(random),
            1 => another(random, right, |frame| frame.len() == 138),
            2 => with_blocks(random, Faults::NONE, 3),
            _ => right(random),
        }
    }

    /// Most of these calls take a frame that waits; some are refused for what they are lent.
    fn take(&self, random: &mut Random) -> Step {
        let (level, address) = (random.octet_below(4), inputs::outgoing(random, false));
        let short = random.size_below(138);
        let (level, address, octets, slots) = match random.below(24) {
            0 => (inputs::up_to(random, 3, true), address, 138, 1),
            1 => (level, inputs::outgoing(random, true), 138, 1),
            2 => (level, address, random.pick(&[9, 10, 137, short]), 1),
            3 => (level, address, 138, 0),
            _ => (level, address, random.pick(&[138, 138, 140]), random.pick(&[1, 1, 2])),
        };
        let back = self.clock.wrapping_sub(random.below(300) as u32);
        let to = if random.one_in(50) { back } else { self.clock };
        Step::Take { to, level, address, out: lent::buffer(random, octets), answer: lent::slots(random, slots) }
    }
}

/// Of every level, and now and then of one that is none.
fn ask(random: &mut Random) -> Step {
    let (any, slots) = (random.octet(), random.pick(&[1, 1, 1, 1, 2, 0]));
    Step::Ask { level: random.pick(&[0, 1, 2, 3, 1, 2, 3, 4, any]), answer: lent::slots(random, slots) }
}

// ---- Cases ----

/// What the host may overwrite of a record.
const FIELDS: [&str; 10] = [
    "HEAD",
    "FIRST",
    "COUNT",
    "a length in use",
    "another length",
    "a reading in use",
    "another reading",
    "total of level 1",
    "total of level 2",
    "total of level 3",
];
/// What of a record has a limit.
const LIMITED: [&str; 7] =
    ["HEAD", "FIRST", "COUNT", "a length", "total of level 1", "total of level 2", "total of level 3"];
/// What stands in the way of an answer to a question besides its level, one of `LIMITED` where that is alone.
const IN_THE_WAY: [&str; 4] = ["nothing", "no room for it", "a record of another length", "several numbers"];
const CALLS: [&str; 3] = ["enter", "take", "freed"];
/// Those that are lent a store.
const WITH_STORE: [&str; 2] = ["enter", "take"];
const ANSWERS: [&str; 5] = ["done", "14", "25", "26", "another"];
const COURSE: [&str; 10] =
    ["entered", "32 waiting", "octets", "frame's own", "left", "26", "waits on", "14", "answered", "10"];

fn store_names() -> Vec<String> {
    STORES.iter().map(|octets| format!("{octets} octets")).collect()
}

/// A table of calls by what a row has besides; `possible` says what such a call can be answered there.
fn by_answer(calls: &[&str], rows: &[&str], possible: impl Fn(&str, usize, &str) -> bool) -> Table {
    Table::new(crossed(&[calls, rows]), crossed(&[&ANSWERS]), |row, column| {
        match (calls[row / rows.len()], ANSWERS[column]) {
            ("take" | "freed", "25") | ("enter" | "freed", "26") => false,
            (call, answer) => possible(call, row % rows.len(), answer),
        }
    })
}

fn by_store(calls: &[&str]) -> Table {
    let names = store_names();
    let names: Vec<&str> = names.iter().map(String::as_str).collect();
    by_answer(calls, &names, |call, store, answer| match answer {
        _ if call == "freed" => true,
        "14" => true,
        "done" => (10..=STORE_MAX).contains(&STORES[store]),
        _ => STORES[store] <= STORE_MAX,
    })
}

/// The row of such a table that has this besides, of so many that a call has.
fn row(step: &Step, besides: usize, rows: usize) -> usize {
    let call = match step {
        Step::Enter { .. } => 0,
        Step::Take { .. } => 1,
        Step::Ask { .. } => 2,
    };
    call * rows + besides
}

/// The place of a number in `ANSWERS`.
fn answer(number: u8) -> usize {
    match number {
        0 => 0,
        14 => 1,
        25 => 2,
        26 => 3,
        _ => 4,
    }
}

pub struct Cases {
    entering: Table,
    lying: Table,
    waits: Table,
    totals: Table,
    limits: Table,
    asked: Table,
    single: Table,
    overwritten: Table,
    in_turn: Table,
    answered: Table,
    disturbed: Table,
}

impl Cases {
    pub fn new() -> Cases {
        Cases {
            entering: Table::new(
                crossed(&[&["0 waiting", "1", "2 to 30", "31", "32"]]),
                crossed(&[&["octets left", "just full", "1 too many", "more"]]),
                |_, _| true,
            ),
            lying: Table::new(
                crossed(&[&["entered", "left"], &["HEAD in the store", "HEAD at its end"]]),
                crossed(&[&["apart", "to the end", "round"]]),
                // From the end, which is the beginning, no frame reaches further than once round.
                |row, column| row % 2 == 0 || column != 2,
            ),
            waits: Table::new(
                crossed(&[&["no roll-over", "roll-over"]]),
                crossed(&[&["0 ms", "1 to 200", "to 2^31 - 1", "2^31 and on"]]),
                |row, column| (row, column) != (1, 0),
            ),
            totals: Table::new(
                crossed(&[&["entered", "left"], &["level 1", "level 2", "level 3"]]),
                crossed(&[&["stays", "within", "just to it", "beyond"]]),
                |_, _| true,
            ),
            limits: Table::new(
                crossed(&[&CALLS, &LIMITED]),
                crossed(&[&["at its limit", "one past it", "further past"]]),
                |_, _| true,
            ),
            asked: Table::new(
                crossed(&[&[&IN_THE_WAY[..], &LIMITED].concat()]),
                crossed(&[&["level 0", "level 1", "level 2", "level 3", "4", "5 to 255"]]),
                |_, _| true,
            ),
            single: by_store(&WITH_STORE),
            overwritten: by_answer(&CALLS, &FIELDS, |_, field, answer| match answer {
                "14" => !FIELDS[field].contains("reading"),
                "26" => !FIELDS[field].contains("in use"),
                _ => true,
            }),
            in_turn: Table::new(store_names(), crossed(&[&COURSE]), |store, column| {
                let octets = STORES[store];
                match COURSE[column] {
                    "14" => octets > STORE_MAX,
                    "answered" | "10" => true,
                    _ if octets > STORE_MAX => false,
                    "32 waiting" => octets >= 320,
                    "octets" => octets < 4416,
                    "entered" | "left" | "waits on" => octets > 0,
                    _ => true,
                }
            }),
            answered: Table::new(
                crossed(&[&["level 0", "level 1", "level 2", "level 3", "above"]]),
                crossed(&[&["no octets", "some", "the most", "10"]]),
                |level, column| match level {
                    0 => column == 0,
                    1..=LEVELS => column < 3,
                    _ => column == 3,
                },
            ),
            disturbed: by_store(&CALLS),
        }
    }

    /// Counts a frame that entered, had no room or was taken, a question, and the limits that a record is at.
    pub fn met(&mut self, room: &WaitingRoom, step: &Step, number: u8) {
        match (step, number) {
            (Step::Enter { frame, .. }, 0 | 25) => self.entered(room, frame, number),
            (Step::Take { to, .. }, 0) => self.left(room, *to),
            (Step::Ask { level, .. }, _) => self.asked(room, *level, step.flat().is_some()),
            _ => {}
        }
        if step.flat().is_none() && room.queue.len() == QUEUE {
            self.at_limits(room, step, number);
        }
    }

    fn entered(&mut self, room: &WaitingRoom, frame: &[u8], number: u8) {
        let (held, length) = (room.held(), frame.len());
        let row = match room.waiting() {
            few @ (0 | 1) => few,
            2..=30 => 2,
            31 => 3,
            _ => 4,
        };
        let column = match (held + length).checked_sub(room.store.len()) {
            None => 0,
            Some(over) => 1 + over.min(2),
        };
        self.entering.count(row, column);
        if number == 0 {
            self.lies(0, room, held, length);
            self.moves_totals(0, room, frame[4] & 3);
        }
    }

    fn left(&mut self, room: &WaitingRoom, to: u32) {
        let (length, from) = room.first();
        self.lies(1, room, 0, length);
        self.moves_totals(1, room, room.first_left());
        let column = match to.wrapping_sub(from) {
            0 => 0,
            1..=200 => 1,
            201..=0x7FFF_FFFF => 2,
            _ => 3,
        };
        self.waits.count(usize::from(to < from), column);
    }

    /// Counts where a frame lies that so many octets of others stand before.
    fn lies(&mut self, call: usize, room: &WaitingRoom, before: usize, length: usize) {
        let (octets, head) = (room.store.len(), room.queue[HEAD] as usize);
        let column = match ((head + before) % octets + length).cmp(&octets) {
            Ordering::Less => 0,
            Ordering::Equal => 1,
            Ordering::Greater => 2,
        };
        self.lying.count(2 * call + usize::from(head == octets), column);
    }

    /// Counts how a frame with so many blocks that may be dropped moves each total: towards 1,536 where it enters and
    /// towards 0 where it leaves, and beyond that where the host overwrote the total.
    fn moves_totals(&mut self, call: usize, room: &WaitingRoom, left: u8) {
        for (row, total) in room.queue[TOTALS..].iter().enumerate() {
            let octets = 16 * u32::from(left).min(row as u32 + 1);
            let way = if call == 0 { TOTAL_MAX - total } else { *total };
            let column = match octets.cmp(&way) {
                _ if octets == 0 => 0,
                Ordering::Less => 1,
                Ordering::Equal => 2,
                Ordering::Greater => 3,
            };
            self.totals.count(LEVELS * call + row, column);
        }
    }

    /// Counts a question by what stands in its way, and by its level.
    fn asked(&mut self, room: &WaitingRoom, level: u8, no_room: bool) {
        let row = if no_room {
            1
        } else if room.queue.len() != QUEUE {
            2
        } else {
            let past = room.past_limits(STORE_MAX);
            let mut past = (0..LIMITED.len()).filter(|number| past[*number] > 0);
            match (past.next(), past.next()) {
                (None, _) => 0,
                (Some(alone), None) => IN_THE_WAY.len() + alone,
                _ => 3,
            }
        };
        self.asked.count(row, usize::from(level).min(5));
    }

    /// Counts the numbers of a record that are at their limit where 14 does not stop the call, and the one past its
    /// limit where 14 does.
    fn at_limits(&mut self, room: &WaitingRoom, step: &Step, number: u8) {
        let end = if let Step::Ask { .. } = step { STORE_MAX } else { room.store.len() };
        let past = room.past_limits(end);
        let one_is_past = past.iter().filter(|past| **past > 0).count() == 1;
        for (limited, past) in past.into_iter().enumerate() {
            let column = match (number, past) {
                (14, 1..) if one_is_past => past.min(2) as usize,
                (14, _) => continue,
                (_, 0) => 0,
                _ => continue,
            };
            self.limits.count(row(step, limited, LIMITED.len()), column);
        }
    }

    /// Counts a call by itself that the flat form has nothing against, by the store and by what was overwritten.
    pub fn met_single(&mut self, room: &WaitingRoom, overwritten: Option<usize>, step: &Step, number: u8) {
        let store = STORES.iter().position(|octets| *octets == room.store.len());
        if let (Some(store), Step::Enter { .. } | Step::Take { .. }) = (store, step) {
            self.single.count(row(step, store, STORES.len()), answer(number));
        }
        if let Some(field) = overwritten {
            self.overwritten.count(row(step, field, FIELDS.len()), answer(number));
        }
    }

    /// Counts a call of a sequence that goes as a list does, in one of the stores and with so many waiting.
    pub fn met_in_turn(&mut self, store: usize, waiting: usize, step: &Step, number: u8, answer: &[u64]) {
        if step.flat().is_some() {
            return;
        }
        if let Step::Ask { level, .. } = step {
            let most = (16 * FRAMES as u64) * u64::from(*level);
            let column = match (number, answer[0]) {
                (0, 0) => 0,
                (0, octets) => 1 + usize::from(octets == most),
                _ => 3,
            };
            self.answered.count(usize::from(*level).min(LEVELS + 1), column);
        }
        let column = match (step, number) {
            (_, 14) => 7,
            (Step::Enter { .. }, 0) => 0,
            (Step::Enter { .. }, 25) => 1 + usize::from(waiting < FRAMES),
            (Step::Enter { .. }, _) => 3,
            (Step::Take { .. }, 0) => 4,
            (Step::Take { .. }, 26) => 5,
            (Step::Take { .. }, _) => 6,
            (Step::Ask { .. }, 0) => 8,
            (Step::Ask { .. }, _) => 9,
        };
        self.in_turn.count(store, column);
    }

    /// Counts a call of a sequence in which the host overwrites what it likes.
    pub fn met_disturbed(&mut self, store: usize, step: &Step, number: u8) {
        if step.flat().is_none() {
            self.disturbed.count(row(step, store, STORES.len()), answer(number));
        }
    }

    pub fn tables(&self) -> [(&'static str, &Table); 11] {
        [
            ("Frames that entered or had no room, by those waiting and the octets left", &self.entering),
            ("Frames that entered and left, by where in the store they lie", &self.lying),
            ("Frames that left, by their wait and whether the clock rolled over in it", &self.waits),
            ("Frames that entered and left, by how far each total goes up to 1,536 or down to 0", &self.totals),
            ("Numbers of a record at their limit, and past it", &self.limits),
            ("Questions, by what stands in the way of an answer and the level", &self.asked),
            ("Single calls of a waiting room, by its store and the number answered", &self.single),
            ("Records with one number overwritten, by the number answered", &self.overwritten),
            ("Calls of sequences that go as a plain list does, by the store", &self.in_turn),
            ("Questions of such sequences, by the level and the octets answered", &self.answered),
            ("Calls of sequences in which the host overwrites record and store", &self.disturbed),
        ]
    }
}
