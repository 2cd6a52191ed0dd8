//! What the calls of a line are tried with: bits of every kind, and counts, places and room at each edge.
//! And which cases of them were met.

use crate::inputs::{room, Faults};
use crate::table::{crossed, Table};
use pelgrant_host::line::{self, Stretch};
use pelgrant_host::random::Random;
use std::cmp::Ordering;

pub type Bits = Vec<bool>;

const FLAG: [bool; 8] = [false, true, true, true, true, true, true, false];

/// How the bits of a line are made.
const WAYS: [&str; 8] = ["any bits", "pieces", "a run", "a stretch", "written", "flipped", "put in", "taken out"];
const STRETCH: usize = 3;
const WRITTEN: usize = 4;

pub fn bits_of(octets: &[u8], count: usize) -> Bits {
    (0..count).map(|at| octets[at / 8] >> (at % 8) & 1 == 1).collect()
}

/// As lent octets, with so many more and any bits behind the last.
pub fn octets_of(random: &mut Random, bits: &[bool], more: usize) -> Vec<u8> {
    let mut octets = random.octets(bits.len().div_ceil(8) + more);
    for (at, bit) in bits.iter().enumerate() {
        octets[at / 8] = octets[at / 8] & !(1 << (at % 8)) | u8::from(*bit) << (at % 8);
    }
    octets
}

// ---- Bits ----

/// Of every length, half of them ones or more.
pub fn any_bits(random: &mut Random, limit: usize) -> Bits {
    let (length, zeros) = (random.size_below(limit + 1), random.pick(&[2, 2, 2, 4, 8]));
    (0..length).map(|_| !random.one_in(zeros)).collect()
}

/// As a frame's bits stand on a line.
fn stuff(line: &mut Bits, bits: &[bool]) {
    let mut ones = 0;
    for bit in bits {
        line.push(*bit);
        ones = if *bit { ones + 1 } else { 0 };
        if ones == 5 {
            line.push(false);
            ones = 0;
        }
    }
}

/// Flags one behind the other; each but the first may begin on the zero before it.
fn flags(random: &mut Random, line: &mut Bits, count: usize) {
    for n in 0..count {
        let shared = n > 0 && random.one_in(2);
        line.extend(&FLAG[usize::from(shared)..]);
    }
}

/// Flags, runs of 4 to 9 ones, zeros, any bits and short stuffed octets in any order.
fn pieces(random: &mut Random) -> Bits {
    let mut line = any_bits(random, 16);
    for _ in 0..=random.below(16) {
        match random.below(9) {
            0..=3 => {
                let count = 1 + random.size_below(3);
                flags(random, &mut line, count);
            }
            4 => line.extend(vec![true; 4 + random.size_below(6)]),
            5 => line.extend(vec![false; 1 + random.size_below(3)]),
            6 => line.extend(any_bits(random, 40)),
            _ => {
                let length = random.pick(&[1, 9, 10, 10, 11]);
                stuff(&mut line, &bits_of(&frame(random, length), 8 * length));
            }
        }
    }
    line
}

/// So many bits without six ones in a row.
fn quiet(random: &mut Random, count: usize) -> Bits {
    let mut bits = Bits::new();
    let any: Bits = (0..count).map(|_| random.one_in(2)).collect();
    stuff(&mut bits, &any);
    bits.truncate(count);
    bits
}

/// Any bits, quiet or not, most of them with a flag at either end.
fn between_flags(random: &mut Random) -> Bits {
    let count = random.size_below(401);
    let bits = if random.one_in(4) { quiet(random, count) } else { any_bits(random, count) };
    match random.one_in(4) {
        true => bits,
        false => [&FLAG, &bits[..], &FLAG].concat(),
    }
}

/// A run of 4 to 9 ones at any bit of two words of 64, among quiet bits between two flags.
fn run(random: &mut Random) -> Bits {
    let (lead, before, behind) = (random.size_below(64), random.size_below(128), 64 + random.size_below(64));
    let ones = vec![true; 4 + random.size_below(6)];
    [&vec![false; lead], &FLAG[..], &quiet(random, before), &[false], &ones, &[false], &quiet(random, behind), &FLAG]
        .concat()
}

/// One stretch, right or with those of the faults 22, 23 and 1 that it can have, and any bits around it.
fn one_stretch(random: &mut Random, faults: Faults) -> Bits {
    let mut line = any_bits(random, 20);
    let count = 1 + random.size_below(3);
    flags(random, &mut line, count);
    let length = frame_length(random, faults.has(1));
    let mut bits = bits_of(&frame(random, length), 8 * length);
    if faults.has(22) {
        bits.extend((0..=random.below(7)).map(|_| random.one_in(2)));
    }
    stuff(&mut line, &bits);
    // Five ones that a flag follows without a zero between.
    if line.ends_with(&[true, true, true, true, true, false]) && random.one_in(2) {
        line.pop();
    }
    match faults.has(23) {
        true => line.extend(vec![true; 7 + random.size_below(14)]),
        false => flags(random, &mut line, 1),
    }
    line.extend(any_bits(random, 20));
    line
}

/// Some frames added in turn by the independent implementation.
fn written(random: &mut Random) -> Bits {
    let (mut octets, mut count) = (vec![0; 1800], 0);
    for _ in 0..=random.below(3) {
        let length = frame_length(random, false);
        count = line::add(&mut octets, count, &frame(random, length)).unwrap();
    }
    bits_of(&octets, count)
}

/// Up to four bits flipped, put in or taken out, oftenest near each other.
fn damage(random: &mut Random, line: &mut Bits, way: &str) {
    let first = random.size_below(line.len());
    for _ in 0..=random.below(4) {
        let near = first + random.size_below(12);
        let at = if random.one_in(3) { random.size_below(line.len()) } else { near % line.len() };
        match way {
            "flipped" => line[at] ^= true,
            "put in" => line.insert(at, !random.one_in(3)),
            _ => drop(line.remove(at)),
        }
    }
}

// ---- Frames ----

/// A length that a frame may have, oftenest a small one, or one that it may not.
pub fn frame_length(random: &mut Random, bad: bool) -> usize {
    let (small, any) = (10 + random.size_below(30), 10 + random.size_below(481));
    match (bad, random.below(32)) {
        (true, 0..=2) => 492 + random.size_below(10),
        (true, 3..=5) => 491,
        (true, _) => {
            let short = random.size_below(10);
            random.pick(&[0, 9, short])
        }
        (false, 0) => any,
        (false, 1) => random.pick(&[489, 490]),
        (false, _) => random.pick(&[10, 10, 11, small, small, small]),
    }
}

/// The bits that a frame takes on a line of so many; of one too long no matter how many.
pub fn taken_by(frame: &[u8], count: usize) -> usize {
    let (mut bits, length) = (Bits::new(), frame.len().min(490));
    stuff(&mut bits, &bits_of(frame, 8 * length));
    bits.len() + if count == 0 { 16 } else { 8 }
}

/// Octets of a frame: any, all ones, or with many ones.
pub fn frame(random: &mut Random, length: usize) -> Vec<u8> {
    let mut octets = random.octets(length);
    match random.below(4) {
        0 => octets.fill(0xFF),
        1 => {
            for octet in &mut octets {
                *octet |= random.pick(&[0xFF, 0xF8, 0x1F, 0x7E, 0xFC, 0x00]);
            }
        }
        _ => {}
    }
    octets
}

// ---- Numbers ----

/// A count that is past so many octets, from one bit on to the greatest number.
pub fn count_past(random: &mut Random, octets: usize) -> usize {
    let (bits, any) = (8 * octets, random.number() as usize >> random.below(32));
    let far = random.pick(&[1 << 32, 1 << 61, (1 << 61) + bits, 1 << 63, usize::MAX - 8, usize::MAX - 7, usize::MAX]);
    random.pick(&[bits + 1, bits + 1, bits + 7, bits + 8, bits + 9, far, far, any]).max(bits + 1)
}

/// A place that is past a count, if there is such a number.
pub fn place_past(random: &mut Random, count: usize) -> usize {
    let far = random.pick(&[1, 1, 7, 8, 1 << 32, 1 << 61, usize::MAX]);
    count.saturating_add(far)
}

/// A place up to the count, oftenest 0 or near either end.
pub fn place(random: &mut Random, count: usize) -> usize {
    let (near, any) = (random.size_below(20).min(count), random.size_below(count + 1));
    random.pick(&[0, 0, 0, 0, 0, 0, near, any, any, count, count - near])
}

/// A line with the place that it is read from.
#[derive(Clone)]
pub struct Reading {
    pub octets: Vec<u8>,
    pub count: usize,
    pub place: usize,
    way: usize,
}

impl Reading {
    pub fn draw(random: &mut Random, faults: Faults) -> Reading {
        let by_faults = [1, 22, 23].iter().any(|number| faults.has(*number));
        let way = if by_faults { STRETCH } else { random.size_below(WAYS.len()) };
        let mut bits = match way {
            0 => between_flags(random),
            1 => pieces(random),
            2 => run(random),
            STRETCH => one_stretch(random, faults),
            _ => written(random),
        };
        if way > WRITTEN {
            damage(random, &mut bits, WAYS[way]);
        }
        let more = random.pick(&[0, 0, 0, 1, 5]);
        let octets = octets_of(random, &bits, more);
        let count = match random.below(16) {
            0 => 0,
            1 => random.size_below(bits.len() + 1),
            // Any bits come behind those that were made.
            2 if way != WRITTEN => 8 * octets.len(),
            _ => bits.len(),
        };
        Reading { place: place(random, count), octets, count, way }
    }

    /// Count or place, or both, brought past their end.
    pub fn past(mut self, random: &mut Random) -> Reading {
        let which = 1 + random.below(3);
        if which & 1 != 0 {
            self.count = count_past(random, self.octets.len());
            let any = random.number() as usize;
            self.place = random.pick(&[0, self.place, self.count, self.count - 1, any % self.count]);
        }
        if which & 2 != 0 {
            self.place = place_past(random, self.count);
        }
        self
    }

    pub fn from(self, place: usize) -> Reading {
        Reading { place, ..self }
    }

    pub fn stretch(&self) -> Option<Stretch> {
        line::stretch(&self.octets, self.count, self.place)
    }

    /// Octets to be lent for what is read: enough for it or, where there is a frame, too few.
    pub fn room(&self, random: &mut Random, short: bool) -> usize {
        let length = self.stretch().map_or(0, |stretch| stretch.bits.len() / 8);
        let likely = random.pick(&[0, 9, 10, 490, 491]);
        match (10..=490).contains(&length) {
            true => room(random, length, short),
            false => likely,
        }
    }
}

// ---- Cases ----

const LENGTHS: [&str; 8] = ["0", "1 to 8", "9", "10", "11 to 489", "490", "491", "more"];
const FRAME: usize = 0;
const NONE: usize = 1;

fn length_row(length: usize) -> usize {
    match length {
        0 => 0,
        1..=8 => 1,
        9 => 2,
        10 => 3,
        11..=489 => 4,
        490 => 5,
        491 => 6,
        _ => 7,
    }
}

fn may_be_a_frame(row: usize) -> bool {
    matches!(LENGTHS[row], "10" | "11 to 489" | "490")
}

pub struct Cases {
    read: Table,
    stretches: Table,
    runs: Table,
    edges: Table,
    added: Table,
    places: Table,
}

impl Cases {
    pub fn new() -> Cases {
        Cases {
            read: Table::new(
                crossed(&[&WAYS]),
                crossed(&[&["frame", "none", "22", "22, aborted", "23", "1", "16"]]),
                |way, column| way != WRITTEN || matches!(column, FRAME | NONE | 6),
            ),
            stretches: Table::new(
                crossed(&[&LENGTHS]),
                crossed(&[&["flag", "seven ones"], &["whole", "part"]]),
                |length, column| length != 0 || column != 0,
            ),
            runs: Table::new(
                crossed(&[&["4", "5", "6", "7", "8", "9"]]),
                crossed(&[&["0", "1", "2", "3", "4", "5", "6", "7"]]),
                |_, _| true,
            ),
            edges: Table::new(
                crossed(&[&["0", "within", "8 * len", "8 * len + 1", "past that", "2^64 - 8 on"]]),
                crossed(&[&["0", "inside", "count", "count + 1", "past that"]]),
                |count, place| count != 0 || !matches!(place, 1 | 2),
            ),
            added: Table::new(
                crossed(&[&LENGTHS]),
                crossed(&[&["empty line", "begun", "14", "1", "16"]]),
                |length, column| match column {
                    2 => true,
                    3 => !may_be_a_frame(length),
                    _ => may_be_a_frame(length),
                },
            ),
            places: Table::new(
                crossed(&[&["empty", "0", "1", "2", "3", "4", "5", "6", "7"]]),
                crossed(&[&["none left", "1 to 7 left", "more left", "1 short", "2 to 8 short", "more short"]]),
                |_, _| true,
            ),
        }
    }

    /// Counts a reading that the flat form has nothing against.
    pub fn met_reading(&mut self, reading: &Reading, number: u8) {
        let &Reading { ref octets, count, place, way } = reading;
        let row = match (count, count.cmp(&(8 * octets.len()))) {
            (0, _) => 0,
            (_, Ordering::Less) => 1,
            (_, Ordering::Equal) => 2,
            _ if count == 8 * octets.len() + 1 => 3,
            _ => 4 + usize::from(count >= usize::MAX - 7),
        };
        let column = match place.cmp(&count) {
            _ if place == 0 => 0,
            Ordering::Less => 1,
            Ordering::Equal => 2,
            Ordering::Greater => 3 + usize::from(place - count > 1),
        };
        self.edges.count(row, column);
        if number == 14 {
            return;
        }
        let stretch = reading.stretch();
        let column = match (number, &stretch) {
            (22, Some(Stretch { aborted: true, .. })) => 3,
            (22, _) => 2,
            (23, _) => 4,
            (1, _) => 5,
            (16, _) => 6,
            (_, Some(_)) => FRAME,
            (_, None) => NONE,
        };
        self.read.count(way, column);
        if let Some(Stretch { bits, aborted, .. }) = stretch {
            let (length, part) = (bits.len() / 8, bits.len() % 8 != 0);
            self.stretches.count(length_row(length), 2 * usize::from(aborted) + usize::from(part));
        }
        let mut run = 0;
        for (at, bit) in bits_of(octets, count).into_iter().chain([false]).enumerate() {
            if bit {
                run += 1;
                continue;
            }
            if (4..=9).contains(&run) {
                self.runs.count(run - 4, (at - run) % 8);
            }
            run = 0;
        }
    }

    /// Counts a frame put on a line that the flat form has nothing against, with the bits that it takes.
    pub fn met_adding(&mut self, octets: usize, count: usize, length: usize, takes: usize, number: u8) {
        let column = match number {
            14 => 2,
            1 => 3,
            16 => 4,
            _ => usize::from(count != 0),
        };
        self.added.count(length_row(length), column);
        if matches!(number, 1 | 14) {
            return;
        }
        let (room, after) = (8 * octets, count + takes);
        let left = match after.cmp(&room) {
            Ordering::Equal => 0,
            Ordering::Less => 1 + usize::from(room - after > 7),
            Ordering::Greater => match after - room {
                1 => 3,
                2..=8 => 4,
                _ => 5,
            },
        };
        self.places.count(if count == 0 { 0 } else { 1 + count % 8 }, left);
    }

    pub fn tables(&self) -> [(&'static str, &Table); 6] {
        [
            ("Lines read, by how their bits were made and what came of them", &self.read),
            ("Stretches by their whole octets, what ended them and the rest", &self.stretches),
            ("Runs of ones, by their length and by the bit of the octet that they begin at", &self.runs),
            ("Counts of lines read, by the place", &self.edges),
            ("Frames put on a line, by their length", &self.added),
            ("Frames put on a line, by the bit of the octet that they begin at and the room left", &self.places),
        ]
    }
}
