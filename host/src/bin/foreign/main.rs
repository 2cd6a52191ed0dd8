//! Lines that the card writes, read by foreign HDLC stacks, and lines that they write, read by the card;
//! and lines of neither, with flags that share zeros, aborts and damage, read by all.
//!
//! `foreign [LINES [SEED]]`: LINES for each kind and stack. Every frame ends in the check over all octets
//! that those stacks expect.
//!
//! What they do otherwise than the card, as far as it was found:
//! - isdnhdlc does not ask for whole octets: a frame with one bit too many is a frame to it, and one with up
//!   to six too few may be, for it fills them up out of the closing flag. After an abort it goes on collecting
//!   until the next flag, and may complain again there. Of ones directly behind a flag it may not complain.
//! - spandsp takes the first zero of a closing flag for one that was put in where five ones stand directly
//!   before it: it refuses such a frame for its length, and takes one that has a one too many. An abort it
//!   sees at the zero behind the ones.
//! - To both a line that begins with six ones and a zero begins with a flag.
//! - Neither has a least length: isdnhdlc reads from one octet before the check, spandsp from none. spandsp
//!   reads no frame of more than 404 octets with its check and writes none of more than 402.

use pelgrant_host::abi::Card;
use pelgrant_host::document::check_sequence;
use pelgrant_host::foreign::{Stack, STACKS};
use pelgrant_host::random::Random;
use pelgrant_host::Calls;
use std::process::ExitCode;

const LINES: u64 = 1000;
const SEED: u64 = 3309;
const SHOWN: u64 = 5;
const CHECK: usize = 2;

const FLAG: [bool; 8] = [false, true, true, true, true, true, true, false];

// ---- Lines ----

/// A line in the making, bit by bit.
#[derive(Default)]
struct Bits(Vec<bool>);

impl Bits {
    fn flag(&mut self) {
        self.0.extend(FLAG);
    }

    /// One that begins on the last zero of the one before.
    fn flag_on_zero(&mut self) {
        self.0.extend(&FLAG[1..]);
    }

    /// The first `count` bits of a frame, with a zero behind each five ones.
    fn stuffed(&mut self, frame: &[u8], count: usize) {
        let mut ones = 0;
        for at in 0..count {
            let bit = frame[at / 8] >> (at % 8) & 1 == 1;
            self.0.push(bit);
            ones = if bit { ones + 1 } else { 0 };
            if ones == 5 {
                self.0.push(false);
                ones = 0;
            }
        }
    }

    fn frame(&mut self, frame: &[u8]) {
        self.stuffed(frame, 8 * frame.len());
    }

    fn has_five_ones_before_a_flag(&self) -> bool {
        let pattern = [&[true; 5], &FLAG[..]].concat();
        self.0.windows(pattern.len()).any(|bits| bits == pattern)
    }

    /// As octets, idle ones up to the end of the last.
    fn octets(&self) -> Vec<u8> {
        let mut octets = vec![0xFF; self.0.len().div_ceil(8)];
        for (at, _) in self.0.iter().enumerate().filter(|(_, bit)| !**bit) {
            octets[at / 8] &= !(1 << (at % 8));
        }
        octets
    }

    fn of(octets: &[u8], count: usize) -> Bits {
        Bits((0..count).map(|at| octets[at / 8] >> (at % 8) & 1 == 1).collect())
    }
}

/// A frame of so many octets, many of them with many ones, that ends in the check over all others.
fn frame(random: &mut Random, length: usize) -> Vec<u8> {
    let mut frame = random.octets(length - CHECK);
    if random.one_in(2) {
        frame.iter_mut().for_each(|octet| *octet |= random.pick(&[0x00, 0x1F, 0x7E, 0xF8, 0xFC, 0xFF]));
    }
    let check = check_sequence(&frame);
    frame.extend(check.to_le_bytes());
    frame
}

fn frames(random: &mut Random, longest: usize) -> Vec<Vec<u8>> {
    (0..1 + random.below(6))
        .map(|_| {
            let (any, small) = (10 + random.size_below(longest - 9), 10 + random.size_below(40));
            let length = random.pick(&[any, small, small, small, 10, longest]);
            frame(random, length)
        })
        .collect()
}

fn without_check(frame: &[u8]) -> &[u8] {
    &frame[..frame.len() - CHECK]
}

fn has_right_check(frame: &[u8]) -> bool {
    let (covered, check) = frame.split_at(frame.len() - CHECK);
    check_sequence(covered).to_le_bytes() == check
}

// ---- The card ----

/// A line of our own, and its count of bits.
fn written(frames: &[Vec<u8>]) -> (Vec<u8>, usize) {
    let (mut line, mut count) = (vec![0xFF; frames.iter().map(|frame| 2 * frame.len() + 2).sum()], [0]);
    for frame in frames {
        assert_eq!(Card.line_add(&mut line, count[0] as usize, frame, &mut count), 0);
    }
    let count = count[0] as usize;
    line.truncate(count.div_ceil(8));
    (line, count)
}

/// What the card makes of a line: its frames, and the numbers of what it refuses.
#[derive(Default)]
struct Heard {
    frames: Vec<Vec<u8>>,
    refused: Vec<u8>,
}

fn heard(line: &[u8], count: usize) -> Heard {
    let (mut heard, mut place) = (Heard::default(), 0);
    loop {
        let (mut out, mut answer) = ([0; 490], [0; 3]);
        let number = Card.line_next(line, count, place, &mut out, &mut answer);
        let [found, length, end] = answer.map(|value| value as usize);
        if number == 0 && found == 0 {
            return heard;
        }
        assert!(end > place, "{number}: the place answered is not behind the one before");
        place = end;
        if number == 0 {
            heard.frames.push(out[..length].to_vec());
        } else {
            heard.refused.push(number);
        }
    }
}

// ---- Tests ----

/// One line of a kind, tried with one stack.
type Test = fn(&mut Run, &Stack);

struct Run {
    random: Random,
    compared: u64,
    different: u64,
}

impl Run {
    fn compare(&mut self, what: &str, right: &[&[u8]], found: &[impl AsRef<[u8]>]) {
        self.compared += right.len() as u64;
        if !right.iter().copied().eq(found.iter().map(AsRef::as_ref)) {
            self.differs(|| {
                let found: Vec<&[u8]> = found.iter().map(AsRef::as_ref).collect();
                println!("different: {what}\n  right {right:?}\n  found {found:?}");
            });
        }
    }

    fn hold(&mut self, what: &str, holds: bool) {
        if !holds {
            self.differs(|| println!("different: {what}"));
        }
    }

    fn differs(&mut self, show: impl FnOnce()) {
        self.different += 1;
        if self.different <= SHOWN {
            show();
        }
    }

    fn we_write(&mut self, stack: &Stack) {
        let frames = frames(&mut self.random, stack.reads);
        let (found, complaints) = stack.read(&written(&frames).0);
        let right: Vec<&[u8]> = frames.iter().map(|frame| without_check(frame)).collect();
        self.compare("a line of ours", &right, &found);
        self.hold("a complaint about a line of ours", complaints == 0);
    }

    fn they_write(&mut self, stack: &Stack) {
        let frames = frames(&mut self.random, stack.writes);
        let given: Vec<&[u8]> = frames.iter().map(|frame| without_check(frame)).collect();
        let flags = 1 + self.random.size_below(3);
        let room = written(&frames).0.len() + 3 * frames.len() + 2 + self.random.size_below(5);
        let line = stack.write(&given, flags, room);
        let Heard { frames: found, refused } = heard(&line, 8 * room);
        self.compare("a line of theirs", &frames.iter().map(Vec::as_slice).collect::<Vec<_>>(), &found);
        self.hold("something refused between frames of theirs", refused.is_empty());
    }

    /// Between two frames one flag, or several, one behind the other or each on the last zero of the one before.
    fn flags_between(&mut self, stack: &Stack) {
        let (frames, random) = (frames(&mut self.random, stack.reads), &mut self.random);
        let mut line = Bits(vec![false; random.size_below(8)]);
        let mut fill = |line: &mut Bits| {
            line.flag();
            for _ in 0..random.below(5) {
                match random.one_in(3) {
                    true => line.flag(),
                    false => line.flag_on_zero(),
                }
            }
        };
        fill(&mut line);
        for frame in &frames {
            line.frame(frame);
            fill(&mut line);
        }
        self.all_read("flags between frames", stack, &line, &frames, 0);
    }

    /// Frames cut off by 7 to 20 ones, some directly behind a flag, among whole ones.
    fn aborts(&mut self, stack: &Stack) {
        let (whole, random) = (frames(&mut self.random, stack.reads), &mut self.random);
        let (mut line, mut aborted) = (Bits::default(), 0);
        line.flag();
        for frame in &whole {
            while random.one_in(2) {
                let length = 10 + random.size_below(60);
                let cut = self::frame(random, length);
                let bits = random.pick(&[0, 1, 8, 79, 80, 8 * length - 1]);
                let any = random.size_below(8 * length);
                line.stuffed(&cut, random.pick(&[bits, any]));
                line.0.extend(vec![true; 7 + random.size_below(14)]);
                line.0.extend(vec![false; random.size_below(3)]);
                line.flag();
                aborted += 1;
            }
            line.frame(frame);
            line.flag();
        }
        self.all_read("aborts", stack, &line, &whole, aborted);
    }

    /// A line that both read, with the frames on it and the number of stretches to be refused.
    fn all_read(&mut self, what: &str, stack: &Stack, line: &Bits, frames: &[Vec<u8>], refused: usize) {
        let ours = heard(&line.octets(), line.0.len());
        self.compare(what, &frames.iter().map(Vec::as_slice).collect::<Vec<_>>(), &ours.frames);
        self.hold("what the card refuses", ours.refused.len() == refused);
        let (theirs, complaints) = stack.read(&line.octets());
        self.compare(what, &frames.iter().map(|frame| without_check(frame)).collect::<Vec<_>>(), &theirs);
        self.hold("what spandsp complains of", stack.name != "spandsp" || complaints == refused);
    }

    /// A line of ours with up to three bits behind the first flipped, put in or taken out: all of our frames
    /// whose check is right, but for what each stack does otherwise.
    fn damaged(&mut self, stack: &Stack) {
        let random = &mut self.random;
        let lengths: [usize; 6] = std::array::from_fn(|_| 10 + random.size_below(50));
        let frames = lengths.map(|length| frame(random, length));
        let (octets, count) = written(&frames);
        let mut line = Bits::of(&octets, count);
        for _ in 0..=random.below(3) {
            let at = 1 + random.size_below(line.0.len() - 1);
            match random.below(3) {
                0 => line.0[at] ^= true,
                1 => line.0.insert(at, random.one_in(2)),
                _ => drop(line.0.remove(at)),
            }
        }
        let (theirs, _) = stack.read(&line.octets());
        let ours = heard(&line.octets(), line.0.len());
        let right = ours.frames.iter().filter(|frame| has_right_check(frame)).map(|frame| without_check(frame));
        if stack.name == "spandsp" {
            // Any shorter is too short for the card.
            let theirs: Vec<Vec<u8>> = theirs.into_iter().filter(|frame| frame.len() >= 10 - CHECK).collect();
            if !line.has_five_ones_before_a_flag() {
                self.compare("damage", &right.collect::<Vec<_>>(), &theirs);
            }
            return;
        }
        // Each of ours in its turn; the others are not of whole octets.
        let (mut left, mut others) = (theirs.iter(), 0);
        for frame in right {
            let found = left.position(|their| their == frame);
            self.compared += 1;
            self.hold("damage: a frame that isdnhdlc does not read", found.is_some());
            others += found.unwrap_or(0);
        }
        others += left.count();
        let not_whole = ours.refused.iter().filter(|number| **number == 22).count();
        self.hold("damage: a frame that the card does not read", others <= not_whole);
    }

    /// Frames that end in five ones with no zero before the flag, which isdnhdlc takes as the card does, and
    /// frames with a part of an octet more, which spandsp refuses as the card does; whole ones between.
    fn odd_ends(&mut self, stack: &Stack) {
        let random = &mut self.random;
        let (mut line, mut right, mut refused) = (Bits::default(), Vec::new(), 0);
        line.flag();
        for _ in 0..3 {
            let (length, whole) = (10 + random.size_below(20), frame(random, 10));
            if stack.name == "spandsp" {
                let too_long = frame(random, length + 1);
                line.stuffed(&too_long, 8 * length + 1 + random.size_below(7));
                refused += 1;
            } else {
                let five_ones = loop {
                    let drawn = frame(random, length);
                    let mut bits = Bits::default();
                    bits.frame(&drawn);
                    if bits.0.ends_with(&[true, true, true, true, true, false]) {
                        line.0.extend(&bits.0[..bits.0.len() - 1]);
                        break drawn;
                    }
                };
                right.push(five_ones);
            }
            line.flag();
            line.frame(&whole);
            line.flag();
            right.push(whole);
        }
        self.all_read("odd ends", stack, &line, &right, refused);
    }
}

fn argument(place: usize, default: u64) -> u64 {
    std::env::args().nth(place).map_or(default, |text| text.parse().expect("a number"))
}

fn main() -> ExitCode {
    let (lines, seed) = (argument(1, LINES), argument(2, SEED));
    let mut run = Run { random: Random::from_seed(seed), compared: 0, different: 0 };
    let tests: [(&str, Test); 6] = [
        ("reads what we write", Run::we_write),
        ("writes what we read", Run::they_write),
        ("and we read flags between, shared or with shared zeros", Run::flags_between),
        ("and we read on after aborts", Run::aborts),
        ("and we read on after damage", Run::damaged),
        ("and we read on after odd ends", Run::odd_ends),
    ];
    for stack in STACKS {
        for (title, test) in tests {
            let before = run.compared;
            (0..lines).for_each(|_| test(&mut run, stack));
            println!("{} {title}: {} frames on {lines} lines", stack.name, run.compared - before);
        }
    }
    println!("host: {} frames compared with foreign stacks, {} different", run.compared, run.different);
    if run.different == 0 && !STACKS.is_empty() {
        ExitCode::SUCCESS
    } else {
        ExitCode::FAILURE
    }
}
