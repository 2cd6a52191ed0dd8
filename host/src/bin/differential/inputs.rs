//! What the calls are tried with: right in all, wrong in one thing, or wrong in several, with the
//! values at and just past each limit oftener than the rest.

use pelgrant_host::document::{check_sequence, Coding, Kind};
use pelgrant_host::flat::RECORD;
use pelgrant_host::random::Random;

pub const CLOCK_MAX: u64 = 1 << 62;
pub const COUNT_MAX: u64 = (1 << 32) - 1;
/// Where the three counts of a record begin.
pub const FIRST_COUNT: usize = 6;
/// How far after the clock a frame may be due.
pub const AHEAD_MAX: u64 = 439;
pub const LEGAL_CODINGS: [u8; 17] = [0, 1, 2, 3, 4, 5, 6, 7, 8, 9, 10, 11, 12, 13, 20, 21, 24];

/// The greatest of the calls' own refusals.
const LAST: usize = 27;
/// The refusals that only the flat form has, counted apart from those.
pub const FLAT_13: usize = LAST + 1;
pub const FLAT_14: usize = LAST + 2;
pub const FLAT_16: usize = LAST + 3;
pub const FLAT_21: usize = LAST + 4;
pub const OUTCOMES: usize = LAST + 5;

/// The numbers that an input is made to be refused by.
#[derive(Clone, Copy)]
pub struct Faults(u32);

impl Faults {
    pub const NONE: Faults = Faults(0);

    pub fn of<'a>(numbers: impl IntoIterator<Item = &'a usize>) -> Faults {
        Faults(numbers.into_iter().fold(0, |set, number| set | 1 << number))
    }

    /// Half of all inputs are right; of the others half have one fault, so that each refusal is
    /// reached, and half have several, so that their order is tried.
    pub fn among(random: &mut Random, numbers: &[usize]) -> Faults {
        match random.below(4) {
            0 | 1 => Faults::NONE,
            2 => Faults(1 << random.pick(numbers)),
            _ => Faults::of(numbers.iter().filter(|_| random.one_in(4))),
        }
    }

    pub fn but(self, number: usize) -> Faults {
        Faults(self.0 & !(1 << number))
    }

    pub fn has(self, number: usize) -> bool {
        self.0 >> number & 1 == 1
    }

    pub fn none(self) -> bool {
        self.0 == 0
    }
}

// ---- Frames ----

const VOICE: u8 = 239;
const SIGNALLING: u8 = 3;
const FRAME_FAULTS: [usize; 10] = [1, 2, 3, 24, 4, 5, 6, 7, 8, 9];

/// C/R, of octet 1, and the poll bit, of octet 3.
const COMMAND_RESPONSE: u8 = 2;
const POLL: u8 = 16;
/// What octets 1 and 3 have set where a frame is to be refused with 24.
pub const SET_BITS: [(&str, [u8; 2]); 3] =
    [("C/R", [COMMAND_RESPONSE, 0]), ("poll bit", [0, POLL]), ("both", [COMMAND_RESPONSE, POLL])];

/// Which of those two bits a head has set.
pub fn set_bits(head: &[u8]) -> [u8; 2] {
    [head[0] & COMMAND_RESPONSE, head[2] & POLL]
}

/// The other bits that a writer sets to 0, by octet: a reader ignores them, and a node passes them on.
pub fn ignored_bits(kind: Kind) -> [u8; 8] {
    match kind {
        Kind::Voice => [0, 0, 0, 0, 0xCC, 0, 0x60, 0],
        // The more bit and the sequence are among them.
        Kind::Signalling => [0, 0, 0, 0, 0xCC, 0, 0xFE, 0xF0],
    }
}

/// A frame before its check is worked out.
pub struct Draft {
    pub head: [u8; 8],
    length: usize,
    check_damage: u16,
}

impl Draft {
    pub fn of(random: &mut Random, kind: Kind, faults: Faults) -> Draft {
        match kind {
            Kind::Voice => Draft::voice(random, faults),
            Kind::Signalling => Draft::signalling(random, faults),
        }
    }

    pub fn voice(random: &mut Random, faults: Faults) -> Draft {
        let number = match faults.has(6) {
            true => another(random, |random| random.octet_below(32), |number| Coding::of(*number).is_none()),
            false => random.pick(&LEGAL_CODINGS),
        };
        let facts = Coding::of(number).unwrap_or(Coding { sample_bits: 5, droppable: 3, resets: false });
        let legal_left = random.octet_below(u16::from(facts.droppable) + 1);
        let (at_first, left) = if faults.has(7) {
            another(
                random,
                |random| (random.octet_below(4), random.octet_below(4)),
                |&(at_first, left)| at_first != facts.droppable || left > at_first,
            )
        } else {
            (facts.droppable, legal_left)
        };
        let blocks = i64::from(facts.sample_bits) - i64::from(at_first) + i64::from(left);
        let more = if random.one_in(4) { 0 } else { 0x80 };
        let sequence = if random.one_in(3) { 0 } else { random.octet_below(16) };
        let octets_7_and_8 = [more | number, sequence << 4 | random.octet_below(16)];
        let length = 16 * blocks.max(0) as usize + 10;
        Draft::either(random, faults, Kind::Voice, at_first << 4 | left, octets_7_and_8, length)
    }

    pub fn signalling(random: &mut Random, faults: Faults) -> Draft {
        let dropping =
            if faults.has(7) { another(random, |random| random.octet() & 0x33, |&dropping| dropping != 0) } else { 0 };
        let octets_7_and_8 = [random.octet() & 1, random.octet() & 15];
        Draft::either(random, faults, Kind::Signalling, dropping, octets_7_and_8, 10)
    }

    fn either(
        random: &mut Random, faults: Faults, kind: Kind, dropping: u8, octets_7_and_8: [u8; 2], legal_length: usize,
    ) -> Draft {
        let [upper, lower] = address_octets(random, faults.has(2));
        let control = match kind {
            Kind::Voice => VOICE,
            Kind::Signalling => SIGNALLING,
        };
        let control = if faults.has(3) {
            another(random, |random| near(random, control), |other| !matches!(other & !POLL, VOICE | SIGNALLING))
        } else {
            control
        };
        let protocol =
            if faults.has(5) { another(random, |random| near(random, 68), |&other| other != 68) } else { 68 };
        let mut head = [
            upper,
            lower,
            control,
            protocol,
            dropping,
            stamp(random, faults.has(9)),
            octets_7_and_8[0],
            octets_7_and_8[1],
        ];
        if random.one_in(2) {
            head.iter_mut().zip(ignored_bits(kind)).for_each(|(octet, ignored)| *octet |= random.octet() & ignored);
        }
        if faults.has(24) {
            let (_, [of_octet_1, of_octet_3]) = random.pick(&SET_BITS);
            head[0] |= of_octet_1;
            head[2] |= of_octet_3;
        }
        let length = if faults.has(1) {
            impossible_length(random)
        } else if faults.has(8) {
            let other_length = |random: &mut Random| {
                let any = 10 + random.size_below(481);
                random.pick(&[
                    legal_length + 1,
                    legal_length - 1,
                    legal_length + 16,
                    legal_length.wrapping_sub(16),
                    490,
                    any,
                ])
            };
            another(random, other_length, |length| (10..=490).contains(length) && *length != legal_length)
        } else {
            legal_length
        };
        let check_damage =
            if faults.has(4) { another(random, |random| random.number() as u16, |&damage| damage != 0) } else { 0 };
        Draft { head, length, check_damage }
    }

    pub fn octets(&self, random: &mut Random) -> Vec<u8> {
        let mut frame = random.octets(self.length);
        let head_length = self.length.min(8);
        frame[..head_length].copy_from_slice(&self.head[..head_length]);
        if let Some(check_at) = self.length.checked_sub(2).filter(|at| *at >= 8) {
            let covered = if self.head[2] & !POLL == VOICE { 8 } else { check_at };
            let check = check_sequence(&frame[..covered]) ^ self.check_damage;
            frame[check_at..].copy_from_slice(&check.to_le_bytes());
        }
        frame
    }
}

/// Any frame or rubbish: right, with faults, damaged by a bit, cut, prolonged or random.
pub fn frame(random: &mut Random) -> Vec<u8> {
    // Two in eleven are right as they are, beside those among the first five that have no fault drawn.
    let kind = random.below(11);
    let faults = match kind {
        0..=4 => Faults::among(random, &FRAME_FAULTS),
        _ => Faults::NONE,
    };
    let draft = if random.one_in(4) { Draft::signalling(random, faults) } else { Draft::voice(random, faults) };
    let mut frame = draft.octets(random);
    match kind {
        5 => {
            let bit = random.size_below(8 * frame.len());
            frame[bit / 8] ^= 1 << (bit % 8);
        }
        6 => {
            let cut = random.size_below(frame.len());
            frame.truncate(random.pick(&[cut, frame.len() - 1, frame.len() - 2]));
        }
        7 => {
            let more = 1 + random.size_below(40);
            let added = random.pick(&[1, 2, 16, 490 - frame.len(), 491 - frame.len(), more]);
            frame.extend(random.octets(added));
        }
        8 => {
            let length = if random.one_in(2) { random.size_below(14) } else { random.size_below(600) };
            frame = random.octets(length);
        }
        _ => {}
    }
    frame
}

/// Draws until what is drawn will do.
pub fn another<T>(random: &mut Random, draw: impl Fn(&mut Random) -> T, will_do: impl Fn(&T) -> bool) -> T {
    loop {
        let drawn = draw(random);
        if will_do(&drawn) {
            return drawn;
        }
    }
}

/// Any octet, or one that differs in a single bit.
fn near(random: &mut Random, octet: u8) -> u8 {
    if random.one_in(2) {
        random.octet()
    } else {
        octet ^ 1 << random.below(8)
    }
}

fn impossible_length(random: &mut Random) -> usize {
    let (short, long) = (random.size_below(10), 491 + random.size_below(600));
    if random.one_in(1000) {
        1 << 20
    } else {
        random.pick(&[0, 8, 9, short, 491, 492, long])
    }
}

pub fn address_octets(random: &mut Random, bad: bool) -> [u8; 2] {
    let wrong_extension = bad && random.one_in(2);
    let address = address(random, bad && !wrong_extension) & 0x1FFF;
    let octets = [(address >> 7 << 2) as u8, (address << 1 | 1) as u8];
    match wrong_extension {
        true => {
            random.pick(&[[octets[0] | 1, octets[1]], [octets[0], octets[1] & !1], [octets[0] | 1, octets[1] & !1]])
        }
        false => octets,
    }
}

fn stamp(random: &mut Random, bad: bool) -> u8 {
    let (right, wrong) = (random.octet_below(201), 201 + random.octet_below(55));
    match bad {
        true => random.pick(&[201, 255, wrong]),
        false => random.pick(&[0, 1, 199, 200, right, right, right, right]),
    }
}

// ---- Numbers ----

/// An address; the bad ones stay bad in 13 bits.
pub fn address(random: &mut Random, bad: bool) -> u16 {
    let (right, low, high) =
        (128 + random.below(7936) as u16, random.below(128) as u16, 8064 + random.below(128) as u16);
    match bad {
        true => random.pick(&[0, 127, 8064, 8191, low, high]),
        false => random.pick(&[128, 8063, right, right]),
    }
}

/// An outgoing address, of which the bad ones may have more than 13 bits.
pub fn outgoing(random: &mut Random, bad: bool) -> u16 {
    let wide = 8192 + random.below(57344) as u16;
    if bad && random.one_in(2) {
        random.pick(&[8192, 8192 + 128, 65535, wide])
    } else {
        address(random, bad)
    }
}

/// Two clock readings, often with the clock rolling over between them.
pub fn wait(random: &mut Random) -> (u32, u32) {
    let (any, short) = (random.number() as u32, random.below(260) as u32);
    let from = random.pick(&[0, 1, u32::MAX, u32::MAX - 5, any, any]);
    let wait = random.pick(&[0, 1, 199, 200, 201, 255, 256, 257, 1 << 31, u32::MAX, any, short, short, short, short]);
    (from, from.wrapping_add(wait))
}

/// A coding type; the bad ones are reserved or above 31, though their lowest five bits may be legal.
pub fn coding(random: &mut Random, bad: bool) -> u8 {
    match bad {
        true if random.one_in(2) => 32 + random.pick(&LEGAL_CODINGS),
        true => another(random, Random::octet, |number| Coding::of(*number).is_none()),
        false => random.pick(&LEGAL_CODINGS),
    }
}

/// A number up to `limit`, or one past it.
pub fn up_to(random: &mut Random, limit: u8, bad: bool) -> u8 {
    let (right, wrong) =
        (random.octet_below(u16::from(limit) + 1), limit + 1 + random.octet_below(255 - u16::from(limit)));
    match bad {
        true => random.pick(&[limit + 1, 255, wrong]),
        false => random.pick(&[0, limit, right, right]),
    }
}

pub fn samples(random: &mut Random, sample_bits: u8, bad: bool) -> Vec<u8> {
    let wrong_length = bad && (sample_bits == 8 || random.one_in(2));
    let length = match wrong_length {
        true => {
            let any = random.size_below(128);
            random.pick(&[0, 1, 127, 129, 256, any])
        }
        false => 128,
    };
    let mut samples = random.octets(length);
    samples.iter_mut().for_each(|sample| *sample &= 255 >> (8 - sample_bits));
    if bad && !wrong_length {
        let at = random.pick(&[0, 1, 63, 126, 127]);
        samples[at] = random.pick(&[1 << sample_bits, samples[at] | 1 << sample_bits, 255]);
    }
    samples
}

/// The length of a slice that must have room for `needed`: one short, exact, or longer.
pub fn room(random: &mut Random, needed: usize, short: bool) -> usize {
    let (less, more) = (random.size_below(needed.max(1)), needed + 1 + random.size_below(20));
    match short {
        true => random.pick(&[needed.saturating_sub(1), needed.saturating_sub(1), 0, less]),
        false => random.pick(&[needed, needed, needed + 1, more]),
    }
}

// ---- Play-out ----

/// A clock that a record may have kept, or one past the limit.
pub fn kept_clock(random: &mut Random, bad: bool) -> u64 {
    let any = random.below(CLOCK_MAX);
    match bad {
        true => random.pick(&[CLOCK_MAX + 1, CLOCK_MAX + 2, 1 << 63, u64::MAX]),
        false => random.pick(&[0, 1, 1000, (1 << 32) - 1, 1 << 32, CLOCK_MAX - 20, CLOCK_MAX - 1, CLOCK_MAX, any, any]),
    }
}

/// A clock that went back or past the limit.
fn wrong_clock(random: &mut Random, last_clock: u64) -> u64 {
    let past = random.pick(&[CLOCK_MAX + 1, CLOCK_MAX + 2, u64::MAX]);
    if last_clock == 0 {
        past
    } else {
        random.pick(&[last_clock - 1, 0, past])
    }
}

/// A count, or a number that fits none.
pub fn count(random: &mut Random, bad: bool) -> u64 {
    let (few, any) = (random.below(100), random.number());
    match bad {
        true => random.pick(&[1 << 32, (1 << 32) + few, 1 << 63, u64::MAX, any | 1 << 32, any | 1 << 63]),
        false => random.pick(&[0, few, COUNT_MAX - 1, COUNT_MAX, any & COUNT_MAX]),
    }
}

/// The length of a slice for a record.
pub fn record_length(random: &mut Random, bad: bool) -> usize {
    if bad {
        random.pick(&[0, 1, 2, 3, 4, 5, 6, 7, 8, 10, 12, 18])
    } else {
        RECORD
    }
}

/// A record with any counts; where bad, one of its other numbers is out of range, or several.
pub fn record(random: &mut Random, bad: bool) -> [u64; RECORD] {
    let bad_fields = match (bad, random.one_in(4)) {
        (false, _) => 0,
        (true, false) => 1 << random.below(6),
        (true, true) => 1 + random.below(63),
    };
    let bad = |field: u64| bad_fields >> field & 1 == 1;
    let last_clock = kept_clock(random, bad(2));
    let end = {
        let (ahead, behind) = (random.below(456), random.below(1000));
        match bad(3) {
            true => random.pick(&[last_clock.saturating_add(456), last_clock.saturating_add(457), u64::MAX]),
            false if random.one_in(4) => random.pick(&[0, last_clock.saturating_sub(behind)]),
            false => last_clock.saturating_add(random.pick(&[0, 16, 439, 440, 454, 455, ahead, ahead, ahead])),
        }
    };
    let [scheduled, late, missing] = [(); 3].map(|()| count(random, false));
    let mut small = |field, limit: u8| match bad(field) {
        true => {
            let any = random.number().max(u64::from(limit) + 1);
            random.pick(&[u64::from(limit) + 1, u64::from(limit) + 2, 255, 256, 257, 1 << 32, u64::MAX, any])
        }
        false => up_to(random, limit, false).into(),
    };
    [small(0, 199), small(1, 15), last_clock, end, small(4, 1), small(5, 15), scheduled, late, missing]
}

/// The record as it is lent; of the flat form's 14, where that is wanted, of another length or with counts that fit no
/// field, one of them or more.
pub fn lent_record(random: &mut Random, record: &[u64; RECORD], faults: Faults) -> Vec<u64> {
    let mut record = record.to_vec();
    if faults.has(FLAT_14) {
        if random.one_in(2) {
            record.resize(record_length(random, true), 0);
        } else {
            let unfit = random.pick(&[1, 1, 2, 2, 4, 4, 3, 5, 6, 7]);
            let places = (0..3).filter(|place| unfit >> place & 1 == 1);
            places.for_each(|place| record[FIRST_COUNT + place] = count(random, true));
        }
    }
    record
}

pub fn clock(random: &mut Random, record: &[u64; RECORD], bad: bool) -> u64 {
    let &[_, _, last_clock, end, ..] = record;
    if bad {
        return wrong_clock(random, last_clock);
    }
    let (soon, later, any) = (random.below(40), random.below(1000), random.number() >> 2);
    let clock = random.pick(&[
        last_clock,
        last_clock.saturating_add(soon),
        last_clock.saturating_add(soon),
        last_clock.saturating_add(later),
        end.saturating_sub(AHEAD_MAX + 1),
        end.saturating_sub(AHEAD_MAX),
        end.saturating_sub(1),
        end,
        end.saturating_add(1),
        (1 << 32) - 1,
        CLOCK_MAX,
        any,
    ]);
    clock.min(CLOCK_MAX).max(last_clock)
}

/// A clock that goes on from the record's by less than the pace, and now and then past the end.
pub fn clock_on(random: &mut Random, record: &[u64; RECORD], pace: u64) -> u64 {
    let &[_, _, last_clock, end, ..] = record;
    if random.one_in(12) {
        end.max(last_clock) + 1
    } else {
        last_clock + random.below(pace)
    }
}

/// A frame that mostly suits the record.
pub fn arriving(random: &mut Random, record: &[u64; RECORD], faults: Faults) -> Vec<u8> {
    if random.one_in(4) {
        return frame(random);
    }
    if faults.has(19) {
        return Draft::signalling(random, faults).octets(random);
    }
    let mut draft = Draft::voice(random, faults);
    let build_out = record[0].min(199) as u8;
    if !faults.has(9) {
        let in_time = random.octet_below(u16::from(build_out) + 1);
        let late = build_out + 1 + random.octet_below(200 - u16::from(build_out));
        draft.head[5] = match faults.has(17) {
            true => random.pick(&[build_out + 1, 200, late]),
            false => random.pick(&[0, build_out, in_time, in_time]),
        };
    }
    if !random.one_in(4) {
        draft.head[7] = (record[1] as u8) << 4 | draft.head[7] & 15;
    }
    draft.octets(random)
}

// ---- The signalling watch ----

pub const PROVISIONS: [u8; 5] = [0, 1, 2, 4, 16];

/// Every TSIG_REF that is offered, with every TSIG_KA that is offered with it.
pub const TIMERS: [(u32, u32); 16] = [
    (1000, 1500),
    (1000, 2500),
    (1000, 3500),
    (1000, 4500),
    (5000, 7500),
    (5000, 12500),
    (5000, 17500),
    (5000, 22500),
    (10000, 15000),
    (10000, 25000),
    (10000, 35000),
    (10000, 45000),
    (20000, 30000),
    (20000, 50000),
    (20000, 70000),
    (20000, 90000),
];

pub const WATCH_FIELDS: [&str; 9] =
    ["states", "refresh", "keepalive", "originating", "terminating", "bits", "last sent", "last taken", "last clock"];

/// The largest numbers that fit the fields before the clocks.
const FITTING: [u64; 6] = [255, u32::MAX as u64, u32::MAX as u64, 1, 2, 255];

/// The length of a slice for a watch.
pub fn watch_length(random: &mut Random, bad: bool) -> usize {
    if bad {
        random.pick(&[0, 1, 8, 10, 18])
    } else {
        WATCH_FIELDS.len()
    }
}

/// States, TSIG_REF and TSIG_KA; where bad, the first or the pair is not offered, or neither.
pub fn parameters(random: &mut Random, bad: bool) -> (u8, u32, u32) {
    let which = if bad { 1 + random.below(3) } else { 0 };
    let offered = random.pick(&PROVISIONS);
    let states = match which & 1 {
        0 => offered,
        _ => another(random, |random| near(random, offered), |states| !PROVISIONS.contains(states)),
    };
    let (refresh, keepalive) = match which & 2 {
        0 => random.pick(&TIMERS),
        _ => another(random, likely_timers, |timers| !TIMERS.contains(timers)),
    };
    (states, refresh, keepalive)
}

/// Whole seconds and a multiple of their half, or near what is offered for each, if not together.
fn likely_timers(random: &mut Random) -> (u32, u32) {
    if random.one_in(2) {
        let refresh = 1000 * random.below(31) as u32;
        return (refresh, refresh / 2 * random.below(12) as u32);
    }
    let ((refresh, _), (_, keepalive)) = (random.pick(&TIMERS), random.pick(&TIMERS));
    (near_timer(random, refresh), near_timer(random, keepalive))
}

fn near_timer(random: &mut Random, timer: u32) -> u32 {
    let any = random.number() as u32;
    random.pick(&[timer, timer, timer, timer - 1, timer + 1, 2 * timer, timer / 2, 0, u32::MAX, any])
}

/// The clock of a start; many are so near the limit that the timers end behind it.
pub fn start_clock(random: &mut Random, bad: bool) -> u64 {
    if !bad && random.one_in(4) {
        CLOCK_MAX - random.below(200_000)
    } else {
        kept_clock(random, bad)
    }
}

/// The clock of the next event, oftenest at the end of a timer or one ms beside it.
pub fn next_clock(random: &mut Random, watch: &[u64; 9], bad: bool) -> u64 {
    let &[_, refresh, keepalive, _, _, _, last_sent, last_taken, last_clock] = watch;
    if bad {
        return wrong_clock(random, last_clock);
    }
    let (soon, later) = (last_clock + random.below(4), last_clock + random.below(keepalive));
    let end = random.pick(&[last_sent + refresh, last_taken + keepalive]);
    let beside = end + random.below(3) - 1;
    random.pick(&[last_clock, soon, later, beside, beside, beside]).clamp(last_clock, CLOCK_MAX)
}

/// An event's bits and flag; where bad, those that the event looks at are too large.
pub fn bits_and_flag(random: &mut Random, event: u8, kept_bits: u8, bad: bool) -> (u8, u8) {
    let (any_bits, any_flag) = (random.octet(), random.octet());
    match event {
        1 if bad => (up_to(random, 15, true), any_flag & 1),
        1 => {
            let (one_bit, some_bits) = (1 << random.below(4), any_bits & 15);
            let changed = random.pick(&[0, one_bit, one_bit, some_bits]);
            (kept_bits ^ changed, random.pick(&[0, 0, 0, 1, 255, any_flag]))
        }
        2 => (any_bits, up_to(random, 1, bad)),
        _ => (any_bits, any_flag),
    }
}

/// The watch with those faults, as far as they are its own; of 12, the kept bits if `bad_bits`.
pub fn watch(random: &mut Random, sound: &[u64; 9], faults: Faults, bad_bits: bool) -> Vec<u64> {
    let mut watch = sound.to_vec();
    if faults.has(21) {
        let (states, refresh, keepalive) = parameters(random, true);
        watch[..3].copy_from_slice(&[states.into(), refresh.into(), keepalive.into()]);
    }
    if faults.has(14) {
        let (past, after) = (kept_clock(random, true), watch[8] + 1 + random.below(100_000));
        match random.below(3) {
            0 => watch[8] = past,
            which => watch[5 + which as usize] = random.pick(&[watch[8] + 1, after, past]),
        }
    }
    if bad_bits {
        watch[5] = up_to(random, 15, true).into();
    }
    if faults.has(FLAT_14) {
        if random.one_in(2) {
            watch.resize(watch_length(random, true), 0);
        } else {
            let field = random.size_below(FITTING.len());
            let unfit = FITTING[field] + 1;
            let any = random.number().max(unfit);
            watch[field] = random.pick(&[unfit, u64::MAX, any]);
        }
    }
    watch
}

/// What one field may be damaged to: what it might as well be, or beside it, or at some limit.
pub fn damaged(random: &mut Random, watch: &[u64; 9], field: usize) -> u64 {
    let was = watch[field];
    let likely = match field {
        0 => random.pick(&PROVISIONS).into(),
        1 => random.pick(&TIMERS).0.into(),
        2 => watch[1] / 2 * (2 + random.below(9)),
        3 => random.below(2),
        4 => random.below(3),
        5 => random.below(16),
        _ => (watch[8] + random.below(3)).saturating_sub(random.below(100_000)),
    };
    let flipped = was ^ 1 << random.below(64);
    let limit = random.pick(&[0, 15, 16, 255, 256, u32::MAX.into(), 1 << 32, CLOCK_MAX, CLOCK_MAX + 1, u64::MAX]);
    random.pick(&[likely, likely, likely, was.wrapping_add(1), was.wrapping_sub(1), flipped, limit])
}
