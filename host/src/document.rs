//! Document 01, amended by requests A2, A5, A9 and A10 of document 02, in plain Rust. It is written from the
//! documents alone, as the yardstick of the proved library: what the library answers is right if this
//! answers the same, and its speed is measured against this.

use std::ops::RangeInclusive;

pub const SAMPLES: usize = 128;
pub(crate) const BLOCK: usize = 16;
const HEADER: usize = 8;
const CHECK: usize = 2;

pub(crate) const FRAME_SIZES: RangeInclusive<usize> = 10..=490;
const ADDRESSES: RangeInclusive<u16> = 128..=8063;
const VOICE: u8 = 239;
const SIGNALLING: u8 = 3;
/// Of octet 1, and of octet 3: a writer sets both to 0, and a frame that has either set is refused (A5).
const COMMAND_RESPONSE: u8 = 0x02;
const POLL: u8 = 0x10;
const PROTOCOL: u8 = 68;
const MORE: u8 = 0x80;

const STAMP_MAX: u8 = 200;
pub(crate) const LEVEL_MAX: u8 = 3;
pub(crate) const FOUR_BITS: u8 = 15;
const BUILD_OUT_MAX: u8 = 199;
pub(crate) const CLOCK_MAX: u64 = 1 << 62;
const PACKET_MS: u64 = 16;
/// A frame is due at most this long after the clock, so `end` is at most 16 ms more.
const AHEAD_MAX: u64 = 439;

/// The refusal numbers of document 01, and 21 to 27 of document 02.
#[derive(Clone, Copy, Debug, PartialEq, Eq)]
#[repr(u8)]
pub enum Refusal {
    FrameSize = 1,
    Address = 2,
    Control = 3,
    Check = 4,
    Protocol = 5,
    Coding = 6,
    Dropping = 7,
    Length = 8,
    Stamp = 9,
    Level = 10,
    Samples = 11,
    FourBits = 12,
    Burst = 13,
    Record = 14,
    Outgoing = 15,
    Buffer = 16,
    Late = 17,
    Clock = 18,
    OtherKind = 19,
    Early = 20,
    NotOffered = 21,
    PartOctet = 22,
    Abort = 23,
    CommandOrPoll = 24,
    NoRoom = 25,
    NothingWaits = 26,
    Tray = 27,
}

use Refusal::*;

pub(crate) fn refuse_if(applies: bool, refusal: Refusal) -> Result<(), Refusal> {
    if applies {
        Err(refusal)
    } else {
        Ok(())
    }
}

// ---- Check sequence ----

const CHECK_TABLE: [u16; 256] = {
    const GENERATOR_REFLECTED: u16 = 0x8408;
    let mut table = [0; 256];
    let mut octet = 0;
    while octet < 256 {
        let mut register = octet as u16;
        let mut bit = 0;
        while bit < 8 {
            let carry = register & 1;
            register = (register >> 1) ^ (carry * GENERATOR_REFLECTED);
            bit += 1;
        }
        table[octet] = register;
        octet += 1;
    }
    table
};

pub fn check_sequence(octets: &[u8]) -> u16 {
    !octets
        .iter()
        .fold(0xFFFF, |register: u16, octet| (register >> 8) ^ CHECK_TABLE[usize::from(register as u8 ^ octet)])
}

/// Writes the check of octets 1 to 8 into the last two. A signalling frame has no others,
/// so this serves both kinds.
fn seal(frame: &mut [u8]) {
    let check = check_sequence(&frame[..HEADER]);
    let at = frame.len() - CHECK;
    frame[at..].copy_from_slice(&check.to_le_bytes());
}

// ---- Coding types ----

#[derive(Clone, Copy, Debug, PartialEq, Eq)]
pub struct Coding {
    pub sample_bits: u8,
    pub droppable: u8,
    pub resets: bool,
}

impl Coding {
    pub const fn of(number: u8) -> Option<Coding> {
        let (sample_bits, droppable, resets) = match number {
            0 | 8 | 9 => (8, 0, false),
            1..=7 => (number, 0, false),
            10..=13 => (number - 8, 0, true),
            20 => (4, 2, true),
            21 => (5, 3, true),
            24 => (8, 2, true),
            _ => return None,
        };
        Some(Coding { sample_bits, droppable, resets })
    }

    pub const fn frame_length(self, dropped: u8) -> usize {
        HEADER + BLOCK * (self.sample_bits - dropped) as usize + CHECK
    }
}

// ---- Blocks ----

/// Turns eight octets as an 8 by 8 square of bits: bit j of octet i becomes bit i of octet j.
fn transpose(octets: [u8; 8]) -> [u8; 8] {
    let mut square = u64::from_le_bytes(octets);
    for (shift, mask) in [(7, 0x00AA_00AA_00AA_00AA), (14, 0x0000_CCCC_0000_CCCC), (28, 0xF0F0_F0F0)] {
        let swapped = (square ^ (square >> shift)) & mask;
        square ^= swapped ^ (swapped << shift);
    }
    square.to_le_bytes()
}

/// A block for each sample bit, from the lowest, whether or not the frame carries it.
type Planes = [[u8; BLOCK]; 8];

/// Fills as many blocks as the voice field has room for, from the highest sample bit down.
fn pack(samples: &[u8], sample_bits: u8, voice_field: &mut [u8]) {
    let mut planes: Planes = [[0; BLOCK]; 8];
    for (column, eight) in samples.chunks_exact(8).enumerate() {
        let octets = transpose(eight.try_into().unwrap());
        for (plane, octet) in planes.iter_mut().zip(octets) {
            plane[column] = octet;
        }
    }
    let from_highest = planes[..sample_bits.into()].iter().rev();
    for (block, plane) in voice_field.chunks_exact_mut(BLOCK).zip(from_highest) {
        block.copy_from_slice(plane);
    }
}

/// Words of as many bits as the voice field has blocks: the last block, whichever that is, holds the lowest. Each is
/// thus the sample divided by 2 for every block dropped (A9).
fn unpack(voice_field: &[u8]) -> [u8; SAMPLES] {
    let mut planes: Planes = [[0; BLOCK]; 8];
    for (plane, block) in planes.iter_mut().zip(voice_field.rchunks_exact(BLOCK)) {
        plane.copy_from_slice(block);
    }
    let mut words = [0; SAMPLES];
    for (column, eight) in words.chunks_exact_mut(8).enumerate() {
        eight.copy_from_slice(&transpose(std::array::from_fn(|bit| planes[bit][column])));
    }
    words
}

// ---- Reading a frame ----

#[derive(Clone, Copy, Debug, PartialEq, Eq)]
pub enum Kind {
    Voice,
    Signalling,
}

fn address_of(frame: &[u8]) -> u16 {
    u16::from(frame[0] >> 2) << 7 | u16::from(frame[1] >> 1)
}

fn stamp_of(frame: &[u8]) -> u8 {
    frame[5]
}

fn more_of(frame: &[u8]) -> bool {
    frame[6] & MORE != 0
}

fn sequence_of(frame: &[u8]) -> u8 {
    frame[7] >> 4
}

fn noise_of(frame: &[u8]) -> u8 {
    frame[7] & FOUR_BITS
}

/// Refusals 1, 2, 3, 24, 4 and 5: what a node and every reader ask of a frame of either kind. 3 leaves the
/// poll bit aside; 24 comes before any check is summed.
fn link_kind(frame: &[u8]) -> Result<Kind, Refusal> {
    refuse_if(!FRAME_SIZES.contains(&frame.len()), FrameSize)?;
    let extension_bits = (frame[0] & 1, frame[1] & 1);
    refuse_if(extension_bits != (0, 1) || !ADDRESSES.contains(&address_of(frame)), Address)?;
    let (covered, check) = frame.split_at(frame.len() - CHECK);
    let (kind, covered) = match frame[2] & !POLL {
        VOICE => (Kind::Voice, &covered[..HEADER]),
        SIGNALLING => (Kind::Signalling, covered),
        _ => return Err(Control),
    };
    refuse_if(frame[0] & COMMAND_RESPONSE != 0 || frame[2] & POLL != 0, CommandOrPoll)?;
    refuse_if(check_sequence(covered).to_le_bytes() != check, Check)?;
    refuse_if(frame[3] != PROTOCOL, Protocol)?;
    Ok(kind)
}

fn link_of_kind(frame: &[u8], wanted: Kind) -> Result<(), Refusal> {
    refuse_if(link_kind(frame)? != wanted, OtherKind)
}

/// The blocks that may still be dropped, and those that were.
#[derive(Clone, Copy)]
struct Blocks {
    coding: Coding,
    left: u8,
    dropped: u8,
}

/// Refusals 6 to 9 of a voice frame.
fn voice_blocks(frame: &[u8]) -> Result<Blocks, Refusal> {
    let coding = Coding::of(frame[6] & 31).ok_or(Refusal::Coding)?;
    let (at_first, left) = (frame[4] >> 4 & 3, frame[4] & 3);
    refuse_if(at_first != coding.droppable || left > at_first, Dropping)?;
    let dropped = at_first - left;
    refuse_if(frame.len() != coding.frame_length(dropped), Length)?;
    refuse_if(stamp_of(frame) > STAMP_MAX, Stamp)?;
    Ok(Blocks { coding, left, dropped })
}

/// Refusals 7 to 9 of a signalling frame.
fn signalling_form(frame: &[u8]) -> Result<(), Refusal> {
    refuse_if(frame[4] & 0x33 != 0, Dropping)?;
    refuse_if(frame.len() != HEADER + CHECK, Length)?;
    refuse_if(stamp_of(frame) > STAMP_MAX, Stamp)
}

/// What a node asks of a frame: its kind and how many blocks may still be dropped.
fn node_form(frame: &[u8]) -> Result<(Kind, u8), Refusal> {
    let kind = link_kind(frame)?;
    let left = match kind {
        Kind::Voice => voice_blocks(frame)?.left,
        Kind::Signalling => signalling_form(frame).map(|()| 0)?,
    };
    Ok((kind, left))
}

/// What is heard of a frame: words of the width that is left of the sample bits.
#[derive(Clone, Debug, PartialEq, Eq)]
pub struct Voice {
    pub sample_bits: u8,
    pub dropped: u8,
    pub width: u8,
    pub words: [u8; SAMPLES],
}

fn voice_of(frame: &[u8], blocks: Blocks) -> Voice {
    let Blocks { coding: Coding { sample_bits, .. }, dropped, .. } = blocks;
    let words = unpack(&frame[HEADER..frame.len() - CHECK]);
    Voice { sample_bits, dropped, width: sample_bits - dropped, words }
}

pub fn read(frame: &[u8]) -> Result<Voice, Refusal> {
    link_of_kind(frame, Kind::Voice)?;
    Ok(voice_of(frame, voice_blocks(frame)?))
}

pub fn link(frame: &[u8]) -> Result<(Kind, u16), Refusal> {
    Ok((link_kind(frame)?, address_of(frame)))
}

#[derive(Clone, Copy, Debug, PartialEq, Eq)]
pub struct Taken {
    pub kind: Kind,
    pub length: usize,
    pub left: u8,
}

/// What a node finds in a frame before it sends it on.
pub fn taken(frame: &[u8]) -> Result<Taken, Refusal> {
    let (kind, left) = node_form(frame)?;
    Ok(Taken { kind, length: frame.len(), left })
}

// ---- Origin and node ----

#[derive(Clone, Copy, Debug, PartialEq, Eq)]
pub enum Step {
    Start,
    Data,
    Stop,
}

/// How a frame leaves: it waited from one clock reading to the other, and goes to `address`.
#[derive(Clone, Copy, Debug)]
pub struct Departure {
    pub from: u32,
    pub to: u32,
    pub address: u16,
}

impl Departure {
    fn stamp(&self, old: u8) -> u8 {
        let wait = self.to.wrapping_sub(self.from);
        wait.saturating_add(u32::from(old)).min(u32::from(STAMP_MAX)) as u8
    }

    fn may_leave(&self) -> Result<(), Refusal> {
        refuse_if(!ADDRESSES.contains(&self.address), Outgoing)
    }

    fn address_octets(&self) -> [u8; 2] {
        [(self.address >> 7 << 2) as u8, (self.address << 1 | 1) as u8]
    }
}

fn next_sequence(sequence: u8) -> u8 {
    if sequence == FOUR_BITS {
        1
    } else {
        sequence + 1
    }
}

/// What the origin makes a packet of.
#[derive(Clone, Copy, Debug)]
pub struct Packet<'a> {
    pub step: Step,
    pub coding: u8,
    pub noise: u8,
    pub samples: &'a [u8],
}

pub fn send(
    sseq: &mut u8, packet: &Packet, level: u8, departure: &Departure, out: &mut [u8],
) -> Result<usize, Refusal> {
    let &Packet { step, coding: number, noise, samples } = packet;
    refuse_if(*sseq > FOUR_BITS, Record)?;
    refuse_if((step == Step::Start) != (*sseq == 0), Burst)?;
    let coding = Coding::of(number).ok_or(Refusal::Coding)?;
    refuse_if(noise > FOUR_BITS, FourBits)?;
    let used_bits = samples.iter().fold(0, |bits, sample| bits | u16::from(*sample));
    refuse_if(samples.len() != SAMPLES || used_bits >> coding.sample_bits != 0, Samples)?;
    refuse_if(level > LEVEL_MAX, Level)?;
    departure.may_leave()?;
    let dropped = level.min(coding.droppable);
    let frame = out.get_mut(..coding.frame_length(dropped)).ok_or(Buffer)?;

    let more = if step == Step::Stop { 0 } else { MORE };
    let [upper, lower] = departure.address_octets();
    let dropping = coding.droppable << 4 | (coding.droppable - dropped);
    frame[..HEADER].copy_from_slice(&[
        upper,
        lower,
        VOICE,
        PROTOCOL,
        dropping,
        departure.stamp(0),
        more | number,
        *sseq << 4 | noise,
    ]);
    let voice_end = frame.len() - CHECK;
    pack(samples, coding.sample_bits, &mut frame[HEADER..voice_end]);
    seal(frame);
    *sseq = if step == Step::Stop { 0 } else { next_sequence(*sseq) };
    Ok(frame.len())
}

pub fn signal_write(bits: u8, na: u8, departure: &Departure, out: &mut [u8]) -> Result<usize, Refusal> {
    refuse_if(bits > FOUR_BITS || na > 1, FourBits)?;
    departure.may_leave()?;
    let frame = out.get_mut(..HEADER + CHECK).ok_or(Buffer)?;
    let [upper, lower] = departure.address_octets();
    frame[..HEADER].copy_from_slice(&[upper, lower, SIGNALLING, PROTOCOL, 0, departure.stamp(0), na, bits]);
    seal(frame);
    Ok(frame.len())
}

/// Reserved bits, and the more bit and sequence of a signalling frame, leave as they came.
pub fn forward(frame: &[u8], level: u8, departure: &Departure, out: &mut [u8]) -> Result<usize, Refusal> {
    refuse_if(level > LEVEL_MAX, Level)?;
    departure.may_leave()?;
    let (_, left) = node_form(frame)?;
    let dropped = level.min(left);
    let length = frame.len() - BLOCK * usize::from(dropped);
    let out = out.get_mut(..length).ok_or(Buffer)?;

    let kept = length - CHECK;
    out[..kept].copy_from_slice(&frame[..kept]);
    out[..2].copy_from_slice(&departure.address_octets());
    out[4] -= dropped;
    out[5] = departure.stamp(stamp_of(frame));
    seal(out);
    Ok(length)
}

// ---- Play-out ----

#[derive(Clone, Copy, Debug, PartialEq, Eq)]
pub struct Endpoint {
    pub build_out: u8,
    pub rseq: u8,
    pub last_clock: u64,
    pub end: u64,
    pub m_last: u8,
    pub last_noise: u8,
    /// The counts of A10. Each stops at 2^32-1, the last number of its type, so that none is out of range.
    pub scheduled: u32,
    pub late: u32,
    pub missing: u32,
}

impl Endpoint {
    pub const fn fresh(build_out: u8) -> Endpoint {
        Endpoint {
            build_out,
            rseq: 0,
            last_clock: 0,
            end: 0,
            m_last: 0,
            last_noise: 0,
            scheduled: 0,
            late: 0,
            missing: 0,
        }
    }

    fn in_range(&self) -> bool {
        self.build_out <= BUILD_OUT_MAX
            && self.rseq <= FOUR_BITS
            && self.last_clock <= CLOCK_MAX
            && self.end <= self.last_clock + AHEAD_MAX + PACKET_MS
            && self.m_last <= 1
            && self.last_noise <= FOUR_BITS
    }

    /// When a frame is to be played, or refusal 17 or 20.
    fn due(&self, sequence: u8, stamp: u8, clock: u64) -> Result<u64, Refusal> {
        let hold = self.build_out.checked_sub(stamp).ok_or(Late)?;
        let in_turn = sequence != 0 && sequence == self.rseq;
        refuse_if(in_turn && clock > self.end, Late)?;
        let due = if in_turn { self.end } else { self.end.max(clock + u64::from(hold)) };
        refuse_if(due > clock + AHEAD_MAX, Early)?;
        Ok(due)
    }
}

#[derive(Clone, Debug, PartialEq, Eq)]
pub struct Scheduled {
    pub due: u64,
    pub reset: bool,
    pub voice: Voice,
}

/// The least number of unscheduled packets that RSEQ and the sequence of a frame allow (A10).
pub fn missing_between(rseq: u8, sequence: u8) -> u8 {
    match (rseq, sequence) {
        (0, _) => sequence,
        // The stop.
        (_, 0) => 1,
        _ => {
            let burst_went_on = (sequence as i8 - rseq as i8).rem_euclid(15) as u8;
            let new_one_began = sequence + 1;
            burst_went_on.min(new_one_began)
        }
    }
}

pub fn arrive(endpoint: &mut Endpoint, frame: &[u8], clock: u64) -> Result<Scheduled, Refusal> {
    refuse_if(!endpoint.in_range(), Record)?;
    refuse_if(clock < endpoint.last_clock || clock > CLOCK_MAX, Clock)?;
    link_of_kind(frame, Kind::Voice)?;
    let blocks = voice_blocks(frame)?;

    // Received, even if it is not to be played: 17 and 20 leave these two stored (A2), and 17 is counted (A10).
    let (sequence, more) = (sequence_of(frame), more_of(frame));
    endpoint.m_last = more.into();
    endpoint.last_noise = noise_of(frame);
    let due = endpoint.due(sequence, stamp_of(frame), clock);
    endpoint.late = endpoint.late.saturating_add((due == Err(Late)).into());
    let due = due?;

    let missing = missing_between(endpoint.rseq, sequence);
    endpoint.scheduled = endpoint.scheduled.saturating_add(1);
    endpoint.missing = endpoint.missing.saturating_add(missing.into());
    endpoint.rseq = if more { next_sequence(sequence) } else { 0 };
    endpoint.last_clock = clock;
    endpoint.end = due + PACKET_MS;
    let reset = sequence == 0 && blocks.coding.resets;
    Ok(Scheduled { due, reset, voice: voice_of(frame, blocks) })
}

#[derive(Clone, Copy, Debug, PartialEq, Eq)]
pub struct Signals {
    pub bits: u8,
    pub na: u8,
    pub hold: u8,
}

pub fn signal_read(build_out: u8, frame: &[u8]) -> Result<Signals, Refusal> {
    refuse_if(build_out > BUILD_OUT_MAX, Record)?;
    link_of_kind(frame, Kind::Signalling)?;
    signalling_form(frame)?;
    let hold = build_out.checked_sub(stamp_of(frame)).ok_or(Late)?;
    Ok(Signals { bits: frame[7] & FOUR_BITS, na: frame[6] & 1, hold })
}

/// What is played where no packet came: 128 octets, or none where either slice is too short.
pub fn fill<'a>(last: &'a [u8], noise: &'a [u8], m_last: u8) -> &'a [u8] {
    match (last.get(..SAMPLES), noise.get(..SAMPLES)) {
        (Some(last), Some(_)) if m_last == 1 => last,
        (Some(_), Some(noise)) => noise,
        _ => &[],
    }
}

/// The level in dBmc0; none where the line is idle.
pub fn noise_level(code: u8) -> Result<Option<f64>, Refusal> {
    const TENTHS: [u16; 15] = [166, 197, 226, 249, 269, 290, 310, 328, 346, 362, 379, 397, 416, 438, 466];
    match code {
        0 => Ok(None),
        1..=15 => Ok(Some(f64::from(TENTHS[usize::from(code) - 1]) / 10.0)),
        _ => Err(FourBits),
    }
}

#[cfg(test)]
mod tests {
    use super::*;
    use crate::sseq::least_between;

    const AT_ONCE: Departure = Departure { from: 0, to: 0, address: 128 };

    fn waited(wait: u32) -> Departure {
        Departure { to: wait, ..AT_ONCE }
    }

    fn start(coding: u8, samples: &[u8], level: u8, departure: Departure) -> Result<Vec<u8>, Refusal> {
        let mut out = [0; 138];
        let packet = Packet { step: Step::Start, coding, noise: 3, samples };
        send(&mut 0, &packet, level, &departure, &mut out).map(|length| out[..length].to_vec())
    }

    fn pass(frame: &[u8], level: u8, departure: Departure) -> Result<Vec<u8>, Refusal> {
        let mut out = [0; 138];
        forward(frame, level, &departure, &mut out).map(|length| out[..length].to_vec())
    }

    fn type_1(stamp: u8, more: u8, sequence: u8, noise: u8) -> Vec<u8> {
        let mut frame = vec![0; 26];
        frame[..HEADER].copy_from_slice(&[4, 1, 239, 68, 0, stamp, more | 1, sequence << 4 | noise]);
        seal(&mut frame);
        frame
    }

    /// A voice frame of a burst that goes on, with noise 5.
    fn voice_frame(sequence: u8, stamp: u8) -> Vec<u8> {
        type_1(stamp, MORE, sequence, 5)
    }

    /// The last frame of a burst, with noise 9.
    fn stop_frame(sequence: u8, stamp: u8) -> Vec<u8> {
        type_1(stamp, 0, sequence, 9)
    }

    #[test]
    fn published_check_vectors() {
        assert_eq!(check_sequence(b"123456789"), 0x906E);
        assert_eq!(check_sequence(b""), 0);
        // The worked examples of ISO 3309: SABM to address 3 and UA from address 1.
        assert_eq!(check_sequence(&[0x03, 0x3F]).to_le_bytes(), [0x5B, 0xEC]);
        assert_eq!(check_sequence(&[0x01, 0x73]).to_le_bytes(), [0x83, 0x57]);
        // Octets and check together leave the remainder that the standard names.
        assert_eq!(!check_sequence(&[0x03, 0x3F, 0x5B, 0xEC]), 0xF0B8);
    }

    #[test]
    fn coding_table() {
        let bits = |number| Coding::of(number).map_or(0, |coding| coding.sample_bits);
        let table: Vec<u8> = (0..=32).map(bits).collect();
        assert_eq!(table[..14], [8, 1, 2, 3, 4, 5, 6, 7, 8, 8, 2, 3, 4, 5]);
        assert_eq!(table[14..], [0, 0, 0, 0, 0, 0, 4, 5, 0, 0, 8, 0, 0, 0, 0, 0, 0, 0, 0]);
        assert_eq!((Coding::of(21).unwrap().frame_length(0), Coding::of(21).unwrap().frame_length(3)), (90, 42));
    }

    #[test]
    fn blocks_are_where_the_document_puts_them() {
        for number in 0..32 {
            let Some(coding) = Coding::of(number) else { continue };
            let s = usize::from(coding.sample_bits);
            let samples: Vec<u8> = (0..128u32).map(|n| (n * 167 + 29) as u8 & (255 >> (8 - s))).collect();
            let frame = start(number, &samples, 0, AT_ONCE).unwrap();
            for b in 0..s {
                for n in 1..=128 {
                    let octet = 9 + 16 * b + (n - 1) / 8;
                    let bit = frame[octet - 1] >> ((n - 1) % 8) & 1;
                    assert_eq!(bit, samples[n - 1] >> (s - b - 1) & 1, "type {number}, block {b}, sample {n}");
                }
            }
            assert_eq!(read(&frame).unwrap().words, samples[..]);
        }
    }

    #[test]
    fn words_are_the_samples_divided_by_2_for_each_block_dropped() {
        for number in 0..32 {
            let Some(Coding { sample_bits, droppable, .. }) = Coding::of(number) else { continue };
            let samples: [u8; 128] = std::array::from_fn(|n| (n * 167 + 29) as u8 >> (8 - sample_bits));
            let whole = start(number, &samples, 0, AT_ONCE).unwrap();
            for level in 0..=LEVEL_MAX {
                let dropped = level.min(droppable);
                let words = samples.map(|sample| sample / (1 << dropped));
                let heard = Voice { sample_bits, dropped, width: sample_bits - dropped, words };
                let (at_origin, at_node) = (start(number, &samples, level, AT_ONCE), pass(&whole, level, AT_ONCE));
                for frame in [at_origin.unwrap(), at_node.unwrap()] {
                    assert_eq!(read(&frame).unwrap(), heard, "type {number}, level {level}");
                    let scheduled = arrive(&mut Endpoint::fresh(100), &frame, 0).unwrap();
                    assert_eq!(scheduled.voice, heard, "type {number}, level {level}");
                }
            }
        }
    }

    #[test]
    fn origin_and_node_examples() {
        let samples = [31; 128];
        let frame = start(21, &samples, 0, waited(7)).unwrap();
        assert_eq!((&frame[..8], frame.len()), (&[4, 1, 239, 68, 51, 7, 149, 3][..], 90));
        let one = pass(&frame, 1, AT_ONCE).unwrap();
        assert_eq!((one[4], one.len()), (50, 74));
        let three = pass(&frame, 3, AT_ONCE).unwrap();
        assert_eq!((three[4], three.len()), (48, 42));
        assert_eq!(read(&three).unwrap(), Voice { sample_bits: 5, dropped: 3, width: 2, words: [3; 128] });

        let mut few = [0; 128];
        few[..3].copy_from_slice(&[2, 1, 3]);
        let frame = start(2, &few, 0, AT_ONCE).unwrap();
        assert_eq!((frame[8], frame[24]), (5, 6));
    }

    #[test]
    fn address_examples() {
        let to = |address| start(1, &[0; 128], 0, Departure { address, ..AT_ONCE });
        assert_eq!(to(8063).unwrap()[..2], [248, 255]);
        assert_eq!(to(8064), Err(Outgoing));
        assert_eq!(to(127), Err(Outgoing));
    }

    #[test]
    fn stamp_examples() {
        let rolled_over = Departure { from: 4294967290, to: 4, address: 128 };
        assert_eq!(rolled_over.stamp(0), 10);
        assert_eq!((waited(1).stamp(199), waited(1).stamp(200), waited(256).stamp(0)), (200, 200, 200));
        assert_eq!(Departure { from: 1, to: 0, address: 128 }.stamp(200), 200);
    }

    #[test]
    fn play_out_examples() {
        let mut endpoint = Endpoint::fresh(100);
        let mut due = |clock, sequence, stamp| {
            arrive(&mut endpoint, &voice_frame(sequence, stamp), clock).map(|scheduled| scheduled.due)
        };
        assert_eq!(due(1000, 0, 30), Ok(1070));
        assert_eq!(due(1010, 1, 24), Ok(1086));
        assert_eq!(due(1050, 3, 20), Ok(1130));
        let before = endpoint;
        assert_eq!(arrive(&mut endpoint, &stop_frame(4, 100), 1147), Err(Late));
        assert_eq!(endpoint, Endpoint { m_last: 0, last_noise: 9, late: 1, ..before });
        assert_eq!(arrive(&mut endpoint, &voice_frame(4, 100), 1146).unwrap().due, 1146);
    }

    /// Two packets of a burst came, and its third is to follow.
    const TALKING: Endpoint = Endpoint {
        build_out: 100,
        rseq: 2,
        last_clock: 1010,
        end: 1102,
        m_last: 1,
        last_noise: 5,
        scheduled: 2,
        late: 0,
        missing: 0,
    };

    /// The counts in their order: scheduled, late, missing.
    fn counts(endpoint: &Endpoint) -> [u32; 3] {
        [endpoint.scheduled, endpoint.late, endpoint.missing]
    }

    #[test]
    fn a_stop_packet_counts_though_it_is_not_played() {
        let mut talking = Endpoint::fresh(100);
        arrive(&mut talking, &voice_frame(0, 30), 1000).unwrap();
        arrive(&mut talking, &voice_frame(1, 24), 1010).unwrap();
        assert_eq!(talking, TALKING);
        // Sixteen packets that come all at once are as many as can wait.
        let mut clump = Endpoint::fresh(199);
        (0..16).for_each(|sequence| assert!(arrive(&mut clump, &voice_frame(sequence, 0), 1000).is_ok()));
        assert_eq!((clump.rseq, clump.end, clump.m_last), (1, 1455, 1));
        assert_eq!(counts(&clump), [16, 0, 0]);

        let (last, noise) = ([1; 128], [2; 128]);
        for (before, sequence, stamp, clock, refusal) in [
            // Stamp above B, in turn or not.
            (talking, 2, 101, 1020, Late),
            (talking, 3, 200, 1020, Late),
            // In turn, but what it follows has been played.
            (talking, 2, 24, 1103, Late),
            // Too far ahead, in turn or not.
            (clump, 1, 0, 1000, Early),
            (clump, 3, 199, 1015, Early),
        ] {
            let mut endpoint = before;
            let late = u32::from(refusal == Late);
            assert_eq!(arrive(&mut endpoint, &stop_frame(sequence, stamp), clock), Err(refusal));
            assert_eq!(endpoint, Endpoint { m_last: 0, last_noise: 9, late, ..before });
            assert_eq!(fill(&last, &noise, endpoint.m_last), noise);
            // As late, but of a burst that goes on: the packet is missed, and the last one is repeated.
            assert_eq!(arrive(&mut endpoint, &voice_frame(sequence, stamp), clock), Err(refusal));
            assert_eq!(endpoint, Endpoint { m_last: 1, last_noise: 5, late: 2 * late, ..before });
            assert_eq!(fill(&last, &noise, endpoint.m_last), last);
        }
    }

    #[test]
    fn missing_is_the_least_that_the_origin_can_have_sent() {
        for rseq in 0..=15 {
            for sequence in 0..=15 {
                let (missing, pair) = (missing_between(rseq, sequence), format!("RSEQ {rseq}, sequence {sequence}"));
                assert_eq!(missing, least_between(rseq, sequence), "{pair}");
                for frame in [voice_frame(sequence, 24), stop_frame(sequence, 24)] {
                    let mut endpoint = Endpoint { rseq, late: 7, missing: 9, ..TALKING };
                    assert!(arrive(&mut endpoint, &frame, 1020).is_ok());
                    assert_eq!(counts(&endpoint), [3, 7, 9 + u32::from(missing)], "{pair}");
                }
            }
        }
    }

    #[test]
    fn counts_from_a_fresh_record_on() {
        let mut endpoint = Endpoint::fresh(100);
        assert_eq!(counts(&endpoint), [0, 0, 0]);
        for (clock, frame, number, right) in [
            (1000, voice_frame(0, 24), 0, [1, 0, 0]),
            (1016, voice_frame(1, 24), 0, [2, 0, 0]),
            // 2 and 3 are lost.
            (1064, voice_frame(4, 24), 0, [3, 0, 2]),
            // 5 is late, and missing once a later one is scheduled.
            (1080, voice_frame(5, 101), 17, [3, 1, 2]),
            (1096, voice_frame(6, 24), 0, [4, 1, 3]),
            // The same again, as if the burst had ended and another had come as far; damaged it counts nothing.
            (1100, voice_frame(6, 24), 0, [5, 1, 10]),
            (1100, voice_frame(6, 24)[1..].to_vec(), 2, [5, 1, 10]),
            // In turn, but what it follows has been played. The clock of the call before goes back behind it.
            (1205, stop_frame(7, 24), 17, [5, 2, 10]),
            (1099, stop_frame(7, 24), 18, [5, 2, 10]),
            (1204, stop_frame(7, 24), 0, [6, 2, 10]),
            // START and 1 of the next burst are lost, and then its stop; START of another comes.
            (1500, voice_frame(2, 24), 0, [7, 2, 12]),
            (1600, voice_frame(0, 24), 0, [8, 2, 13]),
            (1616, voice_frame(1, 24), 0, [9, 2, 13]),
            // Its stop is lost with the START after it; and of the burst twelve, 2 to 13.
            (1700, voice_frame(1, 24), 0, [10, 2, 15]),
            (1900, voice_frame(14, 24), 0, [11, 2, 27]),
            // 15 is lost, and 1 follows it.
            (1932, voice_frame(1, 24), 0, [12, 2, 28]),
        ] {
            let answered = arrive(&mut endpoint, &frame, clock).map_or_else(|refusal| refusal as u8, |_| 0);
            assert_eq!((answered, counts(&endpoint)), (number, right), "clock {clock}, {frame:?}");
        }
    }

    #[test]
    fn each_count_stops_at_its_limit() {
        for (count, plus_1, plus_2, plus_5) in [
            (0, 1, 2, 5),
            (4294967290, 4294967291, 4294967292, 4294967295),
            (4294967293, 4294967294, 4294967295, 4294967295),
            (4294967294, 4294967295, 4294967295, 4294967295),
            (4294967295, 4294967295, 4294967295, 4294967295),
        ] {
            let before = Endpoint { scheduled: count, late: count, missing: count, ..TALKING };
            let after = |frame: &[u8], clock| {
                let mut endpoint = before;
                let answered = arrive(&mut endpoint, frame, clock);
                (answered.err(), counts(&endpoint))
            };
            assert_eq!(after(&voice_frame(2, 24), 1020), (None, [plus_1, count, count]));
            assert_eq!(after(&voice_frame(0, 24), 1020), (None, [plus_1, count, plus_1]));
            assert_eq!(after(&voice_frame(4, 24), 1020), (None, [plus_1, count, plus_2]));
            assert_eq!(after(&voice_frame(7, 24), 1020), (None, [plus_1, count, plus_5]));
            assert_eq!(after(&voice_frame(7, 101), 1020), (Some(Late), [count, plus_1, count]));
            assert_eq!(after(&voice_frame(2, 24), 1103), (Some(Late), [count, plus_1, count]));
            assert_eq!(after(&voice_frame(7, 24), 1009), (Some(Clock), [count; 3]));
            assert_eq!(after(&voice_frame(7, 201), 1020), (Some(Stamp), [count; 3]));

            let mut ahead = Endpoint { end: 1010 + 455, ..before };
            assert_eq!(arrive(&mut ahead, &voice_frame(7, 24), 1025), Err(Early));
            assert_eq!(counts(&ahead), [count; 3]);
        }
    }

    #[test]
    fn every_other_refusal_leaves_the_record() {
        // The more bit and the noise are not the record's, and the frame is late besides.
        let stop = stop_frame(2, 101);
        let refused = |before: Endpoint, frame: &[u8], clock| {
            let mut after = before;
            let refusal = arrive(&mut after, frame, clock).unwrap_err();
            assert_eq!(after, before);
            refusal
        };
        for out_of_range in [
            Endpoint { build_out: 200, ..TALKING },
            Endpoint { rseq: 16, ..TALKING },
            Endpoint { last_clock: CLOCK_MAX + 1, ..TALKING },
            Endpoint { end: 1010 + 456, ..TALKING },
            Endpoint { m_last: 2, ..TALKING },
            Endpoint { last_noise: 16, ..TALKING },
        ] {
            assert_eq!(refused(out_of_range, &stop, 1020), Record);
        }
        assert_eq!(refused(TALKING, &stop, 1009), Clock);
        assert_eq!(refused(TALKING, &stop, CLOCK_MAX + 1), Clock);

        let changed = |octet: usize, to: u8, length| {
            let mut frame = stop.clone();
            frame[octet - 1] = to;
            frame.resize(length, 0);
            seal(&mut frame);
            frame
        };
        let mut wrong_check = stop.clone();
        wrong_check[25] ^= 1;
        for (frame, refusal) in [
            (stop[..9].to_vec(), FrameSize),
            (changed(4, 68, 491), FrameSize),
            (changed(1, 5, 26), Address),
            (changed(3, 7, 26), Control),
            (changed(1, 4 | COMMAND_RESPONSE, 26), CommandOrPoll),
            (changed(3, VOICE | POLL, 26), CommandOrPoll),
            (wrong_check, Check),
            (changed(4, 67, 26), Protocol),
            (changed(3, 3, 10), OtherKind),
            (changed(7, 14, 26), Refusal::Coding),
            (changed(5, 1, 26), Dropping),
            (changed(4, 68, 42), Length),
            (changed(6, 201, 26), Stamp),
        ] {
            assert_eq!(refused(TALKING, &frame, 1020), refusal);
        }
    }

    fn signalling_frame() -> Vec<u8> {
        let mut out = vec![0; 10];
        signal_write(10, 1, &waited(24), &mut out).unwrap();
        out
    }

    #[test]
    fn command_and_poll_bits_are_judged_after_3_and_before_4() {
        let refusals = |frame: &[u8]| {
            [
                pass(frame, 0, AT_ONCE).unwrap_err(),
                read(frame).unwrap_err(),
                arrive(&mut TALKING.clone(), frame, 1020).unwrap_err(),
                signal_read(100, frame).unwrap_err(),
                link(frame).unwrap_err(),
                taken(frame).unwrap_err(),
            ]
        };
        for mut frame in [voice_frame(2, 24), signalling_frame()] {
            assert!(taken(&frame).is_ok());
            frame[0] |= COMMAND_RESPONSE;
            seal(&mut frame);
            assert_eq!(refusals(&frame), [CommandOrPoll; 6]);
            frame[2] |= POLL;
            seal(&mut frame);
            assert_eq!(refusals(&frame), [CommandOrPoll; 6]);
            frame[0] &= !COMMAND_RESPONSE;
            seal(&mut frame);
            assert_eq!(refusals(&frame), [CommandOrPoll; 6]);

            // What a call asks before it looks at the frame.
            assert_eq!(pass(&frame, 4, AT_ONCE), Err(Level));
            assert_eq!(pass(&frame, 0, Departure { address: 127, ..AT_ONCE }), Err(Outgoing));
            assert_eq!(arrive(&mut Endpoint::fresh(200), &frame, 1020), Err(Record));
            assert_eq!(arrive(&mut TALKING.clone(), &frame, 1009), Err(Clock));
            assert_eq!(signal_read(200, &frame), Err(Record));

            // Octet 4 and the check wrong besides, then octet 3, then octet 2, then the length.
            frame[3] = 67;
            assert_eq!(refusals(&frame), [CommandOrPoll; 6]);
            frame[2] ^= 4;
            assert_eq!(refusals(&frame), [Control; 6]);
            frame[1] ^= 1;
            assert_eq!(refusals(&frame), [Address; 6]);
            frame.truncate(9);
            assert_eq!(refusals(&frame), [FrameSize; 6]);
        }
    }

    #[test]
    fn other_bits_that_a_writer_sets_to_0_are_ignored_and_passed_on() {
        let with = |frame: &[u8], bits: [u8; 8]| {
            let mut frame = frame.to_vec();
            frame.iter_mut().zip(bits).for_each(|(octet, bits)| *octet |= bits);
            seal(&mut frame);
            frame
        };
        // Reserved bits; of signalling the more bit and the sequence too.
        for (frame, bits) in [
            (voice_frame(2, 24), [0, 0, 0, 0, 0xCC, 0, 0x60, 0]),
            (signalling_frame(), [0, 0, 0, 0, 0xCC, 0, 0x7E | MORE, 0xF0]),
        ] {
            let set = with(&frame, bits);
            let arrived = |frame: &[u8]| {
                let mut endpoint = TALKING;
                (arrive(&mut endpoint, frame, 1020), endpoint)
            };
            assert_eq!(read(&set), read(&frame));
            assert_eq!(arrived(&set), arrived(&frame));
            assert_eq!(signal_read(100, &set), signal_read(100, &frame));
            assert_eq!((link(&set), taken(&set)), (link(&frame), taken(&frame)));
            let departure = Departure { address: 8063, ..waited(7) };
            assert_eq!(pass(&set, 1, departure).unwrap(), with(&pass(&frame, 1, departure).unwrap(), bits));
        }
    }

    #[test]
    fn late_examples() {
        let plays = |build_out, stamp| arrive(&mut Endpoint::fresh(build_out), &voice_frame(0, stamp), 0).is_ok();
        assert!(plays(100, 100) && !plays(100, 101));
        assert!((0..=199).all(|build_out| !plays(build_out, 200)));
    }

    #[test]
    fn sequence_goes_round_without_zero() {
        let mut sseq = 0;
        let mut sent = Vec::new();
        for step in std::iter::once(Step::Start).chain([Step::Data; 16]).chain([Step::Stop]) {
            let mut out = [0; 26];
            let packet = Packet { step, coding: 1, noise: 0, samples: &[0; 128] };
            send(&mut sseq, &packet, 0, &AT_ONCE, &mut out).unwrap();
            sent.push(sequence_of(&out));
        }
        assert_eq!(sent, [0, 1, 2, 3, 4, 5, 6, 7, 8, 9, 10, 11, 12, 13, 14, 15, 1, 2]);
        assert_eq!(sseq, 0);
    }

    #[test]
    fn signalling_example() {
        let mut out = [0; 12];
        let departure = Departure { address: 129, ..AT_ONCE };
        assert_eq!(signal_write(10, 0, &departure, &mut out), Ok(10));
        assert_eq!((&out[..8], &out[10..]), (&[4, 3, 3, 68, 0, 0, 0, 10][..], &[0, 0][..]));
        assert_eq!(signal_read(70, &out[..10]), Ok(Signals { bits: 10, na: 0, hold: 70 }));
        assert_eq!(read(&out[..10]), Err(OtherKind));
    }

    #[test]
    fn fill_and_noise() {
        let (last, noise) = ([1; 130], [2; 128]);
        assert_eq!(fill(&last, &noise, 1), [1; 128]);
        assert_eq!(fill(&last, &noise, 2), [2; 128]);
        assert_eq!(fill(&last, &noise[1..], 1), []);
        assert_eq!(fill(&last[3..], &noise, 0), []);
        assert_eq!([0, 1, 15].map(noise_level), [Ok(None), Ok(Some(16.6)), Ok(Some(46.6))]);
        assert_eq!(noise_level(16), Err(FourBits));
    }

    /// The walk that document 01 prints.
    #[test]
    fn walk_example() {
        let facts = |frame: &[u8]| (frame.len(), stamp_of(frame), frame[4] & 3);
        let first = start(21, &[31; 128], 0, waited(7)).unwrap();
        let second = pass(&first, 1, waited(150)).unwrap();
        let third = pass(&second, 1, waited(60)).unwrap();
        assert_eq!([facts(&first), facts(&second), facts(&third)], [(90, 7, 3), (74, 157, 2), (58, 200, 1)]);
        assert_eq!(pass(&third, 4, AT_ONCE), Err(Level));
        assert_eq!(arrive(&mut Endpoint::fresh(100), &third, 1000), Err(Late));
    }
}
