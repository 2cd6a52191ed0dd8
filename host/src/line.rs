//! Request A4 of document 02 in plain Rust, bit by bit: the flags and zero bits below the frames,
//! written without a look at the proved code.
//!
//! A line is octets and a count of bits; its bit i is bit i % 8, lowest first, of octet i / 8.

use crate::document::Refusal::{self, Abort, Buffer, FrameSize, PartOctet, Record};
use crate::document::{refuse_if, FRAME_SIZES};

const FLAG: [bool; 8] = [false, true, true, true, true, true, true, false];
/// So many ones in a row have a zero put in behind them.
const ONES: usize = 5;
/// So many between two zeros are a flag.
const FLAG_ONES: usize = 6;
/// So many end what a flag has opened.
const ABORT_ONES: usize = 7;

fn bit(octets: &[u8], at: usize) -> bool {
    octets[at / 8] >> (at % 8) & 1 == 1
}

fn put(octets: &mut [u8], at: usize, bit: bool) {
    let others = octets[at / 8] & !(1 << (at % 8));
    octets[at / 8] = others | u8::from(bit) << (at % 8);
}

/// Asked in octets: eight times a length may be too great a number.
fn holds(line: &[u8], count: usize) -> bool {
    count.div_ceil(8) <= line.len()
}

// ---- Writing ----

/// Hands on a frame's bits, with a zero behind each five ones.
fn stuff(frame: &[u8], mut hand: impl FnMut(bool)) {
    let mut ones = 0;
    for at in 0..8 * frame.len() {
        let bit = bit(frame, at);
        hand(bit);
        ones = if bit { ones + 1 } else { 0 };
        if ones == ONES {
            hand(false);
            ones = 0;
        }
    }
}

/// Puts a frame on a line and gives the count after. Only an empty line gets an opening flag.
pub fn add(line: &mut [u8], count: usize, frame: &[u8]) -> Result<usize, Refusal> {
    refuse_if(!holds(line, count), Record)?;
    refuse_if(!FRAME_SIZES.contains(&frame.len()), FrameSize)?;
    let opening: &[bool] = if count == 0 { &FLAG } else { &[] };
    let mut taken = opening.len() + FLAG.len();
    stuff(frame, |_| taken += 1);
    let after = count.checked_add(taken).filter(|after| holds(line, *after)).ok_or(Buffer)?;

    let mut at = count;
    let mut hand = |bit| {
        put(line, at, bit);
        at += 1;
    };
    opening.iter().for_each(|bit| hand(*bit));
    stuff(frame, &mut hand);
    FLAG.into_iter().for_each(hand);
    Ok(after)
}

// ---- Reading ----

/// A frame that was copied out: its octets, and where its closing flag begins.
#[derive(Clone, Copy, Debug, PartialEq, Eq)]
pub struct Frame {
    pub length: usize,
    pub end: usize,
}

/// A stretch that is no frame, and where its closing flag or seven ones begin; 0 after 14 and 16.
#[derive(Clone, Copy, Debug, PartialEq, Eq)]
pub struct Unread {
    pub refusal: Refusal,
    pub end: usize,
}

/// What one flag opens and the next, or seven ones, end.
#[derive(Clone, Debug, PartialEq, Eq)]
pub struct Stretch {
    /// Without the zeros put in.
    pub bits: Vec<bool>,
    pub end: usize,
    pub aborted: bool,
}

/// The first from a place on; the line holds the count. It goes over the bits once, as a receiver does that
/// gets them one by one.
pub fn stretch(line: &[u8], count: usize, place: usize) -> Option<Stretch> {
    // What came since the last flag, and how much of it before the last zero: if a flag begins on that
    // zero, the rest is the flag's own.
    let (mut open, mut bits, mut before_zero) = (false, Vec::new(), 0);
    // The ones since the last zero. Before the first zero they are no flag's, however few.
    let mut ones = ABORT_ONES;
    for at in place..count {
        match (bit(line, at), ones) {
            (false, FLAG_ONES) => {
                bits.truncate(before_zero);
                if !bits.is_empty() {
                    return Some(Stretch { bits, end: at - FLAG_ONES - 1, aborted: false });
                }
                (open, ones) = (true, 0);
            }
            (false, _) => {
                before_zero = bits.len();
                if open && ones != ONES {
                    bits.push(false);
                }
                ones = 0;
            }
            (true, _) => {
                ones += 1;
                if open {
                    bits.push(true);
                }
                if open && ones == ABORT_ONES {
                    bits.truncate(bits.len() - ABORT_ONES);
                    return Some(Stretch { bits, end: at + 1 - ABORT_ONES, aborted: true });
                }
            }
        }
    }
    None
}

/// Copies the next frame from a place on to the front of `out`.
pub fn next(line: &[u8], count: usize, place: usize, out: &mut [u8]) -> Result<Option<Frame>, Unread> {
    let refused = |refusal, end| Err(Unread { refusal, end });
    if !holds(line, count) || place > count {
        return refused(Record, 0);
    }
    let Some(Stretch { bits, end, aborted }) = stretch(line, count, place) else { return Ok(None) };
    let length = bits.len() / 8;
    if bits.len() % 8 != 0 {
        return refused(PartOctet, end);
    }
    if aborted {
        return refused(Abort, end);
    }
    if !FRAME_SIZES.contains(&length) {
        return refused(FrameSize, end);
    }
    let Some(frame) = out.get_mut(..length) else { return refused(Buffer, 0) };
    for (at, bit) in bits.into_iter().enumerate() {
        put(frame, at, bit);
    }
    Ok(Some(Frame { length, end }))
}

#[cfg(test)]
mod tests {
    use super::*;

    const F: &str = "01111110";
    /// Ten octets without five ones in a row.
    const TEN: [u8; 10] = [0x55, 0xAA, 0x1E, 0x00, 0x33, 0xC3, 0x81, 0x18, 0x77, 0x01];
    const UNUSED: u8 = 0x99;

    /// A line of bits given as text, blanks aside, and their count.
    fn line(text: &str) -> (Vec<u8>, usize) {
        let bits: Vec<bool> = text.chars().filter(|sign| *sign != ' ').map(|sign| sign == '1').collect();
        let mut octets = vec![0; bits.len().div_ceil(8)];
        bits.iter().enumerate().for_each(|(at, bit)| put(&mut octets, at, *bit));
        (octets, bits.len())
    }

    fn text(bits: impl Iterator<Item = bool>) -> String {
        bits.map(|bit| if bit { '1' } else { '0' }).collect()
    }

    fn stuffed(frame: &[u8]) -> String {
        let mut bits = Vec::new();
        stuff(frame, |bit| bits.push(bit));
        text(bits.into_iter())
    }

    fn ten() -> String {
        stuffed(&TEN)
    }

    /// A frame, and where its closing flag begins.
    type Octets = (Vec<u8>, usize);

    /// What is read from a place on.
    fn read(from: &str, place: usize) -> Result<Option<Octets>, (Refusal, usize)> {
        let ((octets, count), mut out) = (line(from), [UNUSED; 500]);
        let result = next(&octets, count, place, &mut out);
        let written = if let Ok(Some(frame)) = result { frame.length } else { 0 };
        assert!(out[written..].iter().all(|octet| *octet == UNUSED));
        result
            .map(|found| found.map(|frame| (out[..frame.length].to_vec(), frame.end)))
            .map_err(|unread| (unread.refusal, unread.end))
    }

    #[test]
    fn zeros_are_put_in_behind_five_ones() {
        assert_eq!(ten().len(), 80);
        // Also across two octets, and where the five ones end the frame.
        for (frame, bits) in [
            ([0x1F, 0x0F], "11111 0 000 11110000"),
            ([0x3F, 0x7F], "11111 0 100 11111 0 110"),
            ([0xFF, 0x03], "11111 0 111 11 0 000000"),
            ([0xF0, 0x01], "00001111 1 0 0000000"),
            ([0x00, 0xF8], "00000000 00011111 0"),
            ([0x00, 0xF0], "00000000 00001111"),
        ] {
            assert_eq!(stuffed(&frame), bits.replace(' ', ""), "{frame:?}");
        }
        assert_eq!(stuffed(&[0xFF; 490]), "111110".repeat(784));
    }

    #[test]
    fn only_an_empty_line_gets_an_opening_flag() {
        let mut octets = [UNUSED; 40];
        assert_eq!(add(&mut octets, 0, &TEN), Ok(96));
        assert_eq!(add(&mut octets, 96, &[0xFF; 10]), Ok(96 + 96 + 8));
        let both = format!("{F}{}{F}{}{F}", ten(), "111110".repeat(16));
        assert_eq!(text((0..200).map(|at| bit(&octets, at))), both);
        assert_eq!(octets[25..], [UNUSED; 15]);
    }

    #[test]
    fn bits_beside_those_written_are_left() {
        for (count, around) in (1..64).flat_map(|count| [(count, 0x00), (count, 0xFF), (count, UNUSED)]) {
            let mut octets = [around; 24];
            let after = add(&mut octets, count, &TEN).unwrap();
            assert_eq!(after, count + 88);
            assert_eq!(text((count..after).map(|at| bit(&octets, at))), ten() + F);
            assert!((0..count).chain(after..192).all(|at| bit(&octets, at) == bit(&[around; 24], at)));
        }
    }

    #[test]
    fn the_writer_refuses_in_its_order() {
        let refused = |length, count, frame: &[u8]| {
            let mut octets = vec![UNUSED; length];
            let refusal = add(&mut octets, count, frame).unwrap_err();
            assert_eq!(octets, vec![UNUSED; length]);
            refusal
        };
        for count in [1, 8, 1 << 61, (1 << 61) + 1, usize::MAX - 7, usize::MAX] {
            assert_eq!(refused(0, count, &[]), Record);
        }
        assert_eq!(refused(3, 25, &[0; 9]), Record);
        for length in [0, 9, 491, 1 << 20] {
            assert_eq!(refused(3, 24, &vec![0; length]), FrameSize);
        }
        assert_eq!(refused(3, 24, &[0; 10]), Buffer);
        // Room for all but the last bit of the closing flag; and for all.
        assert_eq!(refused(11, 1, &TEN), Buffer);
        assert_eq!(refused(11, 0, &TEN), Buffer);
        assert_eq!(add(&mut [0; 12], 0, &TEN), Ok(96));
        assert_eq!(add(&mut [0; 12], 8, &TEN), Ok(96));
        assert_eq!(refused(12, 9, &TEN), Buffer);
    }

    #[test]
    fn frames_read_back_with_nothing_between() {
        let squares = |length| (0..length).map(|n: usize| (n * n) as u8).collect::<Vec<u8>>();
        let frames: Vec<Vec<u8>> = (10..=490).step_by(16).map(squares).chain([vec![0xFF; 490]]).collect();
        let (mut octets, mut count) = (vec![UNUSED; 20_000], 0);
        for frame in &frames {
            count = add(&mut octets, count, frame).unwrap();
        }
        let (mut place, mut out) = (0, [0; 490]);
        for frame in &frames {
            let found = next(&octets, count, place, &mut out).unwrap().unwrap();
            assert_eq!(out[..found.length], frame[..]);
            place = found.end;
        }
        assert_eq!((next(&octets, count, place, &mut out), place), (Ok(None), count - 8));
    }

    #[test]
    fn flags_between_frames() {
        let ten = ten();
        // One flag between, two, and two and four that share zeros.
        let last = "1111110";
        for between in [F.to_string(), [F, F].concat(), [F, last].concat(), [F, last, last, last].concat()] {
            let line = format!("{F}{ten}{between}{ten}{F}");
            assert_eq!(read(&line, 0), Ok(Some((TEN.to_vec(), 88))), "{between}");
            assert_eq!(read(&line, 88), Ok(Some((TEN.to_vec(), 88 + between.len() + 80))), "{between}");
            assert_eq!(read(&line, 88 + between.len() + 80), Ok(None));
        }
        // Flags with nothing between are no frame, shared zeros or not.
        assert_eq!(read(&F.repeat(9), 0), Ok(None));
        assert_eq!(read(&("0".to_string() + &last.repeat(9)), 0), Ok(None));
    }

    #[test]
    fn a_place_inside_a_flag() {
        let line = format!("{F}{}{F}", ten());
        for place in 1..=line.len() {
            assert_eq!(read(&line, place), Ok(None), "{place}");
        }
        assert_eq!(read(&line, line.len() + 1), Err((Record, 0)));
        // The second of two that share a zero is seen from there.
        let line = format!("0111111{F}{}{F}", ten());
        assert_eq!((0..=7).map(|place| read(&line, place)).collect::<Vec<_>>(), vec![Ok(Some((TEN.to_vec(), 95))); 8]);
        assert_eq!(read(&line, 8), Ok(None));
    }

    #[test]
    fn aborts() {
        let ten = ten();
        // Directly behind the opening flag: no bits are no part of an octet.
        assert_eq!(read(&format!("{F}1111111"), 0), Err((Abort, 8)));
        assert_eq!(read(&format!("{F}111111111111{F}"), 0), Err((Abort, 8)));
        // Behind whole octets and behind a part of one; after that the next flag opens.
        let line = format!("{F}{ten}1111111111{F}{ten}{F}");
        assert_eq!(read(&line, 0), Err((Abort, 88)));
        assert_eq!(read(&line, 88), Ok(Some((TEN.to_vec(), 186))));
        assert_eq!(read(&format!("{F}{ten}01111111{F}"), 0), Err((PartOctet, 89)));
        // The zero that ends the seven ones begins a flag.
        assert_eq!(read(&format!("{F}{ten}1111111{F}{ten}{F}"), 88), Ok(Some((TEN.to_vec(), 183))));
        // Six ones are no abort, and at the count's end nothing.
        assert_eq!(read(&format!("{F}{ten}111111"), 0), Ok(None));
        assert_eq!(read(&format!("{F}{ten}0111111"), 0), Ok(None));
        assert_eq!(read(&format!("{F}{ten}{F}")[..95], 0), Ok(None));
        // Before any flag they are passed over.
        assert_eq!(read(&format!("111111111111{F}{ten}{F}"), 0), Ok(Some((TEN.to_vec(), 100))));
    }

    #[test]
    fn ones_before_a_closing_flag() {
        // Without a zero between all five are the frame's.
        let nine = stuffed(&TEN[..9]);
        let frame = [&TEN[..9], &[0xF8]].concat();
        assert_eq!(read(&format!("{F}{nine}00011111{F}"), 0), Ok(Some((frame.clone(), 88))));
        assert_eq!(read(&format!("{F}{nine}000111110{F}"), 0), Ok(Some((frame, 89))));
        assert_eq!(read(&format!("{F}{nine}0001111{F}"), 0), Err((PartOctet, 87)));
    }

    #[test]
    fn the_reader_refuses_in_its_order() {
        let octets = |count: usize| stuffed(&vec![0; count]);
        for count in [0, 1, 9, 491, 1000] {
            let end = 8 + 8 * count;
            for more in 1..8 {
                let part = "0".repeat(more);
                assert_eq!(read(&format!("{F}{}{part}{F}", octets(count)), 0), Err((PartOctet, end + more)));
                assert_eq!(read(&format!("{F}{}{part}1111111", octets(count)), 0), Err((PartOctet, end + more)));
            }
            assert_eq!(read(&format!("{F}{}1111111", octets(count)), 0), Err((Abort, end)));
            if count > 0 {
                assert_eq!(read(&format!("{F}{}{F}", octets(count)), 0), Err((FrameSize, end)));
            }
        }
        for count in [10, 490] {
            let ((octets, bits), mut out) = (line(&format!("{F}{}{F}", octets(count))), vec![UNUSED; count]);
            let short = next(&octets, bits, 0, &mut out[1..]);
            assert_eq!((short, &out), (Err(Unread { refusal: Buffer, end: 0 }), &vec![UNUSED; count]));
            assert_eq!(next(&octets, bits, 0, &mut out), Ok(Some(Frame { length: count, end: 8 + 8 * count })));
            assert_eq!(out, vec![0; count]);
        }
    }

    #[test]
    fn counts_and_places_past_their_end() {
        let (mut out, past) = ([0; 490], Err(Unread { refusal: Record, end: 0 }));
        for far in [1, 2, 8, 1 << 32, 1 << 61, 1 << 63, usize::MAX - 100] {
            assert_eq!(next(&[0x7E; 12], 96 + far, 0, &mut out), past);
            assert_eq!(next(&[0x7E; 12], 96, 96 + far, &mut out), past);
            assert_eq!(next(&[0x7E; 12], 50, 50 + far, &mut out), past);
        }
        assert_eq!(next(&[], 1, usize::MAX, &mut out), past);
        assert_eq!(next(&[], 0, 0, &mut []), Ok(None));
        assert_eq!(next(&[0x7E; 12], 96, 96, &mut []), Ok(None));
    }
}
