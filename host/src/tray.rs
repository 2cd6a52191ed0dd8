//! Request A8 of document 02 in plain Rust: a tray of frames sent on in one call, written without a look at the
//! proved code.
//!
//! A tray is records, one behind the other and nothing else: a length, counting what follows it, and a kind, both two
//! octets with the low one first, and then the frame.

use crate::document::Refusal::{self, Tray};
use crate::document::{self, refuse_if, Departure};
use crate::Calls;

/// The octets of a record before its frame. Its length counts the last two of them, the kind.
pub const HEAD: usize = 4;
const KIND_OCTETS: usize = 2;
/// The one kind that there is.
pub const FRAME: u16 = 1;

/// What became of a tray: its records, and the octets written.
#[derive(Clone, Copy, Debug, PartialEq, Eq)]
pub struct Passed {
    pub records: usize,
    pub written: usize,
}

/// The frames of a tray, in their order. They end before what is no record, which is then left.
struct Frames<'a> {
    left: &'a [u8],
}

impl<'a> Iterator for Frames<'a> {
    type Item = &'a [u8];

    fn next(&mut self) -> Option<&'a [u8]> {
        let (&[low, high, ref kind @ ..], behind) = self.left.split_first_chunk::<HEAD>()?;
        if u16::from_le_bytes(*kind) != FRAME {
            return None;
        }
        let length = usize::from(u16::from_le_bytes([low, high])).checked_sub(KIND_OCTETS)?;
        let (frame, left) = behind.split_at_checked(length)?;
        self.left = left;
        Some(frame)
    }
}

/// How many records a tray has, or 27.
fn judge(tray: &[u8], list: &[u8]) -> Result<usize, Refusal> {
    let mut frames = Frames { left: tray };
    let records = frames.by_ref().count();
    refuse_if(!frames.left.is_empty() || list.len() < records, Tray)?;
    Ok(records)
}

/// Sends every frame on by the node's rule, each with the room that those before it have left.
pub fn forward(
    tray: &[u8], level: u8, departure: &Departure, out: &mut [u8], list: &mut [u8],
) -> Result<Passed, Refusal> {
    let records = judge(tray, list)?;
    let mut written = 0;
    for (frame, number) in (Frames { left: tray }).zip(list) {
        let sent_on = forward_record(frame, level, departure, &mut out[written..]);
        written += sent_on.unwrap_or(0);
        *number = sent_on.map_or_else(|refusal| refusal as u8, |_| 0);
    }
    Ok(Passed { records, written })
}

/// Writes the record of a frame sent on and gives its octets.
fn forward_record(frame: &[u8], level: u8, departure: &Departure, out: &mut [u8]) -> Result<usize, Refusal> {
    // Without room for the head there is none for the frame, and 16 still has its place in the node's order.
    let room = out.get_mut(HEAD..).unwrap_or(&mut []);
    let length = document::forward(frame, level, departure, room)?;
    out[..HEAD].copy_from_slice(&head(length));
    Ok(HEAD + length)
}

/// The head of an outgoing record. No frame that a node sends on has a length that does not fit.
fn head(frame_length: usize) -> [u8; HEAD] {
    let ([low, high], [kind_low, kind_high]) =
        (((KIND_OCTETS + frame_length) as u16).to_le_bytes(), FRAME.to_le_bytes());
    [low, high, kind_low, kind_high]
}

// ---- A host without this call ----

/// What a host does that has the node's call alone, in one pass. It leaves what `forward` does, but finds 27 only where
/// it stands: what went before is written by then.
pub fn frame_by_frame(
    calls: &impl Calls, tray: &[u8], level: u8, departure: &Departure, out: &mut [u8], list: &mut [u8],
) -> Result<Passed, Refusal> {
    let (&Departure { from, to, address }, octets, slots) = (departure, out.len(), list.len());
    let (mut left, mut room, mut numbers, mut answer) = (tray, out, list.iter_mut(), [0]);
    while !left.is_empty() {
        let Some((&[low, high, 1, 0], behind)) = left.split_first_chunk::<HEAD>() else { return Err(Tray) };
        let length = usize::from(u16::from_le_bytes([low, high])).checked_sub(KIND_OCTETS).ok_or(Tray)?;
        let (frame, behind) = behind.split_at_checked(length).ok_or(Tray)?;
        let number = numbers.next().ok_or(Tray)?;
        left = behind;
        let Some((sent_head, sent)) = room.split_first_chunk_mut::<HEAD>() else {
            *number = calls.forward(frame, level, from, to, address, &mut [], &mut answer);
            continue;
        };
        *number = calls.forward(frame, level, from, to, address, sent, &mut answer);
        if *number == 0 {
            let sent_length = answer[0] as usize;
            *sent_head = head(sent_length);
            room = &mut std::mem::take(&mut room)[HEAD + sent_length..];
        }
    }
    Ok(Passed { records: slots - numbers.len(), written: octets - room.len() })
}

#[cfg(test)]
mod tests {
    use super::*;
    use crate::document::{Packet, Step};
    use crate::flat::Document;
    use crate::wrong::{changed, spoiled};

    const UNUSED: u8 = 0x99;
    /// No wait, and the address that the signalling frame below came with: it leaves as it came.
    const ON: Departure = Departure { from: 0, to: 0, address: 129 };
    const SIGNALLING: [u8; 10] = [4, 3, 3, 68, 0, 24, 0, 10, 129, 49];
    /// Its record.
    const RECORD: [u8; 14] = [12, 0, 1, 0, 4, 3, 3, 68, 0, 24, 0, 10, 129, 49];

    /// The first packet of a burst. In type 0 it has 138 octets, in type 24 as many and two blocks to drop.
    fn voice(coding: u8) -> Vec<u8> {
        let mut out = vec![0; 138];
        let packet = Packet { step: Step::Start, coding, noise: 3, samples: &[1; 128] };
        let length = document::send(&mut 0, &packet, 0, &ON, &mut out).unwrap();
        out.truncate(length);
        out
    }

    /// A frame for each number that a node has for it, in the node's order.
    fn refused_frames() -> [(Vec<u8>, u8); 10] {
        let voice = voice(24);
        [
            (voice[..9].to_vec(), 1),
            (changed(&voice, 1, 5), 2),
            (changed(&voice, 3, 7), 3),
            (changed(&voice, 1, 6), 24),
            (spoiled(&voice), 4),
            (changed(&voice, 4, 67), 5),
            (changed(&voice, 7, 31), 6),
            (changed(&voice, 5, 0x23), 7),
            (changed(&voice[..137], 8, 3), 8),
            (changed(&voice, 6, 201), 9),
        ]
    }

    /// Records with heads worked out here, for frames of any length.
    fn tray(frames: &[&[u8]]) -> Vec<u8> {
        let record = |frame: &&[u8]| {
            let length = frame.len() + 2;
            [&[(length % 256) as u8, (length / 256) as u8, 1, 0], *frame].concat()
        };
        frames.iter().flat_map(record).collect()
    }

    /// The list and what is written, with so much room and so many slots. All else has to be as it came, and a host
    /// that goes frame by frame has to get the same of a tray that is none of 27.
    fn pass_with(
        tray: &[u8], level: u8, departure: Departure, room: usize, slots: usize,
    ) -> Result<(Vec<u8>, Vec<u8>), Refusal> {
        let (mut out, mut list) = (vec![UNUSED; room], vec![UNUSED; slots]);
        let passed = forward(tray, level, &departure, &mut out, &mut list);
        let Passed { records, written } = passed.unwrap_or(Passed { records: 0, written: 0 });
        assert!(out[written..].iter().chain(&list[records..]).all(|octet| *octet == UNUSED));

        let (mut single_out, mut single_list) = (vec![UNUSED; room], vec![UNUSED; slots]);
        let singly = frame_by_frame(&Document, tray, level, &departure, &mut single_out, &mut single_list);
        assert_eq!(singly, passed);
        if passed.is_ok() {
            assert_eq!((&single_out, &single_list), (&out, &list));
        }
        out.truncate(written);
        list.truncate(records);
        passed.map(|_| (list, out))
    }

    /// The same with room enough.
    fn pass(tray: &[u8]) -> Result<(Vec<u8>, Vec<u8>), Refusal> {
        pass_with(tray, 0, ON, tray.len() + 3, tray.len())
    }

    #[test]
    fn records_are_as_the_request_says() {
        assert_eq!(RECORD[4..], SIGNALLING);
        assert_eq!(pass(&RECORD), Ok((vec![0], RECORD.to_vec())));
        assert_eq!(pass(&[RECORD, RECORD, RECORD].concat()), Ok((vec![0; 3], [RECORD; 3].concat())));
        // 138 octets are 140 with the kind; 490 are 492, a low octet of 236 and a high one of 1.
        assert_eq!(pass(&[&[140, 0, 1, 0], &voice(0)[..]].concat()).unwrap().1[..6], [140, 0, 1, 0, 4, 3]);
        let long = changed(&[&SIGNALLING[..], &[0; 480]].concat(), 8, 10);
        let (list, out) = pass(&[&[236, 1, 1, 0], &long[..], &RECORD].concat()).unwrap();
        assert_eq!((list, out), (vec![8, 0], RECORD.to_vec()));
    }

    #[test]
    fn an_empty_tray() {
        assert_eq!(pass_with(&[], 0, ON, 0, 0), Ok((vec![], vec![])));
        assert_eq!(pass_with(&[], 4, Departure { address: 0, ..ON }, 20, 3), Ok((vec![], vec![])));
    }

    #[test]
    fn blocks_are_dropped_and_the_length_with_them() {
        let frames = tray(&[&voice(24), &SIGNALLING, &voice(21)]);
        let waited = Departure { from: u32::MAX, to: 6, address: 8063 };
        let (list, out) = pass_with(&frames, 2, waited, 500, 3).unwrap();
        assert_eq!((list, out.len()), (vec![0; 3], 110 + 14 + 62));
        assert_eq!(out[..12], [108, 0, 1, 0, 248, 255, 239, 68, 0x20, 7, 0x80 | 24, 3]);
        assert_eq!(out[110..122], [12, 0, 1, 0, 248, 255, 3, 68, 0, 31, 0, 10]);
        assert_eq!(out[124..136], [60, 0, 1, 0, 248, 255, 239, 68, 0x31, 7, 0x80 | 21, 3]);
    }

    #[test]
    fn a_frame_of_no_octets() {
        assert_eq!(pass(&[2, 0, 1, 0]), Ok((vec![1], vec![])));
        assert_eq!(pass(&[&RECORD[..], &[2, 0, 1, 0], &RECORD].concat()), Ok((vec![0, 1, 0], [RECORD; 2].concat())));
        assert_eq!(pass_with(&[2, 0, 1, 0], 4, ON, 20, 1), Ok((vec![10], vec![])));
        assert_eq!(pass_with(&[2, 0, 1, 0], 3, Departure { address: 8064, ..ON }, 20, 1), Ok((vec![15], vec![])));
    }

    #[test]
    fn a_frame_of_65533_octets() {
        let longest = [&[255, 255, 1, 0], &vec![4; 65_533][..]].concat();
        assert_eq!(pass(&longest), Ok((vec![1], vec![])));
        assert_eq!(pass(&[&longest[..], &RECORD].concat()), Ok((vec![1, 0], RECORD.to_vec())));
        assert_eq!(pass(&longest[..65_536]), Err(Tray));
    }

    #[test]
    fn lengths_under_2_and_other_kinds() {
        let heads: [[u8; 4]; 9] = [
            [0, 0, 1, 0],
            [1, 0, 1, 0],
            [12, 0, 2, 0],
            [12, 0, 0, 0],
            [12, 0, 1, 1],
            [12, 0, 0, 1],
            [12, 0, 255, 255],
            [2, 0, 2, 0],
            [0, 12, 0, 1],
        ];
        for head in heads {
            let wrong = [&head[..], &SIGNALLING].concat();
            for tray in [wrong.clone(), [&RECORD, &wrong[..]].concat(), [&RECORD, &wrong[..], &RECORD].concat()] {
                assert_eq!(pass(&tray), Err(Tray), "{tray:?}");
                // Before the numbers of the frames.
                assert_eq!(pass_with(&tray, 4, Departure { address: 0, ..ON }, 0, 3), Err(Tray), "{tray:?}");
            }
            assert_eq!(pass(&[&RECORD, &head[..]].concat()), Err(Tray), "{head:?}");
        }
    }

    #[test]
    fn a_tray_ends_with_a_record() {
        let frames = tray(&[&SIGNALLING, &[], &voice(1)]);
        let ends = [0, 14, 18, 48];
        assert_eq!(frames.len(), 48);
        for end in 0..=frames.len() {
            let records = ends.iter().position(|known| *known == end);
            let right = records.map(|records| [0, 1, 0][..records].to_vec());
            assert_eq!(pass(&frames[..end]).map(|(list, _)| list).ok(), right, "{end} octets");
        }
        for left_over in 1..=3 {
            assert_eq!(pass(&RECORD[..left_over]), Err(Tray));
            assert_eq!(pass(&vec![0; left_over]), Err(Tray));
            assert_eq!(pass(&[&frames[..], &vec![0; left_over]].concat()), Err(Tray));
        }
        assert_eq!(pass(&[&RECORD[..], &[0; 4]].concat()), Err(Tray));
        // A length that goes further than the tray, though another record stands there.
        assert_eq!(pass(&[&[27, 0, 1, 0], &SIGNALLING[..], &RECORD].concat()), Err(Tray));
        assert_eq!(pass(&[&[26, 0, 1, 0], &SIGNALLING[..], &RECORD].concat()), Ok((vec![4], vec![])));
    }

    #[test]
    fn a_list_for_every_record() {
        let frames = [RECORD; 3].concat();
        for slots in 0..3 {
            assert_eq!(pass_with(&frames, 0, ON, 42, slots), Err(Tray));
            assert_eq!(pass_with(&frames, 4, ON, 0, slots), Err(Tray));
        }
        for slots in 3..6 {
            assert_eq!(pass_with(&frames, 0, ON, 42, slots), Ok((vec![0; 3], frames.clone())));
        }
    }

    #[test]
    fn level_and_address_are_judged_for_each_frame() {
        let frames = tray(&[&voice(0), &[], &spoiled(&SIGNALLING), &SIGNALLING]);
        let nowhere = |address| Departure { address, ..ON };
        for level in [4, 255] {
            assert_eq!(pass_with(&frames, level, ON, 500, 4), Ok((vec![10; 4], vec![])));
            assert_eq!(pass_with(&frames, level, nowhere(127), 2, 4), Ok((vec![10; 4], vec![])));
        }
        for address in [0, 127, 8064, 65_535] {
            assert_eq!(pass_with(&frames, 3, nowhere(address), 500, 5), Ok((vec![15; 4], vec![])));
            assert_eq!(pass_with(&frames, 3, nowhere(address), 0, 5), Ok((vec![15; 4], vec![])));
        }
    }

    #[test]
    fn every_number_of_a_frame() {
        for (frame, number) in refused_frames() {
            let (list, out) = pass(&tray(&[&SIGNALLING, &frame, &SIGNALLING])).unwrap();
            assert_eq!((list, out), (vec![0, number, 0], [RECORD; 2].concat()));
        }
    }

    #[test]
    fn room_for_head_and_frame() {
        let two = [RECORD; 2].concat();
        for room in 0..=31 {
            let (list, written) = match room {
                0..=13 => ([16, 16], 0),
                14..=27 => ([0, 16], 14),
                _ => ([0, 0], 28),
            };
            assert_eq!(pass_with(&two, 0, ON, room, 2), Ok((list.to_vec(), two[..written].to_vec())), "{room} octets");
        }
        // As long as the tray is enough, and what a level drops is not needed.
        let voices = tray(&[&voice(24), &voice(24)]);
        assert_eq!(pass_with(&voices, 0, ON, 284, 2).unwrap().0, [0, 0]);
        assert_eq!(pass_with(&voices, 0, ON, 283, 2).unwrap().0, [0, 16]);
        assert_eq!(pass_with(&voices, 1, ON, 252, 2).unwrap().0, [0, 0]);
        assert_eq!(pass_with(&voices, 1, ON, 251, 2).unwrap().0, [0, 16]);
    }

    #[test]
    fn an_earlier_number_comes_before_16() {
        for (frame, number) in refused_frames() {
            for room in 0..=20 {
                // Behind a frame that leaves so much, and so much from the beginning.
                let (list, _) = pass_with(&tray(&[&SIGNALLING, &frame, &voice(0)]), 0, ON, 14 + room, 3).unwrap();
                assert_eq!(list, [0, number, 16], "{room} octets left");
                let (list, _) = pass_with(&tray(&[&frame, &voice(0)]), 0, ON, room, 2).unwrap();
                assert_eq!(list, [number, 16], "{room} octets");
            }
        }
    }

    #[test]
    fn a_shorter_frame_goes_behind_one_that_has_no_room() {
        let (long, short) = (voice(0), voice(1));
        let frames = tray(&[&long, &SIGNALLING, &long, &short, &SIGNALLING]);
        let sent = |list: [u8; 5], frames: &[&[u8]]| Ok((list.to_vec(), tray(frames)));
        let short_on = changed(&short, 2, 3);
        assert_eq!(pass_with(&frames, 0, ON, 141, 5), sent([16, 0, 16, 0, 0], &[&SIGNALLING, &short_on, &SIGNALLING]));
        assert_eq!(pass_with(&frames, 0, ON, 57, 5), sent([16, 0, 16, 0, 16], &[&SIGNALLING, &short_on]));
        assert_eq!(pass_with(&frames, 0, ON, 43, 5), sent([16, 0, 16, 16, 0], &[&SIGNALLING, &SIGNALLING]));
        assert_eq!(pass_with(&frames, 0, ON, 13, 5), sent([16; 5], &[]));
    }

    #[test]
    fn a_tray_in_two_halves() {
        let frames = [&voice(24)[..], &SIGNALLING, &spoiled(&voice(0)), &[], &voice(1), &SIGNALLING];
        let whole_tray = tray(&frames);
        for room in 0..=whole_tray.len() + 1 {
            let (list, out) = pass_with(&whole_tray, 1, ON, room, 6).unwrap();
            for cut in 0..=frames.len() {
                let (first_list, first) = pass_with(&tray(&frames[..cut]), 1, ON, room, cut).unwrap();
                let left = room - first.len();
                let (second_list, second) = pass_with(&tray(&frames[cut..]), 1, ON, left, 6 - cut).unwrap();
                assert_eq!(([first_list, second_list].concat(), [first, second].concat()), (list.clone(), out.clone()));
            }
        }
    }

    #[test]
    fn what_is_written_is_a_tray() {
        let frames = tray(&[&voice(24), &spoiled(&SIGNALLING), &voice(21), &[], &SIGNALLING]);
        let (list, first) = pass_with(&frames, 1, ON, frames.len(), 5).unwrap();
        assert_eq!((list, first.len()), (vec![0, 4, 0, 1, 0], 126 + 78 + 14));
        let (list, second) = pass_with(&first, 1, ON, first.len(), 3).unwrap();
        assert_eq!((list, second.len()), (vec![0; 3], 110 + 62 + 14));
        let (list, at_once) = pass_with(&frames, 2, ON, frames.len(), 5).unwrap();
        assert_eq!((list, at_once), (vec![0, 4, 0, 1, 0], second));
        // Of a tray from which nothing goes on, the empty one.
        let (list, nothing) = pass(&tray(&[&[], &spoiled(&SIGNALLING)])).unwrap();
        assert_eq!((list, nothing.len()), (vec![1, 4], 0));
        assert_eq!(pass(&nothing), Ok((vec![], vec![])));
    }
}
