//! Requests A6 and A7 of document 02 in plain Rust: the waiting room at a node as a plain list, written without a
//! look at the proved code.
//!
//! `Room` is that list, and knows neither store nor record; what a level would give back it finds by a walk. `enter`
//! and `take` read it out of the two, as `pelgrant.h` has them, let it answer, and write back what the call changes.
//! `freed` answers from the totals that they keep.

use crate::document::Refusal::{self, Level, NoRoom, NothingWaits, Record};
use crate::document::{self, refuse_if, Departure, Kind, Taken, BLOCK, LEVEL_MAX};
use std::collections::VecDeque;

pub const FRAMES: usize = 32;
pub const STORE_MAX: usize = 16_384;

/// The numbers of a record: where the first frame begins, its slot, how many wait, of each slot a length and a clock
/// reading, and the totals of levels 1, 2 and 3.
pub const HEAD: usize = 0;
pub const FIRST: usize = 1;
pub const COUNT: usize = 2;
pub const LENGTHS: usize = 3;
pub const CLOCKS: usize = LENGTHS + FRAMES;
pub const TOTALS: usize = CLOCKS + FRAMES;
pub const QUEUE: usize = TOTALS + LEVELS;
pub const LEVELS: usize = LEVEL_MAX as usize;
/// The greatest number that may stand where a length does.
pub const LENGTH_MAX: u32 = 255;
/// The same of a total: 32 frames of three blocks.
pub const TOTAL_MAX: u32 = 1536;

// ---- The list ----

/// A frame that waits, with the clock reading at its arrival.
#[derive(Clone, Debug, PartialEq, Eq)]
pub struct Waiting {
    pub frame: Vec<u8>,
    pub clock: u32,
}

/// Room for so many octets, and what waits there, the first to leave first.
#[derive(Clone, Debug, PartialEq, Eq)]
pub struct Room {
    pub octets: usize,
    pub waiting: VecDeque<Waiting>,
}

impl Room {
    pub fn empty(octets: usize) -> Room {
        Room { octets, waiting: VecDeque::new() }
    }

    /// A refused frame leaves the room as it was.
    pub fn enter(&mut self, frame: &[u8], clock: u32) -> Result<(), Refusal> {
        self.judge()?;
        document::taken(frame)?;
        refuse_if(self.waiting.len() == FRAMES || self.held() + frame.len() > self.octets, NoRoom)?;
        self.waiting.push_back(Waiting { frame: frame.to_vec(), clock });
        Ok(())
    }

    /// Sends the first frame on by the node's rule and gives its length there. Where refused, it waits on.
    pub fn take(&mut self, to: u32, level: u8, address: u16, out: &mut [u8]) -> Result<usize, Refusal> {
        self.judge()?;
        let Waiting { frame, clock } = self.waiting.front().ok_or(NothingWaits)?;
        let sent_on = document::forward(frame, level, &Departure { from: *clock, to, address }, out)?;
        self.waiting.pop_front();
        Ok(sent_on)
    }

    /// The octets that a level would give back, by a walk over all that waits.
    pub fn freed(&self, level: u8) -> Result<u32, Refusal> {
        refuse_if(level > LEVEL_MAX, Level)?;
        Ok(self.waiting.iter().map(|waiting| given_back(&waiting.frame, level)).sum())
    }

    /// What the three totals of a record have to be.
    pub fn totals(&self) -> [u32; LEVELS] {
        [1, 2, 3].map(|level| self.freed(level).unwrap())
    }

    /// Of 14 the part that is about the store alone.
    fn judge(&self) -> Result<(), Refusal> {
        refuse_if(self.octets > STORE_MAX, Record)
    }

    /// The octets of all that waits.
    pub fn held(&self) -> usize {
        self.waiting.iter().map(|waiting| waiting.frame.len()).sum()
    }

    /// What a store and its record hold; 14 where the record is none, past 32 frames or not within the store.
    pub fn of(store: &[u8], queue: &[u32]) -> Result<Room, Refusal> {
        refuse_if(queue.len() != QUEUE, Record)?;
        let (lengths, clocks, totals) = (&queue[LENGTHS..CLOCKS], &queue[CLOCKS..TOTALS], &queue[TOTALS..]);
        refuse_if(lengths.iter().any(|length| *length > LENGTH_MAX), Record)?;
        refuse_if(totals.iter().any(|total| *total > TOTAL_MAX), Record)?;
        let [head, first, count] = [HEAD, FIRST, COUNT].map(|field| queue[field] as usize);
        refuse_if(head > store.len() || first >= FRAMES || count > FRAMES, Record)?;
        let in_use = (first..first + count).map(|slot| (lengths[slot % FRAMES] as usize, clocks[slot % FRAMES]));
        refuse_if(in_use.clone().map(|(length, _)| length).sum::<usize>() > store.len(), Record)?;

        // Once round the store, from the first frame on.
        let mut round = store[head..].iter().chain(&store[..head]);
        let mut next = |length| round.by_ref().take(length).copied().collect();
        let waiting = in_use.map(|(length, clock)| Waiting { frame: next(length), clock }).collect();
        Ok(Room { octets: store.len(), waiting })
    }
}

/// What a level would give back of a frame as it waits. Signalling gives nothing.
pub fn given_back(frame: &[u8], level: u8) -> u32 {
    match document::taken(frame) {
        Ok(Taken { kind: Kind::Voice, left, .. }) => BLOCK as u32 * u32::from(left.min(level)),
        _ => 0,
    }
}

// ---- Store and record ----

pub fn enter(store: &mut [u8], queue: &mut [u32], frame: &[u8], clock: u32) -> Result<(), Refusal> {
    let mut room = Room::of(store, queue)?;
    let (held, totals) = (room.held(), room.totals());
    room.enter(frame, clock)?;

    let (before, from_head) = store.split_at_mut(queue[HEAD] as usize);
    let behind_the_last = from_head.iter_mut().chain(before).skip(held);
    behind_the_last.zip(frame).for_each(|(place, octet)| *place = *octet);
    let slot = (queue[FIRST] + queue[COUNT]) as usize % FRAMES;
    queue[COUNT] += 1;
    queue[LENGTHS + slot] = frame.len() as u32;
    queue[CLOCKS + slot] = clock;
    move_totals(queue, totals, room.totals());
    Ok(())
}

pub fn take(
    store: &[u8], queue: &mut [u32], to: u32, level: u8, address: u16, out: &mut [u8],
) -> Result<usize, Refusal> {
    let mut room = Room::of(store, queue)?;
    let (held, totals) = (room.held(), room.totals());
    let sent_on = room.take(to, level, address, out)?;

    let head = queue[HEAD] as usize + held - room.held();
    queue[HEAD] = if head < store.len() { head } else { head - store.len() } as u32;
    queue[FIRST] = (queue[FIRST] + 1) % FRAMES as u32;
    queue[COUNT] -= 1;
    move_totals(queue, totals, room.totals());
    Ok(sent_on)
}

/// Each total of the record goes as far up or down as that of the list did, but stops at 0.
fn move_totals(queue: &mut [u32], before: [u32; LEVELS], after: [u32; LEVELS]) {
    for ((total, before), after) in queue[TOTALS..].iter_mut().zip(before).zip(after) {
        *total = (*total + after).saturating_sub(before);
    }
}

/// From the totals alone. No store is lent, so the longest stands for it.
pub fn freed(queue: &[u32], level: u8) -> Result<u32, Refusal> {
    Room::of(&[0; STORE_MAX], queue)?;
    match usize::from(level) {
        0 => Ok(0),
        level @ 1..=LEVELS => Ok(queue[TOTALS + level - 1]),
        _ => Err(Level),
    }
}

#[cfg(test)]
mod tests {
    use super::*;
    use crate::document::{Packet, Step};
    use crate::wrong::{changed, spoiled};
    use Refusal::*;

    const UNUSED: u8 = 0x99;

    /// Ten octets, of stamp 0.
    fn signalling(bits: u8) -> Vec<u8> {
        let (mut out, departure) = (vec![0; 10], Departure { from: 0, to: 0, address: 128 });
        document::signal_write(bits, 0, &departure, &mut out).unwrap();
        out
    }

    /// The first packet of a burst, of stamp 0. In type 24 it has 138 octets and two blocks that may be dropped.
    fn voice(coding: u8) -> Vec<u8> {
        voice_without(coding, 0)
    }

    /// The same after so many of its blocks were dropped.
    fn voice_without(coding: u8, blocks: u8) -> Vec<u8> {
        let (mut out, departure) = (vec![0; 138], Departure { from: 0, to: 0, address: 128 });
        let packet = Packet { step: Step::Start, coding, noise: 3, samples: &[1; 128] };
        let length = document::send(&mut 0, &packet, blocks, &departure, &mut out).unwrap();
        out.truncate(length);
        out
    }

    /// One frame for each of the frame's own refusals but 1.
    fn refused_frames() -> [(Vec<u8>, Refusal); 9] {
        let voice = voice(24);
        [
            (changed(&voice, 1, 5), Address),
            (changed(&voice, 3, 7), Control),
            (changed(&voice, 1, 6), CommandOrPoll),
            (spoiled(&voice), Check),
            (changed(&voice, 4, 67), Protocol),
            (changed(&voice, 7, 31), Coding),
            (changed(&voice, 5, 0x23), Dropping),
            (changed(&voice[..137], 8, 3), Length),
            (changed(&voice, 6, 201), Stamp),
        ]
    }

    /// A record with those that wait from a slot on, all with reading 0.
    fn record(head: u32, first: u32, lengths: &[u32]) -> [u32; QUEUE] {
        let mut queue = [0; QUEUE];
        [queue[HEAD], queue[FIRST], queue[COUNT]] = [head, first, lengths.len() as u32];
        for (slot, length) in (first as usize..).zip(lengths) {
            queue[LENGTHS + slot % FRAMES] = *length;
        }
        queue
    }

    /// A store and its record beside the list, which have to agree after every call. Of the totals that is asked
    /// unless the host wrote them.
    struct Tried {
        store: Vec<u8>,
        queue: [u32; QUEUE],
        list: Room,
        totals_are_ours: bool,
    }

    impl Tried {
        fn fresh(octets: usize) -> Tried {
            let (store, list) = (vec![UNUSED; octets], Room::empty(octets));
            Tried { store, queue: [0; QUEUE], list, totals_are_ours: true }
        }

        /// A fresh room that these enter, with reading 0.
        fn with(octets: usize, frames: &[Vec<u8>]) -> Tried {
            let mut room = Tried::fresh(octets);
            frames.iter().for_each(|frame| assert_eq!(room.enter(frame, 0), Ok(())));
            room
        }

        /// The host makes a record of its own, in a store that has these octets at its beginning.
        fn made(octets: usize, at_first: &[u8], queue: [u32; QUEUE]) -> Tried {
            let mut store = vec![UNUSED; octets];
            store[..at_first.len()].copy_from_slice(at_first);
            Tried { list: Room::of(&store, &queue).unwrap(), store, queue, totals_are_ours: false }
        }

        /// The host writes totals of its own.
        fn overwrite(&mut self, totals: [u32; LEVELS]) {
            self.queue[TOTALS..].copy_from_slice(&totals);
            self.totals_are_ours = false;
        }

        fn assert_agreement(&self) {
            assert_eq!(Room::of(&self.store, &self.queue).as_ref(), Ok(&self.list));
            if self.totals_are_ours {
                assert_eq!(self.totals(), self.list.totals());
                (0..=4).for_each(|level| assert_eq!(freed(&self.queue, level), self.list.freed(level)));
            }
        }

        fn enter(&mut self, frame: &[u8], clock: u32) -> Result<(), Refusal> {
            let before = (self.store.clone(), self.queue);
            let entered = enter(&mut self.store, &mut self.queue, frame, clock);
            assert_eq!(entered, self.list.enter(frame, clock));
            if entered.is_err() {
                assert_eq!((&self.store, self.queue), (&before.0, before.1));
            }
            self.assert_agreement();
            entered
        }

        /// The frame sent on into so many octets.
        fn take_into(&mut self, room: usize, to: u32, level: u8, address: u16) -> Result<Vec<u8>, Refusal> {
            let (before, mut out, mut listed) = (self.queue, vec![UNUSED; room], vec![UNUSED; room]);
            let taken = take(&self.store, &mut self.queue, to, level, address, &mut out);
            assert_eq!(taken, self.list.take(to, level, address, &mut listed));
            assert_eq!(out, listed);
            if taken.is_err() {
                assert_eq!(self.queue, before);
            }
            assert_eq!(out[taken.unwrap_or(0)..], vec![UNUSED; room - taken.unwrap_or(0)]);
            self.assert_agreement();
            taken.map(|length| out[..length].to_vec())
        }

        fn take(&mut self, to: u32) -> Result<Vec<u8>, Refusal> {
            self.take_into(140, to, 0, 128)
        }

        /// HEAD, FIRST and COUNT.
        fn first_three(&self) -> [u32; 3] {
            self.queue[..LENGTHS].try_into().unwrap()
        }

        fn totals(&self) -> [u32; LEVELS] {
            self.queue[TOTALS..].try_into().unwrap()
        }
    }

    fn stamped(frame: &[u8], stamp: u8) -> Result<Vec<u8>, Refusal> {
        Ok(changed(frame, 6, stamp))
    }

    #[test]
    fn first_in_first_out() {
        let mut room = Tried::fresh(500);
        let frames = [signalling(1), voice(24), signalling(2), voice(1)];
        for (frame, clock) in frames.iter().zip([1000, 1001, 1005, 1005]) {
            assert_eq!(room.enter(frame, clock), Ok(()));
        }
        assert_eq!(room.list.held(), 10 + 138 + 10 + 26);
        for (frame, stamp) in frames.iter().zip([10, 9, 5, 5]) {
            assert_eq!(room.take(1010), stamped(frame, stamp));
        }
        assert_eq!(room.take(1010), Err(NothingWaits));
        assert_eq!(room.first_three(), [184, 4, 0]);
    }

    #[test]
    fn level_and_address_are_those_of_the_taking() {
        let mut room = Tried::fresh(276);
        (0..2).for_each(|_| assert_eq!(room.enter(&voice(24), 7), Ok(())));
        let sent = room.take_into(106, 27, 3, 8063).unwrap();
        assert_eq!((sent.len(), &sent[..8]), (106, &[248, 255, 239, 68, 0x20, 20, 0x80 | 24, 3][..]));
        let sent = room.take_into(122, 28, 1, 129).unwrap();
        assert_eq!((sent.len(), &sent[..8]), (122, &[4, 3, 239, 68, 0x21, 21, 0x80 | 24, 3][..]));
        // The room is that of the frames as they waited.
        assert_eq!(room.first_three(), [0, 2, 0]);
    }

    #[test]
    fn a_store_of_no_octets() {
        let mut room = Tried::fresh(0);
        assert_eq!(room.enter(&signalling(1), 5), Err(NoRoom));
        assert_eq!(room.enter(&spoiled(&signalling(1)), 5), Err(Check));
        assert_eq!(room.enter(&[], 5), Err(FrameSize));
        assert_eq!(room.take(5), Err(NothingWaits));
        // Frames of no octets have room there; the node does not take one.
        let mut room = Tried::made(0, &[], record(0, 31, &[0; 32]));
        assert_eq!(room.enter(&signalling(1), 5), Err(NoRoom));
        assert_eq!(room.take(5), Err(FrameSize));
    }

    #[test]
    fn a_full_store() {
        for (octets, last) in [(138 + 9, Err(NoRoom)), (138 + 10, Ok(())), (138 + 11, Ok(()))] {
            let mut room = Tried::fresh(octets);
            assert_eq!(room.enter(&voice(24), 0), Ok(()));
            assert_eq!(room.enter(&signalling(1), 0), last);
        }
        let mut room = Tried::fresh(137);
        assert_eq!(room.enter(&voice(24), 0), Err(NoRoom));
        // Room given back is used again.
        let mut room = Tried::fresh(138);
        for clock in 0..3 {
            assert_eq!(room.enter(&voice(24), clock), Ok(()));
            assert_eq!(room.enter(&signalling(1), clock), Err(NoRoom));
            assert_eq!(room.take(clock), stamped(&voice(24), 0));
            assert_eq!(room.first_three(), [0, clock + 1, 0]);
        }
    }

    #[test]
    fn the_thirty_third_frame() {
        for octets in [320, 330, STORE_MAX] {
            let mut room = Tried::fresh(octets);
            (0..32).for_each(|n| assert_eq!(room.enter(&signalling(n as u8 % 16), n), Ok(())));
            assert_eq!(room.enter(&signalling(9), 32), Err(NoRoom));
            assert_eq!(room.take(100), stamped(&signalling(0), 100));
            assert_eq!(room.first_three(), [10, 1, 31]);
            assert_eq!(room.enter(&signalling(9), 33), Ok(()));
            assert_eq!(room.first_three(), [10, 1, 32]);
            assert_eq!((room.queue[LENGTHS], room.queue[CLOCKS]), (10, 33));
            assert_eq!(room.enter(&signalling(9), 34), Err(NoRoom));
            (1..32).for_each(|n| assert_eq!(room.take(100), stamped(&signalling(n as u8 % 16), 100 - n as u8)));
            assert_eq!(room.take(100), stamped(&signalling(9), 67));
            assert_eq!(room.first_three(), [if octets == STORE_MAX { 330 } else { 330 % octets as u32 }, 1, 0]);
        }
    }

    #[test]
    fn a_frame_round_the_end_of_the_store() {
        let mut room = Tried::fresh(25);
        assert_eq!((room.enter(&signalling(1), 0), room.enter(&signalling(2), 0)), (Ok(()), Ok(())));
        assert_eq!(room.take(0), Ok(signalling(1)));
        assert_eq!(room.enter(&signalling(3), 0), Ok(()));
        assert_eq!(room.first_three(), [10, 1, 2]);
        assert_eq!(room.store[20..], signalling(3)[..5]);
        assert_eq!(room.store[..5], signalling(3)[5..]);
        assert_eq!(room.store[5..20], [&signalling(1)[5..], &signalling(2)].concat());
        assert_eq!(room.take(0), Ok(signalling(2)));
        assert_eq!(room.first_three(), [20, 2, 1]);
        assert_eq!(room.take(0), Ok(signalling(3)));
        assert_eq!(room.first_three(), [5, 3, 0]);
        // A frame that ends where the store does leaves the first place at its beginning.
        let mut room = Tried::fresh(20);
        assert_eq!((room.enter(&signalling(1), 0), room.enter(&signalling(2), 0)), (Ok(()), Ok(())));
        assert_eq!((room.take(0), room.first_three()), (Ok(signalling(1)), [10, 1, 1]));
        assert_eq!((room.take(0), room.first_three()), (Ok(signalling(2)), [0, 2, 0]));
    }

    #[test]
    fn the_first_place_at_the_very_end() {
        // It is the same as place 0, and past a frame shorter than the store it is gone.
        let mut room = Tried::made(11, &[], record(11, 31, &[]));
        assert_eq!(room.enter(&signalling(1), 6), Ok(()));
        assert_eq!(room.first_three(), [11, 31, 1]);
        assert_eq!((room.queue[LENGTHS + 31], room.queue[CLOCKS + 31]), (10, 6));
        assert_eq!((&room.store[..10], room.store[10]), (&signalling(1)[..], UNUSED));
        assert_eq!(room.take(6), Ok(signalling(1)));
        assert_eq!(room.first_three(), [10, 0, 0]);
        // It stays where the frame is as long as the store.
        let mut room = Tried::made(10, &signalling(1), record(10, 0, &[10]));
        assert_eq!(room.take(0), Ok(signalling(1)));
        assert_eq!(room.first_three(), [10, 1, 0]);
    }

    #[test]
    fn a_clock_that_rolls_over() {
        let mut room = Tried::fresh(100);
        for clock in [4294967290, 0, 5, 4294967295] {
            assert_eq!(room.enter(&signalling(1), clock), Ok(()));
        }
        assert_eq!(room.take(4), stamped(&signalling(1), 10));
        assert_eq!(room.take(4), stamped(&signalling(1), 4));
        // A reading later than the present one is a very long wait.
        assert_eq!(room.take(4), stamped(&signalling(1), 200));
        assert_eq!(room.take(255), stamped(&signalling(1), 200));
    }

    #[test]
    fn a_refused_take_leaves_its_frame_waiting() {
        let mut room = Tried::fresh(300);
        assert_eq!((room.enter(&voice(24), 0), room.enter(&signalling(1), 0)), (Ok(()), Ok(())));
        assert_eq!(room.take_into(140, 1, 4, 127), Err(Level));
        assert_eq!(room.take_into(137, 1, 0, 127), Err(Outgoing));
        assert_eq!(room.take_into(137, 1, 0, 8064), Err(Outgoing));
        assert_eq!(room.take_into(137, 1, 0, 128), Err(Buffer));
        assert_eq!(room.take_into(105, 1, 2, 128), Err(Buffer));
        assert_eq!(room.take_into(106, 1, 2, 128).map(|sent| sent.len()), Ok(106));
        assert_eq!(room.take_into(9, 1, 2, 128), Err(Buffer));
        assert_eq!(room.take(1), stamped(&signalling(1), 1));
    }

    #[test]
    fn twenty_five_is_last() {
        // No room by the octets, by the frames, and by both.
        let full = [Tried::fresh(9), Tried::made(STORE_MAX, &[], record(0, 5, &[10; 32]))];
        for mut room in full.into_iter().chain([Tried::made(320, &[], record(0, 5, &[10; 32]))]) {
            for length in [0, 9, 491, 1 << 20] {
                assert_eq!(room.enter(&vec![0; length], 0), Err(FrameSize));
            }
            for (frame, refusal) in refused_frames() {
                assert_eq!(room.enter(&frame, 0), Err(refusal));
            }
            assert_eq!(room.enter(&signalling(1), 0), Err(NoRoom));
            assert_eq!(room.enter(&voice(24), 0), Err(NoRoom));
        }
    }

    #[test]
    fn a_frame_is_taken_by_the_nodes_order() {
        // Each waits because the host put it there, and blocks those behind it.
        for (frame, refusal) in refused_frames() {
            let mut room = Tried::made(200, &frame, record(0, 0, &[frame.len() as u32, 10]));
            assert_eq!(room.take_into(0, 0, 4, 127), Err(Level));
            assert_eq!(room.take_into(0, 0, 0, 127), Err(Outgoing));
            assert_eq!(room.take_into(0, 0, 0, 128), Err(refusal));
            assert_eq!(room.enter(&signalling(1), 0), Ok(()));
            assert_eq!(room.take(0), Err(refusal));
        }
        // A store that was damaged, and is mended.
        let mut room = Tried::fresh(100);
        assert_eq!((room.enter(&signalling(1), 0), room.enter(&signalling(2), 0)), (Ok(()), Ok(())));
        room.store[7] ^= 2;
        room.list = Room::of(&room.store, &room.queue).unwrap();
        assert_eq!((room.take(0), room.take(0)), (Err(Check), Err(Check)));
        room.store[7] ^= 2;
        room.list = Room::of(&room.store, &room.queue).unwrap();
        assert_eq!((room.take(0), room.take(0)), (Ok(signalling(1)), Ok(signalling(2))));
    }

    #[test]
    fn lengths_that_are_no_frames() {
        let head = &signalling(1)[..8];
        for (length, refusal) in [(0, FrameSize), (9, FrameSize), (139, Check), (255, Check)] {
            let mut room = Tried::made(300, head, record(0, 17, &[length, 10]));
            assert_eq!((room.take(0), room.take(0)), (Err(refusal), Err(refusal)));
        }
        // The check of so many octets is right, and the length is not.
        for length in [139, 255] {
            let mut long = signalling(1);
            long.resize(length, UNUSED);
            let long = changed(&long, 8, 1);
            assert_eq!(Tried::made(300, &long, record(0, 0, &[length as u32])).take(0), Err(Length));
        }
    }

    #[test]
    fn what_slots_not_in_use_hold() {
        let mut queue = [77; QUEUE];
        queue[..LENGTHS].copy_from_slice(&[3, 30, 0]);
        let mut room = Tried::made(40, &[], queue);
        assert_eq!((room.enter(&signalling(1), 1), room.enter(&signalling(2), 2)), (Ok(()), Ok(())));
        assert_eq!(room.enter(&signalling(3), 3), Ok(()));
        let mut after = [77; QUEUE];
        after[..LENGTHS].copy_from_slice(&[3, 30, 3]);
        for (slot, clock) in [(30, 1), (31, 2), (0, 3)] {
            (after[LENGTHS + slot], after[CLOCKS + slot]) = (10, clock);
        }
        assert_eq!(room.queue, after);
        // Taking leaves length and reading behind.
        assert_eq!((room.take(1), room.take(2)), (Ok(signalling(1)), Ok(signalling(2))));
        after[..LENGTHS].copy_from_slice(&[23, 0, 1]);
        assert_eq!(room.queue, after);
    }

    #[test]
    fn what_a_level_gives_back_of_a_frame() {
        // Type 21 begins with three blocks that may be dropped, types 20 and 24 with two, all others with none.
        let ignored_bits = changed(&changed(&changed(&signalling(15), 5, 0xCC), 7, 0xFF), 8, 0xFF);
        for (frame, octets) in [
            (voice(21), [16, 32, 48]),
            (voice_without(21, 1), [16, 32, 32]),
            (voice_without(21, 2), [16, 16, 16]),
            (voice_without(21, 3), [0, 0, 0]),
            (voice(20), [16, 32, 32]),
            (voice_without(20, 1), [16, 16, 16]),
            (voice_without(20, 2), [0, 0, 0]),
            (voice(24), [16, 32, 32]),
            (voice_without(24, 1), [16, 16, 16]),
            (voice_without(24, 2), [0, 0, 0]),
            (voice(0), [0, 0, 0]),
            (voice(5), [0, 0, 0]),
            (voice(13), [0, 0, 0]),
            (signalling(15), [0, 0, 0]),
            (ignored_bits, [0, 0, 0]),
        ] {
            let mut room = Tried::with(138, &[frame]);
            assert_eq!(room.totals(), octets);
            let answers = [0, 1, 2, 3, 4, 255].map(|level| freed(&room.queue, level));
            let [one, two, three] = octets.map(Ok);
            assert_eq!(answers, [Ok(0), one, two, three, Err(Level), Err(Level)]);
            assert!(room.take(0).is_ok());
            assert_eq!(room.totals(), [0, 0, 0]);
        }
    }

    #[test]
    fn totals_after_each_call() {
        let mut room = Tried::fresh(400);
        for (frame, totals) in [
            (voice(21), [16, 32, 48]),
            (signalling(1), [16, 32, 48]),
            (voice_without(20, 1), [32, 48, 64]),
            (voice(24), [48, 80, 96]),
            (voice(1), [48, 80, 96]),
        ] {
            assert_eq!(room.enter(&frame, 0), Ok(()));
            assert_eq!(room.totals(), totals);
        }
        // What is refused leaves them.
        for (frame, refusal) in [(spoiled(&voice(21)), Check), (voice(24), NoRoom), (vec![], FrameSize)] {
            assert_eq!((room.enter(&frame, 0), room.totals()), (Err(refusal), [48, 80, 96]));
        }
        for (octets, level, address, refusal) in [(140, 4, 128, Level), (140, 3, 127, Outgoing), (41, 3, 128, Buffer)] {
            assert_eq!(room.take_into(octets, 0, level, address), Err(refusal));
            assert_eq!(room.totals(), [48, 80, 96]);
        }
        for (level, octets, totals) in [
            (1, 74, [32, 48, 48]),
            (3, 10, [32, 48, 48]),
            (0, 58, [16, 32, 32]),
            (2, 106, [0, 0, 0]),
            (3, 26, [0, 0, 0]),
        ] {
            assert_eq!(room.take_into(140, 0, level, 128).map(|sent| sent.len()), Ok(octets));
            assert_eq!(room.totals(), totals);
        }
        assert_eq!((room.take(0), room.totals()), (Err(NothingWaits), [0, 0, 0]));
    }

    #[test]
    fn totals_are_lowered_by_the_frame_as_it_waited() {
        for (level, octets) in [(0, 90), (1, 74), (2, 58), (3, 42)] {
            let mut room = Tried::with(300, &[voice(21), voice(24)]);
            assert_eq!(room.totals(), [32, 64, 80]);
            assert_eq!(room.take_into(140, 0, level, 128).map(|sent| sent.len()), Ok(octets));
            assert_eq!(room.totals(), [16, 32, 32]);
        }
    }

    #[test]
    fn what_is_answered_is_what_all_are_shorter_by() {
        let mut frames = vec![signalling(1), voice(21), voice(20), voice(24), voice(0), voice(12)];
        frames.extend(
            [(21, 1), (21, 2), (21, 3), (20, 1), (24, 1)].map(|(coding, blocks)| voice_without(coding, blocks)),
        );
        for (level, octets) in [(0, 0), (1, 112), (2, 176), (3, 192)] {
            let mut room = Tried::with(1000, &frames);
            let (waited, answer) = (room.list.held(), freed(&room.queue, level));
            let sent: usize = frames.iter().map(|_| room.take_into(140, 0, level, 128).unwrap().len()).sum();
            assert_eq!((waited - sent, answer), (octets, Ok(octets as u32)));
        }
    }

    #[test]
    fn a_question_knows_no_store() {
        let mut room = Tried::fresh(STORE_MAX + 1);
        assert_eq!((room.enter(&voice(21), 0), room.take(0)), (Err(Record), Err(Record)));
        assert_eq!([0, 1, 2, 3].map(|level| room.list.freed(level)), [Ok(0); 4]);
    }

    #[test]
    fn no_room_gives_back_more_than_1536() {
        let mut room = Tried::with(32 * 90, &vec![voice(21); 32]);
        assert_eq!(room.totals(), [512, 1024, TOTAL_MAX]);
        assert_eq!(room.enter(&voice(21), 0), Err(NoRoom));
        (1..=32).for_each(|gone| {
            assert!(room.take_into(42, 0, 3, 128).is_ok());
            assert_eq!(room.totals(), [1, 2, 3].map(|blocks| 16 * blocks * (32 - gone)));
        });
    }

    #[test]
    fn totals_that_the_host_overwrote() {
        // Below what waits: a removal stops at 0. Above it: nothing notices.
        for (overwritten, without_the_first, empty) in [
            ([0, 0, 0], [0, 0, 0], [0, 0, 0]),
            ([0, 31, 80], [0, 0, 32], [0, 0, 0]),
            ([15, 32, 49], [0, 0, 1], [0, 0, 0]),
            ([17, 33, 47], [1, 1, 0], [0, 0, 0]),
            ([1536, 64, 1536], [1520, 32, 1488], [1504, 0, 1456]),
        ] {
            let mut room = Tried::with(300, &[voice(21), voice(24)]);
            room.overwrite(overwritten);
            assert_eq!([1, 2, 3].map(|level| freed(&room.queue, level)), overwritten.map(Ok));
            assert_eq!(room.take_into(140, 0, 4, 128), Err(Level));
            assert_eq!(room.totals(), overwritten);
            assert_eq!((room.take(0), room.totals()), (Ok(voice(21)), without_the_first));
            assert_eq!((room.take(0), room.totals()), (Ok(voice(24)), empty));
            assert_eq!([1, 2, 3].map(|level| freed(&room.queue, level)), empty.map(Ok));
        }
        // An entry adds all the same.
        let mut room = Tried::fresh(300);
        room.overwrite([1520, 1504, 1488]);
        assert_eq!((room.enter(&voice(21), 0), room.totals()), (Ok(()), [TOTAL_MAX; 3]));
        assert_eq!((room.enter(&signalling(1), 0), room.totals()), (Ok(()), [TOTAL_MAX; 3]));
        assert_eq!((room.take(0), room.totals()), (Ok(voice(21)), [1520, 1504, 1488]));
        // One octet more, of any level, and the entry is the last call that is done.
        for over in 0..LEVELS {
            let Tried { mut store, mut queue, .. } = Tried::fresh(300);
            queue[TOTALS..].copy_from_slice(&[1520, 1504, 1488]);
            queue[TOTALS + over] += 1;
            assert_eq!(enter(&mut store, &mut queue, &voice(21), 0), Ok(()));
            assert_eq!(queue[TOTALS + over], TOTAL_MAX + 1);
            let left = queue;
            assert_eq!(enter(&mut store, &mut queue, &signalling(1), 0), Err(Record));
            assert_eq!(take(&store, &mut queue, 0, 0, 128, &mut [0; 138]), Err(Record));
            (0..=4).for_each(|level| assert_eq!(freed(&queue, level), Err(Record)));
            assert_eq!(queue, left);
        }
    }

    #[test]
    fn a_frame_of_the_store_that_the_host_changed() {
        // Both have 90 octets, but of type 5 no block may be dropped.
        for (entered, taken, totals) in [(voice(21), voice(5), [16, 32, 48]), (voice(5), voice(21), [0, 0, 0])] {
            let mut room = Tried::with(90, &[entered]);
            room.store.copy_from_slice(&taken);
            room.list = Room::of(&room.store, &room.queue).unwrap();
            room.totals_are_ours = false;
            assert_eq!((room.take(0), room.totals()), (Ok(taken), totals));
        }
    }

    #[test]
    fn fourteen_is_first() {
        let numbers = |octets: usize, queue: &[u32]| {
            let (mut store, mut lent) = (vec![0; octets], queue.to_vec());
            let entered = enter(&mut store, &mut lent, &[], 0).unwrap_err();
            let taken = take(&store, &mut lent, 0, 4, 127, &mut []).unwrap_err();
            let asked = freed(&lent, 4).unwrap_err();
            assert_eq!((store, &lent[..]), (vec![0; octets], queue));
            (entered, taken, asked)
        };
        // What comes next is 1, then, since a frame waits or none, 10 or 26, and 10.
        let (nothing_waits, waits) = ((FrameSize, NothingWaits, Level), (FrameSize, Level, Level));
        // A question is lent no store.
        let (refused, refused_with_a_store) = ((Record, Record, Record), (Record, Record, Level));
        let empty = record(0, 0, &[]);
        assert_eq!((numbers(16_384, &empty), numbers(16_385, &empty)), (nothing_waits, refused_with_a_store));
        for length in [0, 1, 67, 69, 71, 140] {
            assert_eq!(numbers(100, &vec![0; length]), refused);
        }
        for head in [0, 99, 100] {
            assert_eq!(numbers(100, &record(head, 0, &[])), nothing_waits);
        }
        for head in [101, 102, 16_384] {
            assert_eq!(numbers(100, &record(head, 0, &[])), refused_with_a_store);
        }
        assert_eq!(numbers(16_384, &record(16_384, 0, &[])), nothing_waits);
        for (octets, head) in [(100, 16_385), (100, u32::MAX), (16_384, 16_385), (16_385, 16_385)] {
            assert_eq!(numbers(octets, &record(head, 0, &[])), refused);
        }
        for first in [32, 33, 63, u32::MAX] {
            assert_eq!(numbers(100, &record(0, first % 32, &[10])), waits);
            let mut queue = record(0, 0, &[10]);
            queue[FIRST] = first;
            assert_eq!(numbers(100, &queue), refused);
        }
        assert_eq!(numbers(320, &record(0, 31, &[10; 32])), waits);
        for count in [33, 34, 64, u32::MAX] {
            let mut queue = record(0, 0, &[0; 32]);
            queue[COUNT] = count;
            assert_eq!(numbers(320, &queue), refused);
        }
        // The lengths together, across the last slot, and with others beside them that do not count.
        for (octets, first, lengths, right) in [
            (320, 0, vec![10; 32], waits),
            (319, 0, vec![10; 32], refused_with_a_store),
            (60, 31, vec![10, 20, 30], waits),
            (59, 31, vec![10, 20, 30], refused_with_a_store),
            (16_384, 31, vec![255; 32], waits),
            (0, 4, vec![0; 5], waits),
            (0, 4, vec![0, 0, 1], refused_with_a_store),
        ] {
            let mut queue = record(0, first, &lengths);
            assert_eq!(numbers(octets, &queue), right);
            for slot in (first as usize + lengths.len()..first as usize + 32).map(|slot| slot % 32) {
                queue[LENGTHS + slot] = 255;
            }
            assert_eq!(numbers(octets, &queue), right);
        }
        // A length that fits no octet, whether its slot is in use or not.
        for slot in 0..32 {
            for (length, right) in [(255, waits), (256, refused), (266, refused), (u32::MAX, refused)] {
                let mut queue = record(0, 0, &[10; 16]);
                queue[LENGTHS + slot] = length;
                assert_eq!(numbers(1000, &queue), right);
            }
        }
        // A total, whatever waits.
        for at in TOTALS..QUEUE {
            for (total, in_range) in [(1535, true), (1536, true), (1537, false), (1 << 16, false), (u32::MAX, false)] {
                for (lengths, right) in [(&[][..], nothing_waits), (&[10], waits)] {
                    let mut queue = record(0, 0, lengths);
                    queue[at] = total;
                    assert_eq!(numbers(100, &queue), if in_range { right } else { refused });
                }
            }
        }
    }
}
