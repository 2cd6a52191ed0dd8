//! The waiting room as a plain ring over the store and the record of `pelgrant.h`: what the benchmark holds the
//! library against. Nothing is moved or allocated. The list of `queue` says what is right, and the ring is
//! tried against it before it is timed.

use crate::document::Refusal::{self, Buffer, Level, NoRoom, NothingWaits, Record};
use crate::document::{self, refuse_if, Departure, Packet, Step, BLOCK, LEVEL_MAX, SAMPLES};
use crate::flat::Document;
use crate::queue::{
    CLOCKS, COUNT, FIRST, FRAMES, HEAD, LENGTHS, LENGTH_MAX, LEVELS, QUEUE, STORE_MAX, TOTALS, TOTAL_MAX,
};
use crate::random::Random;
use crate::Calls;

pub struct Ring;

/// What a record that 14 lets by says of its store.
struct Layout {
    head: usize,
    first: usize,
    count: usize,
    held: usize,
}

impl Layout {
    fn judged(store: &[u8], queue: &[u32]) -> Result<Layout, Refusal> {
        refuse_if(store.len() > STORE_MAX, Record)?;
        let queue = judged_alone(store.len(), queue)?;
        let [head, first, count] = [HEAD, FIRST, COUNT].map(|field| queue[field] as usize);
        let held = (first..first + count).map(|slot| queue[LENGTHS + slot % FRAMES] as usize).sum();
        refuse_if(held > store.len(), Record)?;
        Ok(Layout { head, first, count, held })
    }
}

/// Each number of a record by itself, for a store of so many octets. In the longest no lengths are together too many.
fn judged_alone(octets: usize, queue: &[u32]) -> Result<&[u32; QUEUE], Refusal> {
    let queue: &[u32; QUEUE] = queue.try_into().map_err(|_| Record)?;
    let [head, first, count] = [HEAD, FIRST, COUNT].map(|field| queue[field] as usize);
    let bits_of_lengths = queue[LENGTHS..CLOCKS].iter().fold(0, |bits, length| bits | length);
    let totals_fit = queue[TOTALS..].iter().all(|total| *total <= TOTAL_MAX);
    let fits = bits_of_lengths <= LENGTH_MAX && head <= octets && first < FRAMES && count <= FRAMES && totals_fit;
    refuse_if(!fits, Record)?;
    Ok(queue)
}

/// Moves the total of each level by what it gives back of a frame from which so many blocks may be dropped.
fn move_totals(queue: &mut [u32], left: u8, moved: impl Fn(u32, u32) -> u32) {
    for (level, total) in (1..).zip(&mut queue[TOTALS..]) {
        *total = moved(*total, BLOCK as u32 * u32::from(left.min(level)));
    }
}

/// A place of a store that may be past its end, but not by more than once round.
fn place(store: &[u8], at: usize) -> usize {
    if at < store.len() {
        at
    } else {
        at - store.len()
    }
}

fn enter(store: &mut [u8], queue: &mut [u32], frame: &[u8], clock: u32) -> Result<(), Refusal> {
    let Layout { head, first, count, held } = Layout::judged(store, queue)?;
    let left = document::taken(frame)?.left;
    refuse_if(count == FRAMES || frame.len() > store.len() - held, NoRoom)?;

    let at = place(store, head + held);
    let (up_to_the_end, round) = frame.split_at(frame.len().min(store.len() - at));
    store[at..at + up_to_the_end.len()].copy_from_slice(up_to_the_end);
    store[..round.len()].copy_from_slice(round);
    let slot = (first + count) % FRAMES;
    queue[COUNT] += 1;
    queue[LENGTHS + slot] = frame.len() as u32;
    queue[CLOCKS + slot] = clock;
    move_totals(queue, left, |total, octets| total + octets);
    Ok(())
}

/// A frame that lies round the store's end, in one piece.
fn joined(store: &[u8], at: usize, length: usize) -> [u8; LENGTH_MAX as usize] {
    let mut frame = [0; LENGTH_MAX as usize];
    let (up_to_the_end, round) = frame[..length].split_at_mut(store.len() - at);
    up_to_the_end.copy_from_slice(&store[at..]);
    round.copy_from_slice(&store[..round.len()]);
    frame
}

fn take(store: &[u8], queue: &mut [u32], to: u32, level: u8, address: u16, out: &mut [u8]) -> Result<usize, Refusal> {
    let Layout { head, first, count, .. } = Layout::judged(store, queue)?;
    refuse_if(count == 0, NothingWaits)?;
    let (length, from) = (queue[LENGTHS + first] as usize, queue[CLOCKS + first]);
    let in_one_piece;
    let frame = match store.get(head..head + length) {
        Some(frame) => frame,
        None => {
            in_one_piece = joined(store, head, length);
            &in_one_piece[..length]
        }
    };
    let sent_on = document::forward(frame, level, &Departure { from, to, address }, out)?;

    queue[HEAD] = place(store, head + length) as u32;
    queue[FIRST] = ((first + 1) % FRAMES) as u32;
    queue[COUNT] -= 1;
    // C of a frame that the node took; of signalling it is 0.
    move_totals(queue, frame[4] & 3, u32::saturating_sub);
    Ok(sent_on)
}

fn freed(queue: &[u32], level: u8) -> Result<u32, Refusal> {
    let queue = judged_alone(STORE_MAX, queue)?;
    refuse_if(level > LEVEL_MAX, Level)?;
    Ok(if level == 0 { 0 } else { queue[TOTALS - 1 + usize::from(level)] })
}

impl Ring {
    pub fn queue_enter(&self, store: &mut [u8], queue: &mut [u32], frame: &[u8], clock: u32) -> u8 {
        enter(store, queue, frame, clock).map_or_else(|refusal| refusal as u8, |()| 0)
    }

    #[allow(clippy::too_many_arguments)]
    pub fn queue_take(
        &self, store: &[u8], queue: &mut [u32], to: u32, level: u8, address: u16, out: &mut [u8], answer: &mut [u64],
    ) -> u8 {
        let Some(answer) = answer.first_mut() else { return Buffer as u8 };
        let sent_on = take(store, queue, to, level, address, out);
        *answer = sent_on.unwrap_or(0) as u64;
        sent_on.map_or_else(|refusal| refusal as u8, |_| 0)
    }

    pub fn queue_freed(&self, queue: &[u32], level: u8, answer: &mut [u64]) -> u8 {
        let Some(answer) = answer.first_mut() else { return Buffer as u8 };
        let freed = freed(queue, level);
        *answer = freed.unwrap_or(0).into();
        freed.map_or_else(|refusal| refusal as u8, |_| 0)
    }
}

// ---- The trial ----

/// Sequences of calls on stores of every kind, in half of them with numbers of the record overwritten in between: the
/// ring has to answer as the list does, and to leave the same. Panics where it does not.
pub fn try_against_the_list() {
    let mut random = Random::from_seed(764);
    for octets in [0, 10, 137, 138, 300, 500, 4416, STORE_MAX, STORE_MAX + 1] {
        [false, true].iter().for_each(|overwriting| try_sequence(&mut random, octets, *overwriting));
    }
}

/// Of several lengths, and with every number of blocks that may be dropped; the last two are refused.
fn frames() -> Vec<Vec<u8>> {
    let departure = Departure { from: 0, to: 7, address: 128 };
    let mut frames: Vec<Vec<u8>> = [(0, 0), (1, 0), (21, 0), (21, 2), (24, 0)]
        .map(|(coding, level)| {
            let (mut out, samples) = (vec![0; 138], [1; SAMPLES]);
            let packet = Packet { step: Step::Start, coding, noise: 3, samples: &samples };
            let length = document::send(&mut 0, &packet, level, &departure, &mut out).unwrap();
            out.truncate(length);
            out
        })
        .into();
    let mut signalling = vec![0; 10];
    document::signal_write(5, 0, &departure, &mut signalling).unwrap();
    let mut spoiled = signalling.clone();
    spoiled[9] ^= 1;
    frames.extend([signalling.clone(), signalling, spoiled, vec![]]);
    frames
}

fn try_sequence(random: &mut Random, octets: usize, overwriting: bool) {
    let (frames, mut store, mut queue) = (frames(), random.octets(octets), [0; QUEUE]);
    for _ in 0..2000 {
        let total = TOTALS + random.size_below(LEVELS);
        if overwriting && random.one_in(6) {
            let end = octets as u32;
            let (small, great) =
                ([0, 1, 31, 32, 33, 138, 255, 256], [1536, 1537, 16_384, 16_385, end, end + 1, u32::MAX]);
            let limit = if random.one_in(2) { random.pick(&small) } else { random.pick(&great) };
            let (any, first_length) = (random.size_below(QUEUE), LENGTHS + queue[FIRST] as usize % FRAMES);
            queue[random.pick(&[HEAD, FIRST, COUNT, first_length, total, any])] = limit;
        }
        if overwriting && random.one_in(3) {
            // Too low for what waits, or so high that an entry passes 1,536.
            queue[total] = random.pick(&[0, 5, 20, 40, 1500]);
        }
        if overwriting && random.one_in(20) {
            queue.fill(0);
        }
        let (right_store, right_queue) = (&mut store.clone(), &mut queue.clone());
        let clock = random.number() as u32;
        if random.one_in(6) {
            let level = random.pick(&[0, 1, 2, 3, 4, 255]);
            let mut answer = vec![9; random.pick(&[0, 1, 1, 2])];
            let right_answer = &mut answer.clone();
            let right = Document.queue_freed(&queue, level, right_answer);
            let number = Ring.queue_freed(&queue, level, &mut answer);
            assert_eq!((number, &answer), (right, &*right_answer), "level {level} of {right_queue:?}");
        } else if random.one_in(2) {
            let frame = frames[random.size_below(frames.len())].clone();
            let right = Document.queue_enter(right_store, right_queue, &frame, clock);
            assert_eq!(Ring.queue_enter(&mut store, &mut queue, &frame, clock), right, "{frame:?} in {right_queue:?}");
        } else {
            let (level, address) = (random.pick(&[0, 1, 3, 4]), random.pick(&[127, 128, 128, 8063]));
            let (mut out, mut answer) = (vec![0; random.pick(&[9, 138, 140])], vec![9; random.pick(&[0, 1, 1, 2])]);
            let (right_out, right_answer) = (&mut out.clone(), &mut answer.clone());
            let right = Document.queue_take(&store, right_queue, clock, level, address, right_out, right_answer);
            let number = Ring.queue_take(&store, &mut queue, clock, level, address, &mut out, &mut answer);
            assert_eq!((number, &out, &answer), (right, &*right_out, &*right_answer), "of {right_queue:?}");
        }
        assert!(store == *right_store && queue == *right_queue, "left {queue:?}, not {right_queue:?}");
    }
}

#[cfg(test)]
mod tests {
    use super::*;

    #[test]
    fn the_ring_answers_as_the_list_does() {
        try_against_the_list();
    }
}
