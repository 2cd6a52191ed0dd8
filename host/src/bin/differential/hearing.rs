//! What is heard of a voice frame, by the text alone: document 01's samples are put together bit by bit from Figure 7
//! and divided by 2 for each block dropped, as request A9 has it. Which cases were met, and of chains and fill too.

use crate::inputs::{self, FLAT_16};
use crate::lent::Lent;
use crate::table::{crossed, Table};
use crate::tally::{label, Call};
use pelgrant_host::flat::RECORD;
use pelgrant_host::random::Random;

const SAMPLES: usize = 128;

/// Coding type, sample bits S and droppable bits D, from document 01's table.
const CODINGS: [(u8, u8, u8); 17] = [
    (0, 8, 0),
    (1, 1, 0),
    (2, 2, 0),
    (3, 3, 0),
    (4, 4, 0),
    (5, 5, 0),
    (6, 6, 0),
    (7, 7, 0),
    (8, 8, 0),
    (9, 8, 0),
    (10, 2, 0),
    (11, 3, 0),
    (12, 4, 0),
    (13, 5, 0),
    (20, 4, 2),
    (21, 5, 3),
    (24, 8, 2),
];

/// S and D of a coding type.
fn facts(coding: u8) -> (u8, u8) {
    let facts = CODINGS.iter().find(|(number, ..)| *number == coding);
    facts.map(|&(_, sample_bits, droppable)| (sample_bits, droppable)).expect("a coding type that is not reserved")
}

/// The calls that hear a frame.
const HEARERS: [Call; 3] = [Call::Read, Call::Arrive, Call::ArriveValue];

/// How many slots such a call answers in; the last three are S, the blocks dropped and the width that is left.
pub fn slots(call: Call) -> usize {
    match call {
        Call::Read => 3,
        _ => 5,
    }
}

// ---- What is to be heard ----

#[derive(Debug, PartialEq)]
pub struct Heard {
    sample_bits: u64,
    dropped: u64,
    width: u64,
    words: Vec<u8>,
}

impl Heard {
    /// What a call that was done answers.
    pub fn answered(call: Call, lent: &Lent) -> Heard {
        let answer = lent.answer.part();
        let [sample_bits, dropped, width] = [3, 2, 1].map(|from_end| answer[slots(call) - from_end]);
        Heard { sample_bits, dropped, width, words: lent.samples.part()[..SAMPLES].to_vec() }
    }

    /// What is right where so many blocks are dropped of these samples, zero-filled or whole.
    fn of_samples(samples: &[u8], sample_bits: u8, dropped: u8) -> Heard {
        Heard {
            sample_bits: sample_bits.into(),
            dropped: dropped.into(),
            width: u64::from(sample_bits) - u64::from(dropped),
            words: samples.iter().map(|sample| sample / 2_u8.pow(dropped.into())).collect(),
        }
    }

    /// What is right of a frame that can be read.
    fn of_frame(frame: &[u8]) -> Heard {
        let (sample_bits, dropped) = (facts(coding_of(frame)).0, dropped_of(frame));
        Heard::of_samples(&zero_filled(frame, sample_bits, dropped), sample_bits, dropped)
    }
}

/// Whether a call left what it was lent as the text has it, if it is one that hears a frame: the words of the frame
/// with their width, or zeros, and the rest of each slice; or all of them, where one is too short.
pub fn holds(call: Call, outcome: usize, before: &Lent, after: &Lent) -> bool {
    if !HEARERS.contains(&call) {
        return true;
    }
    let (needed, answer, samples) = (slots(call), after.answer.part(), after.samples.part());
    let short = answer.len() < needed || samples.len() < SAMPLES || short_after(call, before);
    if short || outcome == FLAT_16 {
        return short && outcome == FLAT_16 && before.difference(after).is_none();
    }
    let right = match outcome {
        0 => Heard::answered(call, after) == Heard::of_frame(before.frame.part()),
        _ => answer[..needed].iter().all(|slot| *slot == 0) && samples[..SAMPLES] == [0; SAMPLES],
    };
    let same_answer = before.answer.part()[needed..] == answer[needed..];
    let same_samples = before.samples.part()[SAMPLES..] == samples[SAMPLES..];
    right && same_answer && same_samples
}

fn short_after(call: Call, lent: &Lent) -> bool {
    call == Call::ArriveValue && lent.after.part().len() < RECORD
}

fn coding_of(frame: &[u8]) -> u8 {
    frame[6] & 31
}

/// M - C.
fn dropped_of(frame: &[u8]) -> u8 {
    (frame[4] >> 4 & 3) - (frame[4] & 3)
}

/// Document 01's samples: zeros to which the blocks present are added. Octets, bits and samples are counted from 1,
/// blocks from 0.
fn zero_filled(frame: &[u8], sample_bits: u8, dropped: u8) -> [u8; SAMPLES] {
    let mut samples = [0; SAMPLES];
    for block in 0..sample_bits - dropped {
        for n in 1..=SAMPLES {
            let (octet_of_block, bit) = (1 + (n - 1) / 8, 1 + (n - 1) % 8);
            let octet = 8 + 16 * usize::from(block) + octet_of_block;
            let bit_of_sample = sample_bits - block;
            samples[n - 1] += (frame[octet - 1] >> (bit - 1) & 1) << (bit_of_sample - 1);
        }
    }
    samples
}

// ---- What is spoken ----

const SPEECH: [&str; 3] = ["any", "zeros", "ones"];

/// The samples that a chain begins with.
pub struct Spoken {
    pub coding: u8,
    pub samples: Vec<u8>,
    speech: usize,
}

impl Spoken {
    pub fn draw(random: &mut Random) -> Spoken {
        let (coding, speech) = (inputs::coding(random, false), random.size_below(SPEECH.len()));
        let (sample_bits, _) = facts(coding);
        let samples = match SPEECH[speech] {
            "zeros" => vec![0; SAMPLES],
            "ones" => vec![255 >> (8 - sample_bits); SAMPLES],
            _ => inputs::samples(random, sample_bits, false),
        };
        Spoken { coding, samples, speech }
    }

    /// What is right at the end of a chain whose levels, the origin's included, are together so many.
    pub fn heard(&self, levels: u8) -> Heard {
        Heard::of_samples(&self.samples, facts(self.coding).0, self.dropped(levels))
    }

    /// Demand 3's k.
    fn dropped(&self, levels: u8) -> u8 {
        levels.min(facts(self.coding).1)
    }
}

// ---- Cases ----

const ANSWERS: [&str; 5] = ["no slots", "fewer", "no width", "just enough", "more"];
const LENGTHS: [&str; 3] = ["samples too few", "just enough", "more"];
const SUMS: [&str; 6] = ["0", "1", "2", "3", "4", "5 up"];
pub const NODES: usize = 8;

pub struct Hearing {
    heard: Table,
    refused: Table,
    lent: Table,
    chains: Table,
    nodes: Table,
    /// The rows by coding type: each with every number of blocks that may be dropped.
    codings: Vec<(u8, u8)>,
}

impl Hearing {
    pub fn new() -> Hearing {
        let names = HEARERS.map(Call::name);
        let with_dropped =
            |&(coding, _, droppable): &(u8, u8, u8)| (0..=droppable).map(move |dropped| (coding, dropped));
        let codings: Vec<(u8, u8)> = CODINGS.iter().flat_map(with_dropped).collect();
        let coding_names: Vec<String> =
            codings.iter().map(|(coding, dropped)| format!("type {coding}, {dropped} dropped")).collect();
        Hearing {
            heard: Table::new(coding_names.clone(), crossed(&[&names]), |_, _| true),
            refused: Table::new(
                refusals().iter().map(|number| label(*number)).collect(),
                crossed(&[&names]),
                |number, call| HEARERS[call].order().contains(&refusals()[number]),
            ),
            lent: Table::new(crossed(&[&names, &LENGTHS]), crossed(&[&ANSWERS]), |_, _| true),
            chains: Table::new(coding_names, crossed(&[&SUMS, &SPEECH]), |row, column| {
                let ((coding, dropped), levels) = (codings[row], column / SPEECH.len());
                usize::from(dropped) == levels.min(facts(coding).1.into())
            }),
            nodes: Table::new(
                (0..=NODES).map(|nodes| format!("{nodes} nodes")).collect(),
                crossed(&[&["level 0", "1", "2", "3"]]),
                |_, _| true,
            ),
            codings,
        }
    }

    /// Counts a call, if it is one that hears a frame, by its outcome and what it was lent.
    pub fn met(&mut self, call: Call, outcome: usize, lent: &Lent) {
        let Some(column) = HEARERS.iter().position(|hearer| *hearer == call) else { return };
        if outcome == 0 {
            let frame = lent.frame.part();
            self.heard.count(self.row(coding_of(frame), dropped_of(frame)), column);
        } else {
            let row = refusals().iter().position(|number| *number == outcome);
            self.refused.count(row.expect("a refusal of an arrival"), column);
        }
        if !short_after(call, lent) {
            let (slots, needed, octets) = (lent.answer.part().len(), slots(call), lent.samples.part().len());
            let answer = match slots {
                0 => 0,
                _ if slots < needed => 1 + usize::from(slots + 1 == needed),
                _ => 3 + usize::from(slots > needed),
            };
            let samples = usize::from(octets >= SAMPLES) + usize::from(octets > SAMPLES);
            self.lent.count(LENGTHS.len() * column + samples, answer);
        }
    }

    fn row(&self, coding: u8, dropped: u8) -> usize {
        let row = self.codings.iter().position(|row| *row == (coding, dropped));
        row.expect("no more blocks dropped than may be")
    }

    /// Counts a chain at whose end the right words were heard, which fill then handed on as they were.
    pub fn met_chain(&mut self, spoken: &Spoken, nodes: usize, at_origin: u8, levels: u8) {
        let (row, sum) = (self.row(spoken.coding, spoken.dropped(levels)), usize::from(levels).min(SUMS.len() - 1));
        self.chains.count(row, SPEECH.len() * sum + spoken.speech);
        self.nodes.count(nodes, at_origin.into());
    }

    pub fn tables(&self) -> [(&'static str, &Table); 5] {
        [
            ("Frames heard as Figure 7 and the division have it, with the width that is left", &self.heard),
            ("Frames not heard: a width of 0 and zeros elsewhere, or with flat 16 nothing touched", &self.refused),
            ("Slices lent to hear with, by the octets for samples and the slots for the answer", &self.lent),
            (
                "Chains heard right and filled with, by coding type and k, by the sum of levels and the samples",
                &self.chains,
            ),
            ("The same chains by their nodes and the origin's level", &self.nodes),
        ]
    }
}

/// Every refusal of a call that hears a frame; the reader's are all among the arrival's.
fn refusals() -> &'static [usize] {
    Call::Arrive.order()
}
