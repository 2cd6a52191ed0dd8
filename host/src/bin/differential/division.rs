//! Frames of every length whose check is worked out by the division of polynomials, whole and with one bit wrong, and
//! the check of every frame written, held to the same division. What tries them, and which cases were met.

use crate::head_bits::WRITERS;
use crate::inputs;
use crate::lent::Lent;
use crate::table::{crossed, Table};
use crate::tally::Call;
use pelgrant_host::division::check_octets;
use pelgrant_host::document::Kind;
use pelgrant_host::random::Random;
use std::ops::RangeInclusive;

const LENGTHS: RangeInclusive<usize> = 10..=490;
const KINDS: [Kind; 2] = [Kind::Voice, Kind::Signalling];
const KIND_NAMES: [&str; 2] = ["voice", "signalling"];
/// Where a bit is wrong, if one is. The octets between are a voice field, or else covered like the head.
const WRONG: [&str; 4] = ["none wrong", "in octets 1 to 8", "between", "in the check"];
const BETWEEN: usize = 2;

/// Frames of each kind and length. The bits between are shared out among them, so that all are made wrong once.
pub const ROUNDS: usize = 4;

const HEADER: usize = 8;
const CHECK: usize = 2;
const REFUSED: u8 = 4;

/// A frame of any octets under a head that the link order takes, sealed by the division.
pub struct Sealed {
    kind: usize,
    octets: Vec<u8>,
}

/// A sealed frame with no bit wrong or one, and the number that is right.
#[derive(Debug)]
pub struct Trial {
    pub octets: Vec<u8>,
    pub number: u8,
    kind: usize,
    wrong: usize,
}

/// Whether a head has nothing against it that is judged before the check.
fn reaches_check(frame: &[u8]) -> bool {
    let command_and_extension = (frame[0] & 3, frame[1] & 1);
    command_and_extension == (0, 1) && (128..=8063).contains(&address_of(frame)) && matches!(frame[2], 239 | 3)
}

fn address_of(frame: &[u8]) -> u64 {
    u64::from(frame[0] >> 2) * 128 + u64::from(frame[1] >> 1)
}

impl Sealed {
    /// Both kinds in every length.
    pub fn all(random: &mut Random) -> Vec<Sealed> {
        LENGTHS.flat_map(|length| [0, 1].map(|kind| (kind, length))).map(|case| Sealed::draw(random, case)).collect()
    }

    fn draw(random: &mut Random, (kind, length): (usize, usize)) -> Sealed {
        let [upper, lower] = inputs::address_octets(random, false);
        let mut octets = random.octets(length);
        let check_at = length - CHECK;
        let (control, covered) = match KINDS[kind] {
            Kind::Voice => (239, HEADER),
            Kind::Signalling => (3, check_at),
        };
        octets[..4].copy_from_slice(&[upper, lower, control, 68]);
        let check = check_octets(&octets[..covered]);
        octets[check_at..].copy_from_slice(&check);
        Sealed { kind, octets }
    }

    /// The frame, and the same with each bit of the round wrong with which it is still judged by its check. Octet 4 is
    /// judged after it, and a voice field is not covered.
    pub fn trials(&self, round: usize) -> impl Iterator<Item = Trial> + '_ {
        let (kind, length) = (self.kind, self.octets.len());
        let whole = Trial { octets: self.octets.clone(), number: 0, kind, wrong: 0 };
        let one_wrong = (0..8 * length).filter_map(move |bit| {
            let octet = bit / 8;
            let wrong = 1 + usize::from(octet >= HEADER) + usize::from(octet >= length - CHECK);
            if wrong == BETWEEN && bit % ROUNDS != round {
                return None;
            }
            let mut octets = self.octets.clone();
            octets[octet] ^= 1 << (bit % 8);
            let number = if (KINDS[kind], wrong) == (Kind::Voice, BETWEEN) { 0 } else { REFUSED };
            reaches_check(&octets).then_some(Trial { octets, number, kind, wrong })
        });
        std::iter::once(whole).chain(one_wrong)
    }
}

impl Trial {
    /// What is right to answer: whether it is voice, and the address; zeros where it is refused.
    pub fn answer(&self) -> [u64; 2] {
        match self.number {
            0 => [u64::from(KINDS[self.kind] == Kind::Voice), address_of(&self.octets)],
            _ => [0; 2],
        }
    }
}

/// The frame that a call left, if it is one that writes one and was done.
fn written(call: Call, outcome: usize, after: &Lent) -> Option<&[u8]> {
    match outcome {
        0 if WRITERS.contains(&call) => after.out.part().get(..after.answer.part()[0] as usize),
        _ => None,
    }
}

/// Whether a frame, if one was written, ends with the division's octets for its first eight.
pub fn holds(call: Call, outcome: usize, after: &Lent) -> bool {
    written(call, outcome, after).is_none_or(|frame| frame.ends_with(&check_octets(&frame[..HEADER])))
}

// ---- Cases ----

pub struct Division {
    /// By length, of which there are too many to print.
    lengths: Table,
    wrong: Table,
    written: Table,
}

impl Division {
    pub fn new() -> Division {
        let names = WRITERS.iter().map(|call| call.name().into()).collect();
        Division {
            lengths: Table::new(
                LENGTHS.map(|length| format!("{length} octets sealed by the division")).collect(),
                crossed(&[&KIND_NAMES, &WRONG]),
                // The shortest has nothing between.
                |row, column| row > 0 || column % WRONG.len() != BETWEEN,
            ),
            wrong: Table::new(crossed(&[&KIND_NAMES]), crossed(&[&WRONG]), |_, _| true),
            written: Table::new(names, vec!["written".into()], |_, _| true),
        }
    }

    /// Counts a frame to which the card gave the right answer.
    pub fn met(&mut self, trial: &Trial) {
        let &Trial { kind, wrong, ref octets, .. } = trial;
        self.lengths.count(octets.len() - LENGTHS.start(), WRONG.len() * kind + wrong);
        self.wrong.count(kind, wrong);
    }

    /// Counts a frame, if one was written, whose check is the division's.
    pub fn wrote(&mut self, call: Call, outcome: usize, after: &Lent) {
        if written(call, outcome, after).is_some() {
            let row = WRITERS.iter().position(|writer| *writer == call);
            self.written.count(row.expect("a call that writes a frame"), 0);
        }
    }

    pub fn tried(&self) -> u64 {
        (0..WRONG.len()).map(|wrong| self.wrong.of_column(wrong)).sum()
    }

    /// The lengths that were not met in every way, which no table shows.
    pub fn lengths_amiss(&self) -> Vec<String> {
        self.lengths.amiss()
    }

    pub fn tables(&self) -> [(&'static str, &Table); 2] {
        [
            ("Frames of every length sealed by the division, by where one bit was made wrong", &self.wrong),
            ("Frames written whose check is the division's", &self.written),
        ]
    }
}
