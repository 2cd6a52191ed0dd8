//! The counts of an endpoint's record, by the text of request A10: what a call leaves them at, what a list of all calls
//! comes to, and what is to be counted of an origin whose packets are lost on the way. Which cases were met.

use crate::inputs::{self, Draft, Faults, AHEAD_MAX, CLOCK_MAX, COUNT_MAX, FIRST_COUNT, FLAT_14, FLAT_16};
use crate::lent::Lent;
use crate::table::{crossed, Table};
use crate::tally::Call;
use pelgrant_host::flat::{Document, RECORD};
use pelgrant_host::random::Random;
use pelgrant_host::sseq::least_between;
use pelgrant_host::Calls;
use std::array::from_fn;
use std::sync::LazyLock;

pub const ARRIVALS: [Call; 2] = [Call::Arrive, Call::ArriveValue];
const NAMES: [&str; 3] = ["scheduled", "late", "missing"];

const RSEQ: usize = 1;
const LAST_CLOCK: usize = 2;
const END: usize = 3;

/// Scheduled, late and missing.
pub type Counts = [u64; 3];

pub fn counts_of(record: &[u64]) -> Counts {
    from_fn(|count| record[FIRST_COUNT + count])
}

// ---- What is to be counted ----

/// The least number of packets between two numbers, by the origin's steps alone.
static LEAST: LazyLock<[[u64; 16]; 16]> =
    LazyLock::new(|| from_fn(|sseq| from_fn(|sequence| least_between(sseq as u8, sequence as u8).into())));

fn sequence_of(frame: &[u8]) -> u8 {
    frame[7] >> 4
}

fn missing(rseq: u64, frame: &[u8]) -> u64 {
    LEAST[rseq as usize][usize::from(sequence_of(frame))]
}

/// RSEQ after a frame was scheduled.
fn rseq_after(frame: &[u8]) -> u64 {
    match (frame[6] >> 7, sequence_of(frame)) {
        (0, _) => 0,
        (_, 15) => 1,
        (_, sequence) => u64::from(sequence) + 1,
    }
}

fn counted(began: Counts, added: Counts) -> Counts {
    from_fn(|count| (began[count] + added[count]).min(COUNT_MAX))
}

/// Whether a call left what it was lent as the text has it, if it is an arrival: the record with its counts moved on, or
/// the numbers as they came; or neither slice touched, where the flat form has something against one.
pub fn holds(call: Call, outcome: usize, before: &Lent, after: &Lent) -> bool {
    let left = match call {
        Call::Arrive => after.record.part(),
        Call::ArriveValue => after.after.part(),
        _ => return true,
    };
    let (record, frame) = (before.record.part(), before.frame.part());
    if outcome == FLAT_16 || record.len() != RECORD {
        return before.record == after.record && before.after == after.after;
    }
    let added = match outcome {
        0 => [1, 0, missing(record[RSEQ], frame)],
        17 => [0, 1, 0],
        20 => [0; 3],
        _ => return left[..RECORD] == *record,
    };
    counts_of(left) == counted(counts_of(record), added)
}

/// The counts after all calls of a sequence on one record, from those that it began with. RSEQ is 0 at first, and then
/// what the frames make it.
pub fn taken_from_list(began: Counts, calls: &[(u8, Vec<u8>)]) -> Counts {
    let answered = |wanted: u8| calls.iter().filter(move |(number, _)| *number == wanted).map(|(_, frame)| frame);
    let before_each = std::iter::once(0).chain(answered(0).map(|frame| rseq_after(frame)));
    let missing = before_each.zip(answered(0)).map(|(rseq, frame)| missing(rseq, frame)).sum();
    counted(began, [answered(0).count() as u64, answered(17).count() as u64, missing])
}

// ---- Arrivals that are scheduled ----

/// A clock at which any frame is scheduled that is not late by its stamp: neither past the end nor too far before it.
pub fn clock_in_time(random: &mut Random, record: &[u64]) -> u64 {
    let earliest = record[LAST_CLOCK].max(record[END].saturating_sub(AHEAD_MAX));
    earliest + random.below(record[END].min(CLOCK_MAX) - earliest + 1)
}

/// A record with this RSEQ, a clock and a frame of this sequence that is scheduled.
pub fn to_schedule(random: &mut Random, rseq: u8, sequence: u8) -> ([u64; RECORD], u64, Vec<u8>) {
    let mut record = inputs::record(random, false);
    record[RSEQ] = rseq.into();
    record[END] = record[LAST_CLOCK] + random.below(AHEAD_MAX + 1);
    let mut draft = Draft::voice(random, Faults::NONE);
    draft.head[5] = random.octet_below(record[0] as u16 + 1);
    draft.head[7] = sequence << 4 | draft.head[7] & 15;
    (record, clock_in_time(random, &record), draft.octets(random))
}

// ---- Packets that are lost on the way ----

/// What becomes of a packet. All but the first are not scheduled.
#[derive(Clone, Copy, Debug, PartialEq)]
pub enum Fate {
    Comes,
    IsLost,
    ComesDamaged,
    ComesLate,
}

/// One origin, whose packets come in their order and once each unless they are lost, and what is to be counted of them.
#[derive(Debug)]
pub struct Journey {
    pub build_out: u8,
    pub packets: u64,
    /// One packet in so many is the last of its burst; one in so many is lost, and one in so many behind a lost one.
    burst: u64,
    losses: u64,
    losses_in_a_row: u64,
    stops_come: bool,
    /// Step and sequence of the packets since the last one that was scheduled.
    gap: Vec<(u8, u8)>,
    scheduled: u64,
    late: u64,
    /// The packets of all gaps that a packet scheduled has closed.
    unscheduled: u64,
    start_lost: bool,
    stop_lost: bool,
    rolled_over: bool,
}

const START: u8 = 0;
const DATA: u8 = 1;
const STOP: u8 = 2;

const KINDS: [&str; 6] =
    ["nothing lost", "inside bursts", "starts too", "stops too", "over a roll-over", "stops, and a roll-over"];
/// Of the first kinds every gap tells how long it is.
const TELLING_KINDS: usize = 3;

impl Journey {
    pub fn draw(random: &mut Random) -> Journey {
        Journey {
            build_out: random.octet_below(200),
            packets: random.pick(&[5, 20, 60, 120]),
            burst: random.pick(&[2, 5, 20, 60]),
            losses: random.pick(&[1 << 20, 40, 12, 5, 2]),
            losses_in_a_row: random.pick(&[1 << 20, 5, 2]),
            stops_come: random.one_in(2),
            gap: Vec::new(),
            scheduled: 0,
            late: 0,
            unscheduled: 0,
            start_lost: false,
            stop_lost: false,
            rolled_over: false,
        }
    }

    /// The next step of the origin and what becomes of its packet.
    pub fn next(&mut self, random: &mut Random, sseq: u8) -> (u8, Fate) {
        let step = match sseq {
            0 => START,
            _ if random.one_in(self.burst) => STOP,
            _ => DATA,
        };
        let lost = random.one_in(if self.gap.is_empty() { self.losses } else { self.losses_in_a_row });
        let fate = match lost && !(step == STOP && self.stops_come) {
            true => random.pick(&[Fate::IsLost, Fate::IsLost, Fate::ComesDamaged, Fate::ComesLate]),
            false => Fate::Comes,
        };
        (step, fate)
    }

    /// Tells of a packet. One that is scheduled closes the gap before it.
    pub fn sent(&mut self, step: u8, sequence: u8, fate: Fate) {
        self.gap.push((step, sequence));
        self.late += u64::from(fate == Fate::ComesLate);
        if fate == Fate::Comes {
            self.scheduled += 1;
            self.rolled_over |= self.gap.windows(2).any(|pair| (pair[0].1, pair[1].1) == (15, 1));
            self.gap.pop();
            self.unscheduled += self.gap.len() as u64;
            self.start_lost |= self.gap.iter().any(|(step, _)| *step == START);
            self.stop_lost |= self.gap.iter().any(|(step, _)| *step == STOP);
            self.gap.clear();
        }
    }

    fn kind(&self) -> usize {
        match (self.unscheduled > 0, self.start_lost, self.stop_lost, self.rolled_over) {
            (false, ..) => 0,
            (_, false, false, false) => 1,
            (_, true, false, false) => 2,
            (_, _, true, false) => 3,
            (_, _, false, true) => 4,
            (_, _, true, true) => 5,
        }
    }

    /// Scheduled and late are what they are; missing is never more than was not scheduled, and all of it where each gap
    /// tells how long it is.
    pub fn is_counted(&self, [scheduled, late, missing]: Counts) -> bool {
        let all = missing == self.unscheduled;
        let right = all || self.kind() >= TELLING_KINDS && missing < self.unscheduled;
        right && (scheduled, late) == (self.scheduled, self.late)
    }
}

// ---- Cases ----

const LIMITS: [&str; 4] = ["0", "2^32-2", "2^32-1", "another"];
const ENDS: [&str; 8] =
    ["none missing", "1", "2", "3 up", "refused, 17", "refused, 20", "refused otherwise", "flat 16"];
const UNFIT: [&str; 3] = ["2^32", "below 2^63", "2^63 up"];
const PLACES: [&str; 4] = ["scheduled", "late", "missing", "several"];
/// The longest slices that are told apart by their lengths.
const LONGEST: usize = 10;

pub struct Cases {
    pairs: Table,
    limits: Table,
    unfit: Table,
    lengths: Table,
    sequences: Table,
    journeys: Table,
}

impl Cases {
    pub fn new() -> Cases {
        let calls = ARRIVALS.map(Call::name);
        let numbers: Vec<String> = (0..16).map(|number| number.to_string()).collect();
        let rseqs: Vec<String> = numbers.iter().map(|rseq| format!("RSEQ {rseq}")).collect();
        let rseqs: Vec<&str> = rseqs.iter().map(String::as_str).collect();
        let lengths = (0..=LONGEST).map(|length| format!("{length} slots")).chain(["more".into()]);
        let after_sequence = crossed(&[&NAMES, &["none", "some", "to its end"]]);
        Cases {
            pairs: Table::new(crossed(&[&calls, &rseqs]), numbers, |_, _| true),
            limits: Table::new(crossed(&[&calls, &NAMES, &LIMITS]), crossed(&[&ENDS]), |_, _| true),
            unfit: Table::new(
                crossed(&[&calls, &PLACES, &UNFIT]),
                crossed(&[&["else done", "else refused"]]),
                |_, _| true,
            ),
            lengths: Table::new(
                lengths.collect(),
                crossed(&[&["fresh", "arrive", "arrive_value", "after"]]),
                |_, _| true,
            ),
            sequences: Table::new(
                crossed(&[&["counts from 0 on", "set by the host"]]),
                crossed(&[&["done", "17", "20", "others"]]).into_iter().chain(after_sequence).collect(),
                // From 0 on no sequence is so long.
                |row, column| row == 1 || column < 4 || column % 3 != 0,
            ),
            journeys: Table::new(crossed(&[&KINDS]), crossed(&[&["all", "fewer"]]), |kind, fewer| {
                kind >= TELLING_KINDS || fewer == 0
            }),
        }
    }

    /// Counts a call that is lent a record, by its outcome and what it was lent.
    pub fn met(&mut self, call: Call, outcome: usize, lent: &Lent) {
        let record = lent.record.part();
        let length_column = match call {
            Call::Fresh => 0,
            Call::Arrive => 1,
            Call::ArriveValue => 2,
            _ => return,
        };
        self.lengths.count(record.len().min(LONGEST + 1), length_column);
        if call == Call::ArriveValue {
            self.lengths.count(lent.after.part().len().min(LONGEST + 1), 3);
        }
        let Some(row) = ARRIVALS.iter().position(|arrival| *arrival == call) else { return };
        if outcome == 0 {
            let (rseq, sequence) = (record[RSEQ] as usize, sequence_of(lent.frame.part()));
            self.pairs.count(16 * row + rseq, sequence.into());
        }
        if record.len() != RECORD || outcome == FLAT_14 {
            return;
        }
        let end = match outcome {
            0 => missing(record[RSEQ], lent.frame.part()).min(3) as usize,
            17 => 4,
            20 => 5,
            FLAT_16 => 7,
            _ => 6,
        };
        for (count, number) in counts_of(record).into_iter().enumerate() {
            let limit = [0, COUNT_MAX - 1, COUNT_MAX].iter().position(|limit| *limit == number);
            self.limits.count(LIMITS.len() * (NAMES.len() * row + count) + limit.unwrap_or(3), end);
        }
    }

    /// Counts an arrival on a record of which a count fits no field, by what it would come to with other counts.
    pub fn met_unfit(&mut self, call: Call, record: &[u64], frame: &[u8], clock: u64) {
        let Some(row) = ARRIVALS.iter().position(|arrival| *arrival == call) else { return };
        let unfit = |count: &usize| record[FIRST_COUNT + count] > COUNT_MAX;
        let places: Vec<usize> = (0..NAMES.len()).filter(unfit).collect();
        let Some(greatest) = places.iter().map(|place| record[FIRST_COUNT + place]).max() else { return };
        let place = if places.len() == 1 { places[0] } else { PLACES.len() - 1 };
        let number = if greatest == COUNT_MAX + 1 { 0 } else { 1 + usize::from(greatest >> 63 == 1) };
        let mut fit = record.to_vec();
        fit[FIRST_COUNT..].fill(0);
        let refused = Document.arrive(&mut fit, frame, clock, &mut [0; 5], &mut [0; 128]) != 0;
        self.unfit.count(UNFIT.len() * (PLACES.len() * row + place) + number, refused.into());
    }

    /// Counts a sequence of calls whose counts are those of the list, and its calls.
    pub fn met_sequence(&mut self, began: Counts, ended: Counts, calls: &[(u8, Vec<u8>)]) {
        let row = usize::from(began != [0; 3]);
        for (number, _) in calls {
            let column = [0, 17, 20].iter().position(|known| known == number);
            self.sequences.count(row, column.unwrap_or(3));
        }
        for count in 0..NAMES.len() {
            let grown = match (ended[count] > began[count], ended[count] == COUNT_MAX) {
                (false, _) => 0,
                (true, false) => 1,
                (true, true) => 2,
            };
            self.sequences.count(row, 4 + 3 * count + grown);
        }
    }

    /// Counts a journey that is counted right, by whether all that was lost is.
    pub fn met_journey(&mut self, journey: &Journey, [_, _, missing]: Counts) {
        self.journeys.count(journey.kind(), usize::from(missing < journey.unscheduled));
    }

    /// Sequences and journeys.
    pub fn tried(&self) -> [u64; 2] {
        let sequences = (4..7).map(|column| self.sequences.of_column(column)).sum();
        [sequences, self.journeys.of_column(0) + self.journeys.of_column(1)]
    }

    pub fn tables(&self) -> [(&'static str, &Table); 6] {
        [
            ("Frames scheduled, by RSEQ and sequence", &self.pairs),
            ("Arrivals by each count before them, and by what they come to", &self.limits),
            ("Arrivals refused for a count that fits no field, by the greatest of them", &self.unfit),
            ("Slices lent for a record, and for the record after, by their lengths", &self.lengths),
            (
                "Sequences of arrivals whose counts are those of the list: their calls, and what was counted",
                &self.sequences,
            ),
            ("Journeys by what was lost, and by whether all of it is counted as missing", &self.journeys),
        ]
    }
}
