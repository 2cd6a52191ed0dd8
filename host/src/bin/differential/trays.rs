//! What a tray is tried with: frames of every kind and with every fault, records that are none, and buffers, lists and
//! answers that are too short or just long enough. And which cases were met.

use crate::inputs::{self, another, Draft, Faults, FLAT_16, LEGAL_CODINGS};
use crate::table::{crossed, Table};
use crate::tally::Call;
use crate::Hop;
use pelgrant_host::document::{self, Coding, Departure};
use pelgrant_host::random::Random;
use pelgrant_host::tray::HEAD;

/// The most records of a tray that is tried.
const RECORDS: usize = 40;
/// The octets of the longest frame that a record can have.
const LONGEST: usize = 65_533;
/// What of a frame's own a node refuses it by.
const FRAME_FAULTS: [usize; 10] = [1, 2, 3, 24, 4, 5, 6, 7, 8, 9];

/// What makes a record none.
const DAMAGES: [&str; 12] = [
    "length 0",
    "length 1",
    "kind 0",
    "kind 2",
    "kind 256",
    "kind 257",
    "another kind",
    "1 octet cut off",
    "more cut off",
    "1 octet of a head",
    "2 octets of a head",
    "3 octets of a head",
];
const PLACES: [&str; 4] = ["alone", "first", "middle", "last"];

/// One of `PLACES`.
fn place(record: usize, records: usize) -> usize {
    match record {
        _ if records == 1 => 0,
        0 => 1,
        last if last + 1 == records => 3,
        _ => 2,
    }
}

// ---- Trays ----

/// A record that is none: which of `DAMAGES` it has, and where.
#[derive(Clone, Copy, Debug)]
pub struct Damage {
    what: usize,
    record: usize,
}

/// A tray and what is lent with it.
#[derive(Debug)]
pub struct Trial {
    frames: Vec<Vec<u8>>,
    pub octets: Vec<u8>,
    damage: Option<Damage>,
    pub hop: Hop,
    /// The lengths of the buffer, the list and the answer.
    pub room: usize,
    pub slots: usize,
    pub answers: usize,
}

impl Trial {
    /// With those faults: 10 and 15 are of its frames, 27 of a record or of the list, or of both.
    pub fn draw(random: &mut Random, faults: Faults) -> Trial {
        let (level, (from, to)) = (inputs::up_to(random, 3, faults.has(10)), inputs::wait(random));
        let hop = Hop { level, from, to, address: inputs::outgoing(random, faults.has(15)) };
        let refused = faults.has(27);
        // In few trays of any length is a record alone.
        let (least, most) = (usize::from(refused), if random.one_in(8) { 2 } else { RECORDS });
        let records = least + random.size_below(most + 1 - least);
        let mut frames: Vec<Vec<u8>> = (0..records).map(|_| frame(random)).collect();
        if !refused && !frames.is_empty() && random.one_in(200) {
            let (at, fewer) = (random.size_below(frames.len()), random.size_below(LONGEST));
            let length = random.pick(&[LONGEST, LONGEST - 1, fewer]);
            frames[at] = random.octets(length);
        }
        let short_list = refused && random.one_in(3);
        let damaged = refused && (!short_list || random.one_in(4));
        let (octets, damage) = laid(random, &mut frames, damaged);
        let (room, slots) = (room(random, &frames, hop), inputs::room(random, frames.len(), short_list));
        let answers = inputs::room(random, 2, faults.has(FLAT_16));
        Trial { frames, octets, damage, hop, room, slots, answers }
    }

    pub fn records(&self) -> usize {
        self.frames.len()
    }

    pub fn short_list(&self) -> bool {
        self.slots < self.records()
    }

    /// The number that is right: the records were made to be some, or not to be.
    pub fn number(&self) -> u8 {
        if self.answers < 2 {
            16
        } else if self.damage.is_some() || self.short_list() {
            27
        } else {
            0
        }
    }

    /// How many octets the first records of a sound tray have.
    pub fn end_of(&self, records: usize) -> usize {
        self.frames[..records].iter().map(|frame| HEAD + frame.len()).sum()
    }
}

/// A frame that a node takes, one that it does not for one thing or for several, or any octets.
fn frame(random: &mut Random) -> Vec<u8> {
    match random.below(12) {
        0..=4 => Draft::voice(random, Faults::NONE).octets(random),
        5 | 6 => Draft::signalling(random, Faults::NONE).octets(random),
        7 | 8 => {
            let fault = Faults::of(&[random.pick(&FRAME_FAULTS)]);
            let draw = |random: &mut Random| match random.one_in(3) {
                true => Draft::signalling(random, fault).octets(random),
                false => Draft::voice(random, fault).octets(random),
            };
            another(random, draw, |frame| frame.len() <= LONGEST)
        }
        9 => Vec::new(),
        _ => another(random, inputs::frame, |frame| frame.len() <= LONGEST),
    }
}

/// The length that the node sends a frame on with, if it takes it.
fn sent_length(frame: &[u8], hop: Hop) -> Option<usize> {
    let Hop { level, from, to, address } = hop;
    document::forward(frame, level, &Departure { from, to, address }, &mut [0; 138]).ok()
}

/// Room for all that is sent on, just so or with some to spare, or an end in one of the outgoing records: in its head,
/// behind it, one octet before its end, there, or anywhere.
fn room(random: &mut Random, frames: &[Vec<u8>], hop: Hop) -> usize {
    let lengths: Vec<usize> = frames.iter().filter_map(|frame| sent_length(frame, hop)).collect();
    let whole: usize = lengths.iter().map(|length| HEAD + length).sum();
    let more = random.size_below(300);
    if lengths.is_empty() || random.one_in(3) {
        return random.pick(&[whole, whole, whole + 1, whole + more]);
    }
    let at = random.size_below(lengths.len());
    let begins: usize = lengths[..at].iter().map(|length| HEAD + length).sum();
    let (in_head, anywhere) = (random.size_below(HEAD), random.size_below(lengths[at]));
    let behind_head = random.pick(&[0, lengths[at] - 1, lengths[at], lengths[at] + 1, anywhere]);
    begins + random.pick(&[in_head, HEAD + behind_head])
}

/// The records of those frames, one of them damaged if that is wanted. Where a tray is cut in the head of a record, the
/// frames behind it are no longer of it.
fn laid(random: &mut Random, frames: &mut Vec<Vec<u8>>, damaged: bool) -> (Vec<u8>, Option<Damage>) {
    let (mut octets, mut begins) = (Vec::new(), Vec::new());
    for frame in frames.iter() {
        let length = frame.len() + 2;
        begins.push(octets.len());
        octets.extend([(length & 255) as u8, (length >> 8) as u8, 1, 0]);
        octets.extend(frame);
    }
    if !damaged {
        return (octets, None);
    }
    let (last, any) = (frames.len() - 1, random.size_below(frames.len()));
    let (what, record) = (random.size_below(DAMAGES.len()), random.pick(&[0, last, any]));
    let at = begins[record];
    // What follows the record's length, up to the end of the tray.
    let left = octets.len() - at - 2;
    let mut write = |place: usize, number: usize| {
        octets[at + place..][..2].copy_from_slice(&[(number & 255) as u8, (number >> 8) as u8]);
    };
    match DAMAGES[what] {
        "length 0" => write(0, 0),
        "length 1" => write(0, 1),
        "kind 0" => write(2, 0),
        "kind 2" => write(2, 2),
        "kind 256" => write(2, 256),
        "kind 257" => write(2, 257),
        "another kind" => write(2, another(random, |random| random.size_below(65_536), |kind| *kind != 1)),
        // Off the tray, or as if it had been longer.
        "1 octet cut off" if record == last && !frames[last].is_empty() && random.one_in(2) => drop(octets.pop()),
        "1 octet cut off" => write(0, left + 1),
        "more cut off" => write(0, another(random, |random| random.size_below(65_536), |length| *length > left + 1)),
        _ => {
            let kept = what + 1 - DAMAGES.iter().position(|name| *name == "1 octet of a head").unwrap();
            octets.truncate(at + kept);
            frames.truncate(record + 1);
        }
    }
    (octets, Some(Damage { what, record }))
}

// ---- Cases ----

/// The numbers of a list: 0, and the node's in its order.
fn numbers() -> Vec<usize> {
    let node = Call::Forward.order().iter().copied().filter(|number| *number != FLAT_16);
    std::iter::once(0).chain(node).collect()
}

const LEFT: [&str; 10] = [
    "0 octets left",
    "1",
    "2",
    "3",
    "4, the head's",
    "fewer than needed",
    "1 too few",
    "just enough",
    "1 more",
    "more",
];
const OUTCOMES: [&str; 3] = ["sent on", "16", "another"];
const BEHIND: [&str; 5] = ["voice goes", "signals go", "16", "another", "nothing"];
const BESIDES: [&str; 4] = ["nothing", "level", "address", "no room"];
/// The blocks that a frame may have lost, with those that may be dropped from it then.
const LOST_AND_DROPPED: [(usize, usize); 10] =
    [(0, 0), (0, 1), (0, 2), (0, 3), (1, 0), (1, 1), (1, 2), (2, 0), (2, 1), (3, 0)];
const LENGTHS: [&str; 6] = ["length 2", "3 to 11", "12 to 255", "256 to 65,533", "65,534", "65,535"];
const OTHERWISE: [&str; 5] =
    ["frame by frame", "cut before all", "cut between two", "cut behind all", "what is sent on, sent on again"];

pub struct Cases {
    numbers: Table,
    damage: Table,
    counts: Table,
    lengths: Table,
    left: Table,
    behind: Table,
    lent: Table,
    besides: Table,
    codings: Table,
    otherwise: Table,
}

impl Cases {
    pub fn new() -> Cases {
        let number_names = numbers().into_iter().map(crate::tally::label).collect();
        let count_names = (0..=RECORDS).map(|records| format!("{records} records")).collect();
        let coding_names = LEGAL_CODINGS.iter().map(|coding| format!("type {coding}"));
        let droppable =
            |coding: usize| LEGAL_CODINGS.get(coding).map_or(0, |coding| Coding::of(*coding).unwrap().droppable);
        Cases {
            numbers: Table::new(number_names, crossed(&[&PLACES]), |_, _| true),
            damage: Table::new(crossed(&[&DAMAGES]), crossed(&[&PLACES]), |damage, place| {
                // A head that is cut has nothing behind it.
                !DAMAGES[damage].ends_with("of a head") || matches!(PLACES[place], "alone" | "last")
            }),
            counts: Table::new(
                count_names,
                crossed(&[&["done", "27, a record", "27, the list", "27, both"]]),
                |records, column| records > 0 || column == 0,
            ),
            lengths: Table::new(crossed(&[&LENGTHS]), crossed(&[&["sent on", "refused"]]), |length, column| {
                column == 1 || LENGTHS[length] == "12 to 255"
            }),
            left: Table::new(crossed(&[&LEFT]), crossed(&[&OUTCOMES]), |left, outcome| match OUTCOMES[outcome] {
                "sent on" => left >= 7,
                "16" => left < 7,
                // What a frame that is not taken needs is not known.
                _ => left <= 4 || LEFT[left] == "more",
            }),
            behind: Table::new(crossed(&[&["voice", "signalling"]]), crossed(&[&BEHIND]), |refused, behind| {
                // No frame is shorter than one of signalling.
                refused == 0 || behind >= 2
            }),
            lent: Table::new(
                crossed(&[&["answer of 0", "of 1", "of 2", "of 3 or more"]]),
                crossed(&[&["1 too few", "fewer", "just enough", "more"]]),
                |_, _| true,
            ),
            besides: Table::new(crossed(&[&["a record", "the list"]]), crossed(&[&BESIDES]), |_, _| true),
            codings: Table::new(
                coding_names.chain(["signalling".into()]).collect(),
                LOST_AND_DROPPED.map(|(lost, dropped)| format!("{lost} and {dropped}")).into(),
                |coding, column| {
                    let (lost, dropped) = LOST_AND_DROPPED[column];
                    lost + dropped <= usize::from(droppable(coding))
                },
            ),
            otherwise: Table::new(
                crossed(&[&OTHERWISE]),
                crossed(&[&["none sent on", "some", "all"]]),
                // What was sent on once is sent on again.
                |way, sent| OTHERWISE[way] != "what is sent on, sent on again" || sent != 1,
            ),
        }
    }

    /// Counts a tray by its number, and by its list where it is done.
    pub fn met(&mut self, trial: &Trial, number: u8, list: &[u8]) {
        let records = trial.records();
        let fewer = match trial.slots.checked_sub(records) {
            None => usize::from(trial.slots + 1 < records),
            Some(more) => 2 + more.min(1),
        };
        self.lent.count(trial.answers.min(3), fewer);
        match number {
            0 => self.counts.count(records, 0),
            27 => self.refused(trial),
            _ => {}
        }
        if number == 0 {
            self.listed(trial, &list[..records]);
        }
    }

    fn refused(&mut self, trial: &Trial) {
        let (records, short_list) = (trial.records(), trial.short_list());
        if let Some(Damage { what, record }) = trial.damage {
            self.damage.count(what, place(record, records));
            self.counts.count(records, if short_list { 3 } else { 1 });
        } else {
            self.counts.count(records, 2);
        }
        let Hop { level, address, .. } = trial.hop;
        let besides = [true, level > 3, !(128..=8063).contains(&address), trial.room == 0];
        for (column, _) in besides.iter().enumerate().filter(|(_, met)| **met) {
            self.besides.count(usize::from(trial.damage.is_none()), column);
        }
    }

    fn listed(&mut self, trial: &Trial, list: &[u8]) {
        let (numbers, records, mut written) = (numbers(), list.len(), 0);
        for (record, (frame, number)) in trial.frames.iter().zip(list).enumerate() {
            let row = numbers.iter().position(|known| *known == usize::from(*number));
            self.numbers.count(row.expect("a number of the node"), place(record, records));
            self.lengths.count(length_row(frame.len() + 2), usize::from(*number != 0));
            let left = trial.room - written;
            let length = sent_length(frame, trial.hop);
            self.left(left, length, *number);
            if let (16, Some(_)) = (number, length) {
                self.behind(is_signalling(frame), &trial.frames[record + 1..], &list[record + 1..]);
            }
            if let (0, Some(length)) = (number, length) {
                written += HEAD + length;
                self.sent_on(frame, (frame.len() - length) / 16);
            }
        }
    }

    /// Counts what a frame that would be sent on with such a length, or would not, found left of the buffer.
    fn left(&mut self, left: usize, length: Option<usize>, number: u8) {
        let needed = length.map(|length| HEAD + length);
        let row = match (left, needed) {
            (0..=HEAD, _) => left,
            (_, None) => 9,
            (_, Some(needed)) if left + 1 < needed => 5,
            (_, Some(needed)) => 6 + (left + 1 - needed).min(3),
        };
        let outcome = match number {
            0 => 0,
            16 => 1,
            _ => 2,
        };
        self.left.count(row, outcome);
    }

    /// Counts what became of those behind a frame that was refused with 16.
    fn behind(&mut self, signalling: bool, frames: &[Vec<u8>], list: &[u8]) {
        let row = usize::from(signalling);
        for (frame, number) in frames.iter().zip(list) {
            let column = match number {
                0 => usize::from(is_signalling(frame)),
                16 => 2,
                _ => 3,
            };
            self.behind.count(row, column);
        }
        if list.is_empty() {
            self.behind.count(row, 4);
        }
    }

    /// Counts a frame that was sent on without so many of the blocks that it came with.
    fn sent_on(&mut self, frame: &[u8], dropped: usize) {
        let coding = LEGAL_CODINGS.iter().position(|coding| !is_signalling(frame) && *coding == frame[6] & 31);
        let lost = usize::from((frame[4] >> 4 & 3) - (frame[4] & 3));
        let column = LOST_AND_DROPPED.iter().position(|pair| *pair == (lost, dropped));
        self.codings.count(coding.unwrap_or(LEGAL_CODINGS.len()), column.expect("three blocks at most"));
    }

    /// Counts a sound tray that came to the same in two ways, by its list.
    pub fn met_otherwise(&mut self, way: &str, list: &[u8]) {
        let way = OTHERWISE.iter().position(|known| *known == way).expect("a way to send a tray on");
        let column = match list.iter().filter(|number| **number == 0).count() {
            0 => 0,
            sent if sent < list.len() => 1,
            _ => 2,
        };
        self.otherwise.count(way, column);
    }

    pub fn tried_otherwise(&self) -> u64 {
        (0..3).map(|column| self.otherwise.of_column(column)).sum()
    }

    pub fn tables(&self) -> [(&'static str, &Table); 10] {
        [
            ("Records of trays, by their number in the list and their place", &self.numbers),
            ("Trays with a record that is none (27), by what is wrong with it and its place", &self.damage),
            ("Trays by their records and what became of them", &self.counts),
            ("Records of trays, by their length and what became of their frame", &self.lengths),
            ("Records by what is left of the buffer for them, and by their number", &self.left),
            ("Frames behind one that was refused with 16, by that one and what became of them", &self.behind),
            ("Trays by the slots of the answer and those of the list", &self.lent),
            ("Trays refused with 27, by why and by what each frame would be refused by", &self.besides),
            ("Frames of trays sent on, by the blocks that they had lost before and those dropped now", &self.codings),
            ("Trays of the card that come to the same in another way, by their list", &self.otherwise),
        ]
    }
}

/// The place of a record's length in `LENGTHS`.
fn length_row(length: usize) -> usize {
    match length {
        0..=2 => 0,
        3..=11 => 1,
        12..=255 => 2,
        256..=65_533 => 3,
        65_534 => 4,
        _ => 5,
    }
}

/// Of a frame that the node takes.
fn is_signalling(frame: &[u8]) -> bool {
    frame[2] == 3
}
