//! The bits of a frame's head that a writer sets to 0: C/R and the poll bit, which are refused where either is
//! set, and the others, which a reader ignores and a node passes on. What tries them, and which cases were met.

use crate::inputs::{another, ignored_bits, set_bits, Draft, Faults, SET_BITS};
use crate::table::Table;
use crate::tally::Call;
use pelgrant_host::document::{check_sequence, Kind};
use pelgrant_host::random::Random;

const KINDS: [(&str, Kind); 2] = [("voice", Kind::Voice), ("signalling", Kind::Signalling)];

/// The calls that read a frame, and those that write one.
pub const READERS: [Call; 8] = [
    Call::Forward,
    Call::Read,
    Call::Arrive,
    Call::ArriveValue,
    Call::SignalRead,
    Call::Link,
    Call::Taken,
    Call::QueueEnter,
];
pub const WRITERS: [Call; 4] = [Call::Send, Call::SignalWrite, Call::Forward, Call::QueueTake];

fn takes(call: Call, kind: Kind) -> bool {
    match call {
        Call::Read | Call::Arrive | Call::ArriveValue => kind == Kind::Voice,
        Call::SignalRead => kind == Kind::Signalling,
        _ => true,
    }
}

// ---- Bits that are refused ----

/// What else is wrong with a frame that has C/R or the poll bit set, and the number that every reader then
/// gives: 24 stands after 3 and before 4, and of what is asked of a frame nothing else stands before 4.
const BESIDE: [(&str, &[usize], u8); 8] = [
    ("with 1", &[1], 1),
    ("with 2", &[2], 2),
    ("with 3", &[3], 3),
    ("with 3 and 4", &[3, 4], 3),
    ("alone", &[], 24),
    ("with 4", &[4], 24),
    ("with 5", &[5], 24),
    ("with 4 to 9", &[4, 5, 6, 7, 8, 9], 24),
];

/// A row of the table of set bits.
pub struct SetBits {
    pub name: String,
    kind: Kind,
    set: [u8; 2],
    beside: &'static [usize],
    /// The number that is right.
    pub number: u8,
}

impl SetBits {
    pub fn all() -> Vec<SetBits> {
        let mut all = Vec::new();
        for (kind_name, kind) in KINDS {
            for (set_name, set) in SET_BITS {
                for (beside_name, beside, number) in BESIDE {
                    let name = format!("{kind_name}, {set_name}, {beside_name}: {number}");
                    all.push(SetBits { name, kind, set, beside, number });
                }
            }
        }
        all
    }

    /// Such a frame, which reaches octet 3 at least and has those bits set and not the other.
    pub fn frame(&self, random: &mut Random) -> Vec<u8> {
        let draw = |random: &mut Random| {
            let mut draft = Draft::of(random, self.kind, Faults::of(self.beside));
            let had = set_bits(&draft.head);
            draft.head[0] ^= had[0] ^ self.set[0];
            draft.head[2] ^= had[1] ^ self.set[1];
            draft.octets(random)
        };
        another(random, draw, |frame| frame.len() >= 3)
    }
}

// ---- Bits that are ignored ----

/// A row of the table of pairs: a bit that is ignored, by its octet, both counted from 1.
pub struct Ignored {
    kind: Kind,
    octet: usize,
    bit: usize,
}

impl Ignored {
    pub fn all() -> Vec<Ignored> {
        let mut all = Vec::new();
        for (_, kind) in KINDS {
            for (octet, bits) in (1..).zip(ignored_bits(kind)) {
                let ignored = (1..=8).filter(|bit| bits >> (bit - 1) & 1 == 1);
                all.extend(ignored.map(|bit| Ignored { kind, octet, bit }));
            }
        }
        all
    }

    fn name(&self) -> String {
        let kind = KINDS.iter().find(|(_, kind)| *kind == self.kind).map_or("", |(name, _)| name);
        format!("{kind}, octet {}, bit {}", self.octet, self.bit)
    }

    pub fn readers(&self) -> impl Iterator<Item = Call> + '_ {
        READERS.into_iter().filter(|call| takes(*call, self.kind))
    }

    /// A frame that is taken, with any of these bits set, and the same with this bit changed, half of the times
    /// with others of them.
    pub fn pair(&self, random: &mut Random) -> Pair {
        let mut draft = Draft::of(random, self.kind, Faults::NONE);
        draft.head[5] = random.octet_below(200);
        let one = draft.octets(random);
        let mut changed = match random.one_in(2) {
            true => ignored_bits(self.kind).map(|ignored| random.octet() & ignored),
            false => [0; 8],
        };
        changed[self.octet - 1] |= 1 << (self.bit - 1);
        let mut other = one.clone();
        change(&mut other, &changed);
        Pair { one, other, changed }
    }
}

/// Two frames that differ in bits that are ignored, each with its own right check.
pub struct Pair {
    pub one: Vec<u8>,
    pub other: Vec<u8>,
    changed: [u8; 8],
}

impl Pair {
    /// Makes of the one, sent on or kept, what the other has to be sent on or kept as.
    pub fn change_sent(&self, sent: &mut [u8]) {
        change(sent, &self.changed);
    }
}

/// Changes bits of the head of a frame that can be taken, and makes its check afresh.
fn change(frame: &mut [u8], bits: &[u8; 8]) {
    frame.iter_mut().zip(bits).for_each(|(octet, bits)| *octet ^= bits);
    let check = check_sequence(&frame[..8]);
    let check_at = frame.len() - 2;
    frame[check_at..].copy_from_slice(&check.to_le_bytes());
}

// ---- Cases ----

fn column(call: Call) -> usize {
    READERS.iter().position(|reader| *reader == call).expect("a call that reads a frame")
}

fn names(calls: &[Call]) -> Vec<String> {
    calls.iter().map(|call| call.name().into()).collect()
}

pub struct HeadBits {
    refused: Table,
    pairs: Table,
    written: Table,
}

impl HeadBits {
    pub fn new() -> HeadBits {
        let (set, ignored) = (SetBits::all(), Ignored::all());
        let set_names = set.into_iter().map(|case| case.name).collect();
        let ignored_names = ignored.iter().map(Ignored::name).collect();
        HeadBits {
            refused: Table::new(set_names, names(&READERS), |_, _| true),
            pairs: Table::new(ignored_names, names(&READERS), |row, reader| takes(READERS[reader], ignored[row].kind)),
            written: Table::new(
                names(&WRITERS),
                ["neither"].into_iter().chain(SET_BITS.map(|(name, _)| name)).map(String::from).collect(),
                |_, set| set == 0,
            ),
        }
    }

    /// Counts a frame of that row to which both sides gave the right number.
    pub fn refused(&mut self, row: usize, call: Call) {
        self.refused.count(row, column(call));
    }

    /// Counts a pair of that row which the call answered alike.
    pub fn alike(&mut self, row: usize, call: Call) {
        self.pairs.count(row, column(call));
    }

    /// Counts a frame that the call wrote, if it is one that does, by what it has set.
    pub fn wrote(&mut self, call: Call, frame: &[u8]) {
        let Some(row) = WRITERS.iter().position(|writer| *writer == call) else { return };
        let Some(head) = frame.first_chunk::<8>() else { return };
        let set = SET_BITS.iter().position(|(_, set)| *set == set_bits(head));
        self.written.count(row, set.map_or(0, |set| set + 1));
    }

    pub fn pairs(&self) -> u64 {
        (0..READERS.len()).map(|reader| self.pairs.of_column(reader)).sum()
    }

    pub fn tables(&self) -> [(&'static str, &Table); 3] {
        [
            (
                "Frames with C/R or the poll bit set, with what else is wrong and the number that is right",
                &self.refused,
            ),
            ("Pairs of frames that differ in a bit that is ignored and are answered alike", &self.pairs),
            ("Frames written, by which of C/R and the poll bit they have set", &self.written),
        ]
    }
}
