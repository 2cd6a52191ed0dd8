//! Calls the proved library and the independent implementation with the same inputs and compares
//! all that comes back: the number, the answers, and every octet lent and around it. What is heard of a voice frame
//! is held to the text besides, bit by bit, and the check of a frame written to the division of polynomials.
//!
//! `differential [INPUTS [SEED]]`: INPUTS for each call, more for the events of a watch, fewer for the
//! calls of a line and of a waiting room and for trays, a tenth as many chains, fewer again for each bit that a
//! writer sets to 0, for each pair of RSEQ and sequence, trays that have to come to the same frame by frame and cut in
//! two, sequences of arrivals, whose counts have to be those taken from the list of all calls, packets of an origin that
//! are lost on their way, and long sequences of calls on one waiting room, which have to go as a plain list does. With
//! any INPUTS there are a few frames of every length that the division sealed, whole and with one bit wrong.

mod arrivals;
mod cases;
mod counts;
mod division;
mod head_bits;
mod hearing;
mod inputs;
mod lent;
mod lines;
mod queues;
mod table;
mod tally;
mod trays;

use arrivals::Arrivals;
use cases::Cases;
use counts::{Fate, Journey};
use division::{Division, Sealed};
use head_bits::{HeadBits, Ignored, SetBits};
use hearing::{Heard, Hearing, Spoken};
use inputs::{Draft, Faults, COUNT_MAX, FIRST_COUNT, FLAT_13, FLAT_14, FLAT_16, FLAT_21};
use lent::Lent;
use lines::Reading;
use pelgrant_host::abi::Card;
use pelgrant_host::document::{Coding, Departure};
use pelgrant_host::flat::{Document, RECORD};
use pelgrant_host::queue::{Room, QUEUE, TOTALS};
use pelgrant_host::random::Random;
use pelgrant_host::tray::{frame_by_frame, Passed};
use pelgrant_host::Calls;
use queues::{Course, Step, WaitingRoom};
use std::process::ExitCode;
use tally::{Call, Tally};
use trays::Trial;

const INPUTS: u64 = 1_000_000;
/// Events of a watch for each input of another call: they come in long sequences.
const EVENTS: u64 = 6;
/// Inputs of another call for each of a line: their bits are many.
const LINES: u64 = 8;
/// The same for each of a waiting room, and for each fresh record.
const ROOMS: u64 = 10;
const FRESH_ROOMS: u64 = 100;
/// The same for each tray, which has up to 40 frames, and for each that is sent on in other ways as well.
const TRAYS: u64 = 10;
const TRAYS_OTHERWISE: u64 = 50;
/// Calls of a sequence on one waiting room.
const SEQUENCE: u64 = 2000;
/// Calls of a sequence on one endpoint's record, and the ms within which the next comes: so few, too, that more and
/// more are due too far ahead.
const ARRIVALS: [u64; 4] = [1, 4, 30, 300];
const PACES: [u64; 3] = [4, 16, 40];
const SEED: u64 = 764;
const SHOWN: u64 = 10;

struct Run {
    random: Random,
    tally: Tally,
    chains: u64,
    different: u64,
    /// The record that the last arrival left, so that whole bursts are played and not only single frames.
    carried: [u64; RECORD],
    arrivals: Arrivals,
    count_cases: counts::Cases,
    division: Division,
    head_bits: HeadBits,
    hearing: Hearing,
    /// The watch that the last event left.
    watch: [u64; 9],
    cases: Cases,
    /// The line and the count that the last frame put on one left.
    begun: (Vec<u8>, usize),
    /// The line that the last reading left, with the place answered.
    reading: Option<Reading>,
    line_cases: lines::Cases,
    queue_cases: queues::Cases,
    tray_cases: trays::Cases,
    /// Lines written and read back, and lines read on behind any bits.
    read_back: u64,
    read_on: u64,
}

/// What a call lent too little or of the wrong shape is refused by, if at all.
fn flat(faults: Faults) -> Option<usize> {
    [FLAT_16, FLAT_13, FLAT_21, FLAT_14].into_iter().find(|number| faults.has(*number))
}

impl Run {
    /// Gives the number and what was lent as the independent implementation leaves it. Where a frame is heard, that has
    /// to be what the text has too, and where one is written, its check has to be the division's.
    fn compare(
        &mut self, call: Call, flat: Option<usize>, numbers: &[u64], lent: Lent,
        run: impl Fn(&dyn Calls, &mut Lent) -> u8,
    ) -> (u8, Lent) {
        let (mut right, mut found) = (lent.clone(), lent.clone());
        let right_number = run(&Document, &mut right);
        let found_number = run(&Card, &mut found);
        self.tally.count(call, flat, right_number);
        if found_number == 0 {
            self.head_bits.wrote(call, found.out.part());
        }
        let difference = right.difference(&found);
        let same = right_number == found_number && difference.is_none();
        let outcome = flat.unwrap_or(right_number.into());
        let holds = hearing::holds(call, outcome, &lent, &right)
            && counts::holds(call, outcome, &lent, &right)
            && division::holds(call, outcome, &right);
        if same && holds {
            self.division.wrote(call, outcome, &right);
            self.hearing.met(call, outcome, &lent);
            self.count_cases.met(call, outcome, &lent);
        } else {
            self.differs(|| {
                println!("different: {}, numbers {numbers:?}", call.name());
                println!("  right is {right_number}, the card answers {found_number}");
                if !holds {
                    println!("  what is right is not what the text has");
                }
                if let Some(name) = difference {
                    println!("  first of what is lent to differ: {name}");
                }
                println!("  lent {lent:?}\n  right {right:?}\n  the card {found:?}");
            });
        }
        (right_number, right)
    }

    fn differs(&mut self, show: impl FnOnce()) {
        self.different += 1;
        if self.different <= SHOWN {
            show();
        }
    }

    fn answer(&mut self, needed: usize, faults: Faults) -> lent::Guarded<u64> {
        let length = inputs::room(&mut self.random, needed, faults.has(FLAT_16));
        lent::slots(&mut self.random, length)
    }

    /// The answer slots and 128 samples to be written; where they are to be too short, either is or both.
    fn answer_and_samples(&mut self, needed: usize, faults: Faults) -> (lent::Guarded<u64>, lent::Guarded<u8>) {
        let random = &mut self.random;
        let short = if faults.has(FLAT_16) { 1 + random.below(3) } else { 0 };
        let slots = inputs::room(random, needed, short & 1 != 0);
        let octets = inputs::room(random, 128, short & 2 != 0);
        (lent::slots(random, slots), lent::buffer(random, octets))
    }

    fn send(&mut self) {
        let random = &mut self.random;
        let faults = Faults::among(random, Call::Send.order());
        let sseq = inputs::up_to(random, 15, faults.has(14));
        let inside = sseq != 0;
        let step = match (faults.has(FLAT_13), inside != faults.has(13)) {
            (true, _) => inputs::up_to(random, 2, true),
            (false, true) => random.pick(&[1, 1, 2]),
            (false, false) => 0,
        };
        let coding = inputs::coding(random, faults.has(6));
        let noise = inputs::up_to(random, 15, faults.has(12));
        let facts = Coding::of(coding).unwrap_or(Coding { sample_bits: 8, droppable: 0, resets: false });
        let samples = inputs::samples(random, facts.sample_bits, faults.has(11));
        let level = inputs::up_to(random, 3, faults.has(10));
        let (from, to) = inputs::wait(random);
        let address = inputs::outgoing(random, faults.has(15));
        let length = facts.frame_length(level.min(facts.droppable));
        let room = inputs::room(random, length, faults.has(16));
        let (samples, out) = (lent::octets(random, &samples), lent::buffer(random, room));
        let lent = Lent { sseq, samples, out, answer: self.answer(1, faults), ..Lent::default() };
        let numbers = [step.into(), coding.into(), noise.into(), level.into(), from.into(), to.into(), address.into()];
        self.compare(Call::Send, flat(faults), &numbers, lent, |calls, lent| {
            calls.send(
                &mut lent.sseq,
                step,
                coding,
                noise,
                lent.samples.part(),
                level,
                from,
                to,
                address,
                lent.out.part_mut(),
                lent.answer.part_mut(),
            )
        });
    }

    fn signal_write(&mut self) {
        let random = &mut self.random;
        let faults = Faults::among(random, Call::SignalWrite.order());
        let (bad_bits, bad_na) = match (faults.has(12), random.below(3)) {
            (false, _) => (false, false),
            (true, which) => (which != 1, which != 0),
        };
        let (bits, na) = (inputs::up_to(random, 15, bad_bits), inputs::up_to(random, 1, bad_na));
        let (from, to) = inputs::wait(random);
        let address = inputs::outgoing(random, faults.has(15));
        let room = inputs::room(random, 10, faults.has(16));
        let out = lent::buffer(random, room);
        let lent = Lent { out, answer: self.answer(1, faults), ..Lent::default() };
        let numbers = [bits.into(), na.into(), from.into(), to.into(), address.into()];
        self.compare(Call::SignalWrite, flat(faults), &numbers, lent, |calls, lent| {
            calls.signal_write(bits, na, from, to, address, lent.out.part_mut(), lent.answer.part_mut())
        });
    }

    fn forward(&mut self) {
        let random = &mut self.random;
        let faults = Faults::among(random, &[FLAT_16, 10, 15, 16]);
        let frame = inputs::frame(random);
        let level = inputs::up_to(random, 3, faults.has(10));
        let (from, to) = inputs::wait(random);
        let address = inputs::outgoing(random, faults.has(15));
        let left = frame.get(4).map_or(0, |dropping| dropping & 3);
        let length = frame.len().saturating_sub(16 * usize::from(left.min(level)));
        let room = inputs::room(random, length.min(490), faults.has(16));
        let (frame, out) = (lent::octets(random, &frame), lent::buffer(random, room));
        let lent = Lent { frame, out, answer: self.answer(1, faults), ..Lent::default() };
        let numbers = [level.into(), from.into(), to.into(), address.into()];
        self.compare(Call::Forward, flat(faults), &numbers, lent, |calls, lent| {
            calls.forward(lent.frame.part(), level, from, to, address, lent.out.part_mut(), lent.answer.part_mut())
        });
    }

    /// A tray of any frames. Both sides are held to the number that it was made for.
    fn forward_tray(&mut self) {
        let random = &mut self.random;
        let faults = Faults::among(random, &[FLAT_16, 27, 27, 10, 15]);
        let trial = Trial::draw(random, faults);
        let (tray, answer) = (lent::octets(random, &trial.octets), lent::slots(random, trial.answers));
        let (out, list) = (lent::buffer(random, trial.room), lent::buffer(random, trial.slots));
        let lent = Lent { tray, out, list, answer, ..Lent::default() };
        let hop = trial.hop;
        let (number, after) = self.compare(Call::ForwardTray, flat(faults), &hop.numbers(), lent, |calls, lent| {
            let Lent { tray, out, list, answer, .. } = lent;
            hop.forward_tray(calls, tray.part(), out.part_mut(), list.part_mut(), answer.part_mut())
        });
        if number != trial.number() {
            self.differs(|| println!("different: forward_tray answers {number}, not {}: {trial:?}", trial.number()));
            return;
        }
        self.tray_cases.met(&trial, number, after.list.part());
    }

    /// A sound tray by the card comes to what the card makes of its frames one by one, to what it makes of the two
    /// parts of the tray, cut behind any record, the second with the room and the list that the first leaves, and to a
    /// tray of which the next node refuses no frame.
    fn tray_otherwise(&mut self) {
        let random = &mut self.random;
        let faults = Faults::among(random, &[10, 15, 0, 0, 0]);
        let trial = Trial::draw(random, faults);
        let Trial { octets: tray, hop, .. } = &trial;
        let (records, cut) = (trial.records(), random.size_below(trial.records() + 1));
        let (out, list) = (random.octets(trial.room), random.octets(trial.slots));

        let (mut whole_out, mut whole_list) = (out.clone(), list.clone());
        let whole = hop.tray_by_card(tray, &mut whole_out, &mut whole_list);
        let (mut single_out, mut single_list) = (out.clone(), list.clone());
        let singly = hop.tray_frame_by_frame(tray, &mut single_out, &mut single_list);

        let (mut cut_out, mut cut_list) = (out, list);
        let (first, second) = tray.split_at(trial.end_of(cut));
        let in_two = hop.tray_by_card(first, &mut cut_out, &mut cut_list[..cut]).and_then(|first| {
            let left = cut_out.get_mut(first.written..)?;
            let second = hop.tray_by_card(second, left, &mut cut_list[cut..])?;
            Some(Passed { records: first.records + second.records, written: first.written + second.written })
        });

        let numbers = &whole_list[..records];
        let sent = numbers.iter().filter(|number| **number == 0).count();
        let sent_on = whole.and_then(|whole| whole_out.get(..whole.written)).unwrap_or(&[]);
        let next = Hop { level: hop.level.min(3), address: 128, ..*hop };
        let mut next_list = vec![u8::MAX; sent];
        let again = next.tray_by_card(sent_on, &mut vec![0; sent_on.len()], &mut next_list);

        let same_singly = (singly, &single_out, &single_list) == (whole, &whole_out, &whole_list);
        let same_in_two = (in_two, &cut_out, &cut_list) == (whole, &whole_out, &whole_list);
        let all_again = again.is_some_and(|again| again.records == sent) && next_list.iter().all(|number| *number == 0);
        if whole.is_none() || !same_singly || !same_in_two || !all_again {
            self.differs(|| {
                println!("different: a tray in another way, {trial:?}");
                println!("  whole {whole:?} {whole_list:?} {whole_out:?}");
                println!("  frame by frame {singly:?} {single_list:?} {single_out:?}");
                println!("  cut behind {cut} {in_two:?} {cut_list:?} {cut_out:?}\n  again {again:?} {next_list:?}");
            });
            return;
        }
        let cut = match cut {
            0 => "cut before all",
            cut if cut == records => "cut behind all",
            _ => "cut between two",
        };
        ["frame by frame", cut].iter().for_each(|way| self.tray_cases.met_otherwise(way, numbers));
        self.tray_cases.met_otherwise("what is sent on, sent on again", &next_list);
    }

    fn read(&mut self) {
        let faults = Faults::among(&mut self.random, &[FLAT_16, 0, 0, 0]);
        let frame = inputs::frame(&mut self.random);
        let frame = lent::octets(&mut self.random, &frame);
        let (answer, samples) = self.answer_and_samples(hearing::slots(Call::Read), faults);
        let lent = Lent { frame, answer, samples, ..Lent::default() };
        self.compare(Call::Read, flat(faults), &[], lent, |calls, lent| {
            calls.read(lent.frame.part(), lent.answer.part_mut(), lent.samples.part_mut())
        });
    }

    fn fresh(&mut self) {
        let faults = Faults::among(&mut self.random, Call::Fresh.order());
        let build_out = self.random.octet();
        self.fresh_numbers(build_out, faults);
    }

    fn fresh_record(&mut self, build_out: u8) -> [u64; RECORD] {
        self.fresh_numbers(build_out, Faults::NONE).try_into().expect("as many numbers as a record has")
    }

    fn fresh_numbers(&mut self, build_out: u8, faults: Faults) -> Vec<u64> {
        let random = &mut self.random;
        let length = inputs::record_length(random, faults.has(FLAT_14));
        let lent = Lent { record: lent::slots(random, length), ..Lent::default() };
        let fresh = |calls: &dyn Calls, lent: &mut Lent| calls.fresh(build_out, lent.record.part_mut());
        let (_, after) = self.compare(Call::Fresh, flat(faults), &[build_out.into()], lent, fresh);
        after.record.part().to_vec()
    }

    /// A record, a clock and a frame that mostly suit each other. Where the call may have changed the record, it is gone
    /// on with.
    fn arrive(&mut self, call: Call) {
        let random = &mut self.random;
        let faults = Faults::among(random, call.order());
        let carry_on = !faults.has(14) && self.carried[2] < inputs::CLOCK_MAX && random.one_in(2);
        let record = if carry_on { self.carried } else { inputs::record(random, faults.has(14)) };
        let clock = match carry_on && !faults.has(18) {
            true => record[2] + random.below(33),
            false => inputs::clock(random, &record, faults.has(18)),
        };
        let frame = inputs::arriving(random, &record, faults);
        let (number, after) = self.arrive_at(call, faults, &record, clock, &frame);
        if number == 0 || arrivals::stores(number.into()) {
            self.carried = after;
        }
    }

    /// One arrival by either call. Gives the number and the record after it, which is the one before where the flat form
    /// has something against the call.
    fn arrive_at(
        &mut self, call: Call, faults: Faults, record: &[u64; RECORD], clock: u64, frame: &[u8],
    ) -> (u8, [u64; RECORD]) {
        let random = &mut self.random;
        let by_value = call == Call::ArriveValue;
        // By value one of three slices is too short, or more.
        let short_after = by_value && faults.has(FLAT_16) && random.one_in(2);
        let others = if short_after && random.one_in(2) { Faults::NONE } else { faults };
        let after_length = inputs::room(random, RECORD, short_after);
        let after = if by_value { lent::slots(random, after_length) } else { lent::Guarded::default() };
        let numbers = inputs::lent_record(random, record, faults);
        let (lent_record, lent_frame) = (lent::numbers(random, &numbers), lent::octets(random, frame));
        let (answer, samples) = self.answer_and_samples(hearing::slots(call), others);
        let lent = Lent { record: lent_record, after, frame: lent_frame, answer, samples, ..Lent::default() };
        let (number, left) = self.compare(call, flat(faults), &[clock], lent, |calls, lent| {
            let Lent { record, after, frame, answer, samples, .. } = lent;
            let (frame, answer, samples) = (frame.part(), answer.part_mut(), samples.part_mut());
            match by_value {
                true => calls.arrive_value(record.part(), frame, clock, after.part_mut(), answer, samples),
                false => calls.arrive(record.part_mut(), frame, clock, answer, samples),
            }
        });
        self.arrivals.met(call, flat(faults).unwrap_or(number.into()), &numbers, frame);
        if flat(faults) == Some(FLAT_14) && numbers.len() == RECORD {
            self.count_cases.met_unfit(call, &numbers, frame, clock);
        }
        let left = if by_value { left.after } else { left.record };
        let after = left.part().first_chunk().filter(|_| flat(faults).is_none());
        (number, *after.unwrap_or(record))
    }

    /// Every pair of RSEQ and sequence, scheduled by either call.
    fn every_pair(&mut self) {
        for call in counts::ARRIVALS {
            for (rseq, sequence) in (0..16).flat_map(|rseq| (0..16).map(move |sequence| (rseq, sequence))) {
                let (record, clock, frame) = counts::to_schedule(&mut self.random, rseq, sequence);
                let (number, _) = self.arrive_at(call, Faults::NONE, &record, clock, &frame);
                if number != 0 {
                    self.differs(|| {
                        println!("different: {} of a frame that is to be scheduled answers {number}", call.name());
                        println!("  record {record:?}, clock {clock}, frame {frame:?}");
                    });
                }
            }
        }
    }

    /// A sequence of arrivals from a fresh record on, each handed the record as the last one left it: the counts are
    /// those taken from the list of all calls. Half of the times the host sets the counts first.
    fn count_in_turn(&mut self) {
        let build_out = self.random.octet_below(200);
        let mut record = self.fresh_record(build_out);
        let random = &mut self.random;
        if random.one_in(2) {
            let likely = [COUNT_MAX - 100, COUNT_MAX - 2, COUNT_MAX - 1, COUNT_MAX, 7, 0];
            record[FIRST_COUNT..].fill_with(|| random.pick(&likely));
        }
        let (began, mut calls) = (counts::counts_of(&record), Vec::new());
        let (times, pace) = (random.pick(&ARRIVALS), random.pick(&PACES));
        for _ in 0..times {
            let random = &mut self.random;
            let call = random.pick(&counts::ARRIVALS);
            let faults = Faults::among(random, call.order()).but(14);
            let clock = match faults.has(18) {
                true => inputs::clock(random, &record, true),
                false => inputs::clock_on(random, &record, pace),
            };
            let frame = inputs::arriving(random, &record, faults);
            let (number, after) = self.arrive_at(call, faults, &record, clock, &frame);
            record = after;
            calls.push((number, frame));
        }
        let (ended, right) = (counts::counts_of(&record), counts::taken_from_list(began, &calls));
        if ended == right {
            self.count_cases.met_sequence(began, ended, &calls);
        } else {
            self.differs(|| {
                println!("different: the counts of a sequence are {ended:?}, by the list {right:?}");
                println!("  from {began:?} on, build-out {build_out}, calls {calls:?}");
            });
        }
    }

    /// Packets that the card makes as one origin come in their order and once each, unless they are lost on the way:
    /// missing is never more than was not scheduled.
    fn journey(&mut self) {
        let mut journey = Journey::draw(&mut self.random);
        let build_out = journey.build_out;
        let mut record = self.fresh_record(build_out);
        let mut sseq = 0;
        for _ in 0..journey.packets {
            let random = &mut self.random;
            let sequence = sseq;
            let (step, fate) = journey.next(random, sseq);
            let coding = random.pick(&inputs::LEGAL_CODINGS);
            let wait = match fate {
                Fate::ComesLate => u32::from(build_out) + 1,
                _ => random.below(u64::from(build_out) + 1) as u32,
            };
            let mut frame =
                written(|out, length| Card.send(&mut sseq, step, coding, 9, &[1; 128], 0, 0, wait, 128, out, length))
                    .expect("a frame of the origin");
            if fate == Fate::ComesDamaged {
                // Of the head, which the check covers.
                let bit = random.size_below(64);
                frame[bit / 8] ^= 1 << (bit % 8);
            }
            journey.sent(step, sequence, fate);
            if fate == Fate::IsLost {
                continue;
            }
            let (call, clock) = (random.pick(&counts::ARRIVALS), counts::clock_in_time(random, &record));
            let (number, after) = self.arrive_at(call, Faults::NONE, &record, clock, &frame);
            record = after;
            let (counted, scheduled) = (counts::counts_of(&record), number == 0);
            if scheduled != (fate == Fate::Comes) || !journey.is_counted(counted) {
                self.differs(|| {
                    println!("different: a journey, {fate:?} answers {number}, counts {counted:?}\n  {journey:?}");
                });
                return;
            }
        }
        self.count_cases.met_journey(&journey, counts::counts_of(&record));
    }

    fn signal_read(&mut self) {
        let faults = Faults::among(&mut self.random, Call::SignalRead.order());
        let random = &mut self.random;
        let build_out = inputs::up_to(random, 199, faults.has(14));
        let frame = if random.one_in(4) {
            inputs::frame(random)
        } else if faults.has(19) {
            Draft::voice(random, faults).octets(random)
        } else {
            let mut draft = Draft::signalling(random, faults);
            if !faults.has(9) && !faults.has(14) {
                let in_time = random.octet_below(u16::from(build_out) + 1);
                draft.head[5] = match faults.has(17) {
                    true => random.pick(&[build_out + 1, 200]),
                    false => random.pick(&[build_out, in_time]),
                };
            }
            draft.octets(random)
        };
        let frame = lent::octets(random, &frame);
        let lent = Lent { frame, answer: self.answer(3, faults), ..Lent::default() };
        self.compare(Call::SignalRead, flat(faults), &[build_out.into()], lent, |calls, lent| {
            calls.signal_read(build_out, lent.frame.part(), lent.answer.part_mut())
        });
    }

    fn fill(&mut self) {
        let random = &mut self.random;
        let faults = Faults::among(random, Call::Fill.order());
        let lengths = [0, 1, 127, 128, 128, 128, 129, 300];
        let (last_length, noise_length) = (random.pick(&lengths), random.pick(&lengths));
        let any = random.octet();
        let m_last = random.pick(&[0, 1, 1, 2, 255, any]);
        let (last, noise) = (lent::buffer(random, last_length), lent::buffer(random, noise_length));
        let (answer, out) = self.answer_and_samples(1, faults);
        let lent = Lent { frame: last, noise, out, answer, ..Lent::default() };
        self.fill_from(flat(faults), m_last, lent);
    }

    /// What was last played stands in the place of a frame.
    fn fill_from(&mut self, flat: Option<usize>, m_last: u8, lent: Lent) -> (u8, Lent) {
        self.compare(Call::Fill, flat, &[m_last.into()], lent, |calls, lent| {
            calls.fill(lent.frame.part(), lent.noise.part(), m_last, lent.out.part_mut(), lent.answer.part_mut())
        })
    }

    fn noise_level(&mut self) {
        let random = &mut self.random;
        let faults = Faults::among(random, Call::NoiseLevel.order());
        let code = inputs::up_to(random, 15, faults.has(12));
        let short = if faults.has(FLAT_16) { 1 + random.below(3) } else { 0 };
        let (slots, levels) = (inputs::room(random, 1, short & 1 != 0), inputs::room(random, 1, short & 2 != 0));
        let (answer, level) = (lent::slots(random, slots), lent::levels(random, levels));
        let lent = Lent { answer, level, ..Lent::default() };
        self.compare(Call::NoiseLevel, flat(faults), &[code.into()], lent, |calls, lent| {
            calls.noise_level(code, lent.answer.part_mut(), lent.level.part_mut())
        });
    }

    fn link(&mut self) {
        let faults = Faults::among(&mut self.random, &[FLAT_16, 0, 0, 0]);
        let frame = inputs::frame(&mut self.random);
        let frame = lent::octets(&mut self.random, &frame);
        let lent = Lent { frame, answer: self.answer(2, faults), ..Lent::default() };
        self.compare(Call::Link, flat(faults), &[], lent, |calls, lent| {
            calls.link(lent.frame.part(), lent.answer.part_mut())
        });
    }

    fn taken(&mut self) {
        let faults = Faults::among(&mut self.random, &[FLAT_16, 0, 0, 0]);
        let frame = inputs::frame(&mut self.random);
        let frame = lent::octets(&mut self.random, &frame);
        let lent = Lent { frame, answer: self.answer(3, faults), ..Lent::default() };
        self.compare(Call::Taken, flat(faults), &[], lent, |calls, lent| {
            calls.taken(lent.frame.part(), lent.answer.part_mut())
        });
    }

    fn watch_start(&mut self) {
        let random = &mut self.random;
        let faults = Faults::among(random, Call::WatchStart.order());
        let (states, refresh, keepalive) = inputs::parameters(random, faults.has(21));
        let clock = inputs::start_clock(random, faults.has(18));
        let length = inputs::watch_length(random, faults.has(FLAT_14));
        let lent = Lent { record: lent::slots(random, length), ..Lent::default() };
        let numbers = [states.into(), refresh.into(), keepalive.into(), clock];
        let (number, after) = self.compare(Call::WatchStart, flat(faults), &numbers, lent, |calls, lent| {
            calls.watch_start(states, refresh, keepalive, clock, lent.record.part_mut())
        });
        if number == 0 {
            self.watch.copy_from_slice(after.record.part());
        }
    }

    /// One event on the watch that the last left, and now and then the start of another sequence. A
    /// watch that is lent damaged is not gone on with.
    fn watch_tell(&mut self) {
        let at_the_limit = self.watch[8] == inputs::CLOCK_MAX;
        if self.random.one_in(if at_the_limit { 10 } else { 1000 }) {
            self.watch_start();
        }
        let kept_bits = self.watch[5] as u8;
        let random = &mut self.random;
        let faults = Faults::among(random, Call::WatchTell.order());
        let clock = inputs::next_clock(random, &self.watch, faults.has(18));
        let event = if faults.has(FLAT_21) { inputs::up_to(random, 2, true) } else { random.octet_below(3) };
        // 12 is for what is kept or for what is told; time passing tells nothing.
        let bad_kept = faults.has(12) && (event == 0 || random.one_in(2));
        let (bits, flag) = inputs::bits_and_flag(random, event, kept_bits, faults.has(12) && !bad_kept);
        let mut watch = inputs::watch(random, &self.watch, faults, bad_kept);
        let damaged = if faults.none() && random.one_in(4) { Some(random.size_below(9)) } else { None };
        if let Some(field) = damaged {
            watch[field] = inputs::damaged(random, &self.watch, field);
        }
        let sound = watch == self.watch;
        if flat(faults).is_none() {
            self.cases.met(&watch, clock, event, bits, flag);
        }
        let record = lent::numbers(random, &watch);
        let lent = Lent { record, answer: self.answer(4, faults), ..Lent::default() };
        let numbers = [clock, event.into(), bits.into(), flag.into()];
        let (number, after) = self.compare(Call::WatchTell, flat(faults), &numbers, lent, |calls, lent| {
            calls.watch_tell(lent.record.part_mut(), clock, event, bits, flag, lent.answer.part_mut())
        });
        match damaged {
            Some(field) if !sound => self.cases.damaged(field, number),
            _ if sound && number == 0 => self.watch.copy_from_slice(after.record.part()),
            _ => {}
        }
    }

    /// Frames with C/R or the poll bit set, alone and with other faults, by every call that reads one. Both sides
    /// are held to the number that the table has.
    fn set_bits(&mut self) {
        for (row, case) in SetBits::all().into_iter().enumerate() {
            let frame = case.frame(&mut self.random);
            for call in head_bits::READERS {
                let before = self.different;
                let hop = Hop::draw(&mut self.random, true);
                let lent = Lent::to_read(&mut self.random, &frame);
                let read = |calls: &dyn Calls, lent: &mut Lent| hop.read_by(calls, call, lent);
                let (number, _) = self.compare(call, None, &hop.numbers(), lent, read);
                if number != case.number {
                    self.differs(|| {
                        println!("different: {}, {}", call.name(), case.name);
                        println!("  the independent implementation answers {number}\n  frame {frame:?}");
                    });
                }
                if self.different == before {
                    self.head_bits.refused(row, call);
                }
            }
        }
    }

    /// Frames of every length that the division sealed: the card takes them, and refuses them by their check where one
    /// bit of what it covers, or of the check, is wrong.
    fn sealed_by_division(&mut self, round: usize) {
        for sealed in Sealed::all(&mut self.random) {
            for trial in sealed.trials(round) {
                let mut answer = [u64::MAX; 2];
                let number = Card.link(&trial.octets, &mut answer);
                if (number, answer) == (trial.number, trial.answer()) {
                    self.division.met(&trial);
                } else {
                    self.differs(|| println!("different: link answers {number} and {answer:?} to {trial:?}"));
                }
            }
        }
    }

    /// Bits that are ignored: the card answers two frames that differ in them alike, and sends them on, or keeps them,
    /// with the same difference.
    fn ignored_bits(&mut self) {
        for (row, case) in Ignored::all().into_iter().enumerate() {
            let pair = case.pair(&mut self.random);
            for call in case.readers() {
                let hop = Hop::draw(&mut self.random, true);
                let mut one = Lent::to_read(&mut self.random, &pair.one);
                let mut other = Lent { frame: lent::octets(&mut self.random, &pair.other), ..one.clone() };
                let came = [one.frame.clone(), other.frame.clone()];
                let numbers = [&mut one, &mut other].map(|lent| hop.read_by(&Card, call, lent));
                if call == Call::Forward && numbers == [0, 0] {
                    [&one, &other].iter().for_each(|lent| self.head_bits.wrote(call, lent.out.part()));
                    let length = one.answer.part()[0] as usize;
                    pair.change_sent(&mut one.out.part_mut()[..length]);
                }
                if call == Call::QueueEnter {
                    pair.change_sent(&mut one.store.part_mut()[..pair.one.len()]);
                }
                // The frames are to be as they came, and all else that is lent the same.
                let untouched = came.each_ref() == [&one.frame, &other.frame];
                one.frame = other.frame.clone();
                let difference = one.difference(&other);
                if numbers == [0, 0] && untouched && difference.is_none() {
                    self.head_bits.alike(row, call);
                } else {
                    self.differs(|| {
                        println!("different: {}, frames that differ in bits that are ignored", call.name());
                        println!(
                            "  answered {numbers:?}, frames untouched: {untouched}, first to differ: {difference:?}"
                        );
                        println!(
                            "  frames {:?}\n  and {:?}\n  of the one {one:?}\n  of the other {other:?}",
                            pair.one, pair.other
                        );
                    });
                }
            }
        }
    }

    fn one_input(&mut self, call: Call) {
        match call {
            Call::Send => self.send(),
            Call::SignalWrite => self.signal_write(),
            Call::Forward => self.forward(),
            Call::ForwardTray => self.forward_tray(),
            Call::Read => self.read(),
            Call::Fresh => self.fresh(),
            Call::Arrive | Call::ArriveValue => self.arrive(call),
            Call::SignalRead => self.signal_read(),
            Call::Fill => self.fill(),
            Call::NoiseLevel => self.noise_level(),
            Call::Link => self.link(),
            Call::Taken => self.taken(),
            Call::WatchStart => self.watch_start(),
            Call::WatchTell => self.watch_tell(),
            Call::LineAdd => self.line_add(),
            Call::LineNext => self.line_next(),
            Call::QueueFresh => self.queue_fresh(),
            Call::QueueEnter => self.queue_enter(),
            Call::QueueTake => self.queue_take(),
            Call::QueueFreed => self.queue_freed(),
        }
    }

    /// A frame on the line that the last one left, or on another.
    fn line_add(&mut self) {
        let random = &mut self.random;
        let faults = Faults::among(random, Call::LineAdd.order());
        let length = lines::frame_length(random, faults.has(1));
        let frame = match faults.has(1) && random.one_in(500) {
            true => random.octets(1 << 20),
            false => lines::frame(random, length),
        };
        let (mut octets, mut count) = self.begun.clone();
        if random.one_in(2) || faults.has(14) || faults.has(16) {
            count = random.pick(&[0, 1, 1]) * random.size_below(80);
            let takes = lines::taken_by(&frame, count);
            let least = (count + takes).div_ceil(8);
            octets = match faults.has(16) {
                // One octet less than it takes, or no more than there is on the line.
                true if random.one_in(2) => random.octets(count.div_ceil(8)),
                true => random.octets((least - 1).max(count.div_ceil(8))),
                false => {
                    let more = random.pick(&[0, 0, 1, 200]);
                    random.octets(least + more)
                }
            };
            if faults.has(14) {
                count = lines::count_past(random, octets.len());
            }
        }
        let (line, lent_frame) = (lent::octets(random, &octets), lent::octets(random, &frame));
        let lent = Lent { line, frame: lent_frame, answer: self.answer(1, faults), ..Lent::default() };
        let (number, after) = self.compare(Call::LineAdd, flat(faults), &[count as u64], lent, |calls, lent| {
            calls.line_add(lent.line.part_mut(), count, lent.frame.part(), lent.answer.part_mut())
        });
        if flat(faults).is_none() {
            self.line_cases.met_adding(octets.len(), count, frame.len(), lines::taken_by(&frame, count), number);
            if number == 0 {
                self.begun = (after.line.part().to_vec(), after.answer.part()[0] as usize);
            }
        }
    }

    /// The line that the last reading left, from the place answered on, or another.
    fn line_next(&mut self) {
        let random = &mut self.random;
        let faults = Faults::among(random, Call::LineNext.order());
        let going_on = self.reading.take().filter(|_| faults.none());
        let reading = going_on.unwrap_or_else(|| Reading::draw(random, faults));
        let reading = if faults.has(14) { reading.past(random) } else { reading };
        let room = if faults.has(14) { 490 } else { reading.room(random, faults.has(16)) };
        let (line, out) = (lent::octets(random, &reading.octets), lent::buffer(random, room));
        let lent = Lent { line, out, answer: self.answer(3, faults), ..Lent::default() };
        let (count, place) = (reading.count, reading.place);
        let numbers = [count as u64, place as u64];
        let (number, after) = self.compare(Call::LineNext, flat(faults), &numbers, lent, |calls, lent| {
            calls.line_next(lent.line.part(), count, place, lent.out.part_mut(), lent.answer.part_mut())
        });
        if flat(faults).is_none() {
            self.line_cases.met_reading(&reading, number);
            let place = after.answer.part()[2] as usize;
            self.reading = (place > 0).then(|| reading.from(place));
        }
    }

    /// What is written on a line begun empty reads back as the same frames, with nothing between.
    fn read_back(&mut self) {
        let random = &mut self.random;
        let frames: Vec<Vec<u8>> = (0..1 + random.below(8))
            .map(|_| {
                let length = lines::frame_length(random, false);
                lines::frame(random, length)
            })
            .collect();
        let room = frames.iter().map(|frame| lines::taken_by(frame, 0)).sum::<usize>().div_ceil(8);
        let (mut octets, mut count) = (random.octets(room), [0]);
        let added = frames.iter().all(|frame| Card.line_add(&mut octets, count[0] as usize, frame, &mut count) == 0);
        let read = read_all(&octets, count[0] as usize, 0);
        self.read_back += 1;
        if !added || read.iter().any(|read| read.number != 0) || !read.iter().map(|read| &read.frame).eq(&frames) {
            self.differs(|| println!("different: a line read back\n  frames {frames:?}\n  read {read:?}"));
        }
    }

    /// Behind any bits at all a flag that they do not touch opens what it would by itself, whatever place
    /// before it is read from.
    fn read_on(&mut self) {
        let random = &mut self.random;
        let rest = Reading::draw(random, Faults::NONE);
        let mut behind = vec![false, true, true, true, true, true, true, false];
        behind.extend(lines::bits_of(&rest.octets, rest.count));
        let damage = lines::any_bits(random, 300);
        let both = [&damage[..], &behind].concat();
        let (octets, alone) = (lines::octets_of(random, &both, 1), lines::octets_of(random, &behind, 1));
        let place = lines::place(random, damage.len());
        let read = read_all(&octets, both.len(), place);
        let mut right = read_all(&alone, behind.len(), 0);
        right.iter_mut().for_each(|read| read.place += damage.len());
        let before = read.iter().take_while(|read| read.place <= damage.len()).count();
        self.read_on += 1;
        if read[before..] != right {
            self.differs(|| println!("different: read on behind {damage:?}\n  read {read:?}\n  right {right:?}"));
        }
    }

    fn queue_fresh(&mut self) {
        let faults = Faults::among(&mut self.random, Call::QueueFresh.order());
        self.fresh_queue(faults);
    }

    fn fresh_queue(&mut self, faults: Faults) -> Vec<u32> {
        let random = &mut self.random;
        let length = if faults.has(FLAT_14) { queues::wrong_length(random) } else { QUEUE };
        let any: Vec<u32> = random.numbers(length).into_iter().map(|number| number as u32).collect();
        let lent = Lent { queue: lent::queue(random, &any), ..Lent::default() };
        let fresh = |calls: &dyn Calls, lent: &mut Lent| calls.queue_fresh(lent.queue.part_mut());
        let (_, after) = self.compare(Call::QueueFresh, flat(faults), &[], lent, fresh);
        after.queue.part().to_vec()
    }

    /// A store of any octets with a fresh record.
    fn fresh_room(&mut self, octets: usize) -> WaitingRoom {
        WaitingRoom { store: self.random.octets(octets), queue: self.fresh_queue(Faults::NONE) }
    }

    fn queue_enter(&mut self) {
        let random = &mut self.random;
        let faults = Faults::among(random, Call::QueueEnter.order());
        let (overwriting, faults) = queues::overwriting(random, faults, 25);
        let frame = queues::frame(random, faults);
        let mut room = WaitingRoom::to_enter(random, frame.len(), faults);
        let overwritten = if overwriting { room.overwrite(random) } else { None };
        let step = Step::Enter { frame, clock: random.number() as u32 };
        self.single_step(flat(faults), &room, overwritten, &step);
    }

    fn queue_take(&mut self) {
        let random = &mut self.random;
        let faults = Faults::among(random, Call::QueueTake.order());
        let (overwriting, faults) = queues::overwriting(random, faults, 26);
        let frame = queues::waiting_frame(random, faults);
        let (from, to) = inputs::wait(random);
        let mut room = WaitingRoom::to_take(random, &frame, from, faults);
        let overwritten = if overwriting { room.overwrite(random) } else { None };
        let level = inputs::up_to(random, 3, faults.has(10));
        let address = inputs::outgoing(random, faults.has(15));
        let left = frame.get(4).map_or(0, |dropping| dropping & 3);
        let length = frame.len().saturating_sub(16 * usize::from(left.min(level)));
        let octets = inputs::room(random, length, faults.has(16));
        let out = lent::buffer(random, octets);
        let step = Step::Take { to, level, address, out, answer: self.answer(1, faults) };
        self.single_step(flat(faults), &room, overwritten, &step);
    }

    fn queue_freed(&mut self) {
        let random = &mut self.random;
        let faults = Faults::among(random, Call::QueueFreed.order());
        let (overwriting, faults) = queues::overwriting(random, faults, 10);
        let mut room = WaitingRoom::to_ask(random, faults);
        let overwritten = if overwriting { room.overwrite(random) } else { None };
        let level = inputs::up_to(random, 3, faults.has(10));
        let step = Step::Ask { level, answer: self.answer(1, faults) };
        self.single_step(flat(faults), &room, overwritten, &step);
    }

    fn single_step(&mut self, flat: Option<usize>, room: &WaitingRoom, overwritten: Option<usize>, step: &Step) {
        let (number, _) = self.step(flat, room, step);
        if flat.is_none() {
            self.queue_cases.met_single(room, overwritten, step, number);
        }
    }

    /// One call on a waiting room.
    fn step(&mut self, flat: Option<usize>, room: &WaitingRoom, step: &Step) -> (u8, Lent) {
        let random = &mut self.random;
        let queue = lent::queue(random, &room.queue);
        let (number, after) = match step {
            Step::Enter { frame, clock } => {
                let (store, frame) = (lent::octets(random, &room.store), lent::octets(random, frame));
                let lent = Lent { store, queue, frame, ..Lent::default() };
                self.compare(Call::QueueEnter, flat, &[(*clock).into()], lent, |calls, lent| {
                    calls.queue_enter(lent.store.part_mut(), lent.queue.part_mut(), lent.frame.part(), *clock)
                })
            }
            &Step::Take { to, level, address, ref out, ref answer } => {
                let (store, out, answer) = (lent::octets(random, &room.store), out.clone(), answer.clone());
                let lent = Lent { store, queue, out, answer, ..Lent::default() };
                let numbers = [to.into(), level.into(), address.into()];
                self.compare(Call::QueueTake, flat, &numbers, lent, |calls, Lent { store, queue, out, answer, .. }| {
                    let (queue, out, answer) = (queue.part_mut(), out.part_mut(), answer.part_mut());
                    calls.queue_take(store.part(), queue, to, level, address, out, answer)
                })
            }
            &Step::Ask { level, ref answer } => {
                let lent = Lent { queue, answer: answer.clone(), ..Lent::default() };
                self.compare(Call::QueueFreed, flat, &[level.into()], lent, |calls, lent| {
                    calls.queue_freed(lent.queue.part(), level, lent.answer.part_mut())
                })
            }
        };
        self.queue_cases.met(room, step, number);
        (number, after)
    }

    /// A long sequence of calls on one store from a fresh record on, each handed store and record as the last one
    /// left them: the answers are those of a plain list that sees neither, what waits is what it has, and the totals
    /// are what it finds by a walk.
    fn wait_in_turn(&mut self, store: usize) {
        let octets = queues::STORES[store];
        let mut room = self.fresh_room(octets);
        let (mut list, mut course) = (Room::empty(octets), Course::new(&mut self.random));
        for _ in 0..SEQUENCE {
            let step = course.next(&mut self.random);
            let (waiting, listed) = (list.waiting.len(), step.listed(&mut list));
            let (number, after) = self.step(step.flat(), &room, &step);
            room = room.after(&step, &after);
            self.queue_cases.met_in_turn(store, waiting, &step, number, after.answer.part());
            let answered = (number, after.out.part().to_vec(), after.answer.part().to_vec());
            let (held, totals) = (Room::of(&room.store, &room.queue), &room.queue[TOTALS..]);
            if answered != listed || held.as_ref() != Ok(&list) || totals != list.totals() {
                self.differs(|| {
                    println!("different: a store of {octets} octets in a sequence, {step:?}");
                    println!("  the list answers {listed:?}\n  and has {:?} of {list:?}", list.totals());
                    println!("  the others answer {answered:?}\n  and have {totals:?} of {held:?}");
                });
                return;
            }
        }
    }

    /// Such a sequence in which the host writes over record and store, and now and then makes the record afresh.
    fn wait_disturbed(&mut self, store: usize) {
        let mut room = self.fresh_room(queues::STORES[store]);
        let mut course = Course::new(&mut self.random);
        for _ in 0..SEQUENCE {
            room.disturb(&mut self.random);
            let step = course.next(&mut self.random);
            let (number, after) = self.step(step.flat(), &room, &step);
            room = room.after(&step, &after);
            self.queue_cases.met_disturbed(store, &step, number);
        }
    }

    /// Demand 3 through the compiled code: a chain of nodes sends what one node sends, and what is read at its end is
    /// the originals divided by 2 for each level, as far as bits may be dropped. Fill hands that on as it is.
    fn chain(&mut self) {
        let random = &mut self.random;
        let spoken = Spoken::draw(random);
        let (mut sseq, step) = random.pick(&[(0, 0), (1, 1), (15, 1), (7, 2)]);
        // Half of the chains are gentle, so that neither the waits nor the levels run to their end at once.
        let gentle = random.one_in(2);
        let origin = Hop::draw(random, gentle);
        let nodes: Vec<Hop> = (0..random.size_below(hearing::NODES + 1)).map(|_| Hop::draw(random, gentle)).collect();
        let node_levels: u8 = nodes.iter().map(|node| node.level).sum();
        let waits: u64 = nodes.iter().map(|node| u64::from(node.to.wrapping_sub(node.from))).sum();
        let one_node = nodes.last().map(|&Hop { address, .. }| {
            let (level, to) = (node_levels.min(3), waits.min(200) as u32);
            Hop { level, from: 0, to, address }
        });

        let Hop { level, from, to, address } = origin;
        let (before, levels) = (self.different, level + node_levels);
        let first = written(|out, length| {
            Card.send(&mut sseq, step, spoken.coding, 9, &spoken.samples, level, from, to, address, out, length)
        })
        .unwrap_or_default();
        let chained = nodes.iter().try_fold(first.clone(), |frame, node| node.forward(&frame));
        let single = one_node.map_or(Some(first.clone()), |node| node.forward(&first));
        self.head_bits.wrote(Call::Send, &first);
        single.iter().chain(&chained).for_each(|sent| self.head_bits.wrote(Call::Forward, sent));

        let right = spoken.heard(levels);
        let lent = Lent::to_read(&mut self.random, chained.as_deref().unwrap_or(&[]));
        let read = |calls: &dyn Calls, lent: &mut Lent| origin.read_by(calls, Call::Read, lent);
        let (number, after) = self.compare(Call::Read, None, &[], lent, read);
        let heard = Heard::answered(Call::Read, &after);
        let handed_on = self.handed_on(&after.samples);
        self.chains += 1;
        if chained != single || number != 0 || heard != right || !handed_on {
            self.differs(|| {
                println!("different: a chain, coding {}, origin {origin:?}, nodes {nodes:?}", spoken.coding);
                println!("  chain {chained:?}\n  one node {single:?}");
                println!("  read {number} {heard:?}\n  right {right:?}\n  handed on: {handed_on}");
            });
        }
        if self.different == before {
            self.hearing.met_chain(&spoken, nodes.len(), level, levels);
        }
    }

    /// Whether fill makes of words what they are, both of those last played and of the host's noise.
    fn handed_on(&mut self, words: &lent::Guarded<u8>) -> bool {
        [1, 0].into_iter().all(|m_last| {
            let random = &mut self.random;
            let (words_lent, others) = (words.clone(), lent::buffer(random, 128));
            let (frame, noise) = if m_last == 1 { (words_lent, others) } else { (others, words_lent) };
            let (out, answer) = (lent::buffer(random, 128), lent::slots(random, 1));
            let (_, after) = self.fill_from(None, m_last, Lent { frame, noise, out, answer, ..Lent::default() });
            after.answer.part() == [128] && after.out.part() == words.part()
        })
    }
}

/// A frame or a refused stretch of a line, with the place answered.
#[derive(Debug, PartialEq)]
struct Read {
    number: u8,
    frame: Vec<u8>,
    place: usize,
}

/// All that the card reads from a place on, until there is no frame. Any other answer has to be a frame, 1, 22
/// or 23, and its place behind the one before: neither another refusal nor a standstill passes as the end.
fn read_all(line: &[u8], count: usize, place: usize) -> Vec<Read> {
    let (mut all, mut place) = (Vec::new(), place);
    loop {
        let (mut out, mut answer) = ([0; 490], [u64::MAX; 3]);
        let number = Card.line_next(line, count, place, &mut out, &mut answer);
        if (number, answer) == (0, [0; 3]) {
            return all;
        }
        let [found, length, end] = answer.map(|value| value as usize);
        let is_frame = (number, found) == (0, 1) && (10..=490).contains(&length);
        let is_refused = matches!(number, 1 | 22 | 23) && (found, length) == (0, 0);
        let moves_on = place < end && end < count;
        assert!(
            (is_frame || is_refused) && moves_on,
            "line_next: {number} and {answer:?} from {place} on, {count} bits of {line:?}"
        );
        place = end;
        all.push(Read { number, frame: out[..length].to_vec(), place });
    }
}

/// How a frame leaves the origin or a node of a chain.
#[derive(Clone, Copy, Debug)]
struct Hop {
    level: u8,
    from: u32,
    to: u32,
    address: u16,
}

impl Hop {
    fn draw(random: &mut Random, gentle: bool) -> Hop {
        let level = if gentle && !random.one_in(4) { 0 } else { random.octet_below(4) };
        let (from, to) = inputs::wait(random);
        let to = if gentle { from.wrapping_add(random.below(40) as u32) } else { to };
        Hop { level, from, to, address: inputs::address(random, false) }
    }

    fn forward(self, frame: &[u8]) -> Option<Vec<u8>> {
        let Hop { level, from, to, address } = self;
        written(|out, length| Card.forward(frame, level, from, to, address, out, length))
    }

    fn forward_tray(self, calls: &dyn Calls, tray: &[u8], out: &mut [u8], list: &mut [u8], answer: &mut [u64]) -> u8 {
        let Hop { level, from, to, address } = self;
        calls.forward_tray(tray, level, from, to, address, out, list, answer)
    }

    /// What the card answers to a tray, unless it is refused.
    fn tray_by_card(self, tray: &[u8], out: &mut [u8], list: &mut [u8]) -> Option<Passed> {
        let mut answer = [u64::MAX; 2];
        let number = self.forward_tray(&Card, tray, out, list, &mut answer);
        let [records, written] = answer.map(|value| value as usize);
        (number == 0).then_some(Passed { records, written })
    }

    /// The same where the card is handed one frame after the other.
    fn tray_frame_by_frame(self, tray: &[u8], out: &mut [u8], list: &mut [u8]) -> Option<Passed> {
        let Hop { level, from, to, address } = self;
        frame_by_frame(&Card, tray, level, &Departure { from, to, address }, out, list).ok()
    }

    fn numbers(self) -> [u64; 4] {
        [self.level.into(), self.from.into(), self.to.into(), self.address.into()]
    }

    /// Hands the frame that is lent to a call that reads one: to a node on this hop or its waiting room, or to the
    /// endpoint at clock 0.
    fn read_by(self, calls: &dyn Calls, call: Call, lent: &mut Lent) -> u8 {
        let Hop { level, from, to, address } = self;
        let Lent { record, after, store, queue, frame, samples, out, answer, .. } = lent;
        let (frame, answer, samples) = (frame.part(), answer.part_mut(), samples.part_mut());
        match call {
            Call::Forward => calls.forward(frame, level, from, to, address, out.part_mut(), answer),
            Call::Read => calls.read(frame, answer, samples),
            Call::Arrive => calls.arrive(record.part_mut(), frame, 0, answer, samples),
            Call::ArriveValue => calls.arrive_value(record.part(), frame, 0, after.part_mut(), answer, samples),
            Call::SignalRead => calls.signal_read(record.part()[0] as u8, frame, answer),
            Call::Link => calls.link(frame, answer),
            Call::Taken => calls.taken(frame, answer),
            Call::QueueEnter => calls.queue_enter(store.part_mut(), queue.part_mut(), frame, from),
            _ => unreachable!("{} reads no frame", call.name()),
        }
    }
}

/// The frame that a call writes, unless it is refused.
fn written(call: impl FnOnce(&mut [u8], &mut [u64]) -> u8) -> Option<Vec<u8>> {
    let (mut out, mut length) = ([0; 138], [0]);
    let number = call(&mut out, &mut length);
    if number == 0 {
        out.get(..length[0] as usize).map(<[u8]>::to_vec)
    } else {
        None
    }
}

fn argument(place: usize, default: u64) -> u64 {
    std::env::args().nth(place).map_or(default, |text| text.parse().expect("a number"))
}

fn main() -> ExitCode {
    let (inputs, seed) = (argument(1, INPUTS), argument(2, SEED));
    let mut run = Run {
        random: Random::from_seed(seed),
        tally: Tally::new(),
        chains: 0,
        different: 0,
        carried: [100, 0, 0, 0, 0, 0, 0, 0, 0],
        arrivals: Arrivals::new(),
        count_cases: counts::Cases::new(),
        division: Division::new(),
        head_bits: HeadBits::new(),
        hearing: Hearing::new(),
        watch: [16, 10_000, 25_000, 0, 0, 0, 0, 0, 0],
        cases: Cases::new(),
        begun: (Vec::new(), 0),
        reading: None,
        line_cases: lines::Cases::new(),
        queue_cases: queues::Cases::new(),
        tray_cases: trays::Cases::new(),
        read_back: 0,
        read_on: 0,
    };
    for call in Call::ALL {
        let times = match call {
            Call::WatchTell => EVENTS * inputs,
            Call::LineAdd | Call::LineNext => inputs / LINES,
            Call::ForwardTray => inputs / TRAYS,
            Call::QueueFresh => inputs / FRESH_ROOMS,
            Call::QueueEnter | Call::QueueTake | Call::QueueFreed => inputs / ROOMS,
            _ => inputs,
        };
        (0..times).for_each(|_| run.one_input(call));
    }
    (0..inputs.div_ceil(5000)).for_each(|_| run.set_bits());
    (0..inputs.div_ceil(1000)).for_each(|_| run.ignored_bits());
    (0..inputs.div_ceil(50_000)).for_each(|_| run.every_pair());
    (0..inputs.div_ceil(1000)).for_each(|_| run.count_in_turn());
    (0..inputs.div_ceil(250)).for_each(|_| run.journey());
    (0..inputs / 10).for_each(|_| run.chain());
    (0..inputs / TRAYS_OTHERWISE).for_each(|_| run.tray_otherwise());
    (0..inputs / 50).for_each(|_| run.read_back());
    (0..inputs / 50).for_each(|_| run.read_on());
    for store in 0..queues::STORES.len() {
        (0..inputs.div_ceil(150_000)).for_each(|_| run.wait_in_turn(store));
        (0..inputs.div_ceil(400_000)).for_each(|_| run.wait_disturbed(store));
    }
    (0..division::ROUNDS).for_each(|round| run.sealed_by_division(round));

    println!("Seed {seed}; . where there can be none\n");
    let calls = ("Inputs by call and refusal", &run.tally.table);
    let mut amiss = Vec::new();
    let others = run.arrivals.tables().into_iter().chain(run.count_cases.tables()).chain(run.head_bits.tables());
    let others = others.chain(run.cases.tables()).chain(run.line_cases.tables()).chain(run.queue_cases.tables());
    let others = others.chain(run.tray_cases.tables()).chain(run.hearing.tables()).chain(run.division.tables());
    for (title, table) in std::iter::once(calls).chain(others) {
        println!("{title}");
        table.print();
        println!();
        amiss.extend(table.amiss());
    }
    amiss.extend(run.division.lengths_amiss());
    let [sequences, journeys] = run.count_cases.tried();
    println!("Sequences of arrivals against the list of calls: {sequences}");
    println!("Journeys of an origin's packets: {journeys}");
    println!("Chains of 0 to {} nodes against one node: {}", hearing::NODES, run.chains);
    println!("Lines of 1 to 8 frames read back: {}", run.read_back);
    println!("Lines read on behind any bits: {}", run.read_on);
    amiss.iter().for_each(|cell| println!("amiss: {cell}"));
    if !amiss.is_empty() {
        println!("amiss: {} cells of the tables", amiss.len());
    }
    let failed = run.different + amiss.len() as u64;
    let others = run.head_bits.pairs() + run.tray_cases.tried_otherwise() + run.chains + run.read_back + run.read_on;
    let compared = run.tally.total() + sequences + journeys + run.division.tried() + others;
    println!("host: {compared} compared, {failed} different");
    if failed == 0 {
        ExitCode::SUCCESS
    } else {
        ExitCode::FAILURE
    }
}
