//! Document 01, the signalling watch, the line of bits, the waiting room and the tray in the flat form of
//! `pelgrant.h`: numbers and lent slices.
//!
//! Only this form can be lent an answer slice too short (16), a step (13) or an event (21) that is
//! none, or a record of another length or with a number that fits no field (14); they are judged
//! before all else, in that order. Past 16 the answer is always written, zeros where the call is
//! refused, but for the place that a stretch of a line which is no frame ends at.

use crate::document::{self, Departure, Endpoint, Kind, Packet, Refusal, Scheduled, Step, Voice, SAMPLES};
use crate::line::{self, Frame, Unread};
use crate::queue::{self, QUEUE};
use crate::tray::{self, Passed};
use crate::watch::{Cause, Conditioning, Event, Originating, Terminating, Told, Watch};
use crate::Calls;

/// The independent implementation.
pub struct Document;

pub const RECORD: usize = 9;
pub const WATCH: usize = 9;
const SHORT: u8 = Refusal::Buffer as u8;

/// Writes the values of a call that was done, zeros for one refused, and gives its number.
fn answered<const N: usize>(result: Result<[u64; N], Refusal>, answer: &mut [u64]) -> u8 {
    let (number, values) = match result {
        Ok(values) => (0, values),
        Err(refusal) => (refusal as u8, [0; N]),
    };
    answer[..N].copy_from_slice(&values);
    number
}

fn answered_with_words<const N: usize>(
    result: Result<([u64; N], &[u8; SAMPLES]), &Refusal>, answer: &mut [u64], samples: &mut [u8],
) -> u8 {
    match result {
        Ok((_, words)) => samples[..SAMPLES].copy_from_slice(words),
        Err(_) => samples[..SAMPLES].fill(0),
    }
    answered(result.map(|(values, _)| values).map_err(|refusal| *refusal), answer)
}

fn step_of(step: u8) -> Result<Step, Refusal> {
    match step {
        0 => Ok(Step::Start),
        1 => Ok(Step::Data),
        2 => Ok(Step::Stop),
        _ => Err(Refusal::Burst),
    }
}

fn endpoint_of(record: &[u64]) -> Result<Endpoint, Refusal> {
    let &[build_out, rseq, last_clock, end, m_last, last_noise, scheduled, late, missing] = record else {
        return Err(Refusal::Record);
    };
    let octet = |field| u8::try_from(field).map_err(|_| Refusal::Record);
    let count = |field| u32::try_from(field).map_err(|_| Refusal::Record);
    Ok(Endpoint {
        build_out: octet(build_out)?,
        rseq: octet(rseq)?,
        last_clock,
        end,
        m_last: octet(m_last)?,
        last_noise: octet(last_noise)?,
        scheduled: count(scheduled)?,
        late: count(late)?,
        missing: count(missing)?,
    })
}

fn record_of(endpoint: &Endpoint) -> [u64; RECORD] {
    let &Endpoint { build_out, rseq, last_clock, end, m_last, last_noise, scheduled, late, missing } = endpoint;
    let [scheduled, late, missing] = [scheduled, late, missing].map(u64::from);
    [build_out.into(), rseq.into(), last_clock, end, m_last.into(), last_noise.into(), scheduled, late, missing]
}

/// Moves a record of numbers on. One that is no record is left as it came; of any other the arrival
/// itself says what a refusal leaves.
fn arrived(record: &mut [u64], frame: &[u8], clock: u64) -> Result<Scheduled, Refusal> {
    let mut endpoint = endpoint_of(record)?;
    let scheduled = document::arrive(&mut endpoint, frame, clock);
    record.copy_from_slice(&record_of(&endpoint));
    scheduled
}

fn heard(voice: &Voice) -> ([u64; 3], &[u8; SAMPLES]) {
    let &Voice { sample_bits, dropped, width, ref words } = voice;
    ([sample_bits, dropped, width].map(u64::from), words)
}

fn scheduled(scheduled: &Scheduled) -> ([u64; 5], &[u8; SAMPLES]) {
    let &Scheduled { due, reset, ref voice } = scheduled;
    let ([sample_bits, dropped, width], words) = heard(voice);
    ([due, reset.into(), sample_bits, dropped, width], words)
}

pub fn watch_of(record: &[u64]) -> Result<Watch, Refusal> {
    let &[states, refresh, keepalive, originating, terminating, bits, last_sent, last_taken, last_clock] = record
    else {
        return Err(Refusal::Record);
    };
    let octet = |field| u8::try_from(field).map_err(|_| Refusal::Record);
    let timer = |field| u32::try_from(field).map_err(|_| Refusal::Record);
    Ok(Watch {
        states: octet(states)?,
        refresh: timer(refresh)?,
        keepalive: timer(keepalive)?,
        originating: match originating {
            0 => Originating::Norm,
            1 => Originating::Alarm,
            _ => return Err(Refusal::Record),
        },
        terminating: match terminating {
            0 => Terminating::Norm,
            1 => Terminating::LossAlarm,
            2 => Terminating::RemoteAlarm,
            _ => return Err(Refusal::Record),
        },
        bits: octet(bits)?,
        last_sent,
        last_taken,
        last_clock,
    })
}

fn watch_record(watch: &Watch) -> [u64; WATCH] {
    [
        watch.states.into(),
        watch.refresh.into(),
        watch.keepalive.into(),
        watch.originating as u64,
        watch.terminating as u64,
        watch.bits.into(),
        watch.last_sent,
        watch.last_taken,
        watch.last_clock,
    ]
}

pub fn event_of(event: u8, bits: u8, flag: u8) -> Result<Event, Refusal> {
    match event {
        0 => Ok(Event::Passing),
        1 => Ok(Event::Reading { bits, facility_alarm: flag != 0 }),
        2 => Ok(Event::Taken { na: flag }),
        _ => Err(Refusal::NotOffered),
    }
}

fn told(told: Told) -> [u64; 4] {
    let [sent, bits, na] = told.sending.map_or([0; 3], |sending| {
        let sent = match sending.cause {
            Cause::Transition => 1,
            Cause::Refresh => 2,
        };
        [sent, sending.bits.into(), sending.na.into()]
    });
    let conditioning = match told.conditioning {
        None => 0,
        Some(Conditioning::Begins) => 1,
        Some(Conditioning::Ends) => 2,
    };
    [sent, bits, na, conditioning]
}

fn is_voice(kind: Kind) -> u64 {
    (kind == Kind::Voice).into()
}

impl Calls for Document {
    fn send(
        &self, sseq: &mut u8, step: u8, coding: u8, noise: u8, samples: &[u8], level: u8, from: u32, to: u32,
        address: u16, out: &mut [u8], answer: &mut [u64],
    ) -> u8 {
        if answer.is_empty() {
            return SHORT;
        }
        let departure = Departure { from, to, address };
        let sent = step_of(step)
            .and_then(|step| document::send(sseq, &Packet { step, coding, noise, samples }, level, &departure, out));
        answered(sent.map(|length| [length as u64]), answer)
    }

    fn signal_write(
        &self, bits: u8, na: u8, from: u32, to: u32, address: u16, out: &mut [u8], answer: &mut [u64],
    ) -> u8 {
        if answer.is_empty() {
            return SHORT;
        }
        let written = document::signal_write(bits, na, &Departure { from, to, address }, out);
        answered(written.map(|length| [length as u64]), answer)
    }

    fn forward(
        &self, frame: &[u8], level: u8, from: u32, to: u32, address: u16, out: &mut [u8], answer: &mut [u64],
    ) -> u8 {
        if answer.is_empty() {
            return SHORT;
        }
        let sent_on = document::forward(frame, level, &Departure { from, to, address }, out);
        answered(sent_on.map(|length| [length as u64]), answer)
    }

    fn forward_tray(
        &self, tray: &[u8], level: u8, from: u32, to: u32, address: u16, out: &mut [u8], list: &mut [u8],
        answer: &mut [u64],
    ) -> u8 {
        if answer.len() < 2 {
            return SHORT;
        }
        let passed = tray::forward(tray, level, &Departure { from, to, address }, out, list);
        answered(passed.map(|Passed { records, written }| [records as u64, written as u64]), answer)
    }

    fn read(&self, frame: &[u8], answer: &mut [u64], samples: &mut [u8]) -> u8 {
        if answer.len() < 3 || samples.len() < SAMPLES {
            return SHORT;
        }
        answered_with_words(document::read(frame).as_ref().map(heard), answer, samples)
    }

    fn fresh(&self, build_out: u8, record: &mut [u64]) -> u8 {
        if record.len() != RECORD {
            return Refusal::Record as u8;
        }
        record.copy_from_slice(&record_of(&Endpoint::fresh(build_out)));
        0
    }

    fn arrive(&self, record: &mut [u64], frame: &[u8], clock: u64, answer: &mut [u64], samples: &mut [u8]) -> u8 {
        if answer.len() < 5 || samples.len() < SAMPLES {
            return SHORT;
        }
        answered_with_words(arrived(record, frame, clock).as_ref().map(scheduled), answer, samples)
    }

    fn arrive_value(
        &self, record: &[u64], frame: &[u8], clock: u64, after: &mut [u64], answer: &mut [u64], samples: &mut [u8],
    ) -> u8 {
        if answer.len() < 5 || samples.len() < SAMPLES || after.len() < RECORD {
            return SHORT;
        }
        let arrival = if record.len() == RECORD {
            let after = &mut after[..RECORD];
            after.copy_from_slice(record);
            arrived(after, frame, clock)
        } else {
            Err(Refusal::Record)
        };
        answered_with_words(arrival.as_ref().map(scheduled), answer, samples)
    }

    fn signal_read(&self, build_out: u8, frame: &[u8], answer: &mut [u64]) -> u8 {
        if answer.len() < 3 {
            return SHORT;
        }
        let signals = document::signal_read(build_out, frame);
        answered(signals.map(|signals| [signals.bits, signals.na, signals.hold].map(u64::from)), answer)
    }

    fn fill(&self, last: &[u8], noise: &[u8], m_last: u8, out: &mut [u8], answer: &mut [u64]) -> u8 {
        if answer.is_empty() || out.len() < SAMPLES {
            return SHORT;
        }
        let played = document::fill(last, noise, m_last);
        out[..played.len()].copy_from_slice(played);
        answer[0] = played.len() as u64;
        0
    }

    fn noise_level(&self, code: u8, answer: &mut [u64], level: &mut [f64]) -> u8 {
        if answer.is_empty() || level.is_empty() {
            return SHORT;
        }
        let noise = document::noise_level(code);
        level[0] = noise.unwrap_or(None).unwrap_or(0.0);
        answered(noise.map(|level| [level.is_none().into()]), answer)
    }

    fn link(&self, frame: &[u8], answer: &mut [u64]) -> u8 {
        if answer.len() < 2 {
            return SHORT;
        }
        let link = document::link(frame);
        answered(link.map(|(kind, address)| [is_voice(kind), address.into()]), answer)
    }

    fn taken(&self, frame: &[u8], answer: &mut [u64]) -> u8 {
        if answer.len() < 3 {
            return SHORT;
        }
        let taken = document::taken(frame);
        answered(taken.map(|taken| [is_voice(taken.kind), taken.length as u64, taken.left.into()]), answer)
    }

    fn watch_start(&self, states: u8, refresh: u32, keepalive: u32, clock: u64, watch: &mut [u64]) -> u8 {
        if watch.len() != WATCH {
            return Refusal::Record as u8;
        }
        match Watch::start(states, refresh, keepalive, clock) {
            Ok(started) => {
                watch.copy_from_slice(&watch_record(&started));
                0
            }
            Err(refusal) => refusal as u8,
        }
    }

    fn watch_tell(&self, watch: &mut [u64], clock: u64, event: u8, bits: u8, flag: u8, answer: &mut [u64]) -> u8 {
        if answer.len() < 4 {
            return SHORT;
        }
        let answers = event_of(event, bits, flag).and_then(|event| {
            let mut moved_on = watch_of(watch)?;
            let answers = moved_on.tell(clock, event)?;
            watch.copy_from_slice(&watch_record(&moved_on));
            Ok(answers)
        });
        answered(answers.map(told), answer)
    }

    fn line_add(&self, line: &mut [u8], count: usize, frame: &[u8], answer: &mut [u64]) -> u8 {
        if answer.is_empty() {
            return SHORT;
        }
        answered(line::add(line, count, frame).map(|count| [count as u64]), answer)
    }

    fn line_next(&self, line: &[u8], count: usize, place: usize, out: &mut [u8], answer: &mut [u64]) -> u8 {
        if answer.len() < 3 {
            return SHORT;
        }
        let (number, values) = match line::next(line, count, place, out) {
            Ok(Some(Frame { length, end })) => (0, [1, length as u64, end as u64]),
            Ok(None) => (0, [0; 3]),
            Err(Unread { refusal, end }) => (refusal as u8, [0, 0, end as u64]),
        };
        answer[..3].copy_from_slice(&values);
        number
    }

    fn queue_fresh(&self, queue: &mut [u32]) -> u8 {
        if queue.len() != QUEUE {
            return Refusal::Record as u8;
        }
        queue.fill(0);
        0
    }

    fn queue_enter(&self, store: &mut [u8], queue: &mut [u32], frame: &[u8], clock: u32) -> u8 {
        queue::enter(store, queue, frame, clock).map_or_else(|refusal| refusal as u8, |()| 0)
    }

    fn queue_take(
        &self, store: &[u8], queue: &mut [u32], to: u32, level: u8, address: u16, out: &mut [u8], answer: &mut [u64],
    ) -> u8 {
        if answer.is_empty() {
            return SHORT;
        }
        let sent_on = queue::take(store, queue, to, level, address, out);
        answered(sent_on.map(|length| [length as u64]), answer)
    }

    fn queue_freed(&self, queue: &[u32], level: u8, answer: &mut [u64]) -> u8 {
        if answer.is_empty() {
            return SHORT;
        }
        answered(queue::freed(queue, level).map(|octets| [octets.into()]), answer)
    }
}

#[cfg(test)]
mod tests {
    use super::*;

    const UNUSED: u64 = 77;
    /// Of 16 states, 1 s and 4.5 s, in ALARM and R_ALARM.
    const SOUND: [u64; WATCH] = [16, 1000, 4500, 1, 2, 5, 700, 600, 900];

    /// The number, the watch and the answer after an event told with five slots for the answer.
    fn tell(watch: &[u64], clock: u64, event: u8, bits: u8, flag: u8) -> (u8, Vec<u64>, [u64; 5]) {
        let (mut watch, mut answer) = (watch.to_vec(), [UNUSED; 5]);
        let number = Document.watch_tell(&mut watch, clock, event, bits, flag, &mut answer);
        (number, watch, answer)
    }

    /// The number and the record after a frame came, which both calls agree on.
    fn arrive(record: &[u64], frame: &[u8], clock: u64) -> (u8, Vec<u64>) {
        let (mut lent, mut answer, mut samples) = (record.to_vec(), [UNUSED; 5], [0; SAMPLES]);
        let number = Document.arrive(&mut lent, frame, clock, &mut answer, &mut samples);
        let mut after = [UNUSED; RECORD];
        assert_eq!(Document.arrive_value(record, frame, clock, &mut after, &mut answer, &mut samples), number);
        assert_eq!(&after[..], if record.len() == RECORD { &lent[..] } else { &[UNUSED; RECORD] });
        (number, lent)
    }

    /// The first packet of a burst in type 21, all samples 29, from which so many blocks were dropped.
    fn start(level: u8) -> Vec<u8> {
        let (mut out, departure) = (vec![0; 90], Departure { from: 0, to: 24, address: 128 });
        let packet = Packet { step: Step::Start, coding: 21, noise: 3, samples: &[29; SAMPLES] };
        let length = document::send(&mut 0, &packet, level, &departure, &mut out).unwrap();
        out[..length].to_vec()
    }

    /// What comes of the three calls that hear a frame: the number, the answer and the samples. The arrivals are on a
    /// record of that build-out at clock 1000; each answer slice is longer than is needed, or shorter, by as much.
    fn hear(frame: &[u8], build_out: u64, longer: isize) -> [(u8, Vec<u64>, [u8; 130]); 3] {
        let record = [build_out, 0, 0, 0, 0, 0, 0, 0, 0];
        let heard = |needed: isize, call: &dyn Fn(&mut [u64], &mut [u8]) -> u8| {
            let (mut answer, mut samples) = (vec![UNUSED; (needed + longer) as usize], [0xFF; 130]);
            (call(&mut answer, &mut samples), answer, samples)
        };
        [
            heard(3, &|answer, samples| Document.read(frame, answer, samples)),
            heard(5, &|answer, samples| Document.arrive(&mut record.clone(), frame, 1000, answer, samples)),
            heard(5, &|answer, samples| Document.arrive_value(&record, frame, 1000, &mut [0; RECORD], answer, samples)),
        ]
    }

    /// 128 words of that value, in a slice that is two octets longer.
    fn words(value: u8) -> [u8; 130] {
        std::array::from_fn(|n| if n < SAMPLES { value } else { 0xFF })
    }

    #[test]
    fn words_in_numbers() {
        for (dropped, width, word) in [(0, 5, 29), (1, 4, 14), (2, 3, 7), (3, 2, 3)] {
            let [read, arrive, value] = hear(&start(dropped), 100, 1);
            let dropped = dropped.into();
            assert_eq!(read, (0, vec![5, dropped, width, UNUSED], words(word)));
            assert_eq!(arrive, (0, vec![1076, 1, 5, dropped, width, UNUSED], words(word)));
            assert_eq!(value, arrive);
        }
        // Just as many slots as are needed will do.
        assert_eq!(hear(&start(1), 100, 0).map(|(number, ..)| number), [0; 3]);
    }

    #[test]
    fn no_words_in_numbers() {
        let zeros = |number, slots| (number, [vec![0; slots], vec![UNUSED; 2]].concat(), words(0));
        let [read, arrive, value] = hear(&start(1)[..9], 100, 2);
        assert_eq!((read, &arrive, value), (zeros(1, 3), &zeros(1, 5), arrive.clone()));
        // Late: the frame can be read.
        let [read, arrive, value] = hear(&start(1), 23, 2);
        assert_eq!((read.0, &arrive, value), (0, &zeros(17, 5), arrive.clone()));
        // As long as they were before there was a width, and shorter.
        for fewer in [1, 2, 3] {
            let untouched = |slots: usize| (16, vec![UNUSED; slots - fewer], [0xFF; 130]);
            assert_eq!(hear(&start(1), 100, -(fewer as isize)), [untouched(3), untouched(5), untouched(5)]);
        }
    }

    #[test]
    fn fill_hands_words_on_as_they_are() {
        let [(_, _, last), ..] = hear(&start(3), 100, 0);
        let noise: [u8; SAMPLES] = std::array::from_fn(|n| n as u8);
        for (m_last, filled) in [(1, &last[..SAMPLES]), (0, &noise[..])] {
            let (mut out, mut answer) = ([0xFF; SAMPLES], [UNUSED; 2]);
            assert_eq!(Document.fill(&last, &noise, m_last, &mut out, &mut answer), 0);
            assert_eq!((&out[..], answer), (filled, [128, UNUSED]));
        }
    }

    #[test]
    fn arrive_in_numbers() {
        // The last packet of a burst, with noise 9, and records that are inside it, with noise 5.
        let (mut stop, departure) = ([0; 26], Departure { from: 0, to: 24, address: 128 });
        let packet = Packet { step: Step::Stop, coding: 1, noise: 9, samples: &[0; SAMPLES] };
        document::send(&mut 2, &packet, 0, &departure, &mut stop).unwrap();
        let inside = [100, 2, 1010, 1102, 1, 5, 70, 80, 90];
        let with = |changes: &[(usize, u64)]| {
            let mut record = inside.to_vec();
            changes.iter().for_each(|&(field, number)| record[field] = number);
            record
        };
        let moved_on =
            |scheduled, missing| with(&[(1, 0), (2, 1102), (3, 1118), (4, 0), (5, 9), (6, scheduled), (8, missing)]);
        assert_eq!(arrive(&inside, &stop, 1102), (0, moved_on(71, 90)));
        assert_eq!(arrive(&inside, &stop, 1103), (17, with(&[(4, 0), (5, 9), (7, 81)])));
        assert_eq!(arrive(&with(&[(0, 23)]), &stop, 1102), (17, with(&[(0, 23), (4, 0), (5, 9), (7, 81)])));
        assert_eq!(arrive(&with(&[(3, 1465)]), &stop, 1025), (20, with(&[(3, 1465), (4, 0), (5, 9)])));

        let left = |number, record: &[u64], frame: &[u8], clock| {
            assert_eq!(arrive(record, frame, clock), (number, record.to_vec()));
        };
        left(18, &inside, &stop, 1009);
        left(1, &inside, &stop[..9], 1103);
        for length in (0..=8).chain([10, 18]) {
            // Among them a record as long as it was before there were counts.
            left(14, &[inside, inside].concat()[..length], &stop, 1103);
        }
        for (field, limit) in [(0, 199), (1, 15), (2, 1 << 62), (3, 1010 + 455), (4, 1), (5, 15)] {
            // 256 and the like are in range by their lowest octet.
            for number in [limit + 1, limit.max(255) + 1, u64::MAX] {
                left(14, &with(&[(field, number)]), &stop, 1103);
            }
        }
    }

    #[test]
    fn counts_in_numbers() {
        const LIMIT: u64 = 4294967295;
        // In turn, by either call, on a record with these counts.
        let counted = |counts: [u64; 3]| {
            let (number, record) = arrive(&[&[100, 0, 0, 0, 0, 0][..], &counts].concat(), &start(1), 1000);
            (number, record[1], [record[6], record[7], record[8]])
        };
        assert_eq!(counted([0, 0, 0]), (0, 1, [1, 0, 0]));
        assert_eq!(counted([LIMIT - 1, 5, LIMIT - 1]), (0, 1, [LIMIT, 5, LIMIT - 1]));
        assert_eq!(counted([LIMIT; 3]), (0, 1, [LIMIT; 3]));
        for place in 0..3 {
            // 2^32 and the like are in range by their lower half.
            for number in [LIMIT + 1, LIMIT + 2, 1 << 63, u64::MAX] {
                let mut counts = [3; 3];
                counts[place] = number;
                assert_eq!(counted(counts), (14, 0, counts));
            }
        }
    }

    #[test]
    fn records_are_made_of_nine_numbers() {
        for length in (0..=8).chain([10, 18]) {
            let mut record = vec![UNUSED; length];
            assert_eq!((Document.fresh(100, &mut record), record), (14, vec![UNUSED; length]));
        }
        for build_out in [0, 100, 255] {
            let mut record = [UNUSED; 9];
            assert_eq!(Document.fresh(build_out, &mut record), 0);
            assert_eq!(record, [build_out.into(), 0, 0, 0, 0, 0, 0, 0, 0]);
        }
    }

    #[test]
    fn records_by_value_go_to_nine_numbers() {
        let record = [100, 0, 0, 0, 0, 0, 1, 2, 3];
        for (slots, number) in [(0, 16), (6, 16), (8, 16), (9, 0), (11, 0)] {
            let (mut after, mut answer, mut samples) = (vec![UNUSED; slots], [UNUSED; 5], [0xFF; SAMPLES]);
            let mut right = after.clone();
            if number == 0 {
                right[..9].copy_from_slice(&[100, 1, 1000, 1092, 1, 3, 2, 2, 3]);
            }
            let answered = Document.arrive_value(&record, &start(1), 1000, &mut after, &mut answer, &mut samples);
            assert_eq!((answered, after), (number, right));
            assert_eq!(answer[0], if number == 0 { 1076 } else { UNUSED });
        }
    }

    #[test]
    fn trays_in_numbers() {
        // Two signalling frames, the second with a wrong check.
        let frames = [[4, 3, 3, 68, 0, 24, 0, 10, 129, 49], [4, 3, 3, 68, 0, 24, 0, 10, 129, 48]];
        let tray = frames.map(|frame| [&[12, 0, 1, 0], &frame[..]].concat()).concat();
        let pass = |tray: &[u8], level, room, slots| {
            let (mut out, mut list, mut answer) = (vec![0xFF; room], vec![0xFF; slots], [UNUSED; 3]);
            let number = Document.forward_tray(tray, level, 0, 0, 129, &mut out, &mut list, &mut answer);
            (number, answer, list, out)
        };
        let sent_on = [&tray[..14], &[0xFF; 2]].concat();
        assert_eq!(pass(&tray, 0, 16, 3), (0, [2, 14, UNUSED], vec![0, 4, 0xFF], sent_on));
        assert_eq!(pass(&tray, 4, 2, 2), (0, [2, 0, UNUSED], vec![10, 10], vec![0xFF; 2]));
        assert_eq!(pass(&tray, 0, 16, 1), (27, [0, 0, UNUSED], vec![0xFF], vec![0xFF; 16]));
        assert_eq!(pass(&tray[..27], 4, 16, 3), (27, [0, 0, UNUSED], vec![0xFF; 3], vec![0xFF; 16]));
        assert_eq!(pass(&[], 4, 1, 0), (0, [0, 0, UNUSED], vec![], vec![0xFF]));
        for slots in [0, 1] {
            let (mut out, mut list, mut answer) = ([0xFF; 16], [0xFF; 2], vec![UNUSED; slots]);
            for tray in [&tray[..], &tray[..1]] {
                assert_eq!(Document.forward_tray(tray, 0, 0, 0, 129, &mut out, &mut list, &mut answer), 16);
                assert_eq!((out, list, &answer), ([0xFF; 16], [0xFF; 2], &vec![UNUSED; slots]));
            }
        }
    }

    #[test]
    fn watch_start_in_numbers() {
        let start = |states, refresh, clock, length| {
            let mut watch = vec![UNUSED; length];
            let number = Document.watch_start(states, refresh, 25_000, clock, &mut watch);
            (number, watch)
        };
        assert_eq!(start(4, 10_000, 123, 9), (0, vec![4, 10_000, 25_000, 0, 0, 0, 123, 123, 123]));
        assert_eq!(start(3, 10_000, 123, 9), (21, vec![UNUSED; 9]));
        assert_eq!(start(4, 10_000, u64::MAX, 9), (18, vec![UNUSED; 9]));
        assert_eq!(start(4, 20_000, u64::MAX, 9), (21, vec![UNUSED; 9]));
        for length in [0, 8, 10] {
            assert_eq!(start(3, 0, u64::MAX, length), (14, vec![UNUSED; length]));
        }
    }

    #[test]
    fn watch_tell_in_numbers() {
        let after = |changes: &[(usize, u64)]| {
            let mut watch = SOUND.to_vec();
            changes.iter().for_each(|&(field, number)| watch[field] = number);
            watch
        };
        assert_eq!(tell(&SOUND, 901, 0, 255, 255), (0, after(&[(8, 901)]), [0, 0, 0, 0, UNUSED]));
        let transition = after(&[(3, 0), (5, 6), (6, 902), (8, 902)]);
        assert_eq!(tell(&SOUND, 902, 1, 6, 0), (0, transition, [1, 6, 0, 0, UNUSED]));
        let refresh = after(&[(6, 1700), (8, 1700)]);
        assert_eq!(tell(&SOUND, 1700, 1, 6, 255), (0, refresh, [2, 5, 1, 0, UNUSED]));
        let mended = after(&[(4, 0), (7, 903), (8, 903)]);
        assert_eq!(tell(&SOUND, 903, 2, 255, 0), (0, mended, [0, 0, 0, 2, UNUSED]));
        let run_out = after(&[(4, 1), (6, 5100), (8, 5100)]);
        assert_eq!(tell(&SOUND, 5100, 0, 0, 0), (0, run_out, [2, 5, 1, 0, UNUSED]));
    }

    #[test]
    fn watch_tell_refuses_in_its_order() {
        let refused = |number, watch: &[u64], clock, event| {
            assert_eq!(tell(watch, clock, event, 16, 2), (number, watch.to_vec(), [0, 0, 0, 0, UNUSED]));
        };
        let with = |field: usize, number| {
            let mut watch = SOUND;
            watch[field] = number;
            watch
        };
        let mut short = [UNUSED; 3];
        assert_eq!((Document.watch_tell(&mut [], 0, 3, 0, 0, &mut short), short), (16, [UNUSED; 3]));
        refused(21, &[], 0, 3);
        refused(21, &SOUND, 900, 255);
        refused(14, &SOUND[..8], 0, 1);
        refused(14, &[0; 10], 0, 1);
        let too_large = [256, 1 << 32, 1 << 32, 2, 3, 256];
        for (field, number) in too_large.into_iter().enumerate() {
            refused(14, &with(field, number), 0, 1);
            refused(14, &with(field, u64::MAX), 0, 1);
            // One less fits, and the clock is the next to be judged, or the parameters.
            refused(if field < 3 { 21 } else { 18 }, &with(field, number - 1), 0, 1);
        }
        refused(14, &with(6, 901), 0, 1);
        refused(12, &SOUND, 900, 1);
        refused(12, &SOUND, 900, 2);
        refused(12, &with(5, 255), 900, 0);
    }

    #[test]
    fn lines_in_numbers() {
        let add = |line: &mut [u8], count, frame: &[u8]| {
            let mut answer = [UNUSED; 2];
            let number = Document.line_add(line, count, frame, &mut answer);
            (number, answer)
        };
        let mut line = [0xFF; 26];
        assert_eq!(add(&mut line, 0, &[0; 10]), (0, [96, UNUSED]));
        assert_eq!(add(&mut line, 96, &[0; 10]), (0, [184, UNUSED]));
        assert_eq!(add(&mut line, 184, &[0; 10]), (16, [0, UNUSED]));
        assert_eq!(add(&mut line, 209, &[0; 9]), (14, [0, UNUSED]));
        assert_eq!(add(&mut line, 184, &[0; 9]), (1, [0, UNUSED]));
        assert_eq!(line[22..], [0x7E, 0xFF, 0xFF, 0xFF]);
        assert_eq!(Document.line_add(&mut line, usize::MAX, &[], &mut []), 16);

        let next = |count, place, room| {
            let (mut out, mut answer) = (vec![0xFF; room], [UNUSED; 4]);
            let number = Document.line_next(&line, count, place, &mut out, &mut answer);
            assert_eq!(out.iter().filter(|octet| **octet == 0).count() as u64, answer[1]);
            (number, answer)
        };
        assert_eq!(next(184, 0, 12), (0, [1, 10, 88, UNUSED]));
        assert_eq!(next(184, 88, 10), (0, [1, 10, 176, UNUSED]));
        assert_eq!(next(184, 176, 10), (0, [0, 0, 0, UNUSED]));
        assert_eq!(next(191, 176, 10), (23, [0, 0, 184, UNUSED]));
        assert_eq!(next(184, 0, 9), (16, [0, 0, 0, UNUSED]));
        assert_eq!(next(184, 185, 10), (14, [0, 0, 0, UNUSED]));
        assert_eq!(next(209, 0, 10), (14, [0, 0, 0, UNUSED]));
        let mut short = [UNUSED; 2];
        assert_eq!((Document.line_next(&line, usize::MAX, 0, &mut [], &mut short), short), (16, [UNUSED; 2]));
        // A flag, eight and nine bits, a flag.
        for (between, number, end) in [([0x7E, 0x00, 0x7E, 0], 1, 16), ([0x7E, 0x00, 0xFC, 0], 22, 17)] {
            let mut answer = [UNUSED; 3];
            assert_eq!(Document.line_next(&between, 32, 0, &mut [], &mut answer), number);
            assert_eq!(answer, [0, 0, end]);
        }
    }
    #[test]
    fn queues_in_numbers() {
        for length in [0, 67, 69, 71] {
            let mut queue = vec![77; length];
            assert_eq!((Document.queue_fresh(&mut queue), queue), (14, vec![77; length]));
        }
        let (mut store, mut queue) = ([0; 20], [77; QUEUE]);
        assert_eq!((Document.queue_fresh(&mut queue), queue), (0, [0; QUEUE]));

        let (mut frame, departure) = ([0; 10], Departure { from: 0, to: 5, address: 128 });
        document::signal_write(10, 1, &departure, &mut frame).unwrap();
        assert_eq!(Document.queue_enter(&mut store, &mut queue[1..], &frame, 100), 14);
        assert_eq!(Document.queue_enter(&mut store, &mut queue, &frame[1..], 100), 1);
        assert_eq!(Document.queue_enter(&mut store, &mut queue, &frame, 100), 0);
        assert_eq!(Document.queue_enter(&mut store, &mut queue, &frame, 120), 0);
        assert_eq!(Document.queue_enter(&mut store, &mut queue, &frame, 130), 25);

        let take = |queue: &mut [u32], level, room| {
            let (mut out, mut answer) = (vec![0xFF; room], [UNUSED; 2]);
            let number = Document.queue_take(&store, queue, 130, level, 129, &mut out, &mut answer);
            (number, answer, out.get(5).copied())
        };
        assert_eq!(take(&mut queue[1..], 0, 12), (14, [0, UNUSED], Some(0xFF)));
        assert_eq!(take(&mut queue, 4, 12), (10, [0, UNUSED], Some(0xFF)));
        assert_eq!(take(&mut queue, 0, 9), (16, [0, UNUSED], Some(0xFF)));
        assert_eq!(take(&mut queue, 0, 12), (0, [10, UNUSED], Some(35)));
        assert_eq!(take(&mut queue, 0, 10), (0, [10, UNUSED], Some(15)));
        assert_eq!(take(&mut queue, 4, 0), (26, [0, UNUSED], None));
        assert_eq!(Document.queue_take(&store, &mut [], 0, 4, 0, &mut [], &mut []), 16);

        let (mut store, mut voice) = ([0; 90], [0; 90]);
        let packet = Packet { step: Step::Start, coding: 21, noise: 3, samples: &[0; SAMPLES] };
        document::send(&mut 0, &packet, 0, &departure, &mut voice).unwrap();
        let freed = |queue: &[u32], level| {
            let mut answer = [UNUSED; 2];
            (Document.queue_freed(queue, level, &mut answer), answer)
        };
        assert_eq!(freed(&queue, 3), (0, [0, UNUSED]));
        assert_eq!(Document.queue_fresh(&mut queue), 0);
        assert_eq!(Document.queue_enter(&mut store, &mut queue, &voice, 100), 0);
        assert_eq!([0, 1, 2, 3].map(|level| freed(&queue, level)), [0, 16, 32, 48].map(|octets| (0, [octets, UNUSED])));
        assert_eq!([4, 255].map(|level| freed(&queue, level)), [(10, [0, UNUSED]); 2]);
        assert_eq!(freed(&queue[1..], 4), (14, [0, UNUSED]));
        assert_eq!(freed(&[77; QUEUE], 4), (14, [0, UNUSED]));
        assert_eq!(Document.queue_freed(&[], 4, &mut []), 16);
    }
}
