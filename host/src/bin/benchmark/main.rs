//! Times every call of the proved library beside the independent Rust, in one run, and prints
//! Markdown tables. Buffers and records are made once for each measurement and used again, not
//! cleared between calls; of a waiting room's record the three numbers that say what waits and the three
//! totals are put back, so that no measurement drifts into 14.
//!
//! The comparison is fair: both are called through the same C boundary, which nothing is inlined
//! across, and whatever is lent to them is hidden from the compiler in the same way.

mod timing;
mod works;

use pelgrant_host::abi::{Card, Plain};
use pelgrant_host::document::check_sequence;
use pelgrant_host::flat::{Document, RECORD as NUMBERS};
use pelgrant_host::foreign::{NAMES, STACKS};
use pelgrant_host::queue::{STORE_MAX, TOTAL_MAX};
use pelgrant_host::random::Random;
use pelgrant_host::ring;
use pelgrant_host::yardstick::Yardstick;
use pelgrant_host::Calls;
use timing::{best, best_of, Work, ROUND, ROUNDS};
use works::*;

/// Packets of 16 ms.
const FRAMES_A_SECOND: f64 = 62.5;
const SHORTEST: usize = 10;
const LONGEST: usize = 490;
const TYPE_S8: u8 = 0;
const TYPE_21: u8 = 21;
const TYPE_24: u8 = 24;
/// How often the Rust's time a call may take: one that is done, one of those that work on every
/// sample, and one that is refused.
const DONE_MARK: f64 = 1.0;
const SAMPLES_MARK: f64 = 0.75;
const REFUSED_MARK: f64 = 1.25;
/// How often its own shortest time a call of a waiting room may take, however many wait.
const WAITING_MARK: f64 = 1.25;
/// How many others wait in those measurements, and how many wait where a question is asked.
const OTHERS: [usize; 4] = [0, 1, 16, 31];
const WAITING: [usize; 2] = [0, 32];
/// The records of the trays that are measured.
const RECORDS: usize = 32;
/// How much longer than itself the same thing may seem to take.
const NOISE: f64 = 1.05;

/// The same work of the proved library and of the independent Rust.
macro_rules! both {
    ($work:ident $(, $argument:expr)*) => {
        [$work(Card $(, $argument)*), $work(Plain $(, $argument)*)]
    };
}

// ---- Frames ----

/// Of 16 states and the default times, just started.
const WATCH: [u64; 9] = [16, 10_000, 25_000, 0, 0, 0, 0, 0, 0];
const RECORD: [u64; NUMBERS] = [100, 0, 0, 0, 0, 0, 0, 0, 0];
/// Of octet 1, and of octet 3.
const COMMAND_RESPONSE: u8 = 2;
const POLL: u8 = 16;

fn voice(coding: u8) -> Vec<u8> {
    voice_at(coding, 0)
}

/// The same made at a level.
fn voice_at(coding: u8, level: u8) -> Vec<u8> {
    let (mut out, mut answer) = (vec![0; 138], [0]);
    let Origin { samples, .. } = Origin::data(coding);
    let number = Document.send(&mut 0, 0, coding, 3, &samples, level, 0, 7, 128, &mut out, &mut answer);
    assert_eq!(number, 0);
    out.truncate(answer[0] as usize);
    out
}

fn signalling() -> Vec<u8> {
    let (mut out, mut answer) = (vec![0; 10], [0]);
    assert_eq!(Document.signal_write(10, 0, 0, 7, 128, &mut out, &mut answer), 0);
    out
}

/// The frame with one octet changed, brought to a length, and its check made right again.
fn changed(frame: &[u8], at: usize, octet: u8, length: usize) -> Vec<u8> {
    let mut frame = frame.to_vec();
    frame[at] = octet;
    frame.resize(length, 0x55);
    let covered = if frame[2] == 239 { 8 } else { length - 2 };
    let check = check_sequence(&frame[..covered]);
    frame[length - 2..].copy_from_slice(&check.to_le_bytes());
    frame
}

fn spoiled(mut frame: Vec<u8>) -> Vec<u8> {
    let last = frame.len() - 1;
    frame[last] ^= 1;
    frame
}

// ---- Tables ----

/// As it is printed, so that the list at the end says the same as the tables.
fn ratio(card: f64, rust: f64) -> f64 {
    (100.0 * card / rust).round() / 100.0
}

/// A row that stands above its mark, as it is listed at the end.
fn above(what: &str, card: f64, rust: f64) -> String {
    format!("{what}: {card:.1} ns, ratio {:.2}", ratio(card, rust))
}

/// Calls that are done, with those that took longer than their mark.
struct Done {
    yardstick: Yardstick,
    above: Vec<String>,
}

impl Done {
    fn row(&mut self, call: &str, frame: &str, [card, rust]: [Work; 2], bare: Option<Work>) {
        let (card, rust, bare) = match bare {
            Some(bare) => {
                let [card, rust, bare] = best([card, rust, bare]);
                (card, rust, format!("{bare:.1}"))
            }
            None => {
                let [card, rust] = best([card, rust]);
                (card, rust, "-".to_string())
            }
        };
        let frames = 1e9 / card;
        println!(
            "| {call} | {frame} | {card:.1} | {rust:.1} | {:.2} | {bare} | {:.1} | {:.0} |",
            ratio(card, rust),
            frames / 1e6,
            frames / FRAMES_A_SECOND
        );
        let mark = if ["send", "read", "arrive", "arrive_value"].contains(&call) { SAMPLES_MARK } else { DONE_MARK };
        if ratio(card, rust) > mark {
            self.above.push(above(&format!("{call}, {frame}"), card, rust));
        }
    }

    fn table(&mut self) {
        println!("| Call | Frame | Card, ns | Rust, ns | Ratio | C, ns | Million frames a second | Circuits a core |");
        println!("|---|---|---:|---:|---:|---:|---:|---:|");
        for (name, coding) in [("type 0, S = 8", TYPE_S8), ("type 21", TYPE_21)] {
            self.voice_rows(name, coding);
        }
        self.signalling_rows();
        self.row("fill", "none", both!(fill, 0), None);
        self.row("noise_level", "none", both!(noise_level, 0), None);
        self.row("fresh", "none", both!(fresh, 0), None);
        self.row("watch_start", "none", both!(watch_start, 0), None);
        self.row("watch_tell", "none, time passing", both!(watch_tell, 0, WATCH, 0), None);
        self.row("watch_tell", "none, a transition", both!(watch_tell, 0, WATCH, 1), None);
        self.row("watch_tell", "signalling, taken", both!(watch_tell, 0, WATCH, 2), None);
    }

    fn voice_rows(&mut self, name: &str, coding: u8) {
        let (yardstick, origin, frame) = (self.yardstick, Origin::data(coding), voice(coding));
        let check = || Some(bare_check(yardstick, &frame[..8]));
        let two_checks = || Some(bare_forward(yardstick, &frame));
        self.row("send", name, both!(send, 0, &origin), Some(bare_send(yardstick, &origin)));
        self.row("forward", name, both!(forward, 0, &frame, HOP, frame.len()), two_checks());
        if coding == TYPE_21 {
            let hop = Hop { level: 3, ..HOP };
            self.row("forward", "type 21, level 3", both!(forward, 0, &frame, hop, frame.len()), two_checks());
        }
        self.heard_rows(name, &frame);
        if coding == TYPE_21 {
            self.heard_rows("type 21, 3 dropped", &voice_at(TYPE_21, 3));
            // Of sequence 3, again and again: RSEQ is 4, and the lesser of 14 and 4 is missing each time.
            let behind_a_loss = changed(&frame, 7, 0x33, frame.len());
            let works = both!(arrive, 0, RECORD, &behind_a_loss, 0, 16);
            self.row("arrive", "type 21, 4 missing", works, Some(bare_read(yardstick, &behind_a_loss)));
        }
        self.row("link", name, both!(link, 0, &frame), check());
        self.row("taken", name, both!(taken, 0, &frame), check());
    }

    fn heard_rows(&mut self, name: &str, frame: &[u8]) {
        let yardstick = self.yardstick;
        let reading = || Some(bare_read(yardstick, frame));
        self.row("read", name, both!(read, 0, frame), reading());
        self.row("arrive", name, both!(arrive, 0, RECORD, frame, 0, 16), reading());
        self.row("arrive_value", name, both!(arrive_value, 0, RECORD, frame), reading());
    }

    fn signalling_rows(&mut self) {
        let (yardstick, frame) = (self.yardstick, signalling());
        let check = || Some(bare_check(yardstick, &frame[..8]));
        let two_checks = Some(bare_forward(yardstick, &frame));
        self.row("signal_write", "signalling", both!(signal_write, 0), check());
        self.row("signal_read", "signalling", both!(signal_read, 0, 100, &frame), check());
        self.row("forward", "signalling", both!(forward, 0, &frame, HOP, frame.len()), two_checks);
        self.row("link", "signalling", both!(link, 0, &frame), check());
        self.row("taken", "signalling", both!(taken, 0, &frame), check());
    }
}

struct RefusedRow {
    what: String,
    card: f64,
    rust: f64,
    /// One check over its octets, by this call itself.
    check: f64,
}

impl RefusedRow {
    fn is_above(&self) -> bool {
        ratio(self.card, self.rust) > REFUSED_MARK || self.card > self.check * NOISE
    }
}

/// A signalling frame whose check, over so many octets, is wrong.
fn wrong_check(octets: usize) -> Vec<u8> {
    spoiled(changed(&signalling(), 7, 10, octets + 2))
}

/// One of as many octets as that frame, within what a frame may have.
fn wrong_check_of(frame: &[u8]) -> Vec<u8> {
    wrong_check(frame.len().clamp(SHORTEST, LONGEST) - 2)
}

/// Refused calls, each beside what one check over its frame's own octets costs the card: measured in
/// turn with it, on a signalling frame of the same length whose check is wrong, by link and by the
/// call itself.
#[derive(Default)]
struct Refused {
    rows: Vec<RefusedRow>,
}

impl Refused {
    fn row(&mut self, number: u8, call: &str, what: &str, frame: &[u8], [card, rust]: [Work; 2], check: Work) {
        let octets = frame.len();
        let by_link = link(Card, 4, &wrong_check_of(frame));
        let [card, rust, by_link, check] = best([card, rust, by_link, check]);
        println!(
            "| {number} | {call} | {what} | {octets} | {card:.1} | {rust:.1} | {:.2} | {by_link:.1} | {check:.1} |",
            ratio(card, rust)
        );
        self.rows.push(RefusedRow { what: format!("{call}, {number}, {what}, {octets} octets"), card, rust, check });
    }

    fn greatest(&self, measure: impl Fn(&RefusedRow) -> f64) -> &RefusedRow {
        self.rows.iter().max_by(|one, other| measure(one).total_cmp(&measure(other))).unwrap()
    }

    fn summary(&self) {
        let show = |title: &str, row: &RefusedRow| {
            println!("- {title}: {}: {:.1} ns; one check by this call {:.1} ns.", row.what, row.card, row.check);
        };
        show("Dearest", self.greatest(|row| row.card));
        show("Furthest above one check", self.greatest(|row| row.card - row.check));
        for row in self.rows.iter().filter(|row| row.what.contains("empty") || row.what.contains("megabyte")) {
            println!("- {}: {:.1} ns.", row.what, row.card);
        }
    }

    fn table(&mut self) {
        let (voice, signalling) = (voice(TYPE_S8), signalling());
        let polled = changed(&signalling, 2, signalling[2] | POLL, LONGEST);
        let frames: [(u8, &str, Vec<u8>); 17] = [
            (1, "empty", Vec::new()),
            (1, "rubbish", vec![0x55; 491]),
            (1, "a megabyte", vec![0x55; 1 << 20]),
            (2, "signalling", changed(&signalling, 0, 5, LONGEST)),
            (3, "neither kind", changed(&signalling, 2, 7, LONGEST)),
            (24, "signalling, poll bit", polled.clone()),
            (24, "voice, C/R", changed(&voice, 0, voice[0] | COMMAND_RESPONSE, voice.len())),
            (4, "signalling", spoiled(changed(&signalling, 7, 10, LONGEST))),
            (4, "voice", spoiled(voice.clone())),
            (5, "signalling", changed(&signalling, 3, 0, LONGEST)),
            (6, "voice", changed(&voice, 6, 31, LONGEST)),
            (7, "signalling", changed(&signalling, 4, 1, LONGEST)),
            (7, "voice", changed(&voice, 4, 1, LONGEST)),
            (8, "signalling", changed(&signalling, 7, 10, LONGEST)),
            (8, "voice", changed(&voice, 7, 3, LONGEST)),
            (9, "signalling", changed(&signalling, 5, 201, signalling.len())),
            (9, "voice", changed(&voice, 5, 201, voice.len())),
        ];
        let node_check = |frame: &[u8]| forward(Card, 4, &wrong_check_of(frame), HOP, LONGEST);
        let endpoint_check = |frame: &[u8]| arrive(Card, 4, RECORD, &wrong_check_of(frame), 0, 0);
        println!(
            "| No | Call | Frame | Octets | Card, ns | Rust, ns | Ratio | One check, by link, ns | by this call, ns |"
        );
        println!("|---:|---|---|---:|---:|---:|---:|---:|---:|");
        for (number, what, frame) in &frames {
            let works = both!(forward, *number, frame, HOP, LONGEST);
            self.row(*number, "forward", what, frame, works, node_check(frame));
        }
        for (number, what, hop, room) in [
            (10, "voice, level 4", Hop { level: 4, ..HOP }, LONGEST),
            (15, "voice, address 0", Hop { address: 0, ..HOP }, LONGEST),
            (16, "voice, no room", HOP, voice.len() - 1),
        ] {
            self.row(number, "forward", what, &voice, both!(forward, number, &voice, hop, room), node_check(&voice));
        }
        for (number, what, frame) in &frames {
            // An endpoint of a voice call tells a signalling frame by its kind alone.
            let number = if *what == "signalling" && (6..=9).contains(number) { 19 } else { *number };
            let works = both!(arrive, number, RECORD, frame, 0, 0);
            self.row(number, "arrive", what, frame, works, endpoint_check(frame));
        }
        for (number, what, record, frame, clock) in [
            (14, "voice, B 200", [200, 0, 0, 0, 0, 0, 0, 0, 0], &voice, 0),
            (17, "voice, stamp 150", RECORD, &changed(&voice, 5, 150, voice.len()), 0),
            (18, "voice, clock back", [100, 0, 1000, 0, 0, 0, 0, 0, 0], &voice, 999),
            (20, "voice, too early", [100, 0, 1000, 1455, 0, 0, 0, 0, 0], &voice, 1000),
        ] {
            let works = both!(arrive, number, record, frame, clock, 0);
            self.row(number, "arrive", what, frame, works, endpoint_check(frame));
        }
        let long = changed(&signalling, 7, 10, LONGEST);
        let signal_check = |frame: &[u8]| signal_read(Card, 4, 100, &wrong_check_of(frame));
        for (number, what, build_out, frame) in [
            (14, "signalling, B 200", 200, &long),
            (1, "a megabyte", 100, &frames[2].2),
            (24, "signalling, poll bit", 100, &polled),
            (8, "signalling", 100, &long),
            (17, "signalling, B 6", 6, &signalling),
            (19, "voice", 100, &voice),
        ] {
            let works = both!(signal_read, number, build_out, frame);
            self.row(number, "signal_read", what, frame, works, signal_check(frame));
        }
        let sound = Origin::data(TYPE_S8);
        let mut loud = Origin::data(TYPE_21);
        loud.samples[127] = 32;
        for (number, what, origin) in [
            (6, "coding 31", Origin { coding: 31, ..sound.clone() }),
            (10, "level 4", Origin { hop: Hop { level: 4, ..HOP }, ..sound.clone() }),
            (11, "last sample too great", loud),
            (12, "noise 16", Origin { noise: 16, ..sound.clone() }),
            (13, "START in a burst", Origin { step: 0, ..sound.clone() }),
            (14, "SSEQ 16", Origin { sseq: 16, ..sound.clone() }),
            (15, "address 0", Origin { hop: Hop { address: 0, ..HOP }, ..sound.clone() }),
            (16, "no room", Origin { room: 137, ..sound.clone() }),
        ] {
            // No frame comes, so the check is that of the frame which would have been written.
            self.row(
                number,
                "send",
                what,
                &voice,
                both!(send, number, &origin),
                link(Card, 4, &wrong_check_of(&voice)),
            );
        }
        self.waiting_room_rows(&voice);
        println!();
        self.summary();
    }

    fn waiting_room_rows(&mut self, voice: &[u8]) {
        let (held, many) = (31 * voice.len(), Room::of(voice, 31, STORE_MAX));
        let too_short = Room::of(voice, 31, held - 1);
        let full = Room::of(voice, 31, held + voice.len() - 1);
        for (number, what, room, frame) in [
            (14, "voice, 31 wait, record past its store", &too_short, voice.to_vec()),
            (1, "a megabyte, 31 wait", &many, vec![0x55; 1 << 20]),
            (4, "voice, 31 wait", &many, spoiled(voice.to_vec())),
            (4, "signalling, 31 wait", &many, spoiled(changed(&signalling(), 7, 10, LONGEST))),
            (25, "voice, 31 wait, no room", &full, voice.to_vec()),
        ] {
            let check = queue_enter(Card, 4, &many, &wrong_check_of(&frame));
            self.row(number, "queue_enter", what, &frame, both!(queue_enter, number, room, &frame), check);
        }
        let check = || queue_take(Card, 4, &Room::of(&wrong_check_of(voice), 31, STORE_MAX), LONGEST);
        for (number, what, room, octets) in [
            (26, "none, nothing waits", &Room::of(voice, 0, STORE_MAX), LONGEST),
            (16, "voice, 31 wait, out too short", &many, voice.len() - 1),
        ] {
            self.row(number, "queue_take", what, voice, both!(queue_take, number, room, octets), check());
        }
        let past = many.clone().with_totals([0, 0, TOTAL_MAX + 1]);
        for (number, what, room, level) in
            [(14, "none, 31 wait, a total of 1,537", &past, 3), (10, "none, 31 wait, level 4", &many, 4)]
        {
            // No frame comes, so the check is that of one that waits.
            let check = link(Card, 4, &wrong_check_of(voice));
            self.row(number, "queue_freed", what, voice, both!(queue_freed, number, room, level), check);
        }
    }
}

/// The check sequence alone: the whole call that finds a check wrong, beside bare sums in C.
fn check_table(yardstick: Yardstick) {
    println!(
        "| Octets | Card, ns | Rust, ns | C, one table, ns | C, four tables, ns \
         | Card to Rust | Card to C, one table | Card to C, four tables |"
    );
    println!("|---:|---:|---:|---:|---:|---:|---:|---:|");
    for octets in [8, 138, 488] {
        let frame = wrong_check(octets);
        let [card, rust] = both!(link, 4, &frame);
        let (one, four) = (bare_check_by_octet(yardstick, &frame[..octets]), bare_check(yardstick, &frame[..octets]));
        let [card, rust, one, four] = best([card, rust, one, four]);
        println!(
            "| {octets} | {card:.1} | {rust:.1} | {one:.1} | {four:.1} | {:.2} | {:.2} | {:.2} |",
            card / rust,
            card / one,
            card / four
        );
    }
}

/// A line of signalling frames of so many octets, with any octets or ones behind their head and the check over
/// all of them, which link and the foreign stacks alike work out. They are many, for a processor soon foresees
/// the branches that a few take.
fn line_of(octets: usize, all_ones: bool) -> Line {
    let count = (16_000 / octets).clamp(32, 200);
    let mut random = Random::from_seed(octets as u64);
    let frame = |_| {
        let mut frame = signalling();
        frame.truncate(8);
        frame[6..].copy_from_slice(&random.octets(2));
        frame.extend(if all_ones { vec![0xFF; octets - 10] } else { random.octets(octets - 10) });
        let check = check_sequence(&frame);
        frame.extend(check.to_le_bytes());
        frame
    };
    Line::of(Document, (0..count).map(frame).collect())
}

/// The calls of a line beside the plain Rust and the foreign stacks, with those that took longer.
#[derive(Default)]
struct Lines {
    above: Vec<String>,
}

impl Lines {
    /// The works are the card's, the plain Rust's, the card's with link, and those of the stacks.
    fn row(&mut self, call: &str, what: &str, line: &Line, ours: [Work; 3], theirs: Vec<(&str, Work)>) {
        let (names, theirs): (Vec<&str>, Vec<Work>) = theirs.into_iter().unzip();
        let times = best_of(ours.into_iter().chain(theirs).collect());
        let a_frame: Vec<f64> = times.iter().map(|time| time / line.frames.len() as f64).collect();
        let &[card, rust, with_link, ref theirs @ ..] = &a_frame[..] else { unreachable!() };
        let an_octet = |time: f64| time / line.frames[0].len() as f64;
        let of_stack = |name: &str| {
            let place = names.iter().position(|known| *known == name);
            place.map_or("-".to_string(), |place| format!("{:.2}", an_octet(theirs[place])))
        };
        println!(
            "| {call} | {what} | {card:.1} | {rust:.1} | {:.2} | {:.2} | {:.2} | {} | {} |",
            ratio(card, rust),
            an_octet(card),
            an_octet(with_link),
            of_stack(NAMES[0]),
            of_stack(NAMES[1])
        );
        let quickest = theirs.iter().copied().fold(f64::INFINITY, f64::min);
        if ratio(card, rust) > DONE_MARK || card > quickest {
            let stack = if theirs.is_empty() { String::new() } else { format!("; quickest stack {quickest:.1} ns") };
            self.above.push(above(&format!("{call}, {what}"), card, rust) + &stack);
        }
    }

    fn table(&mut self) {
        println!(
            "| Call | Frame | Card, ns | Rust, ns | Ratio | Card, ns an octet | with link, ns an octet \
             | {}, ns an octet | {}, ns an octet |",
            NAMES[0], NAMES[1]
        );
        println!("|---|---|---:|---:|---:|---:|---:|---:|---:|");
        for (octets, all_ones) in [(10, false), (74, false), (138, false), (490, false), (138, true)] {
            let line = &line_of(octets, all_ones);
            let what = format!("{octets} octets{}", if all_ones { ", all ones" } else { "" });
            let [card, rust] = both!(line_add, line, false);
            let writers = STACKS.iter().filter(|stack| octets <= stack.writes);
            let theirs = writers.map(|stack| (stack.name, foreign_write(stack, line))).collect();
            self.row("line_add", &what, line, [card, rust, line_add(Card, line, true)], theirs);
            let [card, rust] = both!(line_next, line, false);
            let readers = STACKS.iter().filter(|stack| octets <= stack.reads);
            let theirs = readers.map(|stack| (stack.name, foreign_read(stack, line))).collect();
            self.row("line_next", &what, line, [card, rust, line_next(Card, line, true)], theirs);
        }
    }
}

/// The calls of a waiting room beside the plain ring, with what took longer than it, and with the calls whose time
/// depends on how many wait.
#[derive(Default)]
struct WaitingRooms {
    above: Vec<String>,
}

impl WaitingRooms {
    fn table(&mut self) {
        let frame = voice(TYPE_24);
        let room = |waiting| Room::of(&frame, waiting, STORE_MAX);
        let entering = OTHERS.map(|others| both!(queue_enter, 0, &room(others), &frame));
        let taking = OTHERS.map(|others| both!(queue_take, 0, &room(others + 1), frame.len()));
        let asking = WAITING.map(|waiting| both!(queue_freed, 0, &room(waiting), 3));
        WaitingRooms::head("Others waiting");
        let entering = self.rows("queue_enter", &OTHERS, "others waiting", entering.into());
        let taking = self.rows("queue_take", &OTHERS, "others waiting", taking.into());
        println!();
        WaitingRooms::head("Waiting");
        let asking = self.rows("queue_freed", &WAITING, "waiting", asking.into());
        println!("\n{entering}\n{taking}\n{asking}");
    }

    fn head(waiting: &str) {
        println!("| Call | {waiting} | Card, ns | Rust, ns | Ratio |");
        println!("|---|---:|---:|---:|---:|");
    }

    /// Prints the rows of a call and gives the longest over the shortest: all are measured in turn, so that they can
    /// be held against each other.
    fn rows(&mut self, call: &str, counts: &[usize], counted: &str, works: Vec<[Work; 2]>) -> String {
        let times = best_of(works.into_iter().flatten().collect());
        for (count, times) in counts.iter().zip(times.chunks_exact(2)) {
            let (card, rust) = (times[0], times[1]);
            println!("| {call} | {count} | {card:.1} | {rust:.1} | {:.2} |", ratio(card, rust));
            if ratio(card, rust) > DONE_MARK {
                self.above.push(above(&format!("{call}, {count} {counted}"), card, rust));
            }
        }
        let [card, rust] = [0, 1].map(|side| {
            let times = || times.iter().copied().skip(side).step_by(2);
            ratio(times().fold(0.0, f64::max), times().fold(f64::INFINITY, f64::min))
        });
        if card > WAITING_MARK {
            self.above.push(format!("{call}: the longest of its rows over the shortest is {card:.2}"));
        }
        format!(
            "- {call}: the longest of its rows over the shortest is {card:.2}, mark {WAITING_MARK:.2}; Rust {rust:.2}."
        )
    }
}

/// Trays by the card beside a host that calls the card frame by frame and beside the plain Rust, with what took longer.
#[derive(Default)]
struct Trays {
    above: Vec<String>,
    refused_above: Vec<String>,
}

impl Trays {
    fn table(&mut self) {
        let (voice, signalling, dropping) = (voice(TYPE_S8), signalling(), voice(TYPE_21));
        let wrong = spoiled(voice.clone());
        let every_fourth: Vec<Vec<u8>> =
            (1..=RECORDS).map(|record| if record % 4 == 0 { &wrong } else { &voice }.clone()).collect();
        let all = |frame: &Vec<u8>| Tray::of(&vec![frame.clone(); RECORDS], HOP);
        println!(
            "| Tray of {RECORDS} | Octets | Card, ns | Frame by frame, ns | Ratio | Rust, ns | Ratio \
             | Card, ns a record | frame by frame, ns a record |"
        );
        println!("|---|---:|---:|---:|---:|---:|---:|---:|---:|");
        self.done("voice, type 0", &all(&voice));
        self.done("signalling", &all(&signalling));
        self.done("voice, type 21, level 3", &Tray { hop: Hop { level: 3, ..HOP }, ..all(&dropping) });
        self.done("voice, type 0, every fourth refused with 4", &Tray::of(&every_fourth, HOP));
        self.done("voice, type 0, all refused with 10", &Tray { hop: Hop { level: 4, ..HOP }, ..all(&voice) });
        self.done("voice, type 0, all refused with 16", &Tray { room: 0, ..all(&voice) });
        for (what, frame) in [("voice, type 0", &voice), ("signalling", &signalling)] {
            let mut other_kind = all(frame);
            let last = other_kind.octets.len() - frame.len() - 2;
            other_kind.octets[last] = 2;
            self.refused(&format!("{what}, 27 for its last record"), &other_kind);
            self.refused(&format!("{what}, 27 for its list"), &Tray { records: RECORDS - 1, ..all(frame) });
        }
    }

    /// A tray that is done, whatever the numbers in its list. All three have to make the same of it.
    fn done(&mut self, what: &str, tray: &Tray) {
        let right = tray.sent_on(&Document);
        assert_eq!(right.0, 0);
        assert!(tray.sent_on(&Card) == right && tray.sent_singly(&Card) == right, "{what}");
        let [card, rust] = both!(forward_tray, 0, tray);
        let [card, singly, rust] = best([card, frame_by_frame(Card, 0, tray), rust]);
        let a_record = |time: f64| time / RECORDS as f64;
        println!(
            "| {what} | {} | {card:.1} | {singly:.1} | {:.2} | {rust:.1} | {:.2} | {:.1} | {:.1} |",
            tray.octets.len(),
            ratio(card, singly),
            ratio(card, rust),
            a_record(card),
            a_record(singly)
        );
        if ratio(card, singly) > DONE_MARK || ratio(card, rust) > DONE_MARK {
            let beside = format!("; frame by frame {singly:.1} ns, ratio {:.2}", ratio(card, singly));
            self.above.push(above(what, card, rust) + &beside);
        }
    }

    /// A tray that is refused whole. A host that goes frame by frame has sent most of it on by then.
    fn refused(&mut self, what: &str, tray: &Tray) {
        let [card, rust] = best(both!(forward_tray, 27, tray));
        println!(
            "| {what} | {} | {card:.1} | - | - | {rust:.1} | {:.2} | {:.1} | - |",
            tray.octets.len(),
            ratio(card, rust),
            card / RECORDS as f64
        );
        if ratio(card, rust) > REFUSED_MARK {
            self.refused_above.push(above(what, card, rust));
        }
    }
}

/// What the columns of the foreign stacks are, or that there are none.
fn foreign_note() -> String {
    let missing: Vec<&str> = NAMES.into_iter().filter(|name| STACKS.iter().all(|stack| stack.name != *name)).collect();
    match missing.is_empty() {
        true => String::new(),
        false => format!(" Not installed, and left out: {}.", missing.join(" and ")),
    }
}

fn list(title: &str, rows: &[String]) {
    println!("{title}:\n");
    for row in rows {
        println!("- {row}.");
    }
    if rows.is_empty() {
        println!("- none.");
    }
}

/// The processor's name and how many there are, as the kernel gives them.
fn machine() -> String {
    let facts = std::fs::read_to_string("/proc/cpuinfo").unwrap_or_default();
    let names: Vec<&str> = facts.lines().filter(|line| line.starts_with("model name")).collect();
    let name = names.first().and_then(|line| line.split(": ").nth(1)).unwrap_or("processor not named");
    format!("{name}, {} logical processors", names.len())
}

fn main() {
    let yardstick = Yardstick::tried();
    ring::try_against_the_list();
    println!("# Benchmark\n");
    println!("Machine: {}.\n", machine());
    println!(
        "Card is the proved library, Rust the independent implementation built for release with all its \
         optimisations, in one run. Both are called in the same flat form, pointers and lengths over a C \
         boundary that nothing is inlined across, and every number, length and octet that is lent is hidden \
         from the compiler at every call: neither knows anything of its caller. Nanoseconds a call, best of \
         {ROUNDS} rounds of about {} ms, all in turn. Buffers and records begin at a cache line, are used again \
         and are not cleared. One core; a circuit is {FRAMES_A_SECOND} frames a second in each direction.\n",
        ROUND.as_millis()
    );
    println!(
        "The column C is a limit to look at, not a rival: what the bare work of the call costs in C written by \
         hand with SSE2, where nothing is refused, no head is written and no record is kept. For send it is \
         the packing of the samples and the check of the head's 8 octets; for read and the two arrivals that \
         check and the reading of the words; for forward two checks, that of the frame which came and that of \
         the one which leaves, without the copy; for the others the one check. The checks are made four octets \
         at a step with four tables.\n"
    );
    println!("## Frames and calls that are done\n");
    let mut done = Done { yardstick, above: Vec::new() };
    done.table();
    println!("\n## Refused\n");
    println!(
        "One check over the frame's own octets, 8 to 488 of them, is the card's call on a signalling frame of as \
         many octets whose check is wrong: by link, which judges nothing after it, and by the call of the row, \
         which writes the zeros of its answer too; for send and queue_freed, to which no frame comes, by link again, \
         of as many octets as the frame that would be written or that waits. A voice \
         frame's own check covers 8 octets only, and it is held against one over all of its octets. What may \
         seem longer by noise: {:.0} parts in a hundred.\n",
        100.0 * (NOISE - 1.0)
    );
    let mut refused = Refused::default();
    refused.table();
    println!("\n## The check sequence\n");
    println!(
        "Card and Rust: the whole call link on a signalling frame whose check over so many octets is wrong. C: \
         the bare sum over them, with one table octet by octet and with four tables four octets at a step.\n"
    );
    check_table(yardstick);
    println!("\n## Lines of bits\n");
    println!(
        "Each line has 32 to 200 signalling frames of so many octets, any octets behind their head, one flag \
         between two, and all of them are put on or taken off in turn; nanoseconds a call are a frame's share, \
         those an octet that divided by the frame's octets, its check included. isdnhdlc is libosmocore's and \
         spandsp its hdlc, both as the system has them, called from C on the same frames. They work out a check \
         over all octets, which the calls of a line do not: with link is the card with a call of link on each \
         frame besides, which works out the same check and judges the head too. spandsp is spared two things: \
         its frames are not copied out, and its lines come in its own order of bits, highest first. It reads no \
         frame of more than 404 octets and writes none of more than 402. isdnhdlc begins a second flag behind a \
         frame that does not end with an octet. The Rust goes bit by bit.{}\n",
        foreign_note()
    );
    let mut lines = Lines::default();
    lines.table();
    println!("\n## Waiting room\n");
    println!(
        "A voice frame of {} octets, from which two blocks may be dropped, enters a store of {STORE_MAX} in which so \
         many others wait, each as long, or is taken from before them. The Rust is a plain ring in the same store and \
         record: it judges all that the card does, keeps the same totals, and is tried against the plain list before \
         it is timed. Before each of these two calls HEAD, FIRST, COUNT and the totals are put back, so that always as \
         many wait; that is within all their times, here and in the refused rows, on both sides alike. A question, of \
         level 3, changes nothing, and nothing is put back for it. All rows of a call are measured in turn, so that \
         they can be held against each other.\n",
        voice(TYPE_24).len()
    );
    let mut waiting_rooms = WaitingRooms::default();
    waiting_rooms.table();
    println!("\n## Trays\n");
    println!(
        "A tray of {RECORDS} records in one call, with a buffer as long as the tray unless another is named. Frame by \
         frame is a host in Rust that has the card's forward alone: in one pass it reads each head, calls the card with \
         the room that is left, writes the outgoing head and the number in the list. Unlike the tray's call it finds a \
         record that is none only when it comes to it. What all three make of each tray that is done is compared \
         before it is timed. Nanoseconds a tray.\n"
    );
    let mut trays = Trays::default();
    trays.table();
    println!("\n## Above the marks\n");
    list(
        &format!(
            "Done, above {DONE_MARK:.2} times the Rust, or {SAMPLES_MARK:.2} times for send, read and the arrivals"
        ),
        &done.above,
    );
    println!();
    let above: Vec<String> = refused
        .rows
        .iter()
        .filter(|row| row.is_above())
        .map(|row| format!("{}; one check by this call {:.1} ns", above(&row.what, row.card, row.rust), row.check))
        .collect();
    list(&format!("Refused, above {REFUSED_MARK:.2} times the Rust or above one check by the same call"), &above);
    println!();
    list(&format!("Lines, above {DONE_MARK:.2} times the Rust or above a foreign stack"), &lines.above);
    println!();
    let title = format!(
        "Waiting room, above {DONE_MARK:.2} times the Rust, or the longest row of a call above {WAITING_MARK:.2} times \
         its shortest"
    );
    list(&title, &waiting_rooms.above);
    println!();
    list(&format!("Trays, above {DONE_MARK:.2} times the host frame by frame or the Rust"), &trays.above);
    println!();
    list(&format!("Trays refused with 27, above {REFUSED_MARK:.2} times the Rust"), &trays.refused_above);
}
