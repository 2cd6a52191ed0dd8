//! The page for apprentices, `docs/PLAIN.md`, held to the independent Rust: every line that the page quotes is worked
//! out here once more by the rules of document 01.

use crate::division::{bits_of, check_octets, complement, octet_of, remainder, DEGREE};
use crate::document::{forward, read, send, Coding, Departure, Packet, Step, BLOCK, SAMPLES};

const PRINTED: &str = include_str!("../../crates/plain_walk/stdout");
const PAGE: &str = include_str!("../../docs/PLAIN.md");

const NOISE: u8 = 3;
/// As long as the longest frame, 8 blocks and 10 octets.
const ROOM: usize = 138;

/// What is done to a frame in the four passes.
struct Passes {
    level: u8,
    wait: u32,
    address: u16,
}

impl Passes {
    fn departure(&self) -> Departure {
        Departure { from: 0, to: self.wait, address: self.address }
    }

    /// The lines of one part, after its heading. `whole` is what a single call makes of it all.
    fn lines(&self, first: &str, mut frame: Vec<u8>, whole: &[u8]) -> Vec<String> {
        let mut lines = vec![line(first, &frame)];
        let end = frame.len() - 2;
        let count = self.level.min(frame[4] & 3);
        frame.drain(end - BLOCK * usize::from(count)..end);
        frame[4] -= count;
        lines.push(line("dropped", &frame));
        frame[5] = (u64::from(frame[5]) + u64::from(self.wait)).min(200) as u8;
        lines.push(line("stamped", &frame));
        frame[0] = (self.address / 128 * 4) as u8;
        frame[1] = (self.address % 128 * 2 + 1) as u8;
        lines.push(line("addressed", &frame));
        let end = frame.len() - 2;
        let check = check_octets(&frame[..8]);
        frame[end..].copy_from_slice(&check);
        lines.push(line("sealed", &frame));
        lines.extend([line("plain", whole), line("quick", whole)]);
        lines
    }

    /// The lines, and the frame of the whole call: a pass that is wrong is thus shown, and not refused further on.
    fn origin(&self, coding: u8, samples: &[u8]) -> (Vec<String>, Vec<u8>) {
        let mut out = [0; ROOM];
        let packet = Packet { step: Step::Start, coding, noise: NOISE, samples };
        let length = send(&mut 0, &packet, self.level, &self.departure(), &mut out).unwrap();
        (self.lines("made", made(coding, samples), &out[..length]), out[..length].to_vec())
    }

    fn node(&self, frame: &[u8]) -> (Vec<String>, Vec<u8>) {
        let mut out = [0; ROOM];
        let length = forward(frame, self.level, &self.departure(), &mut out).unwrap();
        (self.lines("received", frame.to_vec(), &out[..length]), out[..length].to_vec())
    }
}

/// The title, and then the octets, with a bar before each block and before the check.
fn line(title: &str, octets: &[u8]) -> String {
    let bar = |place| if place % 16 == 8 { " |" } else { "" };
    let octets = octets.iter().enumerate().map(|(place, octet)| format!("{} {octet}", bar(place)));
    format!("{title:9}{}", octets.collect::<String>())
}

/// The first frame of a burst before the passes: no address, no wait and no check, and every block.
fn made(coding: u8, samples: &[u8]) -> Vec<u8> {
    let Coding { sample_bits, droppable, .. } = Coding::of(coding).unwrap();
    let mut frame = vec![0, 1, 239, 68, droppable << 4 | droppable, 0, 128 | coding, NOISE];
    for b in 0..sample_bits {
        let mut block = [0; BLOCK];
        for n in 1..=SAMPLES {
            let bit = samples[n - 1] >> (sample_bits - b - 1) & 1;
            block[(n - 1) / 8] |= bit << ((n - 1) % 8);
        }
        frame.extend(block);
    }
    frame.extend([0, 0]);
    frame
}

/// Every line of the division on paper, and the check.
fn divided(message: &[u8]) -> Vec<String> {
    let written = |bits: &[u8]| bits.iter().map(u8::to_string).collect::<String>();
    let mut bits = bits_of(message);
    bits.extend([0; DEGREE]);
    let mut lines = vec![written(&bits)];
    complement(&mut bits[..DEGREE]);
    lines.push(written(&bits));
    for indent in 1..=bits.len() - DEGREE {
        // As many bits as the divisor has are divided in one line.
        remainder(&mut bits[indent - 1..indent + DEGREE]);
        lines.push(" ".repeat(indent) + &written(&bits[indent..]));
    }
    let check = &mut bits[8 * message.len()..];
    complement(check);
    lines.push(format!("complemented, and as two octets: {} {}", octet_of(&check[..8]), octet_of(&check[8..])));
    lines
}

fn heard(frame: &[u8]) -> Vec<String> {
    let voice = read(frame).unwrap();
    let numbers = [voice.sample_bits, voice.dropped, voice.width];
    ["plain", "quick"].iter().flat_map(|engine| [line(engine, &numbers), line("words", &voice.words[..4])]).collect()
}

#[test]
fn what_is_printed_follows_from_the_documents() {
    let mut samples = [0; SAMPLES];
    samples[..3].copy_from_slice(&[2, 1, 3]);
    let (origin, sent) = Passes { level: 0, wait: 7, address: 128 }.origin(2, &samples);
    let (node, passed_on) = Passes { level: 1, wait: 250, address: 129 }.node(&sent);
    let (dropping, _) = Passes { level: 1, wait: 0, address: 128 }.origin(20, &samples);
    let parts = [
        ("The origin: type 2, samples 2, 1, 3 and zeros, level 0, a wait of 7 ms", origin),
        ("Its check: octets 1 to 8 and sixteen zeros, divided", divided(&sent[..8])),
        ("A node: level 1, a wait of 250 ms", node),
        ("The reader: S, blocks dropped and width, and the first four words", heard(&passed_on)),
        ("The origin with a type that has droppable blocks: type 20, level 1, no wait", dropping),
    ];
    let text = parts.map(|(heading, lines)| format!("{heading}\n{}\n", lines.join("\n"))).join("\n");
    for (number, (printed, right)) in PRINTED.lines().zip(text.lines()).enumerate() {
        assert_eq!(printed, right, "line {}", number + 1);
    }
    assert!(PRINTED == text, "{} octets are printed, {} are right", PRINTED.len(), text.len());
}

#[test]
fn the_page_quotes_all_that_is_printed() {
    for part in PRINTED.trim_end().split("\n\n") {
        let quoted = part.lines().map(|line| format!("    {line}")).collect::<Vec<_>>().join("\n");
        assert!(PAGE.trim_end().split("\n\n").any(|block| block == quoted), "not quoted:\n{part}");
    }
}
