//! What an origin can have sent between two packets, found by trying its steps (document 01, "Origin and node"). It
//! knows nothing of how request A10 reckons the missing ones, which is tried against it.

use std::collections::BTreeSet;

/// SSEQ after each packet that may be sent at this one.
fn after_a_packet(sseq: u8) -> Vec<u8> {
    let next = if sseq == 15 { 1 } else { sseq + 1 };
    match sseq {
        // START.
        0 => vec![next],
        // DATA or STOP.
        _ => vec![next, 0],
    }
}

/// The least number of packets sent from this SSEQ on before one of this sequence. Every packet has for its sequence
/// the SSEQ at which it is sent.
pub fn least_between(sseq: u8, sequence: u8) -> u8 {
    let mut reached = BTreeSet::from([sseq]);
    let mut packets = 0;
    while !reached.contains(&sequence) {
        reached = reached.into_iter().flat_map(after_a_packet).collect();
        packets += 1;
    }
    packets
}

#[cfg(test)]
mod tests {
    use super::*;

    #[test]
    fn least_by_hand() {
        for (sseq, sequence, packets) in [
            (0, 0, 0),
            (7, 7, 0),
            // START; START and DATA.
            (0, 1, 1),
            (0, 2, 2),
            (0, 15, 15),
            // STOP; STOP and START; or DATA, in whose burst 15 is followed by 1.
            (7, 0, 1),
            (7, 1, 2),
            (15, 1, 1),
            (14, 1, 2),
            (12, 2, 3),
            // All numbers of a burst but one; or STOP, START and so many of DATA.
            (1, 15, 14),
            (15, 14, 14),
            (3, 2, 3),
        ] {
            assert_eq!(least_between(sseq, sequence), packets, "from {sseq} to {sequence}");
        }
    }
}
