//! Frames that are made wrong, for the tests.

use crate::document::check_sequence;

/// The frame with one octet, from 1, changed and its check, that of its kind, made right again.
pub fn changed(frame: &[u8], octet: usize, to: u8) -> Vec<u8> {
    let mut frame = frame.to_vec();
    frame[octet - 1] = to;
    let end = frame.len() - 2;
    let covered = if frame[2] == 239 { 8 } else { end };
    let check = check_sequence(&frame[..covered]).to_le_bytes();
    frame[end..].copy_from_slice(&check);
    frame
}

/// The frame with a wrong check.
pub fn spoiled(frame: &[u8]) -> Vec<u8> {
    let mut frame = frame.to_vec();
    *frame.last_mut().unwrap() ^= 1;
    frame
}
