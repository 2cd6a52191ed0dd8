//! The check sequence of document 01 as a long division of polynomials, worked as on paper (request A11): a list of
//! bits and a divisor, and no register. It knows nothing of `document.rs`, which is tried against it.

pub(crate) const DEGREE: usize = 16;
/// x^16 + x^12 + x^5 + 1, the highest power first.
const DIVISOR: [u8; DEGREE + 1] = [1, 0, 0, 0, 1, 0, 0, 0, 0, 0, 0, 1, 0, 0, 0, 0, 1];

/// The bits in the order in which they are sent: the lowest of each octet first.
pub(crate) fn bits_of(octets: &[u8]) -> Vec<u8> {
    octets.iter().flat_map(|octet| (0..8).map(move |place| octet >> place & 1)).collect()
}

pub(crate) fn octet_of(bits: &[u8]) -> u8 {
    bits.iter().rev().fold(0, |octet, bit| 2 * octet + bit)
}

pub(crate) fn complement(bits: &mut [u8]) {
    bits.iter_mut().for_each(|bit| *bit = 1 - *bit);
}

/// What is left of a dividend, the highest power first. Adding is without carry, and so is the same as taking away.
pub(crate) fn remainder(dividend: &mut [u8]) -> &mut [u8] {
    let mut left = dividend;
    while left.len() > DEGREE {
        if left[0] == 1 {
            left.iter_mut().zip(DIVISOR).for_each(|(bit, coefficient)| *bit = (*bit + coefficient) % 2);
        }
        left = &mut left[1..];
    }
    left
}

/// The two octets that are sent behind a message. The first bit sent is the highest power.
pub fn check_octets(message: &[u8]) -> [u8; 2] {
    let mut bits = bits_of(message);
    bits.extend([0; DEGREE]);
    // Only now, so that a message shorter than sixteen bits has as many to complement.
    complement(&mut bits[..DEGREE]);
    let check = remainder(&mut bits);
    complement(check);
    [octet_of(&check[..8]), octet_of(&check[8..])]
}

#[cfg(test)]
mod tests {
    use super::*;
    use crate::document::check_sequence;
    use crate::random::Random;

    const LENGTHS: std::ops::RangeInclusive<usize> = 0..=490;
    /// Random lists of each length.
    const LISTS: usize = 8;

    fn by_register(message: &[u8]) -> [u8; 2] {
        check_sequence(message).to_le_bytes()
    }

    #[test]
    fn divided_by_hand() {
        for (message, check) in [
            // Sixteen zeros, which complemented are the remainder.
            (&[][..], [0x00, 0x00]),
            // Eight ones and eight of the zeros behind are complemented, so that eight ones and eight zeros are left.
            (&[0xFF], [0x00, 0xFF]),
            // Nothing but zeros is divided.
            (&[0xFF, 0xFF], [0xFF, 0xFF]),
            // x^16 is divided, and leaves x^12 + x^5 + 1.
            (&[0xFF, 0x7F], [0xF7, 0x7B]),
            // x^17 is divided, and leaves x^13 + x^6 + x.
            (&[0xFF, 0xBF], [0xFB, 0xBD]),
            // x^20 is divided: x^16 + x^9 + x^4 is left, and of that x^12 + x^9 + x^5 + x^4 + 1.
            (&[0xFF, 0xF7], [0xB7, 0x73]),
        ] {
            assert_eq!(check_octets(message), check, "{message:02X?}");
        }
    }

    #[test]
    fn published_check_vectors() {
        assert_eq!(check_octets(b"123456789"), [0x6E, 0x90]);
        // The worked examples of ISO 3309: SABM to address 3 and UA from address 1.
        assert_eq!(check_octets(&[0x03, 0x3F]), [0x5B, 0xEC]);
        assert_eq!(check_octets(&[0x01, 0x73]), [0x83, 0x57]);
    }

    #[test]
    fn every_octet_alone_as_the_register_has_it() {
        for octet in 0..=255 {
            assert_eq!(check_octets(&[octet]), by_register(&[octet]), "octet {octet}");
        }
    }

    #[test]
    fn lists_of_every_length_as_the_register_has_them() {
        let mut random = Random::from_seed(764);
        for length in LENGTHS {
            let any = (0..LISTS).map(|_| random.octets(length)).collect::<Vec<_>>();
            for message in [vec![0x00; length], vec![0xFF; length]].iter().chain(&any) {
                assert_eq!(check_octets(message), by_register(message), "{length} octets {message:02X?}");
            }
        }
    }

    /// Message and check together leave x^12 + x^11 + x^10 + x^8 + x^3 + x^2 + x + 1, as the standard has it.
    #[test]
    fn what_is_left_at_the_far_end() {
        let left = [0, 0, 0, 1, 1, 1, 0, 1, 0, 0, 0, 0, 1, 1, 1, 1];
        let mut random = Random::from_seed(3309);
        for length in LENGTHS {
            let message = random.octets(length);
            let received = [&message[..], &check_octets(&message)].concat();
            let mut found = bits_of(&check_octets(&received));
            complement(&mut found);
            assert_eq!(found, left, "{message:02X?}");
        }
    }
}
