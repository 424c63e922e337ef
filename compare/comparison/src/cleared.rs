//! Of a flag only the two low bits count (ISO 32000-1, 8.7.4.5.5, 8.7.4.5.7 and 8.7.4.5.8). The original takes the whole number. It reads what the
//! published readers should, where it is given the bytes with all other bits of their flags cleared. Here that is done bit by bit.

use crate::record::{is_flagged, is_patched, record_bits};
use station::{Kind, Layout};

/// How many bits of a flag count.
const LOW: usize = 2;

/// The bytes with each flag cleared but for its two low bits, where the published reading of a readable layout has flags.
pub fn cleared(kind: Kind, l: Layout, data: &[u8]) -> Vec<u8> {
    let mut bytes = data.to_vec();
    if !is_flagged(kind) || l.flag <= LOW {
        return bytes;
    }
    let mut place = 0;
    while place + l.flag <= 8 * bytes.len() {
        let (end, low) = (place + l.flag, place + l.flag - LOW);
        for bit in place..low {
            bytes[bit / 8] &= !mask(bit);
        }
        let is_joined = (low..end).any(|bit| bytes[bit / 8] & mask(bit) != 0);
        if is_patched(kind) && is_joined && place == 0 {
            break;
        }
        place += record_bits(kind, l, is_joined.into());
    }
    bytes
}

/// A bit's place in its byte, the highest first.
fn mask(bit: usize) -> u8 {
    0x80 >> (bit % 8)
}

#[cfg(test)]
mod tests {
    use super::*;

    fn layout(coordinate: usize, component: usize, flag: usize, components: usize) -> Layout {
        Layout {
            coordinate,
            component,
            flag,
            components,
        }
    }

    /// The bytes of bits that are written out; what isn't a bit parts them for the eye.
    fn bytes(bits: &str) -> Vec<u8> {
        let bits: Vec<u8> = bits.bytes().filter(|b| b"01".contains(b)).collect();
        assert!(bits.len().is_multiple_of(8), "whole bytes");
        let byte = |bits: &[u8]| bits.iter().fold(0, |byte, bit| 2 * byte + (bit - b'0'));
        bits.chunks(8).map(byte).collect()
    }

    /// So many bits of a record that are to stay.
    fn ones(count: usize) -> String {
        "1".repeat(count)
    }

    fn check_bits(kind: Kind, l: Layout, before: &str, after: &str) {
        assert_eq!(cleared(kind, l, &bytes(before)), bytes(after), "{before}");
    }

    #[test]
    fn type_4_at_whole_bytes() {
        let l = layout(8, 8, 8, 1);
        let data = [
            [0x84, 0xff, 0xff, 0xff],
            [0xff, 0xfe, 0xfd, 0xfc],
            [0x05, 0x84, 0x84, 0x84],
            [0x03, 0x04, 0x05, 0x06],
        ];
        let low = [
            [0x00, 0xff, 0xff, 0xff],
            [0x03, 0xfe, 0xfd, 0xfc],
            [0x01, 0x84, 0x84, 0x84],
            [0x03, 0x04, 0x05, 0x06],
        ];
        let after = cleared(Kind::Type4, l, data.as_flattened());
        assert_eq!(after, low.as_flattened());
    }

    #[test]
    fn type_4_between_bytes() {
        let l = layout(1, 1, 3, 0);
        check_bits(
            Kind::Type4,
            l,
            "111 0 0  101 1 1  100 1 0  1",
            "011 0 0  001 1 1  000 1 0  1",
        );
        let l = layout(1, 1, 12, 0);
        check_bits(
            Kind::Type4,
            l,
            "101010111111 1 0  111111111101 0 1  1111",
            "000000000011 1 0  000000000001 0 1  1111",
        );
        let l = layout(3, 5, 32, 1);
        check_bits(
            Kind::Type4,
            l,
            "11111111111111111111111111111110 101 010 11111  10000000000000000000000000000100 111 111 00000  11",
            "00000000000000000000000000000010 101 010 11111  00000000000000000000000000000000 111 111 00000  11",
        );
    }

    #[test]
    fn type_6_by_the_length_of_each_record() {
        let l = layout(1, 1, 3, 0);
        let (first, joined) = (ones(24), ones(16));
        // 4 begins a patch; 5, 6 and 7 join one; 4 begins another
        check_bits(
            Kind::Type6,
            l,
            &format!("100{first} 101{joined} 110{joined} 111{joined} 100{first} 101 111111"),
            &format!("000{first} 001{joined} 010{joined} 011{joined} 000{first} 001 111111"),
        );
        let l = layout(2, 3, 12, 1);
        let (first, joined) = (ones(2 * 24 + 3 * 4), ones(2 * 16 + 3 * 2));
        check_bits(
            Kind::Type6,
            l,
            &format!("100000000100{first} 110000000101{joined} 111111111111{joined} 0101"),
            &format!("000000000000{first} 000000000001{joined} 000000000011{joined} 0101"),
        );
    }

    #[test]
    fn type_7_by_the_length_of_each_record() {
        let l = layout(1, 2, 5, 1);
        let (first, joined) = (ones(32 + 2 * 4), ones(24 + 2 * 2));
        check_bits(
            Kind::Type7,
            l,
            &format!("10000{first} 11110{joined} 00101{joined} 11100{first} 01011 1111111"),
            &format!("00000{first} 00010{joined} 00001{joined} 00000{first} 00011 1111111"),
        );
        let l = layout(3, 1, 32, 0);
        let (first, joined) = (ones(3 * 32), ones(3 * 24));
        check_bits(
            Kind::Type7,
            l,
            &format!(
                "10000000000000000000000000000000{first} 01111111111111111111111111111111{joined}"
            ),
            &format!(
                "00000000000000000000000000000000{first} 00000000000000000000000000000011{joined}"
            ),
        );
    }

    #[test]
    fn a_first_patch_that_joins_ends_the_mesh() {
        for kind in [Kind::Type6, Kind::Type7] {
            for low in 1..=3 {
                let mut data = [0xff; 100];
                data[0] = 0xfc | low;
                let mut after = data;
                after[0] = low;
                assert_eq!(cleared(kind, layout(8, 8, 8, 1), &data), after);
            }
        }
    }

    #[test]
    fn a_record_that_is_cut_has_its_flag_cleared_if_that_is_whole() {
        let l = layout(8, 8, 16, 0);
        for (kind, size) in [(Kind::Type4, 4), (Kind::Type6, 26), (Kind::Type7, 34)] {
            let whole = [[0xff, 0xfc].as_slice(), &vec![0xff; size - 2]].concat();
            let low = [[0, 0].as_slice(), &vec![0xff; size - 2]].concat();
            for (rest, low_rest) in [
                ([].as_slice(), [].as_slice()),
                (&[0xff], &[0xff]),
                (&[0xff, 0xff], &[0, 3]),
                (&[0xff, 0xff, 0xff], &[0, 3, 0xff]),
            ] {
                let data = [&whole, rest].concat();
                assert_eq!(cleared(kind, l, &data), [&low, low_rest].concat());
            }
        }
    }

    #[test]
    fn flags_of_up_to_two_bits_and_lattices_are_left_alone() {
        let data: Vec<u8> = (0..=255).collect();
        for flag in [1, 2] {
            for kind in [Kind::Type4, Kind::Type6, Kind::Type7] {
                assert_eq!(cleared(kind, layout(3, 2, flag, 1), &data), data);
            }
        }
        assert_eq!(cleared(Kind::Type5, layout(3, 2, 8, 1), &data), data);
    }
}
