//! What a flag above 3 is to each reading.

mod samples;

use samples::{bytes, decode, layout, numbers, raw_kind, values};
use station::MeshKind::{self, Type4, Type6, Type7};
use station::{build_published, parse, published, raw_read, slices};

/// The types that have flags, and where those of the sample with one component stand.
const FLAGS: [(MeshKind, &[usize]); 3] = [
    (Type4, &[0, 4, 8, 12]),
    (Type6, &[0, 29]),
    (Type7, &[0, 37]),
];

#[test]
fn published_bytes_have_it_by_its_two_low_bits() {
    let (l, decode) = (layout(1), decode(1));
    for (kind, places) in FLAGS {
        let plain = bytes(kind, 1);
        let mesh = published(kind, &plain, l, &decode);
        assert_eq!(mesh, parse(kind, &plain, l, &decode));
        for mark in [0x04, 0x80, 0xFC] {
            let mut marked = plain.clone();
            places.iter().for_each(|&place| marked[place] |= mark);
            assert_eq!(published(kind, &marked, l, &decode), mesh);
            assert_eq!(slices::parse(kind, &marked, l, &decode, &mut []), Ok(0));
        }
    }
}

#[test]
fn lists_and_raw_numbers_have_it_whole() {
    for (kind, places) in FLAGS {
        let (mut list, mut values) = (numbers(kind, 1), values(kind, 1));
        for &place in places {
            list[place] += 4;
            values[place] += 4.0;
        }
        let nothing = build_published(kind, &[], 1);
        assert_eq!(build_published(kind, &values, 1), nothing);
        let data: Vec<u8> = list.iter().map(|&number| number as u8).collect();
        let read = raw_read(raw_kind(kind), &data, layout(1)).expect("readable");
        // a vertex has any flag, a patch none above 3
        assert_eq!(read, if kind == Type4 { list } else { Vec::new() });
    }
}
