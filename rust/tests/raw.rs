//! Document 01's examples of the raw readers and writers, run through the archive.

use station::slices::{raw_read, raw_write};
use station::{Kind, Layout, Refusal};

fn layout(coordinate: usize, component: usize, flag: usize, components: usize) -> Layout {
    Layout {
        coordinate,
        component,
        flag,
        components,
    }
}

#[test]
fn p5_thin_and_three_numbers_in_a_byte() {
    let mut out = [7u8; 2];
    assert_eq!(
        raw_write(Kind::Type5, &[1, 1, 1], layout(1, 1, 0, 1), &mut out),
        Err(Refusal::Thin)
    );
    assert_eq!(out, [7, 7]);
    assert_eq!(
        raw_write(Kind::Type5, &[5, 2, 3], layout(3, 2, 0, 1), &mut out),
        Ok(1)
    );
    assert_eq!(out, [0xAB, 7]);
}

#[test]
fn p6_one_vertex_there_and_back() {
    let mut bytes = [0u8; 2];
    assert_eq!(
        raw_write(Kind::Type4, &[0, 9, 6, 15], layout(4, 4, 2, 1), &mut bytes),
        Ok(2)
    );
    assert_eq!(bytes, [0x25, 0xBC]);
    let mut numbers = [77u32; 5];
    assert_eq!(
        raw_read(Kind::Type4, &bytes, layout(4, 4, 2, 1), &mut numbers),
        Ok(4)
    );
    assert_eq!(numbers, [0, 9, 6, 15, 77]);
}

#[test]
fn exactly_enough_room_and_one_place_less() {
    let mut numbers = [5u32; 4];
    let bytes = [0x25, 0xBC];
    assert_eq!(
        raw_read(Kind::Type4, &bytes, layout(4, 4, 2, 1), &mut numbers[..3]),
        Err(Refusal::Room { needed: 4 })
    );
    assert_eq!(numbers, [5; 4]);
    assert_eq!(
        raw_read(Kind::Type4, &bytes, layout(4, 4, 2, 1), &mut numbers),
        Ok(4)
    );
    let mut out = [5u8; 2];
    assert_eq!(
        raw_write(
            Kind::Type4,
            &[0, 9, 6, 15],
            layout(4, 4, 2, 1),
            &mut out[..1]
        ),
        Err(Refusal::Room { needed: 2 })
    );
    assert_eq!(out, [5; 2]);
}

#[test]
fn components_32_and_33() {
    let data = [0u8; 64];
    let mut out = [0u32; 64];
    assert_eq!(
        raw_read(Kind::Type5, &data, layout(8, 8, 0, 32), &mut out),
        Ok(34)
    );
    assert_eq!(
        raw_read(Kind::Type5, &data, layout(8, 8, 0, 33), &mut out),
        Err(Refusal::Components)
    );
}

#[test]
fn patches_by_their_flags() {
    let l = layout(8, 8, 8, 0);
    let mut list = vec![0u32; 25];
    list.extend([3; 17]);
    let mut bytes = [0u8; 64];
    assert_eq!(raw_write(Kind::Type6, &list, l, &mut bytes), Ok(42));
    let mut back = [9u32; 64];
    assert_eq!(raw_read(Kind::Type6, &bytes[..42], l, &mut back), Ok(42));
    assert_eq!(&back[..42], &list[..]);
    // a cut gives a beginning
    assert_eq!(raw_read(Kind::Type6, &bytes[..41], l, &mut back), Ok(25));
    // each reason for RECORD
    let refused = Err(Refusal::Record);
    assert_eq!(raw_write(Kind::Type6, &list[..41], l, &mut bytes), refused);
    assert_eq!(
        raw_write(
            Kind::Type6,
            &[[4].as_slice(), &[0; 24]].concat(),
            l,
            &mut bytes
        ),
        refused
    );
    assert_eq!(
        raw_write(
            Kind::Type6,
            &[[1].as_slice(), &[0; 16]].concat(),
            l,
            &mut bytes
        ),
        refused
    );
    assert_eq!(
        raw_write(
            Kind::Type6,
            &[[0].as_slice(), &[256; 24]].concat(),
            l,
            &mut bytes
        ),
        refused
    );
}
