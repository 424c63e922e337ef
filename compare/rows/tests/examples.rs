//! Runs document 01's examples through the original and compares the rows with numbers worked out
//! by hand.

mod common;

use common::assert_rows;
use rows::{same_number, Call, Kind, Source};

fn list(kind: Kind, components: usize, values: &[f64]) -> (usize, Vec<f64>) {
    let source = Source::List(values);
    Call {
        kind,
        components,
        source,
    }
    .run()
}

/// Widths of 8 and a Decode that keeps every raw number as it is.
fn bytes(kind: Kind, components: usize, data: &[u8]) -> (usize, Vec<f64>) {
    let decode = [0.0, 255.0].repeat(2 + components);
    let source = Source::Binary {
        data,
        coordinate: 8,
        component: 8,
        flag: 8,
        decode: &decode,
    };
    Call {
        kind,
        components,
        source,
    }
    .run()
}

/// Vertices without components are black.
fn black(corners: &[[f64; 2]]) -> Vec<f64> {
    let rows = corners
        .iter()
        .map(|&[x, y]| [x, y, 0.0, 0.0, 0.0, 0.0, 0.0, 0.0, 0.0, 0.0]);
    rows.flatten().collect()
}

/// The one colour of a triangle whose vertices are all alike.
fn colour(components: &[f64]) -> Vec<f64> {
    let vertex = [&[0.0, 1.0, 2.0], components].concat();
    let (count, rows) = list(Kind::Type4, components.len(), &vertex.repeat(3));
    assert_eq!(count, 1);
    assert_eq!(rows.len(), 3 * (10 + components.len()));
    rows[2..10 + components.len()].to_vec()
}

#[test]
fn dump_example() {
    let data = [
        0x00, 0x00, 0x00, 0x00, 0x00, 0x02, 0x00, 0x01, 0x00, 0x00, 0x02, 0x02,
    ];
    let zero = f64::from_bits(0x0000_0000_0000_0000);
    let one = f64::from_bits(0x3ff0_0000_0000_0000);
    let two = f64::from_bits(0x4000_0000_0000_0000);
    #[rustfmt::skip]
    let rows = [
        zero, zero, zero, zero, zero, 0.0, 0.0, 0.0, 0.0, 0.0, zero,
        two, zero, one, one, one, 0.0, 0.0, 0.0, 0.0, 0.0, one,
        zero, two, one, one, one, 0.0, 0.0, 0.0, 0.0, 0.0, two,
    ];
    assert_rows(bytes(Kind::Type4, 1, &data), 1, &rows);
}

#[test]
fn p7_lattice() {
    let kind = Kind::Type5 { row_length: 3 };
    let data = [0, 10, 1, 11, 2, 12, 3, 13, 4, 14, 5, 15, 6, 16];
    let values = data.map(f64::from);
    #[rustfmt::skip]
    let rows = black(&[
        [0.0, 10.0], [1.0, 11.0], [3.0, 13.0],
        [1.0, 11.0], [4.0, 14.0], [3.0, 13.0],
        [1.0, 11.0], [2.0, 12.0], [4.0, 14.0],
        [2.0, 12.0], [5.0, 15.0], [4.0, 14.0],
    ]);
    for vertices in [6, 7] {
        assert_rows(bytes(kind, 0, &data[..2 * vertices]), 4, &rows);
        assert_rows(list(kind, 0, &values[..2 * vertices]), 4, &rows);
    }
    assert_rows(bytes(kind, 0, &data[..10]), 0, &[]);
    assert_rows(list(kind, 0, &values[..10]), 0, &[]);
}

#[test]
fn p8_list_joins_its_last_vertices_where_the_binary_joins_its_triangle() {
    let data = [0, 0, 0, 0, 1, 0, 0, 0, 1, 2, 5, 5, 2, 6, 6];
    let [a, b, c, d, e] = [[0.0, 0.0], [1.0, 0.0], [0.0, 1.0], [5.0, 5.0], [6.0, 6.0]];
    let list_rows = black(&[a, b, c, a, c, d, b, d, e]);
    let binary_rows = black(&[a, b, c, a, c, d, a, d, e]);
    assert_rows(list(Kind::Type4, 0, &data.map(f64::from)), 3, &list_rows);
    assert_rows(bytes(Kind::Type4, 0, &data), 3, &binary_rows);
}

#[test]
fn p9_flags_become_whole_numbers() {
    #[rustfmt::skip]
    let values = [
        f64::NAN, 1.0, 1.0,  0.0, 2.0, 2.0,  0.0, 3.0, 3.0,
        -1.0, 4.0, 4.0,  0.0, 5.0, 5.0,  0.0, 6.0, 6.0,
        1.9, 7.0, 7.0,
    ];
    #[rustfmt::skip]
    let rows = black(&[
        [1.0, 1.0], [2.0, 2.0], [3.0, 3.0],
        [4.0, 4.0], [5.0, 5.0], [6.0, 6.0],
        [5.0, 5.0], [6.0, 6.0], [7.0, 7.0],
    ]);
    assert_rows(list(Kind::Type4, 0, &values), 3, &rows);
}

#[test]
fn p10_cmyk() {
    let row = colour(&[0.25, 0.0, 0.0, 0.5]);
    let inks = [0.25, 0.0, 0.0, 0.5];
    assert_rows(
        (1, row),
        1,
        &[&[0.25, 0.5, 0.5, 1.0], &inks[..], &inks].concat(),
    );
}

#[test]
fn colours_are_clamped_and_components_are_not() {
    let nan = f64::NAN;
    #[rustfmt::skip]
    let cases: [(&[f64], &[f64]); 5] = [
        (&[3.0], &[1.0, 1.0, 1.0, 0.0, 0.0, 0.0, 0.0, 0.0, 3.0]),
        (&[0.5, 0.5], &[0.0, 0.0, 0.0, 0.0, 0.0, 0.0, 0.0, 0.0, 0.5, 0.5]),
        (&[nan, -0.0, -2.0], &[nan, -0.0, 0.0, 0.0, 0.0, 0.0, 0.0, 0.0, nan, -0.0, -2.0]),
        (&[1.5, -0.5, -0.0, nan], &[0.0, 0.0, 0.0, 1.0, 1.0, 0.0, -0.0, nan, 1.5, -0.5, -0.0, nan]),
        (
            &[0.25, 0.5, 0.75, 0.125, 9.0],
            &[0.25, 0.5, 0.75, 0.0, 0.0, 0.0, 0.0, 0.0, 0.25, 0.5, 0.75, 0.125, 9.0],
        ),
    ];
    for (components, row) in cases {
        assert_rows((1, colour(components)), 1, row);
    }
}

#[test]
fn same_number_is_bit_for_bit_with_one_nan() {
    assert!(same_number(1.5, 1.5));
    assert!(same_number(f64::NAN, f64::from_bits(0xfff8_0000_0000_0001)));
    assert!(!same_number(0.0, -0.0));
    assert!(!same_number(1.0, 1.0 + f64::EPSILON));
    assert!(!same_number(f64::NAN, 1.0));
    assert!(!same_number(1.0, f64::NAN));
}
