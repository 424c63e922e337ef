//! Joins a second patch to a first by every flag and compares the side taken over with document
//! 01's two tables.

mod common;

use common::assert_rows;
use rows::{Call, Kind, Source};

/// Four points, then two greys.
type Side = ([[f64; 2]; 4], [f64; 2]);

/// Point i of the first patch is (i, 100 + i); its colours are the greys 1/4, 1/2, 3/4 and 1.
#[rustfmt::skip]
const FIRST_TABLE: [Side; 3] = [
    ([[3.0, 103.0], [4.0, 104.0], [5.0, 105.0], [6.0, 106.0]], [0.5, 0.75]),
    ([[6.0, 106.0], [7.0, 107.0], [8.0, 108.0], [9.0, 109.0]], [0.75, 1.0]),
    ([[9.0, 109.0], [10.0, 110.0], [11.0, 111.0], [0.0, 100.0]], [1.0, 0.25]),
];

#[rustfmt::skip]
const SECOND_TABLE: [Side; 3] = [
    ([[3.0, 103.0], [7.0, 107.0], [11.0, 111.0], [15.0, 115.0]], [0.5, 0.75]),
    ([[12.0, 112.0], [8.0, 108.0], [4.0, 104.0], [0.0, 100.0]], [1.0, 0.25]),
    ([[15.0, 115.0], [14.0, 114.0], [13.0, 113.0], [12.0, 112.0]], [0.75, 1.0]),
];

#[rustfmt::skip]
const FIRST_POINTS: [[f64; 2]; 16] = [
    [0.0, 100.0], [1.0, 101.0], [2.0, 102.0], [3.0, 103.0],
    [4.0, 104.0], [5.0, 105.0], [6.0, 106.0], [7.0, 107.0],
    [8.0, 108.0], [9.0, 109.0], [10.0, 110.0], [11.0, 111.0],
    [12.0, 112.0], [13.0, 113.0], [14.0, 114.0], [15.0, 115.0],
];

#[rustfmt::skip]
const SECOND_POINTS: [[f64; 2]; 12] = [
    [200.0, 220.0], [201.0, 221.0], [202.0, 222.0], [203.0, 223.0],
    [204.0, 224.0], [205.0, 225.0], [206.0, 226.0], [207.0, 227.0],
    [208.0, 228.0], [209.0, 229.0], [210.0, 230.0], [211.0, 231.0],
];

/// All of the first patch, and what the second one adds to its side.
fn records(points: usize, flag: f64, first_greys: [f64; 4], second_greys: [f64; 2]) -> Vec<f64> {
    [
        &[0.0],
        FIRST_POINTS[..points].as_flattened(),
        &first_greys,
        &[flag],
        SECOND_POINTS[..points - 4].as_flattened(),
        &second_greys,
    ]
    .concat()
}

/// The rows of both patches, the second one beginning with this side.
fn expected(points: usize, side: &Side) -> Vec<f64> {
    let greys = |list: &[f64]| -> Vec<f64> {
        list.iter()
            .flat_map(|&v| [v, v, v, 0.0, 0.0, 0.0, 0.0, 0.0, v])
            .collect()
    };
    [
        FIRST_POINTS[..points].as_flattened(),
        &greys(&[0.25, 0.5, 0.75, 1.0]),
        side.0.as_flattened(),
        SECOND_POINTS[..points - 4].as_flattened(),
        &greys(&side.1),
        &greys(&[0.125, 0.375]),
    ]
    .concat()
}

/// Coordinates are the raw numbers themselves; the raw component 64 is the grey 1.
fn binary(kind: Kind, points: usize, flag: f64) -> (usize, Vec<f64>) {
    let raw = records(points, flag, [16.0, 32.0, 48.0, 64.0], [8.0, 24.0]);
    let data: Vec<u8> = raw.iter().map(|&number| number as u8).collect();
    let source = Source::Binary {
        data: &data,
        coordinate: 8,
        component: 8,
        flag: 8,
        decode: &[0.0, 255.0, 0.0, 255.0, 0.0, 255.0 / 64.0],
    };
    Call {
        kind,
        components: 1,
        source,
    }
    .run()
}

fn list(kind: Kind, points: usize, flag: f64) -> (usize, Vec<f64>) {
    let values = records(points, flag, [0.25, 0.5, 0.75, 1.0], [0.125, 0.375]);
    Call {
        kind,
        components: 1,
        source: Source::List(&values),
    }
    .run()
}

#[test]
fn type_6_takes_sides_from_the_first_table() {
    for (flag, side) in [1.0, 2.0, 3.0].into_iter().zip(&FIRST_TABLE) {
        assert_rows(binary(Kind::Type6, 12, flag), 2, &expected(12, side));
        assert_rows(list(Kind::Type6, 12, flag), 2, &expected(12, side));
    }
}

#[test]
fn binary_type_7_takes_sides_from_the_first_table() {
    for (flag, side) in [1.0, 2.0, 3.0].into_iter().zip(&FIRST_TABLE) {
        assert_rows(binary(Kind::Type7, 16, flag), 2, &expected(16, side));
    }
}

#[test]
fn listed_type_7_takes_sides_from_the_second_table() {
    for (flag, side) in [1.0, 2.0, 3.0].into_iter().zip(&SECOND_TABLE) {
        assert_rows(list(Kind::Type7, 16, flag), 2, &expected(16, side));
    }
}

#[test]
fn a_flag_above_3_ends_the_mesh() {
    for (kind, points) in [(Kind::Type6, 12), (Kind::Type7, 16)] {
        let both = expected(points, &FIRST_TABLE[0]);
        let first = &both[..both.len() / 2];
        assert_rows(binary(kind, points, 4.0), 1, first);
        assert_rows(list(kind, points, 4.0), 1, first);
    }
}
