//! The comparison that the tests of rows share.

use rows::same_number;

#[track_caller]
pub fn assert_rows(got: (usize, Vec<f64>), count: usize, rows: &[f64]) {
    assert_eq!(got.0, count);
    assert_eq!(got.1.len(), rows.len());
    for (place, (&a, &b)) in got.1.iter().zip(rows).enumerate() {
        assert!(same_number(a, b), "place {place}: {a:?} is not {b:?}");
    }
}
