//! What a call that is refused for want of room tells: how many places the whole answer needs, no more and no less.

mod samples;

use samples::{bytes, decode, layout, numbers, raw_kind, size, values, COMPONENTS, KINDS};
use station::slices;
use station::Refusal::{self, Room};
use std::fmt::Debug;

/// Lends nothing, one place less than is needed, exactly so many, and one more.
fn check<T: Copy + PartialEq + Debug>(
    [before, other]: [T; 2],
    count: usize,
    needed: usize,
    call: impl Fn(&mut [T]) -> Result<usize, Refusal>,
) {
    assert_eq!(call(&mut []), Err(Room { needed }));
    let mut less = vec![before; needed - 1];
    assert_eq!(call(&mut less), Err(Room { needed }));
    assert_eq!(less, vec![before; needed - 1]);

    let mut exact = vec![before; needed];
    assert_eq!(call(&mut exact), Ok(count));
    let mut more = vec![other; needed + 1];
    assert_eq!(call(&mut more), Ok(count));
    assert_eq!(more.pop(), Some(other));
    // what stood there before differs, so a place that isn't written would show
    assert_eq!(exact, more);
}

#[test]
fn of_meshes() {
    for kind in KINDS {
        for n in COMPONENTS {
            let (count, each) = size(kind, n);
            let (data, list, decode) = (bytes(kind, n), values(kind, n), decode(n));
            let check = |call: &dyn Fn(&mut [f64]) -> Result<usize, Refusal>| {
                check([-7.0, -8.0], count, count * each, call)
            };
            check(&|out| slices::parse(kind, &data, layout(n), &decode, out));
            check(&|out| slices::published(kind, &data, layout(n), &decode, out));
            check(&|out| slices::build(kind, &list, n, out));
            check(&|out| slices::build_published(kind, &list, n, out));
        }
    }
}

#[test]
fn of_raw_numbers() {
    for kind in KINDS {
        for n in COMPONENTS {
            let (data, list) = (bytes(kind, n), numbers(kind, n));
            let (kind, l, count) = (raw_kind(kind), layout(n), list.len());
            check([777, 888], count, count, |out| {
                slices::raw_read(kind, &data, l, out)
            });
            check([0xFE, 0xFF], count, count, |out| {
                slices::raw_write(kind, &list, l, out)
            });
        }
    }
}

#[test]
fn of_patches_turned() {
    let kind = KINDS[2];
    for n in COMPONENTS {
        let list = numbers(kind, n);
        check([-7, -8], 2, 2 * (32 + 4 * n), |out| {
            slices::coons_to_tensor_raw(&list, n, out)
        });
        let (count, each) = size(kind, n);
        let mut rows = vec![0.0; count * each];
        assert_eq!(slices::build(kind, &values(kind, n), n, &mut rows), Ok(2));
        check([-7.0, -8.0], 2, 2 * (32 + 4 * (8 + n)), |out| {
            slices::coons_to_tensor(&rows, n, out)
        });
    }
}

#[test]
fn an_empty_answer_needs_none() {
    for kind in KINDS {
        let l = layout(1);
        assert_eq!(slices::parse(kind, &[], l, &decode(1), &mut []), Ok(0));
        assert_eq!(slices::published(kind, &[], l, &decode(1), &mut []), Ok(0));
        assert_eq!(slices::build(kind, &[], 1, &mut []), Ok(0));
        assert_eq!(slices::build_published(kind, &[], 1, &mut []), Ok(0));
        assert_eq!(slices::raw_read(raw_kind(kind), &[], l, &mut []), Ok(0));
        assert_eq!(slices::raw_write(raw_kind(kind), &[], l, &mut []), Ok(0));
    }
    assert_eq!(slices::coons_to_tensor_raw(&[], 1, &mut []), Ok(0));
    assert_eq!(slices::coons_to_tensor(&[], 1, &mut []), Ok(0));
}
