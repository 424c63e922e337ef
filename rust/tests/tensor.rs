//! Coons patches turned into tensor patches, run through the archive.

use station::slices::{coons_to_tensor, coons_to_tensor_raw};
use station::{build, parse, tensor, Layout, Refusal, Type6};

/// A square of side 9 as a Type 6 border in stream order; its points stand three apart.
const SQUARE: [u32; 24] = [
    0, 0, 0, 3, 0, 6, 0, 9, 3, 9, 6, 9, 9, 9, 9, 6, 9, 3, 9, 0, 6, 0, 3, 0,
];

/// Its inner points, in the tensor stream's order.
const INNER: [u32; 8] = [3, 3, 3, 6, 6, 6, 6, 3];

/// The square with a grey for each corner, then one that joins its side p03 p33 by flag 1.
fn two_squares() -> Vec<u32> {
    let mut list = vec![0];
    list.extend(SQUARE);
    list.extend([10, 20, 30, 40]);
    list.push(1);
    list.extend([
        9, 12, 9, 15, 9, 18, 6, 18, 3, 18, 0, 18, 0, 15, 0, 12, 50, 60,
    ]);
    list
}

fn nine_times(list: &[u32]) -> Vec<i64> {
    list.iter().map(|&x| 9 * i64::from(x)).collect()
}

#[test]
fn a_square_and_one_joined_to_it() {
    let mut out = [7i64; 73];
    assert_eq!(coons_to_tensor_raw(&two_squares(), 1, &mut out), Ok(2));
    let (first, second) = out.split_at(36);
    assert_eq!(first[..24], nine_times(&SQUARE));
    assert_eq!(first[24..32], nine_times(&INNER));
    assert_eq!(first[32..], [10, 20, 30, 40]);
    // points 1 to 4 are the first one's 4 to 7, colours 1 and 2 its 2 and 3
    assert_eq!(second[..8], first[6..14]);
    let inner = [3, 12, 6, 12, 6, 15, 3, 15];
    assert_eq!(second[24..32], nine_times(&inner));
    assert_eq!(second[32..], [20, 30, 50, 60, 7]);
}

#[test]
fn the_largest_and_the_least_inner_point() {
    // p11 of a patch whose points are 0, but for those that count for it, or against it
    let most = i64::from(u32::MAX);
    for (places, sum) in [([1, 11, 4, 8].as_slice(), 18), (&[0, 3, 9, 6], -9)] {
        let mut list = [0u32; 25];
        for place in places {
            list[1 + 2 * place] = u32::MAX;
        }
        let mut out = [0i64; 32];
        assert_eq!(coons_to_tensor_raw(&list, 0, &mut out), Ok(1));
        assert_eq!(out[24], sum * most);
        assert_eq!(out[25], 0);
    }
}

#[test]
fn raw_refusals_in_their_order() {
    let list = two_squares();
    let broken = [[4].as_slice(), &list[1..]].concat();
    let joined = [[1].as_slice(), &list[1..]].concat();
    let long = vec![0; 1_048_577];
    let mut out = [7i64; 72];
    let mut refused = |list: &[u32], components: usize, room: usize| {
        let answer = coons_to_tensor_raw(list, components, &mut out[..room]);
        assert_eq!(out, [7; 72]);
        answer.expect_err("a refusal")
    };
    assert_eq!(refused(&long, 33, 0), Refusal::Components);
    assert_eq!(refused(&long, 32, 0), Refusal::Length);
    assert_eq!(refused(&list[..list.len() - 1], 1, 0), Refusal::Record);
    assert_eq!(refused(&broken, 1, 0), Refusal::Record);
    assert_eq!(refused(&joined, 1, 0), Refusal::Record);
    assert_eq!(refused(&list, 1, 71), Refusal::Room { needed: 72 });
    assert_eq!(coons_to_tensor_raw(&list, 1, &mut out), Ok(2));
    assert_eq!(coons_to_tensor_raw(&[], 1, &mut []), Ok(0));
}

#[test]
fn what_a_reader_answers_is_turned() {
    let bytes: Vec<u8> = two_squares().iter().map(|&x| x as u8).collect();
    let layout = Layout {
        coordinate: 8,
        component: 8,
        flag: 8,
        components: 1,
    };
    let decode = [0.0, 255.0, 0.0, 255.0, 0.0, 255.0];
    let coons = parse(Type6, &bytes, layout, &decode).expect("two patches");
    let patches = coons.numbers();
    let mut out = [7.0; 2 * 68 + 1];
    assert_eq!(
        coons_to_tensor(patches, 1, &mut out[..135]),
        Err(Refusal::Room { needed: 136 })
    );
    assert_eq!(out, [7.0; 137]);
    assert_eq!(coons_to_tensor(patches, 1, &mut out), Ok(2));
    for (before, after) in patches.chunks(60).zip(out.chunks(68)) {
        assert_eq!(after[..24], before[..24]);
        assert_eq!(after[32..], before[24..]);
    }
    assert_eq!(out[24..32], INNER.map(f64::from));
    assert_eq!(out[136], 7.0);
    assert_eq!(tensor(&coons).numbers(), &out[..136]);
}

/// So many patches, each with numbers of its own.
fn counted(patches: usize, n: usize) -> Vec<f64> {
    let patch = |i: usize| {
        let rest = (0..24 + 4 * n).map(move |k| (i + k * k) as f64);
        std::iter::once(0.0).chain(rest)
    };
    (0..patches).flat_map(patch).collect()
}

#[test]
fn a_mesh_longer_than_a_call_takes_is_turned_in_parts() {
    // a row has 56 numbers, or 68, and a call takes 18,724 of them, or 15,420
    for (patches, n) in [
        (18_724, 0),
        (18_725, 0),
        (40_000, 0),
        (15_420, 3),
        (15_421, 3),
    ] {
        let coons = build(Type6, &counted(patches, n), n).expect("patches");
        let turned = tensor(&coons);
        assert_eq!((turned.len(), turned.components()), (patches, n));
        let size = coons.numbers().len() / patches;
        let mut alone = vec![0.0; size + 8];
        for (row, patch) in coons
            .numbers()
            .chunks(size)
            .zip(turned.numbers().chunks(size + 8))
        {
            assert_eq!(coons_to_tensor(row, n, &mut alone), Ok(1));
            assert_eq!(patch, alone);
        }
    }
}

#[test]
fn patches_of_the_most_components_are_turned() {
    let coons = build(Type6, &counted(2, 32), 32).expect("two patches");
    let turned = tensor(&coons);
    for (before, after) in coons.iter().zip(&turned) {
        assert_eq!(before.points()[..], after.points()[..12]);
        assert_eq!(before.colours(), after.colours());
    }
    assert_eq!((turned.len(), turned.components()), (2, 32));
}

#[test]
fn a_copied_nan_keeps_its_payload() {
    let nan = f64::from_bits(0x7ff4_0000_0000_0123);
    let mut patch = [0.0; 56];
    patch[23] = nan;
    patch[55] = nan;
    let mut out = [0.0; 64];
    assert_eq!(coons_to_tensor(&patch, 0, &mut out), Ok(1));
    assert_eq!(out[23].to_bits(), nan.to_bits());
    assert_eq!(out[63].to_bits(), nan.to_bits());
    // y of p10 counts for p11 and p12 alone
    let counts = [25, 27, 29, 31].map(|place: usize| out[place].is_nan());
    assert_eq!(counts, [true, true, false, false]);
}

#[test]
fn refusals_of_rows_in_their_order() {
    let long = vec![0.0; 1_048_576 + 56];
    let mut out = [7.0; 64];
    let mut refused = |list: &[f64], components: usize, room: usize| {
        let answer = coons_to_tensor(list, components, &mut out[..room]);
        assert_eq!(out, [7.0; 64]);
        answer.expect_err("a refusal")
    };
    assert_eq!(refused(&long, 33, 0), Refusal::Components);
    assert_eq!(refused(&long, 0, 0), Refusal::Length);
    assert_eq!(refused(&long[..57], 0, 0), Refusal::Record);
    assert_eq!(refused(&long[..56], 1, 64), Refusal::Record);
    assert_eq!(refused(&long[..56], 0, 63), Refusal::Room { needed: 64 });
    assert_eq!(coons_to_tensor(&[], 32, &mut []), Ok(0));
}
