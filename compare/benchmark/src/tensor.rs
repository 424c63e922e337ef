//! Coons patches turned into tensor patches, beside a plain Rust version of the same change and a copy of the output.

use crate::stream;
use crate::timing::{medians, summary};
use station::slices::{build, coons_to_tensor, coons_to_tensor_raw, raw_read};
use station::{Kind, Layout, MeshKind};
use std::array;
use std::cell::RefCell;
use std::fmt::Debug;
use std::hint::black_box;
use std::ops::{Add, Mul, Sub};

const COMPONENTS: [usize; 4] = [1, 3, 4, 32];

/// Sizes of lists in numbers: a short one, and the longest that is taken.
const LISTS: [usize; 2] = [1_000, 1 << 20];

const MOST_COMPONENTS: usize = 32;
const MOST_NUMBERS: usize = 1 << 20;

/// The points and colours that flags 1 to 3 take over.
const SIDES: [([usize; 4], [usize; 2]); 3] = [
    ([3, 4, 5, 6], [1, 2]),
    ([6, 7, 8, 9], [2, 3]),
    ([9, 10, 11, 0], [3, 0]),
];

/// Nine times an inner coordinate, from the eight that count for it (8.7.4.5.8).
fn nine_fold<T>([a, b, c, d, e, f, g, h]: [T; 8]) -> T
where
    T: From<i8> + Add<Output = T> + Sub<Output = T> + Mul<Output = T>,
{
    T::from(-4) * a + T::from(6) * (b + c) - T::from(2) * (d + e) + T::from(3) * (f + g) - h
}

/// Nine times one coordinate of p11, p12, p22 and p21, from that of the border in stream order.
fn inner<T>(border: [T; 12]) -> [T; 4]
where
    T: Copy + From<i8> + Add<Output = T> + Sub<Output = T> + Mul<Output = T>,
{
    let [p00, p01, p02, p03, p13, p23, p33, p32, p31, p30, p20, p10] = border;
    [
        nine_fold([p00, p01, p10, p03, p30, p31, p13, p33]),
        nine_fold([p03, p02, p13, p00, p33, p32, p10, p30]),
        nine_fold([p33, p32, p23, p30, p03, p02, p20, p00]),
        nine_fold([p30, p31, p20, p33, p00, p01, p23, p03]),
    ]
}

/// How many patches a raw list has, if it is whole and keeps the rule for flags.
fn count(numbers: &[u32], n: usize) -> Option<usize> {
    let mut place = 0;
    let mut patches = 0;
    while place < numbers.len() {
        place += match numbers[place] {
            0 => 25 + 4 * n,
            1..=3 if patches > 0 => 17 + 2 * n,
            _ => return None,
        };
        patches += 1;
    }
    (place == numbers.len()).then_some(patches)
}

/// The plain version for raw numbers: the points of the patch before are kept, and where its colours stand.
fn plain_raw(numbers: &[u32], n: usize, out: &mut [i64]) -> Option<usize> {
    if n > MOST_COMPONENTS || numbers.len() > MOST_NUMBERS {
        return None;
    }
    let patches = count(numbers, n)?;
    let out = out.get_mut(..patches * (32 + 4 * n))?;
    let mut points = [0; 24];
    let mut colours: [&[u32]; 4] = [&[]; 4];
    let mut rest = numbers;
    for patch in out.chunks_exact_mut(32 + 4 * n) {
        let (&flag, after) = rest.split_first()?;
        if flag == 0 {
            let (own, after) = after.split_first_chunk::<24>()?;
            points = *own;
            for (i, colour) in colours.iter_mut().enumerate() {
                *colour = &after[i * n..(i + 1) * n];
            }
            rest = &after[4 * n..];
        } else {
            let (own, after) = after.split_first_chunk::<16>()?;
            let (side, corners) = SIDES[flag as usize - 1];
            let taken = side.map(|from| [points[2 * from], points[2 * from + 1]]);
            points[..8].copy_from_slice(taken.as_flattened());
            points[8..].copy_from_slice(own);
            let [first, second] = corners.map(|from| colours[from]);
            colours = [first, second, &after[..n], &after[n..2 * n]];
            rest = &after[2 * n..];
        }
        write_raw(&points, colours, n, patch)?;
    }
    Some(patches)
}

/// Writes a patch: its border times nine, its inner points, its colours.
fn write_raw(points: &[u32; 24], colours: [&[u32]; 4], n: usize, patch: &mut [i64]) -> Option<()> {
    let (turned, corners) = patch.split_first_chunk_mut::<32>()?;
    for (to, &from) in turned.iter_mut().zip(points) {
        *to = 9 * i64::from(from);
    }
    let x = inner(array::from_fn(|k| i64::from(points[2 * k])));
    let y = inner(array::from_fn(|k| i64::from(points[2 * k + 1])));
    for i in 0..4 {
        turned[24 + 2 * i] = x[i];
        turned[25 + 2 * i] = y[i];
    }
    for (i, colour) in colours.iter().enumerate() {
        for (to, &from) in corners[i * n..].iter_mut().zip(*colour) {
            *to = from.into();
        }
    }
    Some(())
}

/// The plain version for rows.
fn plain_rows(values: &[f64], n: usize, out: &mut [f64]) -> Option<usize> {
    if n > MOST_COMPONENTS || values.len() > MOST_NUMBERS {
        return None;
    }
    let rows = values.chunks_exact(24 + 4 * (8 + n));
    if !rows.remainder().is_empty() {
        return None;
    }
    let patches = rows.len();
    let out = out.get_mut(..patches * (32 + 4 * (8 + n)))?;
    for (row, patch) in rows.zip(out.chunks_exact_mut(32 + 4 * (8 + n))) {
        let (border, colours) = row.split_first_chunk::<24>()?;
        let (turned, corners) = patch.split_first_chunk_mut::<32>()?;
        turned[..24].copy_from_slice(border);
        let x = inner(array::from_fn(|k| border[2 * k]));
        let y = inner(array::from_fn(|k| border[2 * k + 1]));
        for i in 0..4 {
            turned[24 + 2 * i] = x[i] / 9.0;
            turned[25 + 2 * i] = y[i] / 9.0;
        }
        corners.copy_from_slice(colours);
    }
    Some(patches)
}

/// A raw list of whole turns of the four flags, of at most so many numbers.
fn raw_list(n: usize, size: usize) -> Vec<u32> {
    let l = Layout {
        coordinate: 32,
        component: 16,
        flag: 8,
        components: n,
    };
    // a number takes one to four bytes
    let data = stream::bytes(Kind::Type6, l, 4 * size);
    let mut list = vec![0u32; 4 * size];
    let count = raw_read(Kind::Type6, &data, l, &mut list).expect("readable");
    let turn: usize = (0..4)
        .map(|i| stream::record(Kind::Type6, l, i).1.len())
        .sum();
    list.truncate(count.min(size) / turn * turn);
    list
}

/// Whole rows, of at most so many numbers.
fn row_list(n: usize, size: usize) -> Vec<f64> {
    let row = 24 + 4 * (8 + n);
    let values = stream::numbers(Kind::Type6, n, size);
    // a record has 17 + 2 n numbers or more
    let mut rows = vec![0.0; values.len() / (17 + 2 * n) * row];
    let count = build(MeshKind::Type6, &values, n, &mut rows).expect("readable");
    rows.truncate(count.min(size / row) * row);
    rows
}

/// What a call takes, as shares of the plain version's time and of a copy's, and the millions of numbers that it writes in a second.
struct Share {
    plain: f64,
    copy: f64,
    rate: f64,
}

/// Times ours, the plain version and a copy of what they write. All three write into one output, so that where it lies in memory is the same for all.
fn measure<T: Copy + PartialEq + Debug>(
    size: usize,
    blank: T,
    ours: &dyn Fn(&mut [T]) -> usize,
    plain: &dyn Fn(&mut [T]) -> usize,
) -> Share {
    let mut out = vec![blank; size];
    let patches = plain(&mut out);
    let copied = out.clone();
    out.fill(blank);
    assert_eq!(ours(&mut out), patches);
    assert_eq!(out, copied);
    let out = RefCell::new(out);
    // short inputs are run again and again, so that the clock's own steps don't count
    let turns = 200_000 / size.max(1) + 1;
    let again = |call: &dyn Fn(&mut [T])| {
        let mut out = out.borrow_mut();
        for _ in 0..turns {
            call(black_box(&mut out));
        }
    };
    let [own, plain, limit] = medians([
        &mut || {
            again(&|out| {
                black_box(ours(out));
            })
        },
        &mut || {
            again(&|out| {
                black_box(plain(out));
            })
        },
        &mut || again(&|out| out.copy_from_slice(black_box(&copied))),
    ]);
    Share {
        plain: own / plain,
        copy: own / limit,
        rate: (turns * size) as f64 / own / 1e6,
    }
}

fn measure_raw(n: usize, size: usize) -> Share {
    let list = raw_list(n, size);
    let places = count(&list, n).expect("whole records") * (32 + 4 * n);
    measure(
        places,
        0i64,
        &|out| coons_to_tensor_raw(black_box(&list), n, out).expect("accepted"),
        &|out| plain_raw(black_box(&list), n, out).expect("accepted"),
    )
}

fn measure_rows(n: usize, size: usize) -> Share {
    let rows = row_list(n, size);
    let places = rows.len() / (24 + 4 * (8 + n)) * (32 + 4 * (8 + n));
    measure(
        places,
        0.0f64,
        &|out| coons_to_tensor(black_box(&rows), n, out).expect("accepted"),
        &|out| plain_rows(black_box(&rows), n, out).expect("accepted"),
    )
}

/// Measures and prints a line for each count of components: two sizes of the same input.
fn print_function(name: &str, measure: fn(usize, usize) -> Share) {
    println!("{name}: components; lists of 1,000 and 1,048,576 numbers");
    let mut shares = Vec::new();
    for n in COMPONENTS {
        let [small, large] = LISTS.map(|size| measure(n, size));
        println!(
            "  {n:>5}   {:>6.2} {:>6.2}   {:>6.2} {:>6.2}   {:>6.0} {:>6.0}",
            small.plain, large.plain, small.copy, large.copy, small.rate, large.rate
        );
        shares.extend([small, large]);
    }
    let of = |share: fn(&Share) -> f64| summary(&shares.iter().map(share).collect::<Vec<_>>());
    let (plain, worst) = of(|share| share.plain);
    let (copy, worst_copy) = of(|share| share.copy);
    println!("  geometric mean: of the plain version {plain:.2}, worst {worst:.2}; of a copy {copy:.2}, worst {worst_copy:.2}");
}

pub fn print() {
    println!("Coons to tensor: time / a plain version's, then / the time of a copy of the output; millions of numbers written a second");
    print_function("coons_to_tensor_raw", measure_raw);
    print_function("coons_to_tensor", measure_rows);
}
