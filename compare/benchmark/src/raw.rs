//! The raw readers and writers beside the original's bit reader, which reads the same widths in a loop.

use crate::stream;
use crate::timing::{medians, summary};
use original::mesh_shading::BitReader;
use station::slices::{raw_read, raw_write};
use station::{Kind, Layout};
use std::hint::black_box;

/// The writer takes no longer list: document 01, LENGTH.
const MOST_NUMBERS: usize = 1_048_576;

/// The original's bit reader over the same records, its numbers stored.
fn original(data: &[u8], records: &[Vec<usize>], out: &mut [u32]) -> usize {
    let mut reader = BitReader::new(data);
    let mut count = 0;
    let mut i = 0;
    while !reader.exhausted() {
        for &w in &records[i % records.len()] {
            let Some(value) = reader.read(w) else {
                return count;
            };
            let Some(place) = out.get_mut(count) else {
                return count;
            };
            *place = value;
            count += 1;
        }
        i += 1;
    }
    count
}

pub fn print() {
    println!("raw readers and writers: time per number / that of the original's bit reader reading the same widths");
    println!("type  widths     comps     bytes    read   write   millions of numbers a second: read, write, original");
    let mut reads = Vec::new();
    let mut writes = Vec::new();
    for kind in [Kind::Type4, Kind::Type5, Kind::Type6, Kind::Type7] {
        for (coordinate, component, flag) in [(8, 8, 8), (16, 16, 8), (32, 16, 8), (11, 7, 3)] {
            for components in [1, 4] {
                for size in [1 << 20, 16 << 20] {
                    let l = Layout {
                        coordinate,
                        component,
                        flag,
                        components,
                    };
                    let data = stream::bytes(kind, l, size);
                    let records: Vec<_> = (0..16).map(|i| stream::record(kind, l, i).1).collect();
                    let mut numbers = vec![0u32; 8 * size];
                    let count = raw_read(kind, &data, l, &mut numbers).expect("readable");
                    numbers.truncate(count);
                    let mut theirs = numbers.clone();
                    // the longest list of whole turns of the sixteen records that the writer takes
                    let turn: usize = records.iter().map(Vec::len).sum();
                    let whole = MOST_NUMBERS.min(count) / turn * turn;
                    let list = numbers[..whole].to_vec();
                    let mut packed = vec![0u8; data.len()];
                    let [read, write, bits] = medians([
                        &mut || {
                            black_box(raw_read(kind, black_box(&data), l, &mut numbers))
                                .expect("readable");
                        },
                        &mut || {
                            black_box(raw_write(kind, black_box(&list), l, &mut packed))
                                .expect("accepted");
                        },
                        &mut || {
                            black_box(original(black_box(&data), &records, &mut theirs));
                        },
                    ]);
                    assert_eq!(numbers, theirs);
                    let rate = |n: usize, t: f64| n as f64 / t / 1e6;
                    let (r, w, o) = (rate(count, read), rate(whole, write), rate(count, bits));
                    println!(
                        "{:>4}  {:<9}  {components:>5}  {size:>8}  {:>6.2}  {:>6.2}   {r:>6.0} {w:>6.0} {o:>6.0}",
                        &format!("{kind:?}")[4..],
                        format!("{coordinate}/{component}/{flag}"),
                        o / r,
                        o / w,
                    );
                    reads.push(o / r);
                    writes.push(o / w);
                }
            }
        }
    }
    let (read, worst_read) = summary(&reads);
    let (write, worst_write) = summary(&writes);
    println!("geometric mean: read {read:.2}, write {write:.2}; worst: read {worst_read:.2}, write {worst_write:.2}");
}
