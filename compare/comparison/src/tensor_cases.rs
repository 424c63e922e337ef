//! Directed and exhaustive cases of Coons patches to be turned: flags in every order, every cut, every count of components, the ends of a raw number
//! and every odd float at every place, and the limits of the list.

use crate::case::{Room, MOST_COMPONENTS, MOST_NUMBERS};
use crate::directed::ROOMS;
use crate::draw;
use crate::exhaustive::sequences;
use crate::job::Job;
use crate::record::{records, scattered, size};
use crate::report::Bench;
use crate::tensor::{Task, TensorCase};
use station::Kind;

/// Flags, and numbers that would pass for one if cut to fewer bits.
const FLAGS: [u32; 11] = [0, 1, 2, 3, 4, 5, 7, 256, 65536 + 1, (1 << 31) + 2, u32::MAX];

/// Counts of components over 32.
const TOO_MANY: [usize; 6] = [
    33,
    64,
    256 + 1,
    (1 << 32) + 1,
    usize::MAX / 4 + 1,
    usize::MAX,
];

/// The ends of what a raw number can be, and what is beside them.
const ENDS: [u32; 8] = [
    0,
    1,
    0x7fff_ffff,
    0x8000_0000,
    0x8000_0001,
    0xffff_0000,
    u32::MAX - 1,
    u32::MAX,
];

pub fn jobs() -> Vec<Job> {
    let mut jobs: Vec<Job> = vec![
        Box::new(component_counts),
        Box::new(raw_ends),
        Box::new(raw_corners),
        Box::new(odd_pairs),
        Box::new(longest_raw),
        Box::new(longest_rows),
    ];
    for components in [0, 1, 3] {
        jobs.push(Box::new(move |bench| flags(components, bench)));
        jobs.push(Box::new(move |bench| cuts(components, bench)));
        jobs.push(Box::new(move |bench| odd_places(components, bench)));
    }
    jobs
}

fn raw(components: usize, list: Vec<u32>, room: Room) -> TensorCase {
    TensorCase {
        components,
        task: Task::Raw(list),
        room,
    }
}

fn rows(components: usize, values: Vec<f64>, room: Room) -> TensorCase {
    TensorCase {
        components,
        task: Task::Rows(values),
        room,
    }
}

/// Records with these flags, and numbers that differ by their place.
fn list(components: usize, flags: &[u32]) -> Vec<u32> {
    records(Kind::Type6, components, flags, scattered)
}

/// So many numbers that differ by their place, some of them NaNs with a payload.
fn marked(count: usize) -> Vec<f64> {
    (0..count)
        .map(|place| match place % 11 {
            3 => f64::from_bits(0x7ff0_0000_0000_0100 + place as u64),
            _ => (place * place) as f64 / 64.0 - 100.0,
        })
        .collect()
}

/// How many numbers a row has.
fn row(components: usize) -> usize {
    24 + 4 * (8 + components)
}

/// Up to three records with all flags in every order, and four with those of a mesh.
fn flags(components: usize, bench: &mut Bench<'_>) {
    sequences(&FLAGS, 3, |flags| {
        bench.tensor(&raw(components, list(components, flags), Room::EXACT));
    });
    sequences(&[0, 1, 2, 3], 4, |flags| {
        let flags = [&[0], flags].concat();
        bench.tensor(&raw(components, list(components, &flags), Room::Beyond(1)));
    });
}

/// Some patches cut at every number, raw and as rows, with each room.
fn cuts(components: usize, bench: &mut Bench<'_>) {
    let whole = list(components, &[0, 1, 2, 3, 0, 3]);
    for end in 0..=whole.len() {
        for room in ROOMS {
            bench.tensor(&raw(components, whole[..end].to_vec(), room));
        }
    }
    let values = marked(3 * row(components));
    for end in 0..=values.len() {
        for room in ROOMS {
            bench.tensor(&rows(components, values[..end].to_vec(), room));
        }
    }
}

/// 0 to 33 components and more, with each room.
fn component_counts(bench: &mut Bench<'_>) {
    for components in (0..=MOST_COMPONENTS).chain(TOO_MANY) {
        let there = components.min(33);
        for room in ROOMS {
            bench.tensor(&raw(components, list(there, &[0, 2, 1, 3, 0]), room));
            bench.tensor(&raw(components, Vec::new(), room));
            bench.tensor(&rows(components, marked(2 * row(there)), room));
            bench.tensor(&rows(components, Vec::new(), room));
        }
    }
}

/// Each end of a raw number at each place of two patches, flags included.
fn raw_ends(bench: &mut Bench<'_>) {
    for components in [0, 2] {
        let plain = list(components, &[0, 2]);
        for place in 0..plain.len() {
            for end in ENDS {
                let mut list = plain.clone();
                list[place] = end;
                bench.tensor(&raw(components, list, Room::EXACT));
            }
        }
    }
}

/// Every choice of the least and the largest number for the x of the twelve points, and of the other for y.
fn raw_corners(bench: &mut Bench<'_>) {
    for choice in 0u32..1 << 12 {
        let mut list = vec![0];
        for point in 0..12 {
            let x = 0u32.wrapping_sub(choice >> point & 1);
            list.extend([x, !x]);
        }
        bench.tensor(&raw(0, list, Room::EXACT));
    }
}

/// Every odd number at each place of a patch and of one after it.
fn odd_places(components: usize, bench: &mut Bench<'_>) {
    let plain: Vec<f64> = (0..2 * row(components)).map(|i| i as f64 / 3.0).collect();
    for place in 0..plain.len() {
        for bits in draw::ODD {
            let mut values = plain.clone();
            values[place] = f64::from_bits(bits);
            bench.tensor(&rows(components, values, Room::EXACT));
        }
    }
}

/// Each pair of odd numbers as x of two of the twelve points.
fn odd_pairs(bench: &mut Bench<'_>) {
    let odd = draw::ODD.map(f64::from_bits);
    for first in 0..12 {
        for second in first..12 {
            for a in odd {
                for b in odd {
                    let mut values = vec![0.25; row(0)];
                    values[2 * first] = a;
                    values[2 * second] = b;
                    bench.tensor(&rows(0, values, Room::EXACT));
                }
            }
        }
    }
}

/// Flags of whole records that take just so many numbers, with as few first patches as can be.
fn filling(components: usize, numbers: usize) -> Vec<u32> {
    let (first, joined) = (
        size(Kind::Type6, components, 0),
        size(Kind::Type6, components, 1),
    );
    let firsts = (1..=joined)
        .find(|count| (numbers - count * first).is_multiple_of(joined))
        .expect("sizes without a common divisor");
    let rest = (numbers - firsts * first) / joined;
    let mut flags = vec![0; firsts];
    flags.extend((0..rest).map(|i| 1 + i as u32 % 3));
    flags
}

/// Lists of just the allowed length, whole and not, and one number longer, alone and with other reasons to refuse.
fn longest_raw(bench: &mut Bench<'_>) {
    for components in [0, 3] {
        let whole = list(components, &filling(components, MOST_NUMBERS));
        assert_eq!(whole.len(), MOST_NUMBERS);
        bench.tensor(&raw(components, whole.clone(), Room::EXACT));
        let one_more = list(components, &filling(components, MOST_NUMBERS + 1));
        let broken = [&whole[..], &[0]].concat();
        let cut = one_more[..MOST_NUMBERS].to_vec();
        for (components, list) in [
            (components, one_more.clone()),
            (components, broken),
            (components, cut),
            (33, one_more),
        ] {
            bench.tensor(&raw(components, list, Room::EXACT));
        }
    }
}

/// The same for rows: those of 64 numbers fill the allowed length, and those of 56 don't.
fn longest_rows(bench: &mut Bench<'_>) {
    for (components, length) in [
        (2, MOST_NUMBERS),
        (2, MOST_NUMBERS + 1),
        (2, MOST_NUMBERS + row(2)),
        (0, MOST_NUMBERS),
        (0, MOST_NUMBERS / row(0) * row(0)),
        (0, (MOST_NUMBERS / row(0) + 1) * row(0)),
        (33, MOST_NUMBERS + 1),
    ] {
        bench.tensor(&rows(components, marked(length), Room::EXACT));
    }
}
