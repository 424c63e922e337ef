//! Short inputs, all of them: streams of up to two bytes, lists of up to five numbers, flags in every order, lattices of every shape.

use crate::case::{Case, Input, Room};
use crate::job::Job;
use crate::raw::{RawCase, Task};
use crate::record::{packed, record_bits, records, size};
use crate::report::{Bench, KINDS};
use generator::Generator;
use station::{Kind, Layout, MeshKind};

/// Narrow layouts, so that several records fit into few bytes: coordinate, component, flag, components.
const NARROW: [(usize, usize, usize, usize); 9] = [
    (1, 1, 1, 0),
    (1, 1, 2, 0),
    (1, 1, 3, 0),
    (2, 1, 3, 0),
    (4, 1, 2, 0),
    (1, 1, 1, 1),
    (1, 1, 2, 1),
    (1, 2, 3, 1),
    (2, 4, 1, 1),
];

/// What the short lists are made of.
const ALPHABET: [f64; 9] = [f64::NAN, -1.0, 0.0, 1.0, 1.9, 2.0, 3.0, 4.0, f64::INFINITY];

/// Row lengths that are longer than any lattice here.
const LONG_ROWS: [usize; 4] = [257, 1 << 32, usize::MAX / 2 + 1, usize::MAX];

pub fn jobs() -> Vec<Job> {
    let mut jobs: Vec<Job> = Vec::new();
    for kind in KINDS {
        for (coordinate, component, flag, components) in NARROW {
            let layout = Layout {
                coordinate,
                component,
                flag,
                components,
            };
            jobs.push(Box::new(move |bench| streams(kind, layout, bench)));
        }
        for components in [0, 1] {
            jobs.push(Box::new(move |bench| lists(kind, components, bench)));
        }
        if kind != Kind::Type5 {
            for components in [0, 1, 4] {
                jobs.push(Box::new(move |b| listed_flags(kind, components, b)));
                jobs.push(Box::new(move |b| packed_flags(kind, components, b)));
            }
        }
    }
    for components in [0, 1, 3, 4, 5, 32] {
        jobs.push(Box::new(move |bench| lattices(components, bench)));
    }
    jobs.push(Box::new(lattice_values));
    jobs
}

/// The type with a row length, which Types 4, 6 and 7 don't have.
fn with_row(kind: Kind, row_length: usize) -> MeshKind {
    match kind {
        Kind::Type4 => MeshKind::Type4,
        Kind::Type5 => MeshKind::Type5 { row_length },
        Kind::Type6 => MeshKind::Type6,
        Kind::Type7 => MeshKind::Type7,
    }
}

/// One input in eight is lent a place more than it needs: its numbers decide which.
fn room(numbers: impl Iterator<Item = u64>) -> Room {
    let mixed = numbers.fold(0, |mixed: u64, x| mixed.wrapping_mul(0x9e37_79b9) ^ x);
    if Generator::new(mixed).once_in(8) {
        Room::Beyond(1)
    } else {
        Room::EXACT
    }
}

fn room_of_bytes(data: &[u8]) -> Room {
    room(data.iter().map(|&byte| byte.into()))
}

fn of_bytes(kind: MeshKind, layout: Layout, data: Vec<u8>) -> Case {
    let mut decode = vec![-1.0, 1.0, 0.1, 100.0];
    decode.extend([0.25, 0.75].repeat(layout.components));
    Case {
        kind,
        layout,
        decode,
        room: room_of_bytes(&data),
        input: Input::Bytes(data),
    }
}

fn of_list(kind: MeshKind, components: usize, values: Vec<f64>) -> Case {
    Case {
        kind,
        layout: Layout {
            coordinate: 0,
            component: 0,
            flag: 0,
            components,
        },
        decode: Vec::new(),
        room: room(values.iter().map(|x| x.to_bits())),
        input: Input::List(values),
    }
}

/// All streams of up to two bytes; for patches, which take more, also every two bytes where the second patch begins.
fn streams(kind: Kind, layout: Layout, bench: &mut Bench<'_>) {
    let rows: &[usize] = if kind == Kind::Type5 { &[2, 3] } else { &[0] };
    let mut run = |data: Vec<u8>| {
        for &row in rows {
            bench.mesh(&of_bytes(with_row(kind, row), layout, data.clone()));
        }
        bench.raw(&RawCase {
            kind,
            layout,
            room: room_of_bytes(&data),
            task: Task::Read(data),
        });
    };
    run(Vec::new());
    for byte in 0..=u8::MAX {
        run(vec![byte]);
    }
    let bits = record_bits(kind, layout, 0);
    for two in 0..=u16::MAX {
        run(two.to_be_bytes().to_vec());
        if matches!(kind, Kind::Type6 | Kind::Type7) {
            let mut data = [0x05, 0xc6, 0x5a, 0x93].repeat(bits / 8);
            data.truncate(bits / 8);
            data.extend(two.to_be_bytes());
            data.extend([0x6d, 0xb1, 0x0e, 0x72].repeat(bits / 16));
            run(data);
        }
    }
}

/// Calls with every sequence of at most so many of the things.
pub fn sequences<T: Copy>(of: &[T], longest: usize, mut call: impl FnMut(&[T])) {
    for length in 0..=longest as u32 {
        for mut number in 0..of.len().pow(length) {
            let sequence: Vec<T> = (0..length)
                .map(|_| {
                    let thing = of[number % of.len()];
                    number /= of.len();
                    thing
                })
                .collect();
            call(&sequence);
        }
    }
}

/// All lists of up to five numbers of the alphabet.
fn lists(kind: Kind, components: usize, bench: &mut Bench<'_>) {
    sequences(&ALPHABET, 5, |values| {
        bench.mesh(&of_list(with_row(kind, 2), components, values.to_vec()));
    });
}

/// Numbers that differ by their place, some of them NaNs with a payload.
fn marked(place: usize) -> f64 {
    if place % 7 == 3 {
        f64::from_bits(0x7ff0_0000_0000_0100 + place as u64)
    } else {
        place as f64 / 64.0 - 0.25
    }
}

/// Records of a list with all flags of the alphabet in every order; the shorter ones are also cut at every number.
fn listed_flags(kind: Kind, components: usize, bench: &mut Bench<'_>) {
    let longest = if kind == Kind::Type4 { 5 } else { 3 };
    sequences(&ALPHABET, longest, |flags| {
        let mut values = Vec::new();
        for &flag in flags {
            let after = values.len() + size(kind, components, flag as u32);
            values.push(flag);
            values.extend((values.len()..after).map(marked));
        }
        if flags.len() <= 2 {
            for cut in 0..values.len() {
                let kept = values[..cut].to_vec();
                bench.mesh(&of_list(with_row(kind, 0), components, kept));
            }
        }
        bench.mesh(&of_list(with_row(kind, 0), components, values));
    });
}

/// The same from bytes, with flags of 0 to 5; all but the longest are also cut at every byte.
fn packed_flags(kind: Kind, components: usize, bench: &mut Bench<'_>) {
    let layout = Layout {
        coordinate: 5,
        component: 3,
        flag: 3,
        components,
    };
    let longest = if kind == Kind::Type4 { 6 } else { 4 };
    sequences(&[0, 1, 2, 3, 4, 5], longest, |flags: &[u32]| {
        let numbers = records(kind, components, flags, |place| (5 * place % 8) as u32);
        let data = packed(kind, layout, &numbers);
        if flags.len() < longest {
            for cut in 0..data.len() {
                let kept = data[..cut].to_vec();
                bench.mesh(&of_bytes(with_row(kind, 0), layout, kept));
            }
        }
        bench.mesh(&of_bytes(with_row(kind, 0), layout, data));
        bench.raw(&RawCase {
            kind,
            layout,
            task: Task::Write(numbers),
            room: Room::EXACT,
        });
    });
}

/// Lattices of up to 26 vertices in rows of every length, with and without numbers left over.
fn lattices(components: usize, bench: &mut Bench<'_>) {
    let layout = Layout {
        coordinate: 6,
        component: 11,
        flag: 0,
        components,
    };
    for vertices in 0..=26 {
        for row_length in (0..=28).chain(LONG_ROWS) {
            let kind = MeshKind::Type5 { row_length };
            for left_over in [0, 1, 1 + components] {
                let count = vertices * (2 + components) + left_over;
                let values = (0..count).map(marked).collect();
                bench.mesh(&of_list(kind, components, values));
            }
            let numbers: Vec<u32> = (0..vertices * (2 + components))
                .map(|i| (13 * i % 64) as u32)
                .collect();
            let data = packed(Kind::Type5, layout, &numbers);
            bench.mesh(&of_bytes(kind, layout, data));
        }
    }
}

/// A cell of a lattice with every choice of four values for its eight numbers.
fn lattice_values(bench: &mut Bench<'_>) {
    let nan = f64::from_bits(0xfff0_0000_0000_0001);
    let kind = MeshKind::Type5 { row_length: 2 };
    sequences(&[nan, -0.0, 1.0, f64::NEG_INFINITY], 8, |values| {
        bench.mesh(&of_list(kind, 0, values.to_vec()));
    });
}
