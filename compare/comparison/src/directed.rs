//! Directed cases: every width, every count of components, every Decode entry, every odd number at every place, flags above 3 of every width,
//! the limits of the input, and each reason for a writer to refuse.

use crate::case::{Case, Input, Origin, Room, MOST_BYTES, MOST_NUMBERS};
use crate::draw;
use crate::job::Job;
use crate::raw::{RawCase, Task};
use crate::record::{is_flagged, is_patched, packed, records, scattered, size};
use crate::report::{Bench, KINDS};
use generator::Generator;
use station::{Kind, Layout, MeshKind};

/// Less and more room than every case is asked with.
pub const ROOMS: [Room; 3] = [Room::Short(2), Room::Beyond(1), Room::Beyond(23)];

pub fn jobs() -> Vec<Job> {
    let mut jobs: Vec<Job> = Vec::new();
    for kind in KINDS {
        jobs.push(Box::new(move |bench| longest_inputs(kind, bench)));
        for coordinate in 0..=33 {
            jobs.push(Box::new(move |bench| widths(kind, coordinate, bench)));
        }
        for flag in 3..=32 {
            if is_flagged(kind) {
                jobs.push(Box::new(move |bench| marked_flags(kind, flag, bench)));
            }
        }
        jobs.push(Box::new(move |bench| component_counts(kind, bench)));
        jobs.push(Box::new(move |bench| decode_entries(kind, bench)));
        jobs.push(Box::new(move |bench| list_places(kind, bench)));
        jobs.push(Box::new(move |bench| writers(kind, bench)));
    }
    jobs.push(Box::new(colours));
    jobs
}

/// The type; a lattice has rows of two.
fn mesh_kind(kind: Kind) -> MeshKind {
    match kind {
        Kind::Type4 => MeshKind::Type4,
        Kind::Type5 => MeshKind::Type5 { row_length: 2 },
        Kind::Type6 => MeshKind::Type6,
        Kind::Type7 => MeshKind::Type7,
    }
}

/// A layout of whole bytes.
fn wide(components: usize) -> Layout {
    Layout {
        coordinate: 8,
        component: 8,
        flag: 8,
        components,
    }
}

/// Three patches or four triangles, the last of them joined; the numbers are those of the places.
fn list(kind: Kind, components: usize) -> Vec<u32> {
    let flags: &[u32] = match kind {
        Kind::Type4 | Kind::Type5 => &[0, 0, 0, 1, 2, 2],
        Kind::Type6 | Kind::Type7 => &[0, 2, 3],
    };
    records(kind, components, flags, |place| place as u32 & 0xff)
}

fn of_bytes(kind: Kind, layout: Layout, decode: Vec<f64>, data: Vec<u8>) -> Case {
    Case {
        kind: mesh_kind(kind),
        layout,
        decode,
        input: Input::Bytes(data),
        room: Room::EXACT,
    }
}

fn of_list(kind: Kind, components: usize, values: Vec<f64>) -> Case {
    Case {
        kind: mesh_kind(kind),
        layout: wide(components),
        decode: Vec::new(),
        input: Input::List(values),
        room: Room::EXACT,
    }
}

/// Every choice of the other two widths from 0 to 33 with this coordinate width. The count of components goes through 0 to 33 meanwhile.
fn widths(kind: Kind, coordinate: usize, bench: &mut Bench<'_>) {
    let mut random = Generator::new(coordinate as u64);
    let mut components = coordinate;
    for component in 0..=33 {
        for flag in 0..=33 {
            components = (components + 1) % 34;
            let layout = Layout {
                coordinate,
                component,
                flag,
                components,
            };
            let mut case = draw::case(kind, Origin::Bytes, &mut random);
            case.layout = layout;
            case.decode = draw::decode(layout, &mut random);
            case.input = Input::Bytes(draw::bytes(kind, layout, &mut random));
            bench.mesh(&case);
        }
    }
}

/// The low bits of the marked flags: eight triangles or patches. The two vertices after a Type 4 flag 0 have other flags, and a 3 drops its vertex.
fn low_flags(kind: Kind) -> &'static [u32] {
    match kind {
        Kind::Type4 => &[0, 3, 1, 1, 2, 2, 3, 1, 0, 2, 0, 2, 1],
        _ => &[0, 1, 2, 3, 0, 3, 2, 1],
    }
}

/// Streams whose flags have marks above their two low bits, by turns all ones, the lowest, the highest and every other bit; one flag in five has none.
fn marked_streams(kind: Kind, layout: Layout) -> impl Iterator<Item = Vec<u8>> {
    let marks = [u32::MAX, 1 << 2, 1 << (layout.flag - 1), 0x5555_5555, 0];
    (0..marks.len()).map(move |start| {
        let marked = |(i, &low): (usize, &u32)| marks[(start + i) % marks.len()] & !3 | low;
        let flags: Vec<u32> = low_flags(kind).iter().enumerate().map(marked).collect();
        let numbers = records(kind, layout.components, &flags, scattered);
        packed(kind, layout, &numbers)
    })
}

/// Flags of one width with marks, for whole bytes and between them; those of the first layout are also cut at every byte.
fn marked_flags(kind: Kind, flag: usize, bench: &mut Bench<'_>) {
    for (coordinate, component, components) in [(5, 3, 0), (8, 8, 1), (11, 7, 3), (32, 16, 4)] {
        let layout = Layout {
            coordinate,
            component,
            flag,
            components,
        };
        let decode = vec![-1.0, 1.0, 0.1, 100.0, 0.25, 0.75];
        for data in marked_streams(kind, layout) {
            let cuts = if components == 0 { data.len() } else { 0 };
            for cut in 0..cuts {
                let kept = data[..cut].to_vec();
                bench.mesh(&of_bytes(kind, layout, decode.clone(), kept));
            }
            bench.mesh(&of_bytes(kind, layout, decode.clone(), data.clone()));
            bench.raw(&RawCase {
                kind,
                layout,
                task: Task::Read(data),
                room: Room::EXACT,
            });
        }
    }
}

/// 0 to 33 components, with each room.
fn component_counts(kind: Kind, bench: &mut Bench<'_>) {
    for components in 0..=33 {
        let numbers = list(kind, components);
        let data: Vec<u8> = numbers.iter().map(|&x| x as u8).collect();
        let values: Vec<f64> = numbers.iter().map(|&x| f64::from(x) / 2.0).collect();
        let decode = vec![0.0, 1.0, 0.0, 2.0, -0.5, 1.5];
        for room in ROOMS {
            for case in [
                of_bytes(kind, wide(components), decode.clone(), data.clone()),
                of_list(kind, components, values.clone()),
            ] {
                bench.mesh(&Case { room, ..case });
            }
            bench.raw(&RawCase {
                kind,
                layout: wide(components),
                task: Task::Read(data.clone()),
                room,
            });
            bench.raw(&RawCase {
                kind,
                layout: wide(components),
                task: Task::Write(numbers.clone()),
                room,
            });
        }
    }
}

/// Every count of entries, and every odd number as each entry.
fn decode_entries(kind: Kind, bench: &mut Bench<'_>) {
    for components in 0..=5 {
        let data: Vec<u8> = list(kind, components).iter().map(|&x| x as u8).collect();
        let all = 4 + 2 * components;
        for entries in 0..=all + 3 {
            let plain: Vec<f64> = (0..entries).map(|i| i as f64 - 0.75).collect();
            for place in 0..entries {
                for bits in draw::ODD {
                    let mut decode = plain.clone();
                    decode[place] = f64::from_bits(bits);
                    bench.mesh(&of_bytes(kind, wide(components), decode, data.clone()));
                }
            }
            bench.mesh(&of_bytes(kind, wide(components), plain, data.clone()));
        }
    }
}

/// Every odd number, with some fractions, at each place of a list: as a flag, a coordinate and a component.
fn list_places(kind: Kind, bench: &mut Bench<'_>) {
    let fractions = [-0.5, 0.5, 0.999, 1.5, 2.5, 3.999, 4.000_001];
    let odd = draw::ODD.map(f64::from_bits);
    for components in 0..=5 {
        let plain: Vec<f64> = list(kind, components)
            .iter()
            .map(|&x| f64::from(x))
            .collect();
        for place in 0..plain.len() {
            for &value in odd.iter().chain(&fractions) {
                let mut values = plain.clone();
                values[place] = value;
                bench.mesh(&of_list(kind, components, values));
            }
        }
    }
}

/// A triangle with each pair of odd numbers as two of its components, for every way to make a colour.
fn colours(bench: &mut Bench<'_>) {
    let odd = draw::ODD.map(f64::from_bits);
    for components in 1..=6 {
        for first in 0..components {
            for second in first..components {
                for a in odd {
                    for b in odd {
                        let mut vertex = vec![0.5; 3 + components];
                        vertex[0] = 0.0;
                        vertex[3 + first] = a;
                        vertex[3 + second] = b;
                        bench.mesh(&of_list(Kind::Type4, components, vertex.repeat(3)));
                    }
                }
            }
        }
    }
}

/// Inputs of just the allowed length and one longer, alone and with other reasons to refuse. The data give few triangles or patches, or none;
/// but a lattice has no flags, so that all of it is there, whatever it is filled with.
fn longest_inputs(kind: Kind, bench: &mut Bench<'_>) {
    let mut random = Generator::new(MOST_BYTES as u64);
    let layout = Layout {
        coordinate: 32,
        component: 32,
        flag: 32,
        components: 32,
    };
    let (bytes, numbers): (&[u8], &[f64]) = if is_flagged(kind) {
        (&[0, 5], &[0.0, 1.0, 5.0])
    } else {
        (&[5], &[5.0])
    };
    for more in [0, 1] {
        for &byte in bytes {
            longest_bytes(kind, layout, vec![byte; MOST_BYTES + more], bench);
        }
        for &number in numbers {
            let mut case = of_list(kind, 3, vec![number; MOST_NUMBERS + more]);
            bench.mesh(&case);
            case.layout.components = 33;
            bench.mesh(&case);
        }
        let decode = (0..MOST_NUMBERS + more).map(|i| i as f64).collect();
        let data = draw::bytes(kind, wide(4), &mut random);
        bench.mesh(&of_bytes(kind, wide(4), decode, data));
    }
    longest_raw(kind, layout, bench);
}

/// Bytes alone, then with more components than are allowed, then with a wrong width too.
fn longest_bytes(kind: Kind, layout: Layout, data: Vec<u8>, bench: &mut Bench<'_>) {
    let mut case = of_bytes(kind, layout, vec![0.0, 1.0, 0.0, 1.0], data);
    bench.mesh(&case);
    case.room = Room::Beyond(3);
    for components in [33, usize::MAX] {
        case.layout.components = components;
        bench.mesh(&case);
    }
    case.layout.coordinate = 33;
    bench.mesh(&case);
}

/// The same for the raw readers and writers.
fn longest_raw(kind: Kind, layout: Layout, bench: &mut Bench<'_>) {
    for length in [MOST_BYTES, MOST_BYTES + 1] {
        bench.raw(&RawCase {
            kind,
            layout,
            task: Task::Read(vec![0; length]),
            room: Room::EXACT,
        });
    }
    for (length, coordinate, components) in [
        (MOST_NUMBERS, 8, 0),
        (MOST_NUMBERS, 8, 2),
        (MOST_NUMBERS + 1, 8, 0),
        (MOST_NUMBERS + 1, 1, 0),
        (MOST_NUMBERS + 1, 8, 33),
        (MOST_NUMBERS + 1, 33, 0),
    ] {
        bench.raw(&RawCase {
            kind,
            layout: Layout {
                coordinate,
                component: 1,
                flag: 1,
                components,
            },
            task: Task::Write(vec![0; length]),
            room: Room::EXACT,
        });
    }
}

/// A list that is whole, then with each number too large for its width, each flag and each end that breaks a rule, over many widths and
/// thin ones among them; with each room.
fn writers(kind: Kind, bench: &mut Bench<'_>) {
    for components in [0, 1, 3] {
        let plain = list(kind, components);
        for (coordinate, component, flag) in [
            (8, 8, 8),
            (8, 9, 3),
            (13, 8, 4),
            (9, 32, 2),
            (32, 31, 32),
            (17, 16, 24),
        ] {
            let layout = Layout {
                coordinate,
                component,
                flag,
                components,
            };
            let mut run = |list: Vec<u32>, room: Room| {
                bench.raw(&RawCase {
                    kind,
                    layout,
                    task: Task::Write(list),
                    room,
                });
            };
            for room in ROOMS {
                run(plain.clone(), room);
            }
            for end in 0..plain.len() {
                run(plain[..end].to_vec(), Room::EXACT);
            }
            for place in 0..plain.len() {
                for value in [0, 1, 3, 4, 5, 255, 256, 511, 512, u32::MAX >> 1, u32::MAX] {
                    let mut list = plain.clone();
                    list[place] = value;
                    run(list, Room::Short(2));
                }
            }
        }
    }
    thin_writers(kind, bench);
}

/// Layouts whose vertices take 2 to 12 bits, with a list that is right, one that breaks a rule and an empty one.
fn thin_writers(kind: Kind, bench: &mut Bench<'_>) {
    for components in 0..=3 {
        for widths in 0..27 {
            let layout = Layout {
                coordinate: 1 + widths % 3,
                component: 1 + widths / 3 % 3,
                flag: 1 + widths / 9,
                components,
            };
            let right = vec![0; 2 * size(kind, components, 0)];
            let mut wrong = vec![0; size(kind, components, 0)];
            wrong[0] = if is_patched(kind) { 1 } else { 8 };
            for list in [right, wrong, Vec::new()] {
                bench.raw(&RawCase {
                    kind,
                    layout,
                    task: Task::Write(list),
                    room: Room::Beyond(1),
                });
            }
        }
    }
}

#[cfg(test)]
mod tests {
    use super::*;
    use crate::checks::Expected;

    #[test]
    fn marked_flags_make_a_long_mesh_in_the_published_reading_alone() {
        for kind in KINDS.into_iter().filter(|&kind| is_flagged(kind)) {
            for flag in 3..=32 {
                let layout = Layout { flag, ..wide(1) };
                for data in marked_streams(kind, layout) {
                    let case = of_bytes(kind, layout, vec![0.0; 4], data);
                    let published = Expected::published(&case).expect("flags above 3");
                    assert_eq!(published.count, Ok(8), "{case}");
                    let ported = Expected::ported(&case);
                    assert!(ported.count.is_ok_and(|count| count < 8), "{case}");
                }
            }
        }
    }
}
