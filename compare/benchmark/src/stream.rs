//! Inputs for the benchmark: whole records from a fixed generator, with the flags of a mesh that goes on.

use generator::Generator;
use station::{Kind, Layout};

/// Every run times the same input.
const SEED: u64 = 0x4d53_4620_0003;

/// The flag of a mesh's i-th record: a first triangle or patch, then joined ones by turns, and now and then a new one.
fn flag(kind: Kind, i: usize) -> u64 {
    match kind {
        Kind::Type4 => match i % 16 {
            0..=2 => 0,
            k if k % 2 == 0 => 2,
            _ => 1,
        },
        Kind::Type5 => 0,
        Kind::Type6 | Kind::Type7 => (i % 4) as u64,
    }
}

/// How many coordinates and colours follow a record's flag; in Type 5, which has none, how many make a record.
fn shape(kind: Kind, flag: u64) -> (usize, usize) {
    match (kind, flag) {
        (Kind::Type4 | Kind::Type5, _) => (2, 1),
        (Kind::Type6, 0) => (24, 4),
        (Kind::Type6, _) => (16, 2),
        (Kind::Type7, 0) => (32, 4),
        (Kind::Type7, _) => (24, 2),
    }
}

/// The widths of each number of the i-th record, with the value of its flag.
pub fn record(kind: Kind, l: Layout, i: usize) -> (Option<u64>, Vec<usize>) {
    let f = flag(kind, i);
    let (coords, colours) = shape(kind, f);
    let mut widths = Vec::new();
    if kind != Kind::Type5 {
        widths.push(l.flag);
    }
    widths.extend(std::iter::repeat_n(l.coordinate, coords));
    widths.extend(std::iter::repeat_n(l.component, colours * l.components));
    ((kind != Kind::Type5).then_some(f), widths)
}

/// As many whole records as fit into so many bytes.
pub fn bytes(kind: Kind, l: Layout, size: usize) -> Vec<u8> {
    let mut out = vec![0u8; size];
    let mut place = 0;
    let mut random = Generator::new(SEED);
    for i in 0.. {
        let (flag, widths) = record(kind, l, i);
        if place + widths.iter().sum::<usize>() > 8 * size {
            break;
        }
        for (k, &w) in widths.iter().enumerate() {
            let value = match flag {
                Some(f) if k == 0 => f,
                _ => random.bits() >> (64 - w),
            };
            for b in (0..w).rev() {
                out[place / 8] |= (((value >> b) & 1) as u8) << (7 - place % 8);
                place += 1;
            }
        }
    }
    out
}

/// As many whole records as fit into so many numbers: flags, then coordinates within 0 to 100 and components within 0 to 1.
pub fn numbers(kind: Kind, components: usize, size: usize) -> Vec<f64> {
    let mut out = Vec::with_capacity(size);
    let mut random = Generator::new(SEED);
    let mut unit = || (random.bits() >> 11) as f64 / (1u64 << 53) as f64;
    for i in 0.. {
        let f = flag(kind, i);
        let (coords, colours) = shape(kind, f);
        let flags = usize::from(kind != Kind::Type5);
        if out.len() + flags + coords + colours * components > size {
            break;
        }
        out.extend(std::iter::repeat_n(f as f64, flags));
        out.extend((0..coords).map(|_| 100.0 * unit()));
        out.extend((0..colours * components).map(|_| unit()));
    }
    out
}
