//! A small mesh of each type, which the tests share.

#![allow(dead_code)] // each test file uses a part of this

use station::{Kind, Layout, MeshKind};

pub const KINDS: [MeshKind; 4] = [
    MeshKind::Type4,
    MeshKind::Type5 { row_length: 3 },
    MeshKind::Type6,
    MeshKind::Type7,
];

/// Counts of components for each way in which a colour is made.
pub const COMPONENTS: [usize; 7] = [0, 1, 2, 3, 4, 5, 32];

/// One byte for each number.
pub fn layout(components: usize) -> Layout {
    Layout {
        coordinate: 8,
        component: 8,
        flag: 8,
        components,
    }
}

/// Each number stands for itself.
pub fn decode(components: usize) -> Vec<f64> {
    [0.0, 255.0].repeat(2 + components)
}

pub fn raw_kind(kind: MeshKind) -> Kind {
    match kind {
        MeshKind::Type4 => Kind::Type4,
        MeshKind::Type5 { .. } => Kind::Type5,
        MeshKind::Type6 => Kind::Type6,
        MeshKind::Type7 => Kind::Type7,
    }
}

/// A mesh's raw numbers: its flags as given, and for all others 1, 2, 3 and so on.
pub fn numbers(kind: MeshKind, components: usize) -> Vec<u32> {
    let vertex = 2 + components;
    let records: &[(Option<u32>, usize)] = match kind {
        MeshKind::Type4 => &[0, 0, 0, 1].map(|flag| (Some(flag), vertex)),
        MeshKind::Type5 { .. } => &[(None, vertex); 6],
        MeshKind::Type6 => &[
            (Some(0), 24 + 4 * components),
            (Some(1), 16 + 2 * components),
        ],
        MeshKind::Type7 => &[
            (Some(0), 32 + 4 * components),
            (Some(3), 24 + 2 * components),
        ],
    };
    let mut next = 0;
    let mut list = Vec::new();
    for &(flag, size) in records {
        list.extend(flag);
        for _ in 0..size {
            next += 1;
            list.push(next % 256);
        }
    }
    list
}

pub fn bytes(kind: MeshKind, components: usize) -> Vec<u8> {
    let narrow = |number: u32| u8::try_from(number).expect("one byte");
    numbers(kind, components).into_iter().map(narrow).collect()
}

pub fn values(kind: MeshKind, components: usize) -> Vec<f64> {
    numbers(kind, components)
        .into_iter()
        .map(f64::from)
        .collect()
}

/// How many triangles or patches the mesh has, and how many numbers each takes.
pub fn size(kind: MeshKind, components: usize) -> (usize, usize) {
    match kind {
        MeshKind::Type4 => (2, 3 * (10 + components)),
        MeshKind::Type5 { .. } => (4, 3 * (10 + components)),
        MeshKind::Type6 => (2, 24 + 4 * (8 + components)),
        MeshKind::Type7 => (2, 32 + 4 * (8 + components)),
    }
}
