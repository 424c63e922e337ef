//! The small mesh files of `examples/`, packed by the library's own writers: document 01's "Dump program" has their form.

use station::{raw_write, Kind, Layout};

/// A file's name and its bytes.
pub struct MeshFile {
    pub name: &'static str,
    pub bytes: Vec<u8>,
}

/// What a file holds: the mesh's raw numbers, and what its header says of them.
struct Mesh<'a> {
    kind: Kind,
    layout: Layout,
    row_length: u16,
    decode: &'a [f64],
    numbers: &'a [u32],
}

impl Mesh<'_> {
    fn bytes(&self) -> Vec<u8> {
        let l = self.layout;
        let kind = match self.kind {
            Kind::Type4 => 4,
            Kind::Type5 => 5,
            Kind::Type6 => 6,
            Kind::Type7 => 7,
        };
        let mut file = b"MSF\x00\x01".to_vec();
        file.push(kind);
        file.extend([l.coordinate, l.component, l.flag, l.components].map(|w| w as u8));
        file.extend(self.row_length.to_be_bytes());
        file.push(self.decode.len() as u8);
        file.extend(self.decode.iter().flat_map(|x| x.to_bits().to_be_bytes()));
        file.extend(raw_write(self.kind, self.numbers, l).expect("valid records"));
        file
    }
}

/// x and y within 0 to 255, and components within 0 to 1.
fn decode(components: usize) -> Vec<f64> {
    let mut list = vec![0.0, 255.0, 0.0, 255.0];
    list.extend([0.0, 1.0].repeat(components));
    list
}

fn layout(coordinate: usize, component: usize, flag: usize, components: usize) -> Layout {
    Layout {
        coordinate,
        component,
        flag,
        components,
    }
}

/// A triangle in red, green and blue; a vertex joined to its last side, and one joined to the first and last vertex of that.
fn type4() -> Vec<u8> {
    Mesh {
        kind: Kind::Type4,
        layout: layout(8, 4, 2, 3),
        row_length: 0,
        decode: &decode(3),
        numbers: &[
            [0, 10, 10, 15, 0, 0],
            [0, 90, 10, 0, 15, 0],
            [0, 10, 90, 0, 0, 15],
            [1, 90, 90, 15, 15, 15],
            [2, 170, 50, 0, 0, 0],
        ]
        .concat(),
    }
    .bytes()
}

/// Two rows of three grey vertices: four triangles.
fn type5() -> Vec<u8> {
    Mesh {
        kind: Kind::Type5,
        layout: layout(8, 8, 0, 1),
        row_length: 3,
        decode: &decode(1),
        numbers: &[
            [0, 0, 0],
            [50, 0, 64],
            [100, 0, 128],
            [0, 50, 128],
            [50, 50, 192],
            [100, 50, 255],
        ]
        .concat(),
    }
    .bytes()
}

/// The border of a square, from its corner at (x, 0) around.
const BORDER: [u32; 24] = [
    0, 0, 0, 30, 0, 60, 0, 90, 30, 90, 60, 90, 90, 90, 90, 60, 90, 30, 90, 0, 60, 0, 30, 0,
];

/// A square patch with an ink in each corner, and one joined to it by flag 2.
fn type6() -> Vec<u8> {
    let inks = |c, m, y, k| [c, m, y, k];
    Mesh {
        kind: Kind::Type6,
        layout: layout(8, 8, 8, 4),
        row_length: 0,
        decode: &decode(4),
        numbers: &[
            &[0],
            BORDER.as_slice(),
            &inks(255, 0, 0, 0),
            &inks(0, 255, 0, 0),
            &inks(0, 0, 255, 0),
            &inks(0, 0, 0, 255),
            &[2],
            &[
                120, 0, 150, 0, 180, 0, 180, 30, 180, 60, 180, 90, 150, 90, 120, 90,
            ],
            &inks(128, 128, 0, 0),
            &inks(0, 128, 128, 0),
        ]
        .concat(),
    }
    .bytes()
}

/// A square patch with its four inner points, from black to white.
fn type7() -> Vec<u8> {
    Mesh {
        kind: Kind::Type7,
        layout: layout(8, 8, 8, 1),
        row_length: 0,
        decode: &decode(1),
        numbers: &[
            &[0],
            BORDER.as_slice(),
            &[30, 30, 30, 60, 60, 60, 60, 30],
            &[0, 85, 170, 255],
        ]
        .concat(),
    }
    .bytes()
}

pub fn files() -> [MeshFile; 4] {
    [
        MeshFile {
            name: "type4.msf",
            bytes: type4(),
        },
        MeshFile {
            name: "type5.msf",
            bytes: type5(),
        },
        MeshFile {
            name: "type6.msf",
            bytes: type6(),
        },
        MeshFile {
            name: "type7.msf",
            bytes: type7(),
        },
    ]
}
