//! Runs the original's readers and builders and lays their answers out as document 01's rows of
//! f64, so that they can be compared number by number with the port's.
//!
//! The original has no refusals: a layout that it can't read gives an empty mesh here.

use original::color::DeviceColor;
use original::device::{ShadingPatch, ShadingTriangle, ShadingVertex};
use original::mesh_shading as source;

/// The mesh type, with the row length that Type 5 alone has.
#[derive(Clone, Copy, Debug)]
pub enum Kind {
    Type4,
    Type5 { row_length: usize },
    Type6,
    Type7,
}

/// Where the numbers come from: packed bits with their widths and Decode, or a list.
#[derive(Clone, Copy, Debug)]
pub enum Source<'a> {
    Binary {
        data: &'a [u8],
        coordinate: usize,
        component: usize,
        /// Type 5 has no flags and ignores this width.
        flag: usize,
        decode: &'a [f64],
    },
    List(&'a [f64]),
}

/// One call of one of the original's eight functions.
#[derive(Clone, Copy, Debug)]
pub struct Call<'a> {
    pub kind: Kind,
    pub components: usize,
    pub source: Source<'a>,
}

/// What the original answers, before it is laid out as rows.
#[derive(Clone, Debug)]
pub enum Mesh {
    Triangles(Vec<ShadingTriangle>),
    Patches(Vec<ShadingPatch>),
}

impl Call<'_> {
    /// The count of triangles or patches, and their rows.
    pub fn run(&self) -> (usize, Vec<f64>) {
        let mesh = self.mesh();
        (mesh.count(), mesh.rows())
    }

    /// The original's own answer, for timing it without the cost of the rows.
    pub fn mesh(&self) -> Mesh {
        let n = self.components;
        match self.source {
            Source::Binary {
                data,
                coordinate,
                component,
                flag,
                decode,
            } => match self.kind {
                Kind::Type4 => Mesh::Triangles(source::parse_type4_mesh(
                    data, coordinate, component, flag, decode, n,
                )),
                Kind::Type5 { row_length } => Mesh::Triangles(source::parse_type5_mesh(
                    data, coordinate, component, decode, n, row_length,
                )),
                Kind::Type6 => Mesh::Patches(source::parse_type6_patches(
                    data, coordinate, component, flag, decode, n,
                )),
                Kind::Type7 => Mesh::Patches(source::parse_type7_patches(
                    data, coordinate, component, flag, decode, n,
                )),
            },
            Source::List(values) => match self.kind {
                Kind::Type4 => Mesh::Triangles(source::build_type4_from_array(values, n)),
                Kind::Type5 { row_length } => {
                    Mesh::Triangles(source::build_type5_from_array(values, n, row_length))
                }
                Kind::Type6 => Mesh::Patches(source::build_type6_from_array(values, n)),
                Kind::Type7 => Mesh::Patches(source::build_type7_from_array(values, n)),
            },
        }
    }
}

impl Mesh {
    pub fn count(&self) -> usize {
        match self {
            Mesh::Triangles(list) => list.len(),
            Mesh::Patches(list) => list.len(),
        }
    }

    pub fn rows(&self) -> Vec<f64> {
        match self {
            Mesh::Triangles(list) => triangles(list),
            Mesh::Patches(list) => patches(list),
        }
    }
}

/// Each triangle as three vertices, each vertex as x, y and its colour.
pub fn triangles(list: &[ShadingTriangle]) -> Vec<f64> {
    let mut rows = Vec::new();
    for triangle in list {
        for corner in [&triangle.v0, &triangle.v1, &triangle.v2] {
            push_vertex(&mut rows, corner);
        }
    }
    rows
}

/// Each patch as its 12 or 16 points and then its four colours.
pub fn patches(list: &[ShadingPatch]) -> Vec<f64> {
    let mut rows = Vec::new();
    for patch in list {
        for &(x, y) in &patch.points {
            rows.extend([x, y]);
        }
        for (color, components) in patch.colors.iter().zip(&patch.raw_colors) {
            push_color(&mut rows, color, components);
        }
    }
    rows
}

/// Whether two numbers agree: bit for bit, with all NaNs as one.
///
/// Copied numbers owe more than this: a copied NaN keeps its bits. Compare those with `to_bits`.
pub fn same_number(a: f64, b: f64) -> bool {
    a.to_bits() == b.to_bits() || (a.is_nan() && b.is_nan())
}

fn push_vertex(rows: &mut Vec<f64>, vertex: &ShadingVertex) {
    rows.extend([vertex.x, vertex.y]);
    push_color(rows, &vertex.color, &vertex.raw_components);
}

fn push_color(rows: &mut Vec<f64>, color: &DeviceColor, components: &[f64]) {
    // The rows have no place for this field, so one that held something must not go unseen.
    assert!(color.process_cmyk.is_none());
    rows.extend([color.r, color.g, color.b]);
    match color.native_cmyk {
        Some((c, m, y, k)) => rows.extend([1.0, c, m, y, k]),
        None => rows.extend([0.0; 5]),
    }
    rows.extend(components);
}
