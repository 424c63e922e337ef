//! The functions of the archive over lent slices: nothing is allocated.
//!
//! A call answers how much it wrote, or a refusal; then it has changed nothing that was lent. What stands in the output after the answer is left as it
//! was. Where the output is too small for the whole answer, [`Refusal::Room`] tells how many elements are needed. So a caller who doesn't know it asks
//! with an empty output, lends exactly so many, and calls again.
//!
//! A mesh is written as rows of numbers. A colour is 8 + n numbers: r, g, b, a mark, c, m, y, k, then the n components as they were read. The mark is 1
//! where n is 4, and 0 otherwise, with 0 for the four inks. A vertex is x, y and its colour; a triangle is three vertices. A patch is 12 points (Type 6)
//! or 16 points (Type 7), x and y of each, then four colours. [`Triangles::lent`](crate::Triangles::lent) and
//! [`Patches::lent`](crate::Patches::lent) are views over them.
//!
//! # Examples
//!
//! One output serves many meshes, and grows where it is too small:
//!
//! ```
//! use station::{slices, Layout, MeshKind, Refusal, Triangles};
//!
//! # fn main() -> Result<(), Refusal> {
//! let layout = Layout { coordinate: 8, component: 8, flag: 8, components: 1 };
//! let decode = [0.0, 255.0, 0.0, 255.0, 0.0, 1.0];
//! let read = |data: &[u8], out: &mut [f64]| {
//!     slices::parse(MeshKind::Type4, data, layout, &decode, out)
//! };
//!
//! let mut out = Vec::new();
//! for data in [[0, 0, 0, 0, 0, 9, 0, 0, 0, 0, 9, 0, 1, 9, 9, 255].as_slice(), &[0; 12]] {
//!     let count = match read(data, &mut out) {
//!         Err(Refusal::Room { needed }) => {
//!             out.resize(needed, 0.0);
//!             read(data, &mut out)?
//!         }
//!         other => other?,
//!     };
//!     let triangles = Triangles::lent(&out, count, 1).expect("as many as were written");
//!     assert_eq!(triangles.len(), data.len() / 4 - 2);
//! }
//! // the first mesh has two triangles, and that was enough for the second
//! assert_eq!(out.len(), 2 * 3 * (2 + 8 + 1));
//! # Ok(())
//! # }
//! ```

use crate::archive::*;
use crate::{Kind, Layout, MeshKind, Refusal};

/// The functions of one reading of bytes, by type.
struct Readers {
    type4: Parse,
    type5: ParseLattice,
    type6: Parse,
    type7: Parse,
}

impl Readers {
    fn call(
        self,
        kind: MeshKind,
        data: &[u8],
        l: Layout,
        decode: &[f64],
        out: &mut [f64],
    ) -> Result<usize, Refusal> {
        let (d, dn, o, on) = (data.as_ptr(), data.len(), out.as_mut_ptr(), out.len());
        let (e, en) = (decode.as_ptr(), decode.len());
        let (x, c, n) = (l.coordinate, l.component, l.components);
        let flagged = |f: Parse| unsafe { f(d, dn, x, c, l.flag, e, en, n, o, on) };
        match kind {
            MeshKind::Type4 => flagged(self.type4),
            MeshKind::Type5 { row_length } => unsafe {
                (self.type5)(d, dn, x, c, e, en, n, row_length, o, on)
            },
            MeshKind::Type6 => flagged(self.type6),
            MeshKind::Type7 => flagged(self.type7),
        }
        .result()
    }
}

/// The functions of one reading of a list, by type.
struct Builders {
    type4: Build,
    type5: BuildLattice,
    type6: Build,
    type7: Build,
}

impl Builders {
    fn call(
        self,
        kind: MeshKind,
        values: &[f64],
        n: usize,
        out: &mut [f64],
    ) -> Result<usize, Refusal> {
        let (v, vn, o, on) = (values.as_ptr(), values.len(), out.as_mut_ptr(), out.len());
        let flagged = |f: Build| unsafe { f(v, vn, n, o, on) };
        match kind {
            MeshKind::Type4 => flagged(self.type4),
            MeshKind::Type5 { row_length } => unsafe { (self.type5)(v, vn, n, row_length, o, on) },
            MeshKind::Type6 => flagged(self.type6),
            MeshKind::Type7 => flagged(self.type7),
        }
        .result()
    }
}

/// Reads a mesh from bytes, as the original Rust does. A flag is the whole number. Answers how many triangles or patches.
///
/// `decode` is the shading's Decode array: min and max of x, of y and of each component. Missing entries of a component are 0 and 1.
///
/// # Errors
///
/// [`Refusal::Layout`], [`Refusal::Components`], [`Refusal::Length`] and [`Refusal::Room`].
pub fn parse(
    kind: MeshKind,
    data: &[u8],
    layout: Layout,
    decode: &[f64],
    out: &mut [f64],
) -> Result<usize, Refusal> {
    let readers = Readers {
        type4: mesh_parse_type4,
        type5: mesh_parse_type5,
        type6: mesh_parse_type6,
        type7: mesh_parse_type7,
    };
    readers.call(kind, data, layout, decode, out)
}

/// Reads a mesh from bytes, as ISO 32000-1 has it, but for what the library's `docs/DIFFERENCES.md` lists. A flag is its two low bits. Answers how many
/// triangles or patches.
///
/// # Errors
///
/// [`Refusal::Layout`], [`Refusal::Components`], [`Refusal::Length`] and [`Refusal::Room`].
pub fn published(
    kind: MeshKind,
    data: &[u8],
    layout: Layout,
    decode: &[f64],
    out: &mut [f64],
) -> Result<usize, Refusal> {
    let readers = Readers {
        type4: mesh_published_type4,
        type5: mesh_published_type5,
        type6: mesh_published_type6,
        type7: mesh_published_type7,
    };
    readers.call(kind, data, layout, decode, out)
}

/// Builds a mesh from a list of numbers, flags among them, as the original Rust does. Answers how many triangles or patches.
///
/// # Errors
///
/// [`Refusal::Components`], [`Refusal::Length`] and [`Refusal::Room`].
pub fn build(
    kind: MeshKind,
    values: &[f64],
    components: usize,
    out: &mut [f64],
) -> Result<usize, Refusal> {
    let builders = Builders {
        type4: mesh_build_type4,
        type5: mesh_build_type5,
        type6: mesh_build_type6,
        type7: mesh_build_type7,
    };
    builders.call(kind, values, components, out)
}

/// Builds a mesh from a list of numbers, flags among them, by the flag rules of ISO 32000-1. In a list a flag is the whole number. Answers how many
/// triangles or patches.
///
/// # Errors
///
/// [`Refusal::Components`], [`Refusal::Length`] and [`Refusal::Room`].
pub fn build_published(
    kind: MeshKind,
    values: &[f64],
    components: usize,
    out: &mut [f64],
) -> Result<usize, Refusal> {
    let builders = Builders {
        type4: mesh_build_published_type4,
        type5: mesh_build_published_type5,
        type6: mesh_build_published_type6,
        type7: mesh_build_published_type7,
    };
    builders.call(kind, values, components, out)
}

/// Reads the raw numbers of a stream's complete records, flags among them, before Decode. Answers how many.
///
/// # Errors
///
/// [`Refusal::Layout`], [`Refusal::Components`], [`Refusal::Length`] and [`Refusal::Room`].
pub fn raw_read(
    kind: Kind,
    data: &[u8],
    layout: Layout,
    out: &mut [u32],
) -> Result<usize, Refusal> {
    let (d, dn, o, on) = (data.as_ptr(), data.len(), out.as_mut_ptr(), out.len());
    let (x, c, n) = (layout.coordinate, layout.component, layout.components);
    let flagged = |f: RawRead| unsafe { f(d, dn, x, c, layout.flag, n, o, on) };
    match kind {
        Kind::Type4 => flagged(mesh_raw_read_type4),
        Kind::Type5 => unsafe { mesh_raw_read_type5(d, dn, x, c, n, o, on) },
        Kind::Type6 => flagged(mesh_raw_read_type6),
        Kind::Type7 => flagged(mesh_raw_read_type7),
    }
    .result()
}

/// Packs raw numbers, flags among them; the last byte is filled with zeros. Answers how many bytes.
///
/// # Errors
///
/// [`Refusal::Layout`], [`Refusal::Components`], [`Refusal::Length`], [`Refusal::Thin`], [`Refusal::Record`] and [`Refusal::Room`].
pub fn raw_write(
    kind: Kind,
    numbers: &[u32],
    layout: Layout,
    out: &mut [u8],
) -> Result<usize, Refusal> {
    let (d, dn, o, on) = (numbers.as_ptr(), numbers.len(), out.as_mut_ptr(), out.len());
    let (x, c, n) = (layout.coordinate, layout.component, layout.components);
    let flagged = |f: RawWrite| unsafe { f(d, dn, x, c, layout.flag, n, o, on) };
    match kind {
        Kind::Type4 => flagged(mesh_raw_write_type4),
        Kind::Type5 => unsafe { mesh_raw_write_type5(d, dn, x, c, n, o, on) },
        Kind::Type6 => flagged(mesh_raw_write_type6),
        Kind::Type7 => flagged(mesh_raw_write_type7),
    }
    .result()
}

/// Turns raw Type 6 numbers into tensor patches, with the sides that flags 1 to 3 take over filled in. Answers how many patches.
///
/// A patch is 32 + 4 n numbers, without a flag: the twelve points of the border in stream order, then p11 p12 p22 p21, all of them exactly nine
/// times the coordinate; then the four colours of n raw components, as they are.
///
/// # Errors
///
/// [`Refusal::Components`], [`Refusal::Length`], [`Refusal::Record`] and [`Refusal::Room`].
pub fn coons_to_tensor_raw(
    numbers: &[u32],
    components: usize,
    out: &mut [i64],
) -> Result<usize, Refusal> {
    let (d, dn, o, on) = (numbers.as_ptr(), numbers.len(), out.as_mut_ptr(), out.len());
    unsafe { mesh_coons_to_tensor_raw(d, dn, components, o, on) }.result()
}

/// Turns the rows of Type 6 patches, as [`parse`] and [`build`] write them, into those of Type 7 patches. Answers how many patches.
///
/// Border points and colours are copied; each inner coordinate is worked out by the formula of ISO 32000-1, 8.7.4.5.8, in the order that `station.h`
/// gives. A list of over 1,048,576 numbers is refused, but any part of it that is whole patches can be turned by itself.
///
/// # Errors
///
/// [`Refusal::Components`], [`Refusal::Length`], [`Refusal::Record`] and [`Refusal::Room`].
pub fn coons_to_tensor(
    values: &[f64],
    components: usize,
    out: &mut [f64],
) -> Result<usize, Refusal> {
    let (v, vn, o, on) = (values.as_ptr(), values.len(), out.as_mut_ptr(), out.len());
    unsafe { mesh_coons_to_tensor(v, vn, components, o, on) }.result()
}
