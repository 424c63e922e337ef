//! Reads and writes the mesh streams of PDF shadings (ISO 32000-1, types 4 to 7), by a library in which every function is proved to give one answer for
//! every input. This crate puts safe functions over its archive.
//!
//! - [`parse`] and [`published`] read a mesh from the bytes of its stream; [`build`] and [`build_published`] build it from a list of numbers.
//! - [`tensor`] turns Coons patches into tensor-product patches.
//! - [`raw_read`] and [`raw_write`] have the numbers of a stream before Decode. What is written is read back exactly.
//! - [`slices`] has the same functions over memory that the caller lends.
//!
//! A mesh is one allocation of exactly the right size. Triangles, patches, vertices and colours are views into it, and copy nothing. A call that can't
//! answer gives a [`Refusal`], exactly when its condition holds.
//!
//! # Examples
//!
//! ```
//! use station::{parse, Layout, Refusal, Type4};
//!
//! # fn main() -> Result<(), Refusal> {
//! // flag, x, y and grey of each vertex, in a byte each; flag 1 joins the fourth to the last two
//! let data = [0, 0, 0, 0, 0, 100, 0, 128, 0, 0, 100, 255, 1, 100, 100, 64];
//! let layout = Layout { coordinate: 8, component: 8, flag: 8, components: 1 };
//! let decode = [0.0, 255.0, 0.0, 255.0, 0.0, 1.0];
//!
//! let triangles = parse(Type4, &data, layout, &decode)?;
//! assert_eq!(triangles.len(), 2);
//! for triangle in &triangles {
//!     for vertex in triangle.vertices() {
//!         println!("x {} y {} rgb {:?}", vertex.x(), vertex.y(), vertex.rgb());
//!     }
//! }
//! # let corners = triangles.get(1).unwrap().vertices().map(|v| (v.x(), v.y()));
//! # assert_eq!(corners, [(100.0, 0.0), (0.0, 100.0), (100.0, 100.0)]);
//! # Ok(())
//! # }
//! ```
//!
//! # Memory
//!
//! A short stream can hold a large mesh: 16 MiB of two-bit vertices give over 130 million triangles of 240 bytes and more. To know before anything is
//! allocated, ask the function of [`slices`] with an empty output: [`Refusal::Room`] tells how many numbers there would be.

#![deny(missing_docs)]
#![warn(clippy::all)]

mod archive;
mod kinds;
mod meshes;
mod owned;
mod refusal;
pub mod slices;
mod views;

pub use kinds::{Kind, Layout, MeshKind, MeshType, Type4, Type5, Type6, Type7};
pub use meshes::{CoonsPatches, Iter, Mesh, Patches, TensorPatches, Triangles};
pub use owned::{
    build, build_published, parse, published, raw_read, raw_write, tensor, tensor_raw,
};
pub use refusal::Refusal;
pub use views::{Colour, Patch, Triangle, Vertex};

/// The examples of the README are run, too.
#[cfg(doctest)]
#[doc = include_str!("../README.md")]
struct Readme;
