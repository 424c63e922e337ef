//! The Rust that is ported: `mesh_shading.rs` unchanged, with those parts of `color.rs` and
//! `device.rs` that it needs.

// `mesh_shading.rs` stays as it was published, so what a linter would change in it is let be.
#![allow(clippy::collapsible_match)]

pub mod color;
pub mod device;
pub mod mesh_shading;
