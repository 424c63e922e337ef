//! What a caller says of a mesh: its type, and how its stream is laid out.

use crate::{CoonsPatches, Mesh, TensorPatches, Triangles};

/// The widths of a stream's numbers in bits, and the count of components, as the shading dictionary gives them.
///
/// Any numbers may stand here; what can't be read is refused.
///
/// # Examples
///
/// ```
/// // /BitsPerCoordinate 16 /BitsPerComponent 8 /BitsPerFlag 8, with colours in DeviceCMYK
/// let layout = station::Layout { coordinate: 16, component: 8, flag: 8, components: 4 };
/// # assert_eq!(station::raw_read(station::Kind::Type4, &[0; 9], layout), Ok(vec![0; 7]));
/// ```
#[derive(Clone, Copy, Debug, PartialEq, Eq, Hash)]
pub struct Layout {
    /// How many bits a coordinate has.
    pub coordinate: usize,
    /// How many bits a colour component has.
    pub component: usize,
    /// How many bits a flag has. Type 5 has no flags and ignores this.
    pub flag: usize,
    /// How many components a colour has. With 4, and only then, they are taken for inks.
    pub components: usize,
}

/// The four mesh types, for the raw functions, which take no row length.
#[derive(Clone, Copy, Debug, PartialEq, Eq, Hash)]
pub enum Kind {
    /// Free-form triangles.
    Type4,
    /// A lattice of triangles.
    Type5,
    /// Coons patches.
    Type6,
    /// Tensor-product patches.
    Type7,
}

/// A mesh type that is known only when the program runs. It answers a [`Mesh`].
#[derive(Clone, Copy, Debug, PartialEq, Eq, Hash)]
pub enum MeshKind {
    /// Free-form triangles.
    Type4,
    /// A lattice of triangles.
    Type5 {
        /// How many vertices a row of the lattice has.
        row_length: usize,
    },
    /// Coons patches.
    Type6,
    /// Tensor-product patches.
    Type7,
}

/// Free-form triangles. It answers [`Triangles`].
#[derive(Clone, Copy, Debug, PartialEq, Eq, Hash)]
pub struct Type4;

/// A lattice of triangles. It answers [`Triangles`].
#[derive(Clone, Copy, Debug, PartialEq, Eq, Hash)]
pub struct Type5 {
    /// How many vertices a row of the lattice has.
    pub row_length: usize,
}

/// Coons patches. It answers [`CoonsPatches`].
#[derive(Clone, Copy, Debug, PartialEq, Eq, Hash)]
pub struct Type6;

/// Tensor-product patches. It answers [`TensorPatches`].
#[derive(Clone, Copy, Debug, PartialEq, Eq, Hash)]
pub struct Type7;

/// What a mesh can be asked for by: one of [`Type4`], [`Type5`], [`Type6`] and [`Type7`], where the type is known when the program is written, or a
/// [`MeshKind`].
pub trait MeshType: Copy + Into<MeshKind> + sealed::Sealed {
    /// What is answered.
    type Mesh;

    /// The mesh over the numbers that the archive wrote for this type.
    #[doc(hidden)]
    fn mesh(self, numbers: Vec<f64>, components: usize) -> Self::Mesh;
}

mod sealed {
    pub trait Sealed {}
}

/// Lets a mesh be asked for by a type of its own.
macro_rules! mesh_type {
    ($name:ident, $kind:pat => $into:expr, $mesh:ident) => {
        impl From<$name> for MeshKind {
            fn from($kind: $name) -> Self {
                $into
            }
        }

        impl sealed::Sealed for $name {}

        impl MeshType for $name {
            type Mesh = $mesh;

            fn mesh(self, numbers: Vec<f64>, components: usize) -> $mesh {
                $mesh::written(numbers, components)
            }
        }
    };
}

mesh_type!(Type4, Type4 => MeshKind::Type4, Triangles);
mesh_type!(Type5, Type5 { row_length } => MeshKind::Type5 { row_length }, Triangles);
mesh_type!(Type6, Type6 => MeshKind::Type6, CoonsPatches);
mesh_type!(Type7, Type7 => MeshKind::Type7, TensorPatches);

impl sealed::Sealed for MeshKind {}

impl MeshType for MeshKind {
    type Mesh = Mesh;

    fn mesh(self, numbers: Vec<f64>, components: usize) -> Mesh {
        match self {
            MeshKind::Type4 | MeshKind::Type5 { .. } => {
                Mesh::Triangles(Triangles::written(numbers, components))
            }
            MeshKind::Type6 => Mesh::Coons(CoonsPatches::written(numbers, components)),
            MeshKind::Type7 => Mesh::Tensor(TensorPatches::written(numbers, components)),
        }
    }
}
