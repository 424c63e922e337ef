//! Meshes: rows of numbers as the archive writes them, and what stands in them.

use crate::views::{Patch, Triangle};
use std::fmt;
use std::iter::Map;
use std::slice::ChunksExact;

/// A colour has at most so many components, or the archive refuses.
const MOST_COMPONENTS: usize = 32;

/// Goes through the triangles or patches of a mesh.
pub type Iter<'a, T> = Map<ChunksExact<'a, f64>, fn(&'a [f64]) -> T>;

/// Defines a mesh whose rows are views of one kind.
macro_rules! mesh {
    ($(#[$about:meta])* $name:ident of $view:ident $(with const $points:ident)?) => {
        $(#[$about])*
        #[derive(Clone, Copy, PartialEq)]
        pub struct $name<$(const $points: usize,)? S = Vec<f64>> {
            numbers: S,
            components: usize,
        }

        impl<$(const $points: usize)?> $name<$($points)?> {
            /// The mesh that the archive wrote.
            pub(crate) fn written(numbers: Vec<f64>, components: usize) -> Self {
                $name { numbers, components }
            }

            /// The numbers of all rows, as they are, without a copy.
            pub fn into_numbers(self) -> Vec<f64> {
                self.numbers
            }
        }

        impl<'a, $(const $points: usize)?> $name<$($points,)? &'a [f64]> {
            /// The first `count` of what stands in an output that was lent to a function of [`slices`](crate::slices), which answered this count for
            /// colours of so many components. None where the output isn't as large as that, or where there are more than 32 components.
            pub fn lent(out: &'a [f64], count: usize, components: usize) -> Option<Self> {
                if components > MOST_COMPONENTS {
                    return None;
                }
                let needed = $view::$(<$points>::)?size(components).checked_mul(count)?;
                let numbers = out.get(..needed)?;
                Some($name { numbers, components })
            }
        }

        impl<$(const $points: usize,)? S: AsRef<[f64]>> $name<$($points,)? S> {
            /// How many there are.
            pub fn len(&self) -> usize {
                self.iter().len()
            }

            /// Whether there is none.
            pub fn is_empty(&self) -> bool {
                self.numbers().is_empty()
            }

            /// How many components each colour has.
            pub fn components(&self) -> usize {
                self.components
            }

            /// One of them, counted from 0.
            pub fn get(&self, place: usize) -> Option<$view<'_ $(, $points)?>> {
                let size = $view::$(<$points>::)?size(self.components);
                self.numbers().chunks_exact(size).nth(place).map($view)
            }

            /// All of them, in the order of the mesh.
            pub fn iter(&self) -> Iter<'_, $view<'_ $(, $points)?>> {
                let numbers = self.numbers();
                $name { numbers, components: self.components }.into_iter()
            }

            /// The numbers of all rows, in the order that `station.h` gives.
            pub fn numbers(&self) -> &[f64] {
                self.numbers.as_ref()
            }
        }

        impl<'a, $(const $points: usize)?> IntoIterator for $name<$($points,)? &'a [f64]> {
            type Item = $view<'a $(, $points)?>;
            type IntoIter = Iter<'a, Self::Item>;

            fn into_iter(self) -> Self::IntoIter {
                let size = $view::$(<$points>::)?size(self.components);
                self.numbers.chunks_exact(size).map($view)
            }
        }

        impl<'a, $(const $points: usize,)? S: AsRef<[f64]>> IntoIterator for &'a $name<$($points,)? S> {
            type Item = $view<'a $(, $points)?>;
            type IntoIter = Iter<'a, Self::Item>;

            fn into_iter(self) -> Self::IntoIter {
                self.iter()
            }
        }

        impl<$(const $points: usize,)? S: AsRef<[f64]>> fmt::Debug for $name<$($points,)? S> {
            fn fmt(&self, f: &mut fmt::Formatter<'_>) -> fmt::Result {
                f.debug_list().entries(self).finish()
            }
        }
    };
}

mesh!(
    /// The triangles of a Type 4 or Type 5 mesh.
    ///
    /// `Triangles` owns its numbers. `Triangles<&[f64]>` is the same over numbers that somebody else owns: see [`lent`](Triangles::lent).
    ///
    /// # Examples
    ///
    /// ```
    /// # fn main() -> Result<(), station::Refusal> {
    /// // flag, x, y and grey of each vertex; flag 1 joins the fourth to the last two
    /// let values = [
    ///     0.0, 0.0, 0.0, 0.0, //
    ///     0.0, 9.0, 0.0, 0.5, //
    ///     0.0, 0.0, 9.0, 1.0, //
    ///     1.0, 9.0, 9.0, 0.5,
    /// ];
    /// let triangles = station::build(station::Type4, &values, 1)?;
    /// assert_eq!(triangles.len(), 2);
    /// for triangle in &triangles {
    ///     for vertex in triangle.vertices() {
    ///         println!("{} {} {:?}", vertex.x(), vertex.y(), vertex.rgb());
    ///     }
    /// }
    /// let [_, _, last] = triangles.get(1).unwrap().vertices();
    /// assert_eq!((last.x(), last.y(), last.rgb()), (9.0, 9.0, &[0.5, 0.5, 0.5]));
    /// # Ok(())
    /// # }
    /// ```
    Triangles of Triangle
);

mesh!(
    /// The patches of a Type 6 mesh, with 12 points each, or of a Type 7 mesh, with 16: [`CoonsPatches`] and [`TensorPatches`].
    ///
    /// `Patches<12>` owns its numbers. `Patches<12, &[f64]>` is the same over numbers that somebody else owns: see [`lent`](Patches::lent).
    ///
    /// # Examples
    ///
    /// ```
    /// use station::{build, tensor, Patches, Refusal, Type6};
    ///
    /// /// The least and the greatest x of the points of all patches, of either type.
    /// fn width<const POINTS: usize>(patches: &Patches<POINTS>) -> (f64, f64) {
    ///     patches
    ///         .iter()
    ///         .flat_map(|patch| patch.points())
    ///         .fold((f64::MAX, f64::MIN), |(least, most), &[x, _]| (least.min(x), most.max(x)))
    /// }
    ///
    /// # fn main() -> Result<(), Refusal> {
    /// // flag, the twelve points of a square's border, and a grey for each corner
    /// let mut square = vec![0.0];
    /// square.extend([0, 0, 0, 3, 0, 6, 0, 9, 3, 9, 6, 9, 9, 9, 9, 6, 9, 3, 9, 0, 6, 0, 3, 0].map(f64::from));
    /// square.extend([0.0, 0.25, 0.5, 0.75]);
    /// let coons = build(Type6, &square, 1)?;
    /// assert_eq!(width(&coons), (0.0, 9.0));
    /// assert_eq!(width(&tensor(&coons)), (0.0, 9.0));
    /// # Ok(())
    /// # }
    /// ```
    Patches of Patch with const POINTS
);

/// The patches of a Type 6 mesh.
pub type CoonsPatches<S = Vec<f64>> = Patches<12, S>;

/// The patches of a Type 7 mesh.
pub type TensorPatches<S = Vec<f64>> = Patches<16, S>;

/// A mesh of a type that is known only when the program runs.
#[derive(Clone, Debug, PartialEq)]
pub enum Mesh {
    /// Of Type 4 or 5.
    Triangles(Triangles),
    /// Of Type 6.
    Coons(CoonsPatches),
    /// Of Type 7.
    Tensor(TensorPatches),
}
