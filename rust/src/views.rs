//! Views into the rows of a mesh. Each is the slice of its numbers, and copies none of them.

use std::array;
use std::fmt;

/// Where the numbers of a colour stand; red, green and blue come first.
const MARK: usize = 3;
const INKS: usize = 4;
const COMPONENTS: usize = 8;

/// So many numbers, from a place on.
fn numbers_at<const COUNT: usize>(row: &[f64], place: usize) -> &[f64; COUNT] {
    row[place..].first_chunk().expect("a row is whole")
}

/// A row cut into parts of one size.
fn parts<'a, T, const COUNT: usize>(row: &'a [f64], part: impl Fn(&'a [f64]) -> T) -> [T; COUNT] {
    let size = row.len() / COUNT;
    array::from_fn(|i| part(&row[i * size..(i + 1) * size]))
}

/// A colour, by the count of its components: one is a grey, three are RGB, four are CMYK, of five or more the first three are RGB, and none or two give
/// black.
#[derive(Clone, Copy, PartialEq)]
pub struct Colour<'a>(&'a [f64]);

impl<'a> Colour<'a> {
    /// Red, green and blue, each held between 0 and 1.
    pub fn rgb(self) -> &'a [f64; 3] {
        numbers_at(self.0, 0)
    }

    /// Cyan, magenta, yellow and black, each held between 0 and 1, where the colour has four components.
    pub fn inks(self) -> Option<&'a [f64; 4]> {
        (self.0[MARK] == 1.0).then(|| numbers_at(self.0, INKS))
    }

    /// The components as they were read, not held between 0 and 1.
    pub fn components(self) -> &'a [f64] {
        &self.0[COMPONENTS..]
    }
}

impl fmt::Debug for Colour<'_> {
    fn fmt(&self, f: &mut fmt::Formatter<'_>) -> fmt::Result {
        f.debug_struct("Colour")
            .field("rgb", self.rgb())
            .field("inks", &self.inks())
            .field("components", &self.components())
            .finish()
    }
}

/// A vertex of a triangle: a point and a colour.
#[derive(Clone, Copy, PartialEq)]
pub struct Vertex<'a>(&'a [f64]);

impl<'a> Vertex<'a> {
    /// The horizontal coordinate.
    pub fn x(self) -> f64 {
        self.0[0]
    }

    /// The vertical coordinate.
    pub fn y(self) -> f64 {
        self.0[1]
    }

    /// x and y.
    pub fn point(self) -> &'a [f64; 2] {
        numbers_at(self.0, 0)
    }

    /// The colour.
    pub fn colour(self) -> Colour<'a> {
        Colour(&self.0[2..])
    }

    /// Red, green and blue of the colour.
    pub fn rgb(self) -> &'a [f64; 3] {
        self.colour().rgb()
    }

    /// The colour's inks, where it has any.
    pub fn inks(self) -> Option<&'a [f64; 4]> {
        self.colour().inks()
    }

    /// The colour's components, as they were read.
    pub fn components(self) -> &'a [f64] {
        self.colour().components()
    }
}

impl fmt::Debug for Vertex<'_> {
    fn fmt(&self, f: &mut fmt::Formatter<'_>) -> fmt::Result {
        f.debug_struct("Vertex")
            .field("x", &self.x())
            .field("y", &self.y())
            .field("colour", &self.colour())
            .finish()
    }
}

/// A triangle of three vertices.
#[derive(Clone, Copy, PartialEq)]
pub struct Triangle<'a>(pub(crate) &'a [f64]);

impl<'a> Triangle<'a> {
    /// How many numbers a triangle takes.
    pub(crate) fn size(components: usize) -> usize {
        3 * (2 + COMPONENTS + components)
    }

    /// The vertices, in the order in which the stream's flags put them.
    pub fn vertices(self) -> [Vertex<'a>; 3] {
        parts(self.0, Vertex)
    }
}

impl fmt::Debug for Triangle<'_> {
    fn fmt(&self, f: &mut fmt::Formatter<'_>) -> fmt::Result {
        f.debug_tuple("Triangle").field(&self.vertices()).finish()
    }
}

/// A patch: 12 points where it is a Coons patch, 16 where it is a tensor-product patch, and the colours of its four corners.
#[derive(Clone, Copy, PartialEq)]
pub struct Patch<'a, const POINTS: usize>(pub(crate) &'a [f64]);

impl<'a, const POINTS: usize> Patch<'a, POINTS> {
    /// How many numbers a patch takes.
    pub(crate) fn size(components: usize) -> usize {
        2 * POINTS + 4 * (COMPONENTS + components)
    }

    /// The points in the stream's order, x and y of each: the twelve of the border p00 p01 p02 p03 p13 p23 p33 p32 p31 p30 p20 p10, then, of a
    /// tensor-product patch, p11 p12 p22 p21.
    pub fn points(self) -> &'a [[f64; 2]; POINTS] {
        let (points, _) = self.0.as_chunks();
        points.first_chunk().expect("a row is whole")
    }

    /// The colours of the corners, in the stream's order. By ISO 32000-1 they belong to p00, p03, p33 and p30, which are points 0, 3, 6 and 9.
    pub fn colours(self) -> [Colour<'a>; 4] {
        parts(&self.0[2 * POINTS..], Colour)
    }
}

impl<const POINTS: usize> fmt::Debug for Patch<'_, POINTS> {
    fn fmt(&self, f: &mut fmt::Formatter<'_>) -> fmt::Result {
        f.debug_struct("Patch")
            .field("points", self.points())
            .field("colours", &self.colours())
            .finish()
    }
}
