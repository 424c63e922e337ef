//! The functions that allocate their answer: once, and exactly as much as it takes.

use crate::{slices, CoonsPatches, Kind, Layout, MeshType, Patch, Refusal, TensorPatches};

/// The whole answer of a call: with nothing lent, the call tells how many places that needs, and then exactly so many are lent.
fn whole<T: Copy + Default>(
    call: impl Fn(&mut [T]) -> Result<usize, Refusal>,
) -> Result<Vec<T>, Refusal> {
    match call(&mut []) {
        Ok(_) => Ok(Vec::new()),
        Err(Refusal::Room { needed }) => {
            let mut out = vec![T::default(); needed];
            call(&mut out)?;
            Ok(out)
        }
        Err(other) => Err(other),
    }
}

/// Reads a mesh from the bytes of its stream, as the original Rust does.
///
/// A flag is the whole number: in Type 4 one of 3 or more drops its vertex, in Types 6 and 7 one above 3 ends the mesh.
///
/// `decode` is the shading's Decode array: min and max of x, of y and of each component. Missing entries of a component are 0 and 1. What stands in
/// the stream after the last complete triangle or patch gives nothing.
///
/// # Errors
///
/// [`Refusal::Layout`], [`Refusal::Components`] and [`Refusal::Length`].
///
/// # Examples
///
/// Where the type is known, so is the kind of mesh:
///
/// ```
/// use station::{parse, Layout, Refusal, Type4};
///
/// # fn main() -> Result<(), Refusal> {
/// // flag, x, y and cyan, magenta, yellow, black of each vertex, in a byte each
/// let data = [
///     0, 0, 0, 255, 0, 0, 0, //
///     0, 100, 0, 0, 255, 0, 0, //
///     0, 0, 100, 0, 0, 255, 0,
/// ];
/// let layout = Layout { coordinate: 8, component: 8, flag: 8, components: 4 };
/// let decode = [0.0, 255.0, 0.0, 255.0, 0.0, 1.0, 0.0, 1.0, 0.0, 1.0, 0.0, 1.0];
/// let triangles = parse(Type4, &data, layout, &decode)?;
/// assert_eq!(triangles.len(), 1);
/// let [first, second, _] = triangles.get(0).unwrap().vertices();
/// assert_eq!(first.rgb(), &[0.0, 1.0, 1.0]);
/// assert_eq!(second.inks(), Some(&[0.0, 1.0, 0.0, 0.0]));
/// # Ok(())
/// # }
/// ```
///
/// Where it is known only when the program runs, a [`Mesh`](crate::Mesh) is answered:
///
/// ```
/// use station::{parse, tensor, Layout, Mesh, MeshKind, Refusal, TensorPatches, Triangles};
///
/// fn draw_triangles(triangles: &Triangles) {
///     // ..
/// }
///
/// fn draw_patches(patches: &TensorPatches) {
///     // ..
/// }
///
/// fn draw(kind: MeshKind, data: &[u8], layout: Layout, decode: &[f64]) -> Result<(), Refusal> {
///     match parse(kind, data, layout, decode)? {
///         Mesh::Triangles(triangles) => draw_triangles(&triangles),
///         Mesh::Coons(patches) => draw_patches(&tensor(&patches)),
///         Mesh::Tensor(patches) => draw_patches(&patches),
///     }
///     Ok(())
/// }
/// # let layout = Layout { coordinate: 8, component: 8, flag: 8, components: 1 };
/// # draw(MeshKind::Type6, &[0; 29], layout, &[0.0, 1.0, 0.0, 1.0]).unwrap();
/// ```
pub fn parse<K: MeshType>(
    kind: K,
    data: &[u8],
    layout: Layout,
    decode: &[f64],
) -> Result<K::Mesh, Refusal> {
    let numbers = whole(|out| slices::parse(kind.into(), data, layout, decode, out))?;
    Ok(kind.mesh(numbers, layout.components))
}

/// Reads a mesh from the bytes of its stream, as ISO 32000-1 has it, but for what the library's `docs/DIFFERENCES.md` lists.
///
/// A flag is its two low bits, whatever stands in the others. With flags below 4 it is proved that this is the mesh that [`parse`] reads. The refusals are
/// always the same.
///
/// # Errors
///
/// [`Refusal::Layout`], [`Refusal::Components`] and [`Refusal::Length`].
///
/// # Examples
///
/// ```
/// use station::{parse, published, Layout, Refusal, Type4};
///
/// # fn main() -> Result<(), Refusal> {
/// // flag, x and y of each vertex, in a byte each; 5 has the low bits of flag 1, which joins the fourth to the last two
/// let data = [0, 0, 0, 0, 100, 0, 0, 0, 100, 5, 100, 100];
/// let layout = Layout { coordinate: 8, component: 8, flag: 8, components: 0 };
/// let decode = [0.0, 255.0, 0.0, 255.0];
/// assert_eq!(published(Type4, &data, layout, &decode)?.len(), 2);
/// assert_eq!(parse(Type4, &data, layout, &decode)?.len(), 1);
/// # Ok(())
/// # }
/// ```
pub fn published<K: MeshType>(
    kind: K,
    data: &[u8],
    layout: Layout,
    decode: &[f64],
) -> Result<K::Mesh, Refusal> {
    let numbers = whole(|out| slices::published(kind.into(), data, layout, decode, out))?;
    Ok(kind.mesh(numbers, layout.components))
}

/// Builds a mesh from a list of numbers, flags among them, as the original Rust does.
///
/// The list has the numbers of a stream after Decode. In PostScript a shading's DataSource may be such an array.
///
/// # Errors
///
/// [`Refusal::Components`] and [`Refusal::Length`].
///
/// # Examples
///
/// ```
/// use station::{build, Refusal, Type6};
///
/// # fn main() -> Result<(), Refusal> {
/// // flag, the twelve points of a square's border, and the red, green and blue of each corner
/// let mut square = vec![0.0];
/// square.extend([0, 0, 0, 3, 0, 6, 0, 9, 3, 9, 6, 9, 9, 9, 9, 6, 9, 3, 9, 0, 6, 0, 3, 0].map(f64::from));
/// square.extend([[1.0, 0.0, 0.0], [0.0, 1.0, 0.0], [0.0, 0.0, 1.0], [0.5, 0.5, 0.5]].as_flattened());
/// let patches = build(Type6, &square, 3)?;
/// let patch = patches.get(0).unwrap();
/// assert_eq!(patch.points()[3], [0.0, 9.0]);
/// assert_eq!(patch.colours()[1].rgb(), &[0.0, 1.0, 0.0]);
/// # Ok(())
/// # }
/// ```
pub fn build<K: MeshType>(kind: K, values: &[f64], components: usize) -> Result<K::Mesh, Refusal> {
    let numbers = whole(|out| slices::build(kind.into(), values, components, out))?;
    Ok(kind.mesh(numbers, components))
}

/// Builds a mesh from a list of numbers, flags among them, by the flag rules of ISO 32000-1. In a list a flag is the whole number.
///
/// It and [`build`] differ in Type 4 where a flag 2 comes right after a flag 2, and in Type 7 after flags 1 to 3.
///
/// # Errors
///
/// [`Refusal::Components`] and [`Refusal::Length`].
///
/// # Examples
///
/// ```
/// use station::{build, build_published, Refusal, Type4};
///
/// # fn main() -> Result<(), Refusal> {
/// // flag, x and y of five vertices a b c d e, of which the last two come by flag 2
/// let values = [
///     0.0, 1.0, 0.0, 0.0, 2.0, 0.0, 0.0, 3.0, 0.0, 2.0, 4.0, 0.0, 2.0, 5.0, 0.0,
/// ];
/// let published = build_published(Type4, &values, 0)?;
/// let ported = build(Type4, &values, 0)?;
/// // the third triangle joins a d of the one before, or the third last vertex and the last
/// assert_eq!(published.get(2).unwrap().vertices().map(|v| v.x()), [1.0, 4.0, 5.0]);
/// assert_eq!(ported.get(2).unwrap().vertices().map(|v| v.x()), [2.0, 4.0, 5.0]);
/// # Ok(())
/// # }
/// ```
pub fn build_published<K: MeshType>(
    kind: K,
    values: &[f64],
    components: usize,
) -> Result<K::Mesh, Refusal> {
    let numbers = whole(|out| slices::build_published(kind.into(), values, components, out))?;
    Ok(kind.mesh(numbers, components))
}

/// Reads the raw numbers of a stream's complete records, flags among them, before Decode.
///
/// # Errors
///
/// [`Refusal::Layout`], [`Refusal::Components`] and [`Refusal::Length`].
///
/// # Examples
///
/// What [`raw_write`] accepts is read back exactly:
///
/// ```
/// use station::{raw_read, raw_write, Kind, Layout, Refusal};
///
/// # fn main() -> Result<(), Refusal> {
/// let layout = Layout { coordinate: 4, component: 4, flag: 2, components: 1 };
/// let numbers = [0, 9, 6, 15];
/// let bytes = raw_write(Kind::Type4, &numbers, layout)?;
/// assert_eq!(bytes, [0x25, 0xBC]);
/// assert_eq!(raw_read(Kind::Type4, &bytes, layout)?, numbers);
/// # Ok(())
/// # }
/// ```
pub fn raw_read(kind: Kind, data: &[u8], layout: Layout) -> Result<Vec<u32>, Refusal> {
    whole(|out| slices::raw_read(kind, data, layout, out))
}

/// Packs raw numbers, flags among them, into the bytes of a stream. The last byte is filled with zeros.
///
/// # Errors
///
/// [`Refusal::Layout`], [`Refusal::Components`], [`Refusal::Length`], [`Refusal::Thin`] and [`Refusal::Record`].
///
/// # Examples
///
/// ```
/// use station::{raw_write, Kind, Layout, Refusal};
///
/// let layout = Layout { coordinate: 3, component: 2, flag: 0, components: 1 };
/// assert_eq!(raw_write(Kind::Type5, &[5, 2, 3], layout), Ok(vec![0xAB]));
/// // 8 doesn't fit three bits
/// assert_eq!(raw_write(Kind::Type5, &[8, 2, 3], layout), Err(Refusal::Record));
/// ```
pub fn raw_write(kind: Kind, numbers: &[u32], layout: Layout) -> Result<Vec<u8>, Refusal> {
    whole(|out| slices::raw_write(kind, numbers, layout, out))
}

/// Turns Coons patches into tensor-product patches, of the same surface and the same colours.
///
/// The border and the colours are copied, and the four inner points are worked out by the formulas of ISO 32000-1, 8.7.4.5.8. Every Type 6 mesh can be
/// turned, however long it is, so nothing is refused: the archive is called for a part of the patches at a time.
///
/// # Examples
///
/// ```
/// use station::{build, tensor, Refusal, Type6};
///
/// # fn main() -> Result<(), Refusal> {
/// let mut square = vec![0.0];
/// square.extend([0, 0, 0, 3, 0, 6, 0, 9, 3, 9, 6, 9, 9, 9, 9, 6, 9, 3, 9, 0, 6, 0, 3, 0].map(f64::from));
/// square.extend([0.0, 0.25, 0.5, 0.75]);
/// let coons = build(Type6, &square, 1)?;
/// let tensor = tensor(&coons);
/// let points = tensor.get(0).unwrap().points();
/// assert_eq!(points[..12], coons.get(0).unwrap().points()[..]);
/// assert_eq!(points[12..], [[3.0, 3.0], [3.0, 6.0], [6.0, 6.0], [6.0, 3.0]]);
/// # Ok(())
/// # }
/// ```
pub fn tensor<S: AsRef<[f64]>>(patches: &CoonsPatches<S>) -> TensorPatches {
    /// The archive takes lists of at most so many numbers.
    const MOST_NUMBERS: usize = 1_048_576;
    let components = patches.components();
    let before = Patch::<12>::size(components);
    let after = Patch::<16>::size(components);
    let at_once = MOST_NUMBERS / before;
    let mut numbers = vec![0.0; patches.len() * after];
    let turned = numbers.chunks_mut(at_once * after);
    for (coons, tensor) in patches.numbers().chunks(at_once * before).zip(turned) {
        slices::coons_to_tensor(coons, components, tensor)
            .expect("whole patches of at most 32 components, and room for them");
    }
    TensorPatches::written(numbers, components)
}

/// Turns the raw numbers of a Type 6 stream, as [`raw_read`] answers them, into those of tensor-product patches, exactly.
///
/// The sides that flags 1 to 3 take over are filled in first. Each patch becomes 32 + 4 n numbers, without a flag: x and y of the 16 points, each exactly
/// nine times the coordinate, then the four colours of n raw components as they are.
///
/// # Errors
///
/// [`Refusal::Components`], [`Refusal::Length`] and [`Refusal::Record`].
///
/// # Examples
///
/// ```
/// use station::{tensor_raw, Refusal};
///
/// # fn main() -> Result<(), Refusal> {
/// // flag and border of a patch without colours, whose p01 alone isn't at 0, 0
/// let mut patch = [0; 25];
/// patch[3] = 1;
/// let numbers = tensor_raw(&patch, 0)?;
/// assert_eq!(numbers.len(), 32);
/// assert_eq!(numbers[2..4], [9, 0]); // p01 is 1, 0
/// assert_eq!(numbers[24..26], [6, 0]); // p11 is 6 / 9, 0
/// # Ok(())
/// # }
/// ```
pub fn tensor_raw(numbers: &[u32], components: usize) -> Result<Vec<i64>, Refusal> {
    whole(|out| slices::coons_to_tensor_raw(numbers, components, out))
}
