//! Reads a mesh and prints its triangles; then a call that is refused, and why.

use station::{parse, Layout, Refusal, Type4};

/// Type 4, one grey component: a triangle, then a vertex whose flag 1 joins it to the last two.
const DATA: [u8; 16] = [0, 0, 0, 0, 0, 100, 0, 128, 0, 0, 100, 255, 1, 100, 100, 64];

const LAYOUT: Layout = Layout {
    coordinate: 8,
    component: 8,
    flag: 8,
    components: 1,
};

/// Min and max of x, of y and of the component.
const DECODE: [f64; 6] = [0.0, 255.0, 0.0, 255.0, 0.0, 1.0];

/// The lines to be printed.
pub fn listing() -> Result<String, Refusal> {
    let triangles = parse(Type4, &DATA, LAYOUT, &DECODE)?;
    let mut lines = format!("{} triangles\n", triangles.len());
    for vertex in triangles.iter().flat_map(|triangle| triangle.vertices()) {
        let (x, y, grey) = (vertex.x(), vertex.y(), vertex.components()[0]);
        lines += &format!("x {x} y {y} grey {grey:.3}\n");
    }
    if let Err(refusal) = parse(Type4, &DATA, LAYOUT, &[]) {
        lines += &format!("with no Decode: {refusal}\n");
    }
    Ok(lines)
}

fn main() -> Result<(), Refusal> {
    print!("{}", listing()?);
    Ok(())
}
