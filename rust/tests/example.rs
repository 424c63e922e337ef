//! The example prints what it says.

#[allow(dead_code)]
#[path = "../examples/read_mesh.rs"]
mod read_mesh;

#[test]
fn two_triangles_and_a_refusal() {
    let printed = "\
2 triangles
x 0 y 0 grey 0.000
x 100 y 0 grey 0.502
x 0 y 100 grey 1.000
x 100 y 0 grey 0.502
x 0 y 100 grey 1.000
x 100 y 100 grey 0.251
with no Decode: refused 1, LAYOUT: a width of the mesh is outside 1 to 32 bits, or Decode has under four entries: the mesh can't be read
";
    assert_eq!(read_mesh::listing().as_deref(), Ok(printed));
}
