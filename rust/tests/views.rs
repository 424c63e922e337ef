//! The views show each number of a mesh where it stands.

mod samples;

use samples::{bytes, decode, layout, values, KINDS};
use station::{build, parse, published, slices, tensor};
use station::{Colour, CoonsPatches, Mesh, MeshKind, Refusal, TensorPatches, Triangles};
use station::{Type4, Type5, Type6, Type7, Vertex};
use std::ptr;

/// A triangle of three vertices with the same colour.
fn coloured(components: &[f64]) -> Triangles {
    let mut list = Vec::new();
    for point in [[0.0, 1.0], [2.0, 3.0], [4.0, 5.0]] {
        list.push(0.0);
        list.extend(point);
        list.extend(components);
    }
    build(Type4, &list, components.len()).expect("a triangle")
}

fn check_colour(colour: Colour, rgb: [f64; 3], inks: Option<[f64; 4]>, components: &[f64]) {
    assert_eq!(colour.rgb(), &rgb);
    assert_eq!(colour.inks(), inks.as_ref());
    assert_eq!(colour.components(), components);
}

#[test]
fn a_colour_of_each_count_of_components() {
    for (components, rgb, inks) in [
        ([].as_slice(), [0.0; 3], None),
        (&[0.25], [0.25; 3], None),
        (&[0.25, 0.5], [0.0; 3], None),
        (&[0.25, 1.5, -2.0], [0.25, 1.0, 0.0], None),
        (
            &[1.0, 0.0, 1.5, 0.0],
            [0.0, 1.0, 0.0],
            Some([1.0, 0.0, 1.0, 0.0]),
        ),
        // no inks are inks all the same
        (&[0.0; 4], [1.0; 3], Some([0.0; 4])),
        (&[0.25, 0.5, 0.75, 1.0, 3.0], [0.25, 0.5, 0.75], None),
    ] {
        let triangles = coloured(components);
        assert_eq!(triangles.components(), components.len());
        let vertices = triangles.get(0).expect("a triangle").vertices();
        for (vertex, point) in vertices.iter().zip([[0.0, 1.0], [2.0, 3.0], [4.0, 5.0]]) {
            assert_eq!([vertex.x(), vertex.y()], point);
            assert_eq!(vertex.point(), &point);
            check_colour(vertex.colour(), rgb, inks, components);
            let colour = vertex.colour();
            assert_eq!(vertex.rgb(), colour.rgb());
            assert_eq!(vertex.inks(), colour.inks());
            assert_eq!(vertex.components(), colour.components());
        }
    }
}

#[test]
fn a_view_is_a_part_of_the_mesh() {
    let triangles = parse(Type4, &bytes(KINDS[0], 4), layout(4), &decode(4)).expect("a mesh");
    let numbers = triangles.numbers();
    let [_, _, vertex] = triangles.get(1).expect("a triangle").vertices();
    let at = 42 + 28;
    assert!(ptr::eq(vertex.point().as_slice(), &numbers[at..at + 2]));
    assert!(ptr::eq(vertex.rgb().as_slice(), &numbers[at + 2..at + 5]));
    let inks = vertex.inks().expect("four components");
    assert!(ptr::eq(inks.as_slice(), &numbers[at + 6..at + 10]));
    assert!(ptr::eq(vertex.components(), &numbers[at + 10..at + 14]));

    let patches = parse(Type7, &bytes(KINDS[3], 4), layout(4), &decode(4)).expect("a mesh");
    let numbers = patches.numbers();
    let patch = patches.get(1).expect("a patch");
    let points = patch.points().as_flattened();
    assert!(ptr::eq(points, &numbers[80..112]));
    let [.., last] = patch.colours();
    assert!(ptr::eq(last.rgb().as_slice(), &numbers[148..151]));
    assert!(ptr::eq(last.components(), &numbers[156..160]));
    assert_eq!(numbers.len(), 160);
}

/// The first component of each colour.
fn firsts<const COUNT: usize>(colours: [Colour; COUNT]) -> [f64; COUNT] {
    colours.map(|colour| colour.components()[0])
}

#[test]
fn the_triangles_of_a_joined_vertex() {
    // vertices of x, y, grey: 1 2 3, 4 5 6, 7 8 9, and 10 11 12 joined by flag 1
    let triangles = build(Type4, &values(KINDS[0], 1), 1).expect("a mesh");
    let greys = triangles
        .iter()
        .map(|triangle| triangle.vertices().map(|vertex| vertex.components()[0]));
    assert!(greys.eq([[3.0, 6.0, 9.0], [6.0, 9.0, 12.0]]));
}

#[test]
fn the_triangles_of_a_lattice() {
    // vertices of x, y, grey: 1 2 3, 4 5 6, 7 8 9 in the first row, and so on
    let kind = Type5 { row_length: 3 };
    let triangles = build(kind, &values(kind.into(), 1), 1).expect("a mesh");
    let first = triangles.get(0).expect("a triangle").vertices();
    assert_eq!(
        first.map(|vertex| *vertex.point()),
        [[1.0, 2.0], [4.0, 5.0], [10.0, 11.0]]
    );
    assert_eq!(triangles.len(), 4);
}

#[test]
fn the_points_and_colours_of_patches() {
    let coons = build(Type6, &values(KINDS[2], 1), 1).expect("a mesh");
    let [first, second] = [0, 1].map(|place| coons.get(place).expect("a patch"));
    let counted: [[f64; 2]; 12] = std::array::from_fn(|i| [2 * i + 1, 2 * i + 2].map(|x| x as f64));
    assert_eq!(first.points(), &counted);
    assert_eq!(firsts(first.colours()), [25.0, 26.0, 27.0, 28.0]);
    // flag 1 takes over points 3 to 6 and colours 1 and 2
    assert_eq!(second.points()[..4], counted[3..7]);
    assert_eq!(second.points()[4..6], [[29.0, 30.0], [31.0, 32.0]]);
    assert_eq!(firsts(second.colours()), [26.0, 27.0, 45.0, 46.0]);

    let tensor = published(Type7, &bytes(KINDS[3], 1), layout(1), &decode(1)).expect("a mesh");
    let [first, second] = [0, 1].map(|place| tensor.get(place).expect("a patch"));
    assert_eq!(first.points().len(), 16);
    assert_eq!(first.points()[15], [31.0, 32.0]);
    assert_eq!(firsts(first.colours()), [33.0, 34.0, 35.0, 36.0]);
    // flag 3 takes over points 9, 10, 11 and 0, and colours 3 and 0
    let side = [9, 10, 11, 0].map(|place| first.points()[place]);
    assert_eq!(second.points()[..4], side);
    assert_eq!(firsts(second.colours()), [36.0, 33.0, 61.0, 62.0]);
}

#[test]
fn a_kind_of_its_own_answers_what_a_mesh_kind_does() {
    let n = 3;
    let (l, decode) = (layout(n), decode(n));
    for kind in KINDS {
        let data = bytes(kind, n);
        let mesh = parse(kind, &data, l, &decode).expect("a mesh");
        let typed = match kind {
            MeshKind::Type4 => parse(Type4, &data, l, &decode).map(Mesh::Triangles),
            MeshKind::Type5 { row_length } => {
                parse(Type5 { row_length }, &data, l, &decode).map(Mesh::Triangles)
            }
            MeshKind::Type6 => parse(Type6, &data, l, &decode).map(Mesh::Coons),
            MeshKind::Type7 => parse(Type7, &data, l, &decode).map(Mesh::Tensor),
        };
        assert_eq!(typed, Ok(mesh));
    }
}

#[test]
fn an_iterator_knows_its_length_and_goes_both_ways() {
    let kind = Type5 { row_length: 3 };
    let triangles = build(kind, &values(kind.into(), 0), 0).expect("a mesh");
    let mut iter = triangles.iter();
    assert_eq!(iter.len(), 4);
    assert_eq!(iter.next(), triangles.get(0));
    assert_eq!(iter.next_back(), triangles.get(3));
    assert_eq!(iter.len(), 2);
    assert_eq!(iter.nth(1), triangles.get(2));
    assert_eq!((iter.next(), iter.len()), (None, 0));
    assert_eq!(triangles.get(4), None);
    assert_eq!(triangles.get(usize::MAX), None);
    let mut count = 0;
    for triangle in &triangles {
        assert_eq!(Some(triangle), triangles.get(count));
        count += 1;
    }
    assert_eq!(count, triangles.len());
}

#[test]
fn an_empty_mesh_has_nothing_to_view() {
    let triangles = parse(Type4, &[0; 11], layout(1), &decode(1)).expect("no triangle");
    assert_eq!((triangles.len(), triangles.is_empty()), (0, true));
    assert_eq!(triangles.components(), 1);
    assert_eq!(triangles.get(0), None);
    assert_eq!(triangles.iter().next(), None);
    assert!(triangles.numbers().is_empty());
    let patches = parse(Type6, &[0; 28], layout(1), &decode(1)).expect("no patch");
    assert!(patches.is_empty());
    assert!(tensor(&patches).is_empty());
    assert!(!coloured(&[0.5]).is_empty());
}

#[test]
fn views_over_an_output_that_was_lent() {
    let mut out = vec![-7.0; 200];
    let (kind, data) = (KINDS[0], bytes(KINDS[0], 1));
    let count = slices::parse(kind, &data, layout(1), &decode(1), &mut out);
    assert_eq!(count, Ok(2));
    let lent = Triangles::lent(&out, 2, 1).expect("two triangles");
    let owned = parse(Type4, &data, layout(1), &decode(1)).expect("two triangles");
    assert!(lent.iter().eq(&owned));
    assert_eq!(lent.numbers(), owned.numbers());

    // a view may outlive what it was taken from, as long as the numbers are there
    fn last_vertex(out: &[f64]) -> Option<Vertex<'_>> {
        let [_, _, last] = Triangles::lent(out, 2, 1)?
            .into_iter()
            .next_back()?
            .vertices();
        Some(last)
    }
    let last = last_vertex(&out).expect("a vertex");
    assert_eq!((last.x(), last.y()), (10.0, 11.0));

    let (kind, data) = (KINDS[2], bytes(KINDS[2], 1));
    let count = slices::parse(kind, &data, layout(1), &decode(1), &mut out);
    assert_eq!(count, Ok(2));
    let lent = CoonsPatches::lent(&out, 2, 1).expect("two patches");
    let owned = parse(Type6, &data, layout(1), &decode(1)).expect("two patches");
    assert!(lent.iter().eq(&owned));
    assert_eq!(tensor(&lent), tensor(&owned));
}

#[test]
fn an_output_too_small_for_its_count_has_no_view() {
    let out = [0.0; 68];
    assert_eq!(Triangles::lent(&out, 2, 1).map(|t| t.len()), Some(2));
    assert_eq!(Triangles::lent(&out[..66], 2, 1).map(|t| t.len()), Some(2));
    assert_eq!(Triangles::lent(&out[..65], 2, 1), None);
    assert_eq!(Triangles::lent(&out, usize::MAX, 1), None);
    // 30 times this is a multiple of 2 ^ 64
    assert_eq!(Triangles::lent(&out, 1 << 63, 0), None);
    assert_eq!(Triangles::lent(&[], 0, 32).map(|t| t.len()), Some(0));
    assert_eq!(Triangles::lent(&[], 0, 33), None);
    assert_eq!(Triangles::lent(&[], 0, usize::MAX), None);
    assert_eq!(
        CoonsPatches::lent(&out[..60], 1, 1).map(|p| p.len()),
        Some(1)
    );
    assert_eq!(CoonsPatches::lent(&out[..59], 1, 1), None);
    assert_eq!(TensorPatches::lent(&out, 1, 1).map(|p| p.len()), Some(1));
    assert_eq!(TensorPatches::lent(&out[..67], 1, 1), None);
}

#[test]
fn a_mesh_prints_by_its_parts() {
    let printed = format!("{:?}", coloured(&[0.5]));
    let vertex = "Vertex { x: 0.0, y: 1.0, colour: Colour { rgb: [0.5, 0.5, 0.5], inks: None, components: [0.5] } }";
    assert!(
        printed.starts_with(&format!("[Triangle([{vertex}, ")),
        "{printed}"
    );
}

#[test]
fn a_refusal_goes_on_as_an_error() {
    fn read() -> Result<Triangles, Box<dyn std::error::Error + Send + Sync>> {
        Ok(parse(Type4, &[], layout(33), &decode(33))?)
    }
    let error = read().expect_err("a refusal");
    assert_eq!(error.downcast_ref(), Some(&Refusal::Components));
}
