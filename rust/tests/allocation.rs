//! A mesh is one allocation of exactly the right size, and its views are none.

mod samples;

use samples::{bytes, decode, layout, numbers, raw_kind, size, values, COMPONENTS, KINDS};
use station::{Mesh, Patches, Refusal, Triangles};
use std::alloc::{GlobalAlloc, Layout, System};
use std::cell::Cell;

thread_local! {
    /// The sizes of this thread's allocations: how many there were, and their sum.
    static TAKEN: Cell<(usize, usize)> = const { Cell::new((0, 0)) };
}

struct Counted;

fn count(bytes: usize) {
    let (times, sum) = TAKEN.get();
    TAKEN.set((times + 1, sum + bytes));
}

unsafe impl GlobalAlloc for Counted {
    unsafe fn alloc(&self, layout: Layout) -> *mut u8 {
        count(layout.size());
        unsafe { System.alloc(layout) }
    }

    unsafe fn alloc_zeroed(&self, layout: Layout) -> *mut u8 {
        count(layout.size());
        unsafe { System.alloc_zeroed(layout) }
    }

    unsafe fn realloc(&self, place: *mut u8, layout: Layout, size: usize) -> *mut u8 {
        count(size);
        unsafe { System.realloc(place, layout, size) }
    }

    unsafe fn dealloc(&self, place: *mut u8, layout: Layout) {
        unsafe { System.dealloc(place, layout) }
    }
}

#[global_allocator]
static ALLOCATOR: Counted = Counted;

/// What a call answers, and what it took: how many allocations, and their bytes.
fn taken<T>(call: impl FnOnce() -> T) -> (T, (usize, usize)) {
    TAKEN.set((0, 0));
    let answer = call();
    (answer, TAKEN.get())
}

fn into_numbers(mesh: Mesh) -> Vec<f64> {
    match mesh {
        Mesh::Triangles(triangles) => triangles.into_numbers(),
        Mesh::Coons(patches) => patches.into_numbers(),
        Mesh::Tensor(patches) => patches.into_numbers(),
    }
}

#[test]
fn a_mesh_is_one_allocation() {
    for kind in KINDS {
        for n in COMPONENTS {
            let (data, list, decode) = (bytes(kind, n), values(kind, n), decode(n));
            let (count, each) = size(kind, n);
            let needed = count * each;
            let check = |call: &dyn Fn() -> Result<Mesh, Refusal>| {
                let (numbers, took) = taken(|| into_numbers(call().expect("a mesh")));
                assert_eq!(took, (1, 8 * needed));
                assert_eq!((numbers.len(), numbers.capacity()), (needed, needed));
            };
            check(&|| station::parse(kind, &data, layout(n), &decode));
            check(&|| station::published(kind, &data, layout(n), &decode));
            check(&|| station::build(kind, &list, n));
            check(&|| station::build_published(kind, &list, n));
        }
    }
}

#[test]
fn patches_turned_are_one_allocation() {
    // 20,000 patches are turned in two parts
    let list = [0.0; 25].repeat(20_000);
    let coons = station::build(station::Type6, &list, 0).expect("patches");
    let (tensor, took) = taken(|| station::tensor(&coons));
    assert_eq!(took, (1, 8 * 20_000 * 64));
    assert_eq!(tensor.into_numbers().capacity(), 20_000 * 64);
}

#[test]
fn raw_answers_are_one_allocation() {
    for kind in KINDS {
        let (data, list) = (bytes(kind, 1), numbers(kind, 1));
        let (kind, count) = (raw_kind(kind), list.len());
        let (read, took) = taken(|| station::raw_read(kind, &data, layout(1)));
        assert_eq!((read.as_ref(), took), (Ok(&list), (1, 4 * count)));
        let (written, took) = taken(|| station::raw_write(kind, &list, layout(1)));
        assert_eq!((written.as_ref(), took), (Ok(&data), (1, count)));
    }
    let list = numbers(KINDS[2], 1);
    let (turned, took) = taken(|| station::tensor_raw(&list, 1));
    assert_eq!(turned.map(|numbers| numbers.len()), Ok(72));
    assert_eq!(took, (1, 8 * 72));
}

#[test]
fn an_empty_answer_and_a_refusal_are_none() {
    for kind in KINDS {
        let (mesh, took) = taken(|| station::parse(kind, &[], layout(1), &[0.0; 4]));
        assert_eq!(into_numbers(mesh.expect("an empty mesh")), []);
        assert_eq!(took, (0, 0));
        let (refused, took) = taken(|| station::parse(kind, &[], layout(33), &[0.0; 4]));
        assert_eq!(refused, Err(Refusal::Components));
        assert_eq!(took, (0, 0));
    }
}

#[test]
fn views_are_none() {
    fn sum(numbers: &[f64]) -> f64 {
        numbers.iter().sum()
    }

    fn sum_of_patches<const POINTS: usize>(patches: &Patches<POINTS>) -> f64 {
        let parts = |patch: station::Patch<POINTS>| {
            let colours = patch.colours().map(|c| sum(c.rgb()) + sum(c.components()));
            sum(patch.points().as_flattened()) + sum(&colours)
        };
        patches.iter().map(parts).sum()
    }

    fn sum_of_triangles(triangles: &Triangles) -> f64 {
        let vertices = triangles.iter().flat_map(|t| t.vertices());
        vertices
            .map(|v| v.x() + v.y() + sum(v.rgb()) + sum(v.components()))
            .sum()
    }

    for kind in KINDS {
        let mesh = station::build(kind, &values(kind, 1), 1).expect("a mesh");
        let (sum, took) = taken(|| match &mesh {
            Mesh::Triangles(triangles) => sum_of_triangles(triangles),
            Mesh::Coons(patches) => sum_of_patches(patches),
            Mesh::Tensor(patches) => sum_of_patches(patches),
        });
        assert!(sum > 0.0);
        assert_eq!(took, (0, 0));
    }
}
