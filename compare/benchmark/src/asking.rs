//! What it costs to ask how large an answer is: a call with no output, as a share of the same call with exactly the room that it then gets.

use crate::meshes::{mesh_kind, KINDS};
use crate::stream;
use crate::timing::{medians, summary};
use station::slices::{build, parse, raw_read, raw_write};
use station::{Layout, Refusal};
use std::hint::black_box;

/// Streams of so many bytes, and lists of so many numbers.
const SIZES: [usize; 2] = [1 << 10, 1 << 20];

/// Times a call that asks beside the one that writes.
fn share<T: Copy + Default>(mut call: impl FnMut(&mut [T]) -> Result<usize, Refusal>) -> f64 {
    let Err(Refusal::Room { needed }) = call(&mut []) else {
        panic!("there is something to write");
    };
    let mut out = vec![T::default(); needed];
    call(&mut out).expect("as much room as was told");
    let call = std::cell::RefCell::new(call);
    // short inputs are run again and again, so that the clock's own steps don't count
    let turns = 200_000 / needed + 1;
    let run = |out: &mut [T]| {
        for _ in 0..turns {
            let _ = black_box(call.borrow_mut()(black_box(out)));
        }
    };
    let [ask, write] = medians([&mut || run(&mut []), &mut || run(&mut out)]);
    ask / write
}

pub fn print() {
    println!("asking with no output: time / that of the same call with the room it needs");
    println!("type  comps      size    read   build  raw read  raw write");
    let mut shares = [const { Vec::new() }; 4];
    for kind in KINDS {
        for components in [1, 4] {
            for size in SIZES {
                let l = Layout {
                    coordinate: 16,
                    component: 8,
                    flag: 8,
                    components,
                };
                let decode = [0.0, 100.0, 0.0, 100.0];
                let data = stream::bytes(kind, l, size);
                let values = stream::numbers(kind, components, size);
                let list = station::raw_read(kind, &data, l).expect("readable");
                let mesh = mesh_kind(kind);
                let row = [
                    share(|out| parse(mesh, &data, l, &decode, out)),
                    share(|out| build(mesh, &values, components, out)),
                    share(|out| raw_read(kind, &data, l, out)),
                    share(|out| raw_write(kind, &list, l, out)),
                ];
                let [read, build, raw_read, raw_write] = row;
                println!(
                    "{:>4}  {components:>5}  {size:>8}  {read:>6.3}  {build:>6.3}  {raw_read:>8.3}  {raw_write:>9.3}",
                    &format!("{kind:?}")[4..],
                );
                for (all, one) in shares.iter_mut().zip(row) {
                    all.push(one);
                }
            }
        }
    }
    let [read, build, raw_read, raw_write] = shares.map(|all| summary(&all));
    println!("geometric mean, worst: read {read:.3?}, build {build:.3?}, raw read {raw_read:.3?}, raw write {raw_write:.3?}");
}
