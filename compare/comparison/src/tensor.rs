//! Coons patches turned into tensor patches: held against a computation of our own, against the surfaces that the clauses define, and against
//! the patch before along the side that a joined one takes over.

use crate::asking::Whole;
use crate::case::{hex, text, Case, Room, MOST_COMPONENTS, MOST_NUMBERS, MOST_RESHAPED};
use crate::checks::{flags, Fault, SIDES};
use crate::lent::{Lent, Place};
use crate::library::{Library, Reading};
use crate::record::{breaks_a_rule, shape, size};
use crate::reshape::{without_a_component, without_a_record};
use crate::shrink::{lower, smaller_lists, Shrinks};
use crate::surface::{check_surface, AXES, GRID};
use rows::same_number;
use station::{Kind, Layout, Refusal};
use std::fmt;

#[derive(Clone, Debug)]
pub enum Task {
    /// Raw Type 6 numbers.
    Raw(Vec<u32>),
    /// Rows of Type 6 patches.
    Rows(Vec<f64>),
    /// A Type 6 mesh, whose rows the ported reader writes. Its room isn't used: the reader is lent just enough.
    Read(Case),
}

/// What one of the two functions is asked. A mesh that is read has its own count of components.
#[derive(Clone, Debug)]
pub struct TensorCase {
    pub components: usize,
    pub task: Task,
    pub room: Room,
}

/// The outputs that the reader and the two functions are lent.
pub struct TensorLent {
    raw: Lent<i64>,
    coons: Lent<f64>,
    rows: Lent<f64>,
}

impl TensorLent {
    pub fn new() -> Self {
        TensorLent {
            raw: Lent::new(),
            coons: Lent::new(),
            rows: Lent::new(),
        }
    }
}

/// What agreed: the count of patches or the refusal, and how many numbers.
pub struct TensorAgreed {
    pub count: Result<usize, Refusal>,
    pub numbers: usize,
}

/// How many numbers stand before the colours of a Coons patch, and of a tensor patch.
const COONS: usize = 24;
const TENSOR: usize = 32;

/// The inner points pij in the tensor stream's order.
const INNER: [(usize, usize); 4] = [(1, 1), (1, 2), (2, 2), (2, 1)];

/// The points that an inner one is made of, in the order of the formula for p11. Those of the other three are its mirror images.
fn around<T>((i, j): (usize, usize), point: impl Fn(usize) -> T) -> [T; 8] {
    let mirrored = |inner: usize, k: usize| if inner == 1 { k } else { 3 - k };
    [
        (0, 0),
        (0, 1),
        (1, 0),
        (0, 3),
        (3, 0),
        (3, 1),
        (1, 3),
        (3, 3),
    ]
    .map(|(k, l)| point(GRID[mirrored(i, k)][mirrored(j, l)]))
}

/// The twelve points and four colours of a raw patch.
#[derive(Clone, Copy)]
struct RawPatch<'a> {
    flag: u32,
    points: [[u32; 2]; 12],
    colours: [&'a [u32]; 4],
}

/// The patches of a list that keeps the rules, with the sides that they take over.
fn raw_patches(components: usize, list: &[u32]) -> Vec<RawPatch<'_>> {
    let mut patches: Vec<RawPatch> = Vec::new();
    let mut rest = list;
    while let Some(&flag) = rest.first() {
        let (record, after) = rest.split_at(size(Kind::Type6, components, flag));
        let (coordinates, colours) = shape(Kind::Type6, flag);
        let mut patch = RawPatch {
            flag,
            points: [[0; 2]; 12],
            colours: [&[]; 4],
        };
        if let (1.., Some(before)) = (flag, patches.last()) {
            let (points, colours) = SIDES[flag as usize - 1];
            for (to, from) in points.into_iter().enumerate() {
                patch.points[to] = before.points[from];
            }
            for (to, from) in colours.into_iter().enumerate() {
                patch.colours[to] = before.colours[from];
            }
        }
        let (own_points, own_colours) = record[1..].split_at(coordinates);
        let points = &mut patch.points[12 - coordinates / 2..];
        for (point, pair) in points.iter_mut().zip(own_points.chunks(2)) {
            *point = [pair[0], pair[1]];
        }
        for (i, colour) in patch.colours[4 - colours..].iter_mut().enumerate() {
            *colour = &own_colours[i * components..][..components];
        }
        patches.push(patch);
        rest = after;
    }
    patches
}

/// The numbers of a raw patch turned: nine times the sixteen points, then the colours.
fn raw_turned(patch: &RawPatch<'_>, out: &mut Vec<i64>) {
    let mut put = |wide: i128| out.push(i64::try_from(wide).expect("eighteen times a u32 at most"));
    for &x in patch.points.as_flattened() {
        put(9 * i128::from(x));
    }
    for inner in INNER {
        for axis in 0..2 {
            let [a, b, c, d, e, f, g, h] =
                around(inner, |place| i128::from(patch.points[place][axis]));
            put(-4 * a + 6 * (b + c) - 2 * (d + e) + 3 * (f + g) - h);
        }
    }
    for &x in patch.colours.iter().copied().flatten() {
        put(x.into());
    }
}

/// A row turned: border and colours copied, each inner coordinate in the written order.
fn row_turned(row: &[f64], out: &mut Vec<f64>) {
    let (border, colours) = row.split_at(COONS);
    out.extend(border);
    for inner in INNER {
        for axis in 0..2 {
            let [a, b, c, d, e, f, g, h] = around(inner, |place| border[2 * place + axis]);
            let sum = ((-4.0 * a + 6.0 * (b + c)) - 2.0 * (d + e)) + 3.0 * (f + g);
            out.push((sum - h) / 9.0);
        }
    }
    out.extend(colours);
}

/// The refusals of the table that come before RECORD, in its order.
fn refused_at_once(components: usize, length: usize) -> Option<Refusal> {
    if components > MOST_COMPONENTS {
        Some(Refusal::Components)
    } else {
        (length > MOST_NUMBERS).then_some(Refusal::Length)
    }
}

/// The refusal of a raw list before ROOM. Numbers of 32 bits fit any width.
fn raw_refused(components: usize, list: &[u32]) -> Option<Refusal> {
    let any = Layout {
        coordinate: 32,
        component: 32,
        flag: 32,
        components,
    };
    refused_at_once(components, list.len())
        .or_else(|| breaks_a_rule(Kind::Type6, any, list).then_some(Refusal::Record))
}

/// The refusal of rows before ROOM.
fn rows_refused(components: usize, values: &[f64]) -> Option<Refusal> {
    refused_at_once(components, values.len()).or_else(|| {
        let is_whole = values.len().is_multiple_of(COONS + 4 * (8 + components));
        (!is_whole).then_some(Refusal::Record)
    })
}

impl TensorCase {
    pub fn check(
        &self,
        library: &dyn Library,
        lent: &mut TensorLent,
    ) -> Result<TensorAgreed, Fault> {
        match &self.task {
            Task::Raw(list) => self.check_raw(list, library, &mut lent.raw),
            Task::Rows(values) => self.check_rows(self.components, values, library, &mut lent.rows),
            Task::Read(mesh) => self.check_read(mesh, library, lent),
        }
    }

    fn check_raw(
        &self,
        list: &[u32],
        library: &dyn Library,
        lent: &mut Lent<i64>,
    ) -> Result<TensorAgreed, Fault> {
        let n = self.components;
        let refusal = raw_refused(n, list);
        let patches = match refusal {
            Some(_) => Vec::new(),
            None => raw_patches(n, list),
        };
        let mut full = Vec::new();
        for patch in &patches {
            raw_turned(patch, &mut full);
        }
        let whole = Whole {
            count: refusal.map_or(Ok(patches.len()), Err),
            numbers: &full,
        };
        let call = |out: &mut [i64]| library.coons_to_tensor_raw(list, n, out);
        whole.ask(self.room, lent, call, |ours| {
            check_raw_output(n, &patches, &full, ours)
        })?;
        Ok(TensorAgreed {
            count: whole.count,
            numbers: full.len(),
        })
    }

    fn check_rows(
        &self,
        n: usize,
        values: &[f64],
        library: &dyn Library,
        lent: &mut Lent<f64>,
    ) -> Result<TensorAgreed, Fault> {
        let refusal = rows_refused(n, values);
        let rows: Vec<&[f64]> = match refusal {
            Some(_) => Vec::new(),
            None => values.chunks(COONS + 4 * (8 + n)).collect(),
        };
        let mut full = Vec::new();
        for row in &rows {
            row_turned(row, &mut full);
        }
        let whole = Whole {
            count: refusal.map_or(Ok(rows.len()), Err),
            numbers: &full,
        };
        let call = |out: &mut [f64]| library.coons_to_tensor(values, n, out);
        whole.ask(self.room, lent, call, |ours| {
            check_rows_output(n, &rows, &full, ours)
        })?;
        Ok(TensorAgreed {
            count: whole.count,
            numbers: full.len(),
        })
    }

    /// Turns what the reader writes, and looks at the sides that joined patches share.
    fn check_read(
        &self,
        mesh: &Case,
        library: &dyn Library,
        lent: &mut TensorLent,
    ) -> Result<TensorAgreed, Fault> {
        let n = mesh.layout.components;
        let refusal = mesh.refused_at_once();
        let flags = match refusal {
            Some(_) => Vec::new(),
            None => flags(mesh).expect("patches have flags"),
        };
        let room = flags.iter().map(|_| mesh.stride()).sum();
        let coons = &mut lent.coons;
        coons.prepare(&[], room);
        let answer = coons.lend(room, |out| library.mesh(Reading::Ported, mesh, out));
        let expected = refusal.map_or(Ok(flags.len()), Err);
        if answer != expected {
            let fault = Fault::of_answer(expected, answer);
            return Err(Fault {
                place: "the reader's answer".into(),
                ..fault.with(room)
            });
        }
        let agreed = self.check_rows(n, coons.written(room), library, &mut lent.rows)?;
        if agreed.count.is_ok() {
            check_sides(&flags, 8 + n, lent.rows.written(agreed.numbers))
                .map_err(|fault| fault.after(answer))?;
        }
        Ok(agreed)
    }
}

/// Holds raw patches turned against our numbers, the patches before them and their surfaces.
fn check_raw_output(
    n: usize,
    patches: &[RawPatch<'_>],
    full: &[i64],
    ours: &[i64],
) -> Result<(), Fault> {
    let stride = TENSOR + 4 * n;
    check_places(full, ours, stride, |_, a, b| a == b)?;
    let flags: Vec<u32> = patches.iter().map(|patch| patch.flag).collect();
    check_sides(&flags, n, ours)?;
    for (i, (patch, turned)) in patches.iter().zip(ours.chunks(stride)).enumerate() {
        for axis in 0..2 {
            let border = patch.points.map(|point| i128::from(point[axis]));
            let nine_fold = std::array::from_fn(|k| i128::from(turned[2 * k + axis]));
            check_surface(i, axis, border, nine_fold)?;
        }
    }
    Ok(())
}

/// Holds rows turned against our numbers, copies bit for bit and computed NaNs as one, and against their surfaces.
fn check_rows_output(n: usize, rows: &[&[f64]], full: &[f64], ours: &[f64]) -> Result<(), Fault> {
    let stride = TENSOR + 4 * (8 + n);
    check_places(full, ours, stride, |place, a, b| {
        let is_computed = (COONS..TENSOR).contains(&place);
        a.to_bits() == b.to_bits() || is_computed && same_number(a, b)
    })?;
    for (i, (row, turned)) in rows.iter().zip(ours.chunks(stride)).enumerate() {
        check_whole_surface(i, &row[..COONS], &turned[..TENSOR])?;
    }
    Ok(())
}

/// Names a place of a tensor patch, of so many numbers.
fn place_name(place: usize, stride: usize) -> String {
    let colour = (stride - TENSOR) / 4;
    if place < TENSOR {
        format!("point {}, {}", place / 2, AXES[place % 2])
    } else {
        let place = place - TENSOR;
        format!("colour {}, number {}", place / colour, place % colour)
    }
}

/// Holds the numbers written against ours, by what counts as the same at a place of a patch.
fn check_places<T: Place>(
    full: &[T],
    ours: &[T],
    stride: usize,
    is_same: impl Fn(usize, T, T) -> bool,
) -> Result<(), Fault> {
    for (i, (&a, &b)) in full.iter().zip(ours).enumerate() {
        let (patch, place) = (i / stride, i % stride);
        if !is_same(place, a, b) {
            return Err(Fault::of_bits(
                format!("patch {patch}, {}", place_name(place, stride)),
                a.bits(),
                b.bits(),
            ));
        }
    }
    Ok(())
}

/// Holds what a joined patch takes over, points and colours, against the patch before it in the output.
fn check_sides<T: Place>(flags: &[u32], colour: usize, ours: &[T]) -> Result<(), Fault> {
    let stride = TENSOR + 4 * colour;
    for (row, pair) in ours.windows(2 * stride).step_by(stride).enumerate() {
        let (before, after) = pair.split_at(stride);
        let flag = flags[row + 1];
        if flag == 0 {
            continue;
        }
        let (points, colours) = SIDES[flag as usize - 1];
        let points = points.into_iter().enumerate();
        let colours = colours.into_iter().enumerate();
        let runs = points.map(|(to, from)| (2 * to, 2 * from, 2)).chain(
            colours.map(|(to, from)| (TENSOR + to * colour, TENSOR + from * colour, colour)),
        );
        for (to, from, length) in runs {
            for i in 0..length {
                let (a, b) = (before[from + i].bits(), after[to + i].bits());
                if a != b {
                    let name = place_name(to + i, stride);
                    let place = format!("patch {}, {name}, taken over", row + 1);
                    return Err(Fault::of_bits(place, a, b));
                }
            }
        }
    }
    Ok(())
}

/// Holds a row turned against its surface, where its coordinates are whole multiples of nine below 2 ^ 40: nothing is rounded then.
fn check_whole_surface(patch: usize, border: &[f64], points: &[f64]) -> Result<(), Fault> {
    let is_whole = |x: &f64| x.abs() < (1u64 << 40) as f64 && x % 9.0 == 0.0;
    if !border.iter().all(is_whole) {
        return Ok(());
    }
    for axis in 0..2 {
        let twelve = std::array::from_fn(|k| border[2 * k + axis] as i128);
        let nine_fold = std::array::from_fn(|k| 9 * points[2 * k + axis] as i128);
        check_surface(patch, axis, twelve, nine_fold)?;
    }
    Ok(())
}

impl fmt::Display for TensorCase {
    fn fmt(&self, f: &mut fmt::Formatter<'_>) -> fmt::Result {
        match &self.task {
            Task::Raw(list) => {
                writeln!(f, "  n {}, room {:?}", self.components, self.room)?;
                writeln!(f, "  list:   {}", text(list, u32::to_string))
            }
            Task::Rows(values) => {
                writeln!(f, "  n {}, room {:?}", self.components, self.room)?;
                writeln!(f, "  list:   {}", hex(values))
            }
            Task::Read(mesh) => {
                writeln!(f, "  room {:?}, what is read of:", self.room)?;
                write!(f, "{mesh}")
            }
        }
    }
}

impl TensorCase {
    /// The case with fewer records or components.
    fn reshaped(&self) -> Vec<TensorCase> {
        let n = self.components;
        let with = |components: usize, task: Task| TensorCase {
            components,
            task,
            room: self.room,
        };
        match &self.task {
            Task::Raw(list) if n <= MOST_COMPONENTS && list.len() <= MOST_RESHAPED => {
                let shorter = without_a_record(Kind::Type6, n, list, |x| x);
                let reduced = without_a_component(Kind::Type6, n, list, |x| x);
                shorter
                    .map(|list| with(n, Task::Raw(list)))
                    .chain(reduced.map(|list| with(n - 1, Task::Raw(list))))
                    .collect()
            }
            Task::Rows(values) if n <= MOST_COMPONENTS && values.len() <= MOST_RESHAPED => {
                let rows: Vec<&[f64]> = values.chunks(COONS + 4 * (8 + n)).collect();
                let shorter = (0..rows.len()).rev().map(|left_out| {
                    let kept = [&rows[..left_out], &rows[left_out + 1..]].concat();
                    with(n, Task::Rows(kept.concat()))
                });
                let reduced = (n > 0).then(|| {
                    let kept = rows.iter().flat_map(|row| {
                        let (points, colours) = row.split_at(COONS.min(row.len()));
                        let colours = colours
                            .chunks(8 + n)
                            .map(|colour| &colour[..colour.len().min(7 + n)]);
                        std::iter::once(points).chain(colours).flatten().copied()
                    });
                    with(n - 1, Task::Rows(kept.collect()))
                });
                shorter.chain(reduced).collect()
            }
            _ => Vec::new(),
        }
    }
}

impl Shrinks for TensorCase {
    fn smaller(&self) -> Box<dyn Iterator<Item = Self> + '_> {
        let with = |task: Task| TensorCase { task, ..*self };
        let tasks: Box<dyn Iterator<Item = Self>> = match &self.task {
            Task::Raw(list) => Box::new(smaller_lists(list).map(move |l| with(Task::Raw(l)))),
            Task::Rows(list) => Box::new(smaller_lists(list).map(move |l| with(Task::Rows(l)))),
            Task::Read(mesh) => Box::new(mesh.smaller().map(move |m| with(Task::Read(m)))),
        };
        let components = lower(self.components, 0).map(|components| TensorCase {
            components,
            ..self.clone()
        });
        let rooms = (self.room != Room::EXACT).then(|| TensorCase {
            room: Room::EXACT,
            ..self.clone()
        });
        Box::new(
            self.reshaped()
                .into_iter()
                .chain(tasks)
                .chain(components)
                .chain(rooms),
        )
    }
}
