//! Draws random cases: meshes of whole records, in part damaged, and now and then a call that document 01 refuses.

use crate::case::{Case, Input, Origin, Room};
use crate::raw::{RawCase, Task};
use crate::record::{is_flagged, shape, BitWriter};
use crate::tensor::{self, TensorCase};
use generator::Generator;
use station::{Kind, Layout, MeshKind};

/// Numbers that a port may take for others, by their bits; several NaNs among them.
pub const ODD: [u64; 28] = [
    0x7ff8_0000_0000_0000,
    0x7ff8_0000_0000_0001,
    0x7ff0_0000_0000_0001,
    0x7ff7_ffff_ffff_ffff,
    0x7fff_ffff_ffff_ffff,
    0xfff8_0000_0000_0000,
    0xfff8_dead_beef_0001,
    0xfff0_0000_0000_0001,
    0x7ff0_0000_0000_0000, // the infinities
    0xfff0_0000_0000_0000,
    0x8000_0000_0000_0000, // -0.0
    0x0000_0000_0000_0000,
    0x0000_0000_0000_0001, // denormal
    0x800f_ffff_ffff_ffff,
    0x0010_0000_0000_0000,
    0x7fef_ffff_ffff_ffff, // the largest
    0xffef_ffff_ffff_ffff,
    0x7e37_e43c_8800_759c, // 1e300
    0xfe37_e43c_8800_759c,
    0x3ff0_0000_0000_0000, // 1 and its neighbours
    0x3ff0_0000_0000_0001,
    0x3fef_ffff_ffff_ffff,
    0xbff0_0000_0000_0000,
    0x3ffe_6666_6666_6666, // 1.9
    0x41ef_ffff_ffe0_0000, // 2^32 - 1
    0x41f0_0000_0000_0000,
    0x41f0_0000_0010_0000,
    0x4010_0000_0000_0000, // 4
];

/// Widths outside 1 to 32, some of which would pass if cut to fewer bits.
const WRONG_WIDTHS: [usize; 9] = [
    0,
    33,
    34,
    64,
    255,
    256 + 8,
    65536 + 8,
    (1 << 32) + 8,
    usize::MAX,
];

/// Counts of components over 32, likewise.
const WRONG_COMPONENTS: [usize; 9] = [
    33,
    34,
    64,
    256,
    256 + 3,
    (1 << 32) + 1,
    usize::MAX / 8,
    usize::MAX - 1,
    usize::MAX,
];

/// Row lengths beyond any lattice drawn here.
const LONG_ROWS: [usize; 6] = [
    1000,
    65536 + 2,
    (1 << 32) + 2,
    usize::MAX / 2,
    usize::MAX - 1,
    usize::MAX,
];

pub fn case(kind: Kind, origin: Origin, random: &mut Generator) -> Case {
    let layout = layout(kind, random);
    let n = layout.components;
    let mut case = Case {
        kind: mesh_kind(kind, random),
        layout,
        decode: Vec::new(),
        input: Input::List(Vec::new()),
        room: room(random),
    };
    match origin {
        Origin::Bytes => {
            case.decode = decode(layout, random);
            case.input = Input::Bytes(bytes(kind, layout, random));
        }
        Origin::List => {
            let mut values = Vec::new();
            mesh(kind, n, u32::MAX, random, |item, random| {
                values.push(listed(item, random));
            });
            damage(&mut values, random, any_number);
            case.input = Input::List(values);
        }
    }
    if random.once_in(16) {
        spoil_layout(&mut case.layout, origin, random);
    }
    if origin == Origin::Bytes && random.once_in(64) {
        case.decode.truncate(random.within(0, 3));
    }
    case
}

/// A raw reader's case.
pub fn raw_read(kind: Kind, random: &mut Generator) -> RawCase {
    let mut layout = layout(kind, random);
    let data = bytes(kind, layout, random);
    if random.once_in(16) {
        spoil_layout(&mut layout, Origin::Bytes, random);
    }
    RawCase {
        kind,
        layout,
        task: Task::Read(data),
        room: room(random),
    }
}

/// A raw writer's case.
pub fn raw_write(kind: Kind, random: &mut Generator) -> RawCase {
    let mut layout = layout(kind, random);
    let mut list = Vec::new();
    let mut mask = flag_mask(kind, layout);
    if !random.once_in(8) {
        mask &= 3;
    }
    mesh(kind, layout.components, mask, random, |item, random| {
        list.push(match item {
            Item::Flag(flag) => flag,
            Item::Coordinate => raw_number(random) as u32 & largest(layout.coordinate),
            Item::Component => raw_number(random) as u32 & largest(layout.component),
        });
    });
    if random.once_in(4) {
        damage(&mut list, random, |random| {
            let places = random.within(0, 31);
            random.bits() as u32 >> places
        });
    }
    if random.once_in(16) {
        spoil_layout(&mut layout, Origin::Bytes, random);
    }
    RawCase {
        kind,
        layout,
        task: Task::Write(list),
        room: room(random),
    }
}

/// Raw Type 6 numbers to be turned into tensor patches.
pub fn raw_to_tensor(random: &mut Generator) -> TensorCase {
    let mut components = layout(Kind::Type6, random).components;
    let mask = if random.once_in(8) { u32::MAX } else { 3 };
    let most = largest(width(random));
    let mut list = Vec::new();
    mesh(Kind::Type6, components, mask, random, |item, random| {
        list.push(match item {
            Item::Flag(flag) => flag,
            Item::Coordinate | Item::Component => raw_number(random) as u32 & most,
        });
    });
    if random.once_in(4) {
        damage(&mut list, random, |random| random.bits() as u32);
    }
    if random.once_in(32) {
        components = random.pick(&WRONG_COMPONENTS);
    }
    TensorCase {
        components,
        task: tensor::Task::Raw(list),
        room: room(random),
    }
}

/// Rows of Type 6 patches to be turned: one list in four has whole multiples of nine alone.
pub fn rows_to_tensor(random: &mut Generator) -> TensorCase {
    let mut components = layout(Kind::Type6, random).components;
    let patches = if random.once_in(400) {
        random.within(4, 60)
    } else {
        random.within(0, 3)
    };
    let is_whole = random.once_in(4);
    let mut values: Vec<f64> = (0..patches * (24 + 4 * (8 + components)))
        .map(|_| match is_whole {
            true => 9.0 * (random.within(0, 200_000) as f64 - 100_000.0),
            false => any_number(random),
        })
        .collect();
    if random.once_in(4) {
        damage(&mut values, random, any_number);
    }
    if random.once_in(32) {
        components = random.pick(&WRONG_COMPONENTS);
    }
    TensorCase {
        components,
        task: tensor::Task::Rows(values),
        room: room(random),
    }
}

/// What a reader or builder of Type 6 writes, to be turned.
pub fn read_to_tensor(random: &mut Generator) -> TensorCase {
    let origin = random.pick(&[Origin::Bytes, Origin::List]);
    TensorCase {
        components: 0,
        task: tensor::Task::Read(case(Kind::Type6, origin, random)),
        room: room(random),
    }
}

/// A number of a record.
enum Item {
    Flag(u32),
    Coordinate,
    Component,
}

/// The largest raw number of a width.
fn largest(width: usize) -> u32 {
    ((1u64 << width) - 1) as u32
}

/// The largest flag that a layout can hold.
fn flag_mask(kind: Kind, l: Layout) -> u32 {
    if is_flagged(kind) {
        largest(l.flag)
    } else {
        0
    }
}

/// The numbers of some records, in order, with flags that are cut by a mask.
fn mesh(
    kind: Kind,
    components: usize,
    mask: u32,
    random: &mut Generator,
    mut put: impl FnMut(Item, &mut Generator),
) {
    let is_long = random.once_in(400);
    let most = match (kind, is_long) {
        (Kind::Type4 | Kind::Type5, false) if components > 4 => 8,
        (Kind::Type4, false) => 12,
        (Kind::Type5, false) => 16,
        (Kind::Type6 | Kind::Type7, false) if components > 4 => 2,
        (Kind::Type6 | Kind::Type7, false) => 4,
        (_, true) => 120,
    };
    for i in 0..random.within(0, most) {
        let flag = flag(i, random) & mask;
        if is_flagged(kind) {
            put(Item::Flag(flag), random);
        }
        let (coordinates, colours) = shape(kind, flag);
        for _ in 0..coordinates {
            put(Item::Coordinate, random);
        }
        for _ in 0..colours * components {
            put(Item::Component, random);
        }
    }
}

/// The flag of the i-th record: mostly a first mesh, and then records that join it.
fn flag(i: usize, random: &mut Generator) -> u32 {
    if i == 0 && !random.once_in(12) {
        return 0;
    }
    match random.within(0, 31) {
        0..=5 => 0,
        6..=14 => 1,
        15..=23 => 2,
        24..=29 => 3,
        30 => random.within(4, 9) as u32,
        _ => random.bits() as u32,
    }
}

fn mesh_kind(kind: Kind, random: &mut Generator) -> MeshKind {
    match kind {
        Kind::Type4 => MeshKind::Type4,
        Kind::Type5 => MeshKind::Type5 {
            row_length: match random.within(0, 15) {
                0 => random.pick(&LONG_ROWS),
                1..=3 => random.within(0, 20),
                _ => random.within(2, 5),
            },
        },
        Kind::Type6 => MeshKind::Type6,
        Kind::Type7 => MeshKind::Type7,
    }
}

/// Widths of 1 to 32 and up to 32 components, mostly few; one layout in ten has vertices under 8 bits.
fn layout(kind: Kind, random: &mut Generator) -> Layout {
    let flag = if random.once_in(4) {
        random.within(1, 32)
    } else {
        random.pick(&[2, 2, 3, 4, 8])
    };
    let mut l = Layout {
        coordinate: width(random),
        component: width(random),
        flag,
        components: match random.within(0, 15) {
            0 => random.within(0, 32),
            1 => random.within(5, 9),
            _ => random.within(0, 4),
        },
    };
    if random.once_in(10) {
        l.coordinate = random.within(1, 2);
        l.component = random.within(1, 2);
        l.flag = random.within(1, 2);
        l.components = random.within(0, 1);
    }
    if kind == Kind::Type5 && random.once_in(4) {
        l.flag = random.pick(&WRONG_WIDTHS);
    }
    l
}

fn width(random: &mut Generator) -> usize {
    match random.within(0, 7) {
        0 | 1 => random.within(1, 6),
        2 | 3 => random.pick(&[8, 16, 24, 32]),
        _ => random.within(1, 32),
    }
}

/// Makes the layout one that document 01 refuses, sometimes for two reasons.
fn spoil_layout(l: &mut Layout, origin: Origin, random: &mut Generator) {
    for _ in 0..random.within(1, 2) {
        match (origin, random.within(0, 3)) {
            (Origin::Bytes, 0) => l.coordinate = random.pick(&WRONG_WIDTHS),
            (Origin::Bytes, 1) => l.component = random.pick(&WRONG_WIDTHS),
            (Origin::Bytes, 2) => l.flag = random.pick(&WRONG_WIDTHS),
            _ => l.components = random.pick(&WRONG_COMPONENTS),
        }
    }
}

/// A stream. In one of six all flags have any bits above their two low ones.
pub fn bytes(kind: Kind, l: Layout, random: &mut Generator) -> Vec<u8> {
    let mut writer = BitWriter::default();
    let mask = flag_mask(kind, l);
    let is_marked = random.once_in(6);
    mesh(
        kind,
        l.components,
        mask,
        random,
        |item, random| match item {
            Item::Flag(flag) if is_marked => {
                writer.put(random.bits() & !3 | u64::from(flag & 3), l.flag);
            }
            Item::Flag(flag) => writer.put(flag.into(), l.flag),
            Item::Coordinate => writer.put(raw_number(random), l.coordinate),
            Item::Component => writer.put(raw_number(random), l.component),
        },
    );
    let mut data = writer.finish();
    if random.once_in(12) {
        data.fill_with(|| random.bits() as u8);
    }
    damage(&mut data, random, |random| random.bits() as u8);
    data
}

/// Bits of a raw number, of which the lowest are taken.
fn raw_number(random: &mut Generator) -> u64 {
    match random.within(0, 15) {
        0 => 0,
        1 => u64::MAX,
        _ => random.bits(),
    }
}

/// Leaves half of the inputs whole; the others are cut, get other numbers, lose some or have some more.
fn damage<T>(list: &mut Vec<T>, random: &mut Generator, mut any: impl FnMut(&mut Generator) -> T) {
    match random.within(0, 11) {
        0 => list.truncate(random.within(0, list.len())),
        1 => list.truncate(list.len().saturating_sub(1)),
        2 | 3 if !list.is_empty() => {
            for _ in 0..random.within(1, 4) {
                let place = random.within(0, list.len() - 1);
                list[place] = any(random);
            }
        }
        4 if !list.is_empty() => {
            list.remove(random.within(0, list.len() - 1));
        }
        5 => {
            for _ in 0..random.within(1, 6) {
                list.push(any(random));
            }
        }
        _ => {}
    }
}

fn odd(random: &mut Generator) -> f64 {
    f64::from_bits(random.pick(&ODD))
}

/// An odd number, any bits at all, or an ordinary number.
fn any_number(random: &mut Generator) -> f64 {
    let part = random.bits() as f64 / u64::MAX as f64;
    match random.within(0, 23) {
        0..=2 => odd(random),
        3 => f64::from_bits(random.bits()),
        4..=11 => part,
        12..=15 => 2.0 * part - 0.5,
        16..=19 => 2000.0 * part - 1000.0,
        _ => random.within(0, 600) as f64,
    }
}

fn listed(item: Item, random: &mut Generator) -> f64 {
    match item {
        Item::Flag(flag) => match random.within(0, 23) {
            0 | 1 => f64::from(flag) + 0.9,
            2 => f64::from(flag) + 0.5,
            3 => odd(random),
            4 => -(random.bits() as f64),
            _ => f64::from(flag),
        },
        Item::Coordinate | Item::Component => any_number(random),
    }
}

/// All entries, those of the coordinates alone, an odd count between, or some too many.
pub fn decode(l: Layout, random: &mut Generator) -> Vec<f64> {
    let all = 4 + 2 * l.components;
    let entries = match random.within(0, 7) {
        0 => 4,
        1 => random.within(4, all),
        2 => all + random.within(1, 5),
        _ => all,
    };
    let is_plain = random.once_in(2);
    let mut list = Vec::with_capacity(entries + 1);
    while list.len() < entries {
        let width = if list.len() < 4 {
            l.coordinate
        } else {
            l.component
        };
        list.extend(match random.within(0, 3) {
            0 => [0.0, f64::from(largest(width))],
            1 => [0.0, 1.0],
            _ if is_plain => [-100.0 * random.within(0, 3) as f64, 250.5],
            _ => [any_number(random), any_number(random)],
        });
    }
    list.truncate(entries);
    list
}

/// More than enough, less than one place less, or no other room than every case is asked with.
fn room(random: &mut Generator) -> Room {
    match random.within(0, 15) {
        0..=2 => Room::Beyond(random.within(1, 40)),
        3..=5 => Room::Short(random.within(2, 200)),
        _ => Room::EXACT,
    }
}
