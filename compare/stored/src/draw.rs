//! Draws a case: a mesh of whole records, then in part damaged, and a lent output of a chosen size.

use crate::case::{Case, Input, MOST_INPUT, MOST_ROOM};
use generator::Generator;

/// A number of a record.
#[derive(Clone, Copy)]
enum Item {
    Flag(u64),
    Coordinate,
    Component,
}

/// Numbers that a port may take for others.
const ODD: [f64; 14] = [
    f64::NAN,
    f64::INFINITY,
    f64::NEG_INFINITY,
    -0.0,
    0.0,
    5e-324,
    -2.5e-310,
    f64::MAX,
    f64::MIN,
    1.0e300,
    -1.0,
    1.9,
    4_294_967_296.0,
    4_294_967_297.0,
];

/// The turn-th case of a function: the type, and whether it takes a list.
pub fn draw(kind: u8, is_listed: bool, turn: usize, random: &mut Generator) -> Case {
    loop {
        let count = counted(is_listed, turn);
        let mut case = fitting(kind, is_listed, count, turn, random);
        if count.is_none() && random.once_in(8) {
            spoil(&mut case, random);
        }
        let needed = case.needed();
        if needed + 40 <= MOST_ROOM {
            case.room = room(needed, random);
            return case;
        }
    }
}

/// A case that document 01 accepts, but for its room.
fn fitting(
    kind: u8,
    is_listed: bool,
    count: Option<u8>,
    turn: usize,
    random: &mut Generator,
) -> Case {
    let mut case = Case {
        kind,
        coordinate: width(turn, 0, random),
        component: width(turn, 11, random),
        flag: width(turn, 22, random),
        components: count.unwrap_or(random.within(0, 4) as u8),
        row_length: row_length(random),
        decode: Vec::new(),
        input: Input::List(Vec::new()),
        room: 0,
    };
    if !is_listed && count.is_none() && random.once_in(8) {
        thin(&mut case, random);
    }
    let items = mesh(&case, random);
    if is_listed {
        let mut values: Vec<f64> = items.iter().map(|&item| listed(item, random)).collect();
        damage_list(&mut values, random);
        values.truncate(MOST_INPUT);
        case.input = Input::List(values);
    } else {
        case.decode = decode(&case, random);
        let mut data = packed(&case, &items, random);
        damage_bytes(&mut data, random);
        data.truncate(MOST_INPUT);
        case.input = Input::Bytes(data);
    }
    case
}

/// The count of components goes through 0 to 32 at every third case of a list and every eighth of bytes; the others have few.
fn counted(is_listed: bool, turn: usize) -> Option<u8> {
    let each = if is_listed { 3 } else { 8 };
    turn.is_multiple_of(each)
        .then_some((turn / each % 33) as u8)
}

/// A width goes through 1 to 32 at every fourth case, each of the three from another start; the others are mostly small.
fn width(turn: usize, start: usize, random: &mut Generator) -> u8 {
    let width = if turn % 4 == 2 {
        1 + (turn / 4 + start) % 32
    } else {
        let most = random.pick(&[10, 10, 10, 32]);
        random.within(1, most)
    };
    width as u8
}

fn row_length(random: &mut Generator) -> u16 {
    if random.once_in(16) {
        random.pick(&[10, 100, 257, 65535])
    } else if random.once_in(4) {
        random.within(0, 9) as u16
    } else {
        random.within(2, 4) as u16
    }
}

/// A layout whose vertex takes under 8 bits.
fn thin(case: &mut Case, random: &mut Generator) {
    case.coordinate = random.within(1, 2) as u8;
    case.component = random.within(1, 2) as u8;
    case.flag = random.within(1, 2) as u8;
    case.components = random.within(0, 1) as u8;
}

/// The records' numbers, in order.
fn mesh(case: &Case, random: &mut Generator) -> Vec<Item> {
    let n = usize::from(case.components);
    let few = n > 4;
    let mut items = Vec::new();
    let mut put = |flag: Option<u64>, coordinates: usize, colours: usize| {
        items.extend(flag.map(Item::Flag));
        items.extend(vec![Item::Coordinate; coordinates]);
        items.extend(vec![Item::Component; colours * n]);
    };
    match case.kind {
        4 => {
            for i in 0..random.within(3, if few { 4 } else { 7 }) {
                put(Some(flag(i, random)), 2, 1);
            }
        }
        5 => {
            let row = usize::from(case.row_length).min(if few { 2 } else { 9 });
            let rows = random.within(2, if row > 3 { 2 } else { 3 });
            for _ in 0..row * rows + random.within(0, 1) {
                put(None, 2, 1);
            }
        }
        _ => {
            let own = if case.kind == 6 { 16 } else { 24 };
            for i in 0..random.within(1, if few { 1 } else { 3 }) {
                match flag(i, random) {
                    0 => put(Some(0), own + 8, 4),
                    joined => put(Some(joined), own, 2),
                }
            }
        }
    }
    items
}

/// The flag of the i-th record: mostly a first mesh, and then records that join it.
fn flag(i: usize, random: &mut Generator) -> u64 {
    if i == 0 && !random.once_in(8) {
        return 0;
    }
    match random.within(0, 15) {
        0..=2 => 0,
        3..=6 => 1,
        7..=10 => 2,
        11..=14 => 3,
        _ => 4 + (random.bits() >> 40),
    }
}

fn ordinary(random: &mut Generator) -> f64 {
    let part = random.bits() as f64 / u64::MAX as f64;
    match random.within(0, 3) {
        0 => part,
        1 => 2.0 * part - 0.5,
        2 => 2000.0 * part - 1000.0,
        _ => random.within(0, 600) as f64,
    }
}

fn any_number(random: &mut Generator) -> f64 {
    if random.once_in(12) {
        random.pick(&ODD)
    } else {
        ordinary(random)
    }
}

fn listed(item: Item, random: &mut Generator) -> f64 {
    match item {
        Item::Flag(flag) if random.once_in(6) => {
            random.pick(&[flag as f64 + 0.9, flag as f64 + 0.5])
        }
        Item::Flag(_) if random.once_in(24) => random.pick(&ODD),
        Item::Flag(flag) => flag as f64,
        Item::Coordinate => any_number(random),
        Item::Component if random.once_in(2) => random.bits() as f64 / u64::MAX as f64,
        Item::Component => any_number(random),
    }
}

/// 4 to 2n + 4 entries, mostly 4: those of the coordinates.
fn decode(case: &Case, random: &mut Generator) -> Vec<f64> {
    let all = 4 + 2 * usize::from(case.components);
    let entries = match random.within(0, 7) {
        0 => all,
        1 => random.within(4, all),
        _ => 4,
    };
    let mut list = Vec::new();
    while list.len() < entries {
        let bits = if list.len() < 4 {
            case.coordinate
        } else {
            case.component
        };
        list.extend(match random.within(0, 3) {
            0 => [0.0, ((1u64 << bits) - 1) as f64],
            1 => [0.0, 1.0],
            _ => [any_number(random), any_number(random)],
        });
    }
    list.truncate(entries);
    list
}

fn packed(case: &Case, items: &[Item], random: &mut Generator) -> Vec<u8> {
    let mut bits: Vec<u8> = Vec::new();
    for &item in items {
        let (width, value) = match item {
            Item::Flag(flag) => (case.flag, flag),
            Item::Coordinate => (case.coordinate, raw(random)),
            Item::Component => (case.component, raw(random)),
        };
        bits.extend((0..width).rev().map(|b| ((value >> b) & 1) as u8));
    }
    bits.chunks(8)
        .map(|byte| {
            byte.iter()
                .enumerate()
                .fold(0, |sum, (i, bit)| sum | bit << (7 - i))
        })
        .collect()
}

/// Bits of a raw number, of which the lowest are taken.
fn raw(random: &mut Generator) -> u64 {
    match random.within(0, 15) {
        0 => 0,
        1 => u64::MAX,
        _ => random.bits(),
    }
}

fn damage_bytes(data: &mut Vec<u8>, random: &mut Generator) {
    match random.within(0, 11) {
        0 => data.truncate(random.within(0, data.len())),
        1 => data.truncate(data.len().saturating_sub(1)),
        2 | 3 => {
            for _ in 0..random.within(1, 4) {
                if !data.is_empty() {
                    let place = random.within(0, data.len() - 1);
                    data[place] ^= 1 << random.within(0, 7);
                }
            }
        }
        4 => {
            for _ in 0..random.within(1, 3) {
                data.push(random.bits() as u8);
            }
        }
        5 => {
            for byte in data.iter_mut() {
                *byte = random.bits() as u8;
            }
        }
        _ => {}
    }
}

fn damage_list(values: &mut Vec<f64>, random: &mut Generator) {
    match random.within(0, 7) {
        0 => values.truncate(random.within(0, values.len())),
        1 => values.truncate(values.len().saturating_sub(1)),
        2 if !values.is_empty() => {
            let place = random.within(0, values.len() - 1);
            values[place] = random.pick(&ODD);
        }
        3 => values.push(any_number(random)),
        _ => {}
    }
}

/// Makes the call one that document 01 refuses; or, in Type 5, gives it a flag width that doesn't matter.
fn spoil(case: &mut Case, random: &mut Generator) {
    if case.is_listed() {
        case.components = random.pick(&[33, 34, 255]);
        return;
    }
    let width = random.pick(&[0, 33, 255]);
    match random.within(0, 6) {
        0 => case.coordinate = width,
        1 => case.component = width,
        2 => case.flag = width,
        3 => case.decode.truncate(random.within(0, 3)),
        4 | 5 => case.components = random.pick(&[33, 255]),
        _ => {
            case.components = 33;
            case.component = width;
        }
    }
}

/// Exactly enough, more, one place less, or far less.
fn room(needed: usize, random: &mut Generator) -> usize {
    match random.within(0, 15) {
        0..=8 => needed,
        9..=13 => needed + random.within(1, 40),
        14 => needed.saturating_sub(1),
        _ => random.within(0, needed),
    }
}
