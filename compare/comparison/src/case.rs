//! A case: what a mesh function is asked, with the room that is lent to it.

use crate::record::{low_flag_reading, packed};
use crate::reshape::{without_a_component, without_a_record};
use crate::shrink::{smaller_layouts, smaller_lists, Shrinks};
use rows::{Call, Source};
use station::{Kind, Layout, MeshKind, Refusal};
use std::fmt;

/// Document 01's limits of the input.
pub const MOST_BYTES: usize = 16_777_216;
pub const MOST_NUMBERS: usize = 1_048_576;
pub const MOST_COMPONENTS: usize = 32;

/// What a mesh is read or built from.
#[derive(Clone, Copy, Debug, PartialEq)]
pub enum Origin {
    Bytes,
    List,
}

#[derive(Clone, Debug)]
pub enum Input {
    Bytes(Vec<u8>),
    List(Vec<f64>),
}

/// A room that is lent besides those that every case is asked with, as places fewer or more than the answer needs.
#[derive(Clone, Copy, Debug, PartialEq)]
pub enum Room {
    Short(usize),
    Beyond(usize),
}

impl Room {
    /// No other room.
    pub const EXACT: Room = Room::Beyond(0);

    pub fn places(self, needed: usize) -> usize {
        match self {
            Room::Short(places) => needed.saturating_sub(places),
            Room::Beyond(places) => needed + places,
        }
    }
}

/// A call. A list uses neither the widths nor Decode.
#[derive(Clone, Debug)]
pub struct Case {
    pub kind: MeshKind,
    pub layout: Layout,
    pub decode: Vec<f64>,
    pub input: Input,
    pub room: Room,
}

/// The type without its row length.
pub fn plain(kind: MeshKind) -> Kind {
    match kind {
        MeshKind::Type4 => Kind::Type4,
        MeshKind::Type5 { .. } => Kind::Type5,
        MeshKind::Type6 => Kind::Type6,
        MeshKind::Type7 => Kind::Type7,
    }
}

/// Whether a width that the type uses is outside 1 to 32 bits.
pub fn has_a_wrong_width(kind: Kind, l: Layout) -> bool {
    let is_wrong = |width: usize| !(1..=32).contains(&width);
    is_wrong(l.coordinate) || is_wrong(l.component) || (kind != Kind::Type5 && is_wrong(l.flag))
}

impl Case {
    pub fn origin(&self) -> Origin {
        match self.input {
            Input::Bytes(_) => Origin::Bytes,
            Input::List(_) => Origin::List,
        }
    }

    /// The same call with another input.
    pub fn with_input(&self, input: Input) -> Case {
        Case {
            kind: self.kind,
            layout: self.layout,
            decode: self.decode.clone(),
            input,
            room: self.room,
        }
    }

    /// How many numbers a triangle or a patch takes.
    pub fn stride(&self) -> usize {
        let colour = 8 + self.layout.components;
        match self.kind {
            MeshKind::Type4 | MeshKind::Type5 { .. } => 3 * (2 + colour),
            MeshKind::Type6 => 24 + 4 * colour,
            MeshKind::Type7 => 32 + 4 * colour,
        }
    }

    /// The refusals of document 01's table that come before the reading, in its order.
    pub fn refused_at_once(&self) -> Option<Refusal> {
        let (is_unreadable, is_too_long) = match &self.input {
            Input::Bytes(data) => (
                has_a_wrong_width(plain(self.kind), self.layout) || self.decode.len() < 4,
                data.len() > MOST_BYTES,
            ),
            Input::List(values) => (false, values.len() > MOST_NUMBERS),
        };
        if is_unreadable {
            Some(Refusal::Layout)
        } else if self.layout.components > MOST_COMPONENTS {
            Some(Refusal::Components)
        } else if is_too_long {
            Some(Refusal::Length)
        } else {
            None
        }
    }

    /// What the original answers: the count, and the rows' numbers.
    pub fn original(&self) -> (usize, Vec<f64>) {
        let l = self.layout;
        Call {
            kind: match self.kind {
                MeshKind::Type4 => rows::Kind::Type4,
                MeshKind::Type5 { row_length } => rows::Kind::Type5 { row_length },
                MeshKind::Type6 => rows::Kind::Type6,
                MeshKind::Type7 => rows::Kind::Type7,
            },
            components: l.components,
            source: match &self.input {
                Input::Bytes(data) => Source::Binary {
                    data,
                    coordinate: l.coordinate,
                    component: l.component,
                    flag: l.flag,
                    decode: &self.decode,
                },
                Input::List(values) => Source::List(values),
            },
        }
        .run()
    }

    /// Names a place of a triangle's or a patch's row.
    pub fn place_name(&self, place: usize) -> String {
        let colour = 8 + self.layout.components;
        let in_colour = |place: usize| match place {
            0..=2 => ["r", "g", "b"][place].to_string(),
            3 => "mark".to_string(),
            4..=7 => ["c", "m", "y", "k"][place - 4].to_string(),
            _ => format!("component {}", place - 8),
        };
        let xy = |place: usize| ["x", "y"][place % 2];
        let points = match self.kind {
            MeshKind::Type4 | MeshKind::Type5 { .. } => {
                let (corner, place) = (place / (2 + colour), place % (2 + colour));
                return match place {
                    0 | 1 => format!("vertex {corner}, {}", xy(place)),
                    _ => format!("vertex {corner}, {}", in_colour(place - 2)),
                };
            }
            MeshKind::Type6 => 24,
            MeshKind::Type7 => 32,
        };
        if place < points {
            format!("point {}, {}", place / 2, xy(place))
        } else {
            let place = place - points;
            format!("colour {}, {}", place / colour, in_colour(place % colour))
        }
    }

    /// Whether a place of a row holds a copy of a number of the list, which keeps a NaN's payload.
    pub fn is_copied(&self, place: usize) -> bool {
        let colour = 8 + self.layout.components;
        let (points, rest) = match self.kind {
            MeshKind::Type4 | MeshKind::Type5 { .. } => (2, place % (2 + colour)),
            MeshKind::Type6 => (24, place),
            MeshKind::Type7 => (32, place),
        };
        self.origin() == Origin::List && (rest < points || (rest - points) % colour >= 8)
    }
}

/// Longer inputs are shrunk by leaving out numbers, not record by record.
pub const MOST_RESHAPED: usize = 4096;

/// So many numbers of a longer input are printed.
const PRINTED: usize = 1024;

/// A list as text, the end of a very long one left out.
pub fn text<T>(list: &[T], word: impl Fn(&T) -> String) -> String {
    let words: Vec<String> = list.iter().take(PRINTED).map(word).collect();
    let more = match list.len().saturating_sub(PRINTED) {
        0 => String::new(),
        count => format!(", and {count} more"),
    };
    format!("[{}{more}], {} in all", words.join(", "), list.len())
}

/// Numbers by their bits in hex, and as they read.
pub fn hex(list: &[f64]) -> String {
    text(list, |x| format!("{:016x} ({x:?})", x.to_bits()))
}

/// Bytes in hex.
pub fn hex_bytes(data: &[u8]) -> String {
    text(data, |byte| format!("{byte:02x}"))
}

impl fmt::Display for Case {
    fn fmt(&self, f: &mut fmt::Formatter<'_>) -> fmt::Result {
        let l = self.layout;
        writeln!(
            f,
            "  {:?}, n {}, room {:?}",
            self.kind, l.components, self.room
        )?;
        match &self.input {
            Input::Bytes(data) => {
                let (x, c, flag) = (l.coordinate, l.component, l.flag);
                writeln!(f, "  widths: coordinate {x}, component {c}, flag {flag}")?;
                writeln!(f, "  decode: {}", hex(&self.decode))?;
                writeln!(f, "  bytes:  {}", hex_bytes(data))
            }
            Input::List(values) => writeln!(f, "  list:   {}", hex(values)),
        }
    }
}

impl Case {
    /// The case with fewer records or components, or with narrower numbers.
    fn reshaped(&self) -> Vec<Case> {
        let (kind, l) = (plain(self.kind), self.layout);
        let with = |layout: Layout, input: Input| Case {
            layout,
            ..self.with_input(input)
        };
        let fewer = Layout {
            components: l.components.saturating_sub(1),
            ..l
        };
        match &self.input {
            _ if self.refused_at_once().is_some() => Vec::new(),
            Input::List(values) if values.len() <= MOST_RESHAPED => {
                let n = l.components;
                without_a_record(kind, n, values, |x| x as u32)
                    .map(|list| with(l, Input::List(list)))
                    .chain(
                        without_a_component(kind, n, values, |x| x as u32)
                            .map(|list| with(fewer, Input::List(list))),
                    )
                    .collect()
            }
            Input::Bytes(data) if data.len() <= MOST_RESHAPED => {
                let numbers = low_flag_reading(kind, l, data);
                repacked(kind, l, &numbers)
                    .into_iter()
                    .filter(|(_, bytes)| bytes.len() <= data.len() && bytes != data)
                    .map(|(layout, bytes)| with(layout, Input::Bytes(bytes)))
                    .collect()
            }
            _ => Vec::new(),
        }
    }
}

/// Raw numbers packed anew: without a record, with fewer components, with narrower widths.
fn repacked(kind: Kind, l: Layout, numbers: &[u32]) -> Vec<(Layout, Vec<u8>)> {
    let n = l.components;
    let fewer = Layout {
        components: n.saturating_sub(1),
        ..l
    };
    let shorter = without_a_record(kind, n, numbers, |x| x).map(|list| (l, list));
    let reduced = without_a_component(kind, n, numbers, |x| x).map(|list| (fewer, list));
    let narrower = smaller_layouts(l)
        .filter(|layout| layout.components == n)
        .map(|layout| (layout, numbers.to_vec()));
    shorter
        .chain(reduced)
        .chain(narrower)
        .map(|(layout, list)| (layout, packed(kind, layout, &list)))
        .collect()
}

impl Shrinks for Case {
    fn smaller(&self) -> Box<dyn Iterator<Item = Self> + '_> {
        let inputs: Box<dyn Iterator<Item = Input>> = match &self.input {
            Input::Bytes(data) => Box::new(smaller_lists(data).map(Input::Bytes)),
            Input::List(list) => Box::new(smaller_lists(list).map(Input::List)),
        };
        let inputs = inputs.map(|input| self.with_input(input));
        let layouts = smaller_layouts(self.layout).map(|layout| Case {
            layout,
            ..self.clone()
        });
        let decodes = smaller_lists(&self.decode).map(|decode| Case {
            decode,
            ..self.clone()
        });
        let row = match self.kind {
            MeshKind::Type5 { row_length } => row_length,
            _ => 0,
        };
        let rows = [2, row / 2, row.saturating_sub(1)]
            .into_iter()
            .filter(move |&shorter| shorter < row)
            .map(|row_length| Case {
                kind: MeshKind::Type5 { row_length },
                ..self.clone()
            });
        let rooms = (self.room != Room::EXACT).then(|| Case {
            room: Room::EXACT,
            ..self.clone()
        });
        Box::new(
            self.reshaped()
                .into_iter()
                .chain(inputs)
                .chain(layouts)
                .chain(decodes)
                .chain(rows)
                .chain(rooms),
        )
    }
}
