//! The raw readers and writers: held against the original's bit reader, a packing of our own and document 01's table; what a writer accepts
//! is read back, whole and cut.

use crate::asking::Whole;
use crate::case::{
    has_a_wrong_width, hex_bytes, text, Room, MOST_BYTES, MOST_COMPONENTS, MOST_NUMBERS,
};
use crate::checks::Fault;
use crate::lent::{first_other, Lent, Place};
use crate::library::Library;
use crate::record::{breaks_a_rule, is_patched, packed, raw_reading, record_bits};
use crate::shrink::{smaller_layouts, smaller_lists, Shrinks};
use station::{Kind, Layout, Refusal};
use std::fmt;

/// A stream of at most so many bytes is read back cut at every byte; a longer one is cut at eight places.
const CUT_EVERYWHERE: usize = 256;

#[derive(Clone, Debug)]
pub enum Task {
    Read(Vec<u8>),
    Write(Vec<u32>),
}

/// What a raw reader or writer is asked.
#[derive(Clone, Debug)]
pub struct RawCase {
    pub kind: Kind,
    pub layout: Layout,
    pub task: Task,
    pub room: Room,
}

/// The outputs that the raw functions are lent.
pub struct RawLent {
    numbers: Lent<u32>,
    bytes: Lent<u8>,
}

impl RawLent {
    pub fn new() -> Self {
        RawLent {
            numbers: Lent::new(),
            bytes: Lent::new(),
        }
    }
}

/// What agreed: how many numbers, and whether the call was refused.
pub struct RawAgreed {
    pub numbers: usize,
    pub is_refused: bool,
}

impl RawCase {
    /// The refusals of document 01's table that come before ROOM, in its order.
    fn refused_at_once(&self) -> Option<Refusal> {
        let (kind, l) = (self.kind, self.layout);
        if has_a_wrong_width(kind, l) {
            return Some(Refusal::Layout);
        }
        if l.components > MOST_COMPONENTS {
            return Some(Refusal::Components);
        }
        match &self.task {
            Task::Read(data) => (data.len() > MOST_BYTES).then_some(Refusal::Length),
            Task::Write(list) => {
                if list.len() > MOST_NUMBERS {
                    Some(Refusal::Length)
                } else if !is_patched(kind) && record_bits(kind, l, 0) < 8 {
                    Some(Refusal::Thin)
                } else {
                    breaks_a_rule(kind, l, list).then_some(Refusal::Record)
                }
            }
        }
    }

    /// Whether what is written is read back. That takes long, so cases that are about a short room go without.
    fn is_read_back(&self) -> bool {
        !matches!(self.room, Room::Short(_))
    }

    pub fn check(&self, library: &dyn Library, lent: &mut RawLent) -> Result<RawAgreed, Fault> {
        let (kind, l) = (self.kind, self.layout);
        let at_once = self.refused_at_once();
        let numbers = match &self.task {
            Task::Read(data) => {
                let full = match at_once {
                    Some(_) => Vec::new(),
                    None => raw_reading(kind, l, data),
                };
                let call = |out: &mut [u32]| library.raw_read(kind, data, l, out);
                let check = |ours: &[u32]| check_places(&full, ours);
                whole(at_once, &full).ask(self.room, &mut lent.numbers, call, check)?;
                full.len()
            }
            Task::Write(list) => {
                let full = match at_once {
                    Some(_) => Vec::new(),
                    None => packed(kind, l, list),
                };
                let call = |out: &mut [u8]| library.raw_write(kind, list, l, out);
                let check = |ours: &[u8]| check_places(&full, ours);
                whole(at_once, &full).ask(self.room, &mut lent.bytes, call, check)?;
                let read_back = if at_once.is_none() && self.is_read_back() {
                    check_reading_back(self, list, &full, library, &mut lent.numbers)?
                } else {
                    0
                };
                full.len() + read_back
            }
        };
        Ok(RawAgreed {
            numbers,
            is_refused: at_once.is_some(),
        })
    }
}

/// What a call should give: a refusal, or all of these numbers.
fn whole<T>(at_once: Option<Refusal>, full: &[T]) -> Whole<'_, T> {
    Whole {
        count: at_once.map_or(Ok(full.len()), Err),
        numbers: full,
    }
}

/// Holds the numbers written against what they should be.
fn check_places<T: Place>(full: &[T], ours: &[T]) -> Result<(), Fault> {
    match first_other(full, ours) {
        None => Ok(()),
        Some(i) => {
            let place = format!("place {i} of the output");
            Err(Fault::of_bits(place, full[i].bits(), ours[i].bits()))
        }
    }
}

/// Reads the written bytes, whole and cut: the list, and beginnings of it. Readers are asked with every room elsewhere, so once is enough here.
fn check_reading_back(
    case: &RawCase,
    list: &[u32],
    bytes: &[u8],
    library: &dyn Library,
    lent: &mut Lent<u32>,
) -> Result<usize, Fault> {
    let (kind, l) = (case.kind, case.layout);
    let mut numbers = 0;
    let step = match bytes.len() {
        0..=CUT_EVERYWHERE => 1,
        long => long / 8,
    };
    for cut in (0..=bytes.len()).rev().step_by(step) {
        let kept = raw_reading(kind, l, &bytes[..cut]);
        if !list.starts_with(&kept) || (cut == bytes.len() && kept != list) {
            return Err(Fault::new(
                format!("{cut} bytes read back by the original's bit reader"),
                "the list, or a beginning of it from cut bytes".into(),
                text(&kept, u32::to_string),
            ));
        }
        let call = |out: &mut [u32]| library.raw_read(kind, &bytes[..cut], l, out);
        whole(None, &kept)
            .ask_once(1, lent, call, |ours| check_places(&kept, ours))
            .map_err(|fault| Fault {
                place: format!("{cut} bytes read back: {}", fault.place),
                ..fault
            })?;
        numbers += kept.len();
    }
    Ok(numbers)
}

impl fmt::Display for RawCase {
    fn fmt(&self, f: &mut fmt::Formatter<'_>) -> fmt::Result {
        let l = self.layout;
        let (x, c, flag) = (l.coordinate, l.component, l.flag);
        writeln!(
            f,
            "  {:?}, n {}, room {:?}",
            self.kind, l.components, self.room
        )?;
        writeln!(f, "  widths: coordinate {x}, component {c}, flag {flag}")?;
        match &self.task {
            Task::Read(data) => writeln!(f, "  bytes:  {}", hex_bytes(data)),
            Task::Write(list) => writeln!(f, "  list:   {}", text(list, u32::to_string)),
        }
    }
}

impl Shrinks for RawCase {
    fn smaller(&self) -> Box<dyn Iterator<Item = Self> + '_> {
        let with = |task: Task| RawCase { task, ..*self };
        let tasks: Box<dyn Iterator<Item = Self>> = match &self.task {
            Task::Read(data) => Box::new(smaller_lists(data).map(move |d| with(Task::Read(d)))),
            Task::Write(list) => Box::new(smaller_lists(list).map(move |l| with(Task::Write(l)))),
        };
        let layouts = smaller_layouts(self.layout).map(|layout| RawCase {
            layout,
            ..self.clone()
        });
        let rooms = (self.room != Room::EXACT).then(|| RawCase {
            room: Room::EXACT,
            ..self.clone()
        });
        Box::new(tasks.chain(layouts).chain(rooms))
    }
}
