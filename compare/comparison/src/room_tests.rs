//! The comparison finds what is wrong about the room, in each of the 26 functions.

use crate::case::{Case, Origin};
use crate::checks::{check, Expected, Fault};
use crate::draw;
use crate::lent::{Lent, Place};
use crate::library::{Answer, Library, Proved, Reading};
use crate::raw::{RawCase, RawLent};
use crate::report::KINDS;
use crate::tensor::{TensorCase, TensorLent};
use generator::Generator;
use station::{Kind, Layout, Refusal};

/// What a function can have wrong.
#[derive(Clone, Copy, Debug, PartialEq)]
enum Planted {
    /// ROOM tells one place too few, or too many.
    OneTooFew,
    OneTooMany,
    /// ROOM tells how many triangles or patches there are.
    CountForPlaces,
    /// ROOM tells nothing: always, where nothing was lent, or where something was.
    NothingTold,
    NothingToldOfNone,
    NothingToldOfSome,
    /// ROOM tells how many places are missing.
    Missing,
    /// One place less is enough.
    LessAccepted,
    /// Just enough isn't enough, though it is what ROOM tells.
    ExactRefused,
    /// One place less is refused, and the first place is written all the same.
    LessWritten,
    /// The last of just enough places is left as it was.
    LastUnwritten,
    /// Another refusal has changed the last place that a patch of 32 components takes.
    OtherWritten,
}

const ALL: [Planted; 12] = [
    Planted::OneTooFew,
    Planted::OneTooMany,
    Planted::CountForPlaces,
    Planted::NothingTold,
    Planted::NothingToldOfNone,
    Planted::NothingToldOfSome,
    Planted::Missing,
    Planted::LessAccepted,
    Planted::ExactRefused,
    Planted::LessWritten,
    Planted::LastUnwritten,
    Planted::OtherWritten,
];

fn room(needed: usize) -> Answer {
    Err(Refusal::Room { needed })
}

impl Planted {
    /// What a function with this fault makes of the proved one's call.
    fn call<T: Place>(self, out: &mut [T], proved: impl Fn(&mut [T]) -> Answer) -> Answer {
        let lent = out.len();
        let needed = match proved(&mut []) {
            Ok(_) => return proved(out),
            Err(Refusal::Room { needed }) => needed,
            Err(_) => {
                if self == Planted::OtherWritten && lent >= 192 {
                    out[191] = out[191].opposite();
                }
                return proved(out);
            }
        };
        let mut whole = vec![T::filler(0); needed];
        let count = proved(&mut whole).expect("room enough");
        let is_short = lent < needed;
        match self {
            Planted::OneTooFew if is_short => room(needed - 1),
            Planted::OneTooMany if is_short => room(needed + 1),
            Planted::CountForPlaces if is_short => room(count),
            Planted::NothingTold if is_short => room(0),
            Planted::NothingToldOfNone if is_short && lent == 0 => room(0),
            Planted::NothingToldOfSome if is_short && lent > 0 => room(0),
            Planted::Missing if is_short => room(needed - lent),
            Planted::LessAccepted if lent + 1 == needed => {
                out.copy_from_slice(&whole[..lent]);
                Ok(count)
            }
            Planted::ExactRefused if lent == needed => room(needed),
            Planted::LessWritten if is_short && lent > 0 => {
                out[0] = whole[0];
                room(needed)
            }
            Planted::LastUnwritten if lent == needed => {
                out[..lent - 1].copy_from_slice(&whole[..lent - 1]);
                Ok(count)
            }
            _ => proved(out),
        }
    }
}

impl Library for Planted {
    fn mesh(&self, reading: Reading, case: &Case, out: &mut [f64]) -> Answer {
        self.call(out, |out| Proved.mesh(reading, case, out))
    }

    fn raw_read(&self, kind: Kind, data: &[u8], l: Layout, out: &mut [u32]) -> Answer {
        self.call(out, |out| Proved.raw_read(kind, data, l, out))
    }

    fn raw_write(&self, kind: Kind, list: &[u32], l: Layout, out: &mut [u8]) -> Answer {
        self.call(out, |out| Proved.raw_write(kind, list, l, out))
    }

    fn coons_to_tensor_raw(&self, list: &[u32], components: usize, out: &mut [i64]) -> Answer {
        self.call(out, |out| Proved.coons_to_tensor_raw(list, components, out))
    }

    fn coons_to_tensor(&self, values: &[f64], components: usize, out: &mut [f64]) -> Answer {
        self.call(out, |out| Proved.coons_to_tensor(values, components, out))
    }
}

/// A case of one of the functions.
enum Drawn {
    Mesh(Reading, Case),
    Raw(RawCase),
    Tensor(TensorCase),
}

impl Drawn {
    fn fault(&self, library: &dyn Library) -> Option<Fault> {
        match self {
            Drawn::Mesh(reading, case) => {
                let expected = Expected::of(case, *reading);
                check(case, *reading, &expected, library, &mut Lent::new()).err()
            }
            Drawn::Raw(case) => case.check(library, &mut RawLent::new()).err(),
            Drawn::Tensor(case) => case.check(library, &mut TensorLent::new()).err(),
        }
    }

    /// Whether the function answers how many places it wrote.
    fn counts_places(&self) -> bool {
        matches!(self, Drawn::Raw(_))
    }
}

/// Draws a case of a function.
type Function = Box<dyn Fn(&mut Generator) -> Drawn>;

/// Every function by its name.
fn functions() -> Vec<(String, Function)> {
    let mut functions: Vec<(String, Function)> = Vec::new();
    for kind in KINDS {
        for origin in [Origin::Bytes, Origin::List] {
            for reading in [Reading::Ported, Reading::Published] {
                functions.push((
                    format!("{reading:?} {kind:?} from {origin:?}"),
                    Box::new(move |r| Drawn::Mesh(reading, draw::case(kind, origin, r))),
                ));
            }
        }
        functions.push((
            format!("raw read {kind:?}"),
            Box::new(move |random| Drawn::Raw(draw::raw_read(kind, random))),
        ));
        functions.push((
            format!("raw write {kind:?}"),
            Box::new(move |random| Drawn::Raw(draw::raw_write(kind, random))),
        ));
    }
    functions.push((
        "raw to tensor".into(),
        Box::new(|random| Drawn::Tensor(draw::raw_to_tensor(random))),
    ));
    functions.push((
        "to tensor".into(),
        Box::new(|random| Drawn::Tensor(draw::rows_to_tensor(random))),
    ));
    functions
}

/// Whether the fault that was found is the planted one.
fn is_it(planted: Planted, fault: &Fault) -> bool {
    let lent = fault.lent.expect("how many places were lent");
    let is_answer = fault.place == "the answer";
    let (is_room, ours_is_room) = (fault.expected.contains("Room"), fault.ours.contains("Room"));
    match planted {
        Planted::OneTooFew
        | Planted::OneTooMany
        | Planted::CountForPlaces
        | Planted::NothingTold
        | Planted::NothingToldOfNone => is_answer && is_room && ours_is_room && lent == 0,
        Planted::NothingToldOfSome | Planted::Missing => {
            is_answer && is_room && ours_is_room && lent > 0
        }
        Planted::LessAccepted => is_answer && is_room && fault.ours.starts_with("accepted"),
        Planted::ExactRefused => {
            is_answer && fault.expected.starts_with("accepted") && ours_is_room
        }
        Planted::LessWritten => fault.place == "place 0 of the output, to be left as it was",
        Planted::LastUnwritten => {
            !is_answer && !fault.place.contains("to be left") && fault.answer.is_some()
        }
        Planted::OtherWritten => fault.place == "place 191 of the output, to be left as it was",
    }
}

#[test]
fn what_is_planted_is_found_in_every_function() {
    let functions = functions();
    assert_eq!(functions.len(), 26);
    for (name, function) in functions {
        for planted in ALL {
            let mut random = Generator::new(10);
            let mut drawn = (0..500).map(|_| function(&mut random));
            // where a count is one of places, that fault is none
            let is_none = planted == Planted::CountForPlaces
                && function(&mut Generator::new(10)).counts_places();
            let fault = drawn.find_map(|case| case.fault(&planted));
            match fault {
                None => assert!(is_none, "{planted:?} isn't found: {name}"),
                Some(fault) => assert!(is_it(planted, &fault), "{planted:?}, {name}:\n{fault}"),
            }
        }
    }
}
