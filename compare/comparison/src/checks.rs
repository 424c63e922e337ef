//! Checks the answers and the lent outputs of a mesh function against the original and document 01's table. Where a published reader is asked, the
//! original reads the same bytes with all but the two low bits of each flag cleared.
//!
//! The original is run for every case but those that the table refuses with COMPONENTS or LENGTH: it would read them, and it multiplies and
//! allocates by the count of components. Of those only the refusal and the unchanged output are checked.

use crate::asking::Whole;
use crate::case::{plain, Case, Input, Origin};
use crate::cleared::cleared;
use crate::lent::{first_other, Lent, Place};
use crate::library::{Answer, Library, Reading};
use crate::record::{is_patched, mesh_flags, raw_reading};
use rows::same_number;
use station::{Kind, Refusal};
use std::fmt;

/// What a case should give.
pub struct Expected {
    /// The count of triangles or patches, or the refusal that comes before ROOM.
    pub count: Result<usize, Refusal>,
    pub is_by_original: bool,
    /// Whether the original was given other bytes, because a flag is above 3.
    pub is_cleared: bool,
    /// The original's numbers; a refused call has none.
    rows: Vec<f64>,
    /// The flag of each triangle of a Type 4 list, or of each patch; others need none.
    flags: Option<Vec<u32>>,
}

impl Expected {
    pub fn of(case: &Case, reading: Reading) -> Self {
        let published = match reading {
            Reading::Ported => None,
            Reading::Published => Expected::published(case),
        };
        published.unwrap_or_else(|| Expected::ported(case))
    }

    /// What the published reading should give, where bytes have a flag above 3. Everywhere else that is what the ported one should.
    pub fn published(case: &Case) -> Option<Self> {
        let Input::Bytes(data) = &case.input else {
            return None;
        };
        if case.refused_at_once().is_some() {
            return None;
        }
        let low = cleared(plain(case.kind), case.layout, data);
        (low != *data).then(|| Expected {
            is_cleared: true,
            ..Expected::ported(&case.with_input(Input::Bytes(low)))
        })
    }

    /// What the ported reading should give.
    pub fn ported(case: &Case) -> Self {
        if let Some(refusal) = case.refused_at_once() {
            let is_by_original = refusal == Refusal::Layout;
            assert!(
                !is_by_original || case.original().0 == 0,
                "the original reads a layout that document 01 refuses:\n{case}"
            );
            return Expected {
                count: Err(refusal),
                is_by_original,
                is_cleared: false,
                rows: Vec::new(),
                flags: None,
            };
        }
        let (count, rows) = case.original();
        assert_eq!(rows.len(), count * case.stride(), "rows of\n{case}");
        Expected {
            count: Ok(count),
            is_by_original: true,
            is_cleared: false,
            flags: flags(case),
            rows,
        }
    }
}

/// The flags that the checks need, worked out beside the original.
pub fn flags(case: &Case) -> Option<Vec<u32>> {
    let (kind, n) = (plain(case.kind), case.layout.components);
    match &case.input {
        Input::List(list) if kind != Kind::Type5 => {
            let numbers: Vec<u32> = list.iter().map(|&x| x as u32).collect();
            Some(mesh_flags(kind, n, &numbers))
        }
        Input::Bytes(data) if is_patched(kind) => {
            Some(mesh_flags(kind, n, &raw_reading(kind, case.layout, data)))
        }
        _ => None,
    }
}

/// The first place at which ours isn't what it should be.
#[derive(Debug)]
pub struct Fault {
    pub place: String,
    pub expected: String,
    pub ours: String,
    /// The answer, where it is as it should be.
    pub answer: Option<String>,
    /// How many places were lent.
    pub lent: Option<usize>,
}

fn answer_text(answer: Answer) -> String {
    match answer {
        Ok(count) => format!("accepted, {count}"),
        Err(refusal) => format!("refused {} ({refusal:?})", refusal.number()),
    }
}

impl Fault {
    pub fn new(place: String, expected: String, ours: String) -> Self {
        Fault {
            place,
            expected,
            ours,
            answer: None,
            lent: None,
        }
    }

    pub fn of_answer(expected: Answer, ours: Answer) -> Self {
        Fault::new(
            "the answer".into(),
            answer_text(expected),
            answer_text(ours),
        )
    }

    /// The fault of a call whose answer is right.
    pub fn after(self, answer: Answer) -> Self {
        Fault {
            answer: Some(answer_text(answer)),
            ..self
        }
    }

    /// The fault of a call that was lent so many places.
    pub fn with(self, places: usize) -> Self {
        Fault {
            lent: Some(places),
            ..self
        }
    }

    pub fn of_bits(place: String, expected: u64, ours: u64) -> Self {
        Fault::new(place, format!("{expected:016x}"), format!("{ours:016x}"))
    }

    /// The first place that was to be left alone and has changed.
    pub fn beyond<T: Place>(lent: &Lent<T>, written: usize) -> Result<(), Fault> {
        match lent.touched_beyond(written) {
            None => Ok(()),
            Some(touched) => Err(Fault::of_bits(
                format!(
                    "place {} of the output, to be left as it was",
                    touched.place
                ),
                touched.before,
                touched.after,
            )),
        }
    }
}

impl fmt::Display for Fault {
    fn fmt(&self, f: &mut fmt::Formatter<'_>) -> fmt::Result {
        if let Some(places) = self.lent {
            writeln!(f, "  places lent: {places}")?;
        }
        if let Some(answer) = &self.answer {
            writeln!(f, "  both answer: {answer}")?;
        }
        writeln!(f, "  first difference: {}", self.place)?;
        writeln!(f, "  expected: {}", self.expected)?;
        writeln!(f, "  ours:     {}", self.ours)
    }
}

/// How many numbers agreed, or the first that doesn't.
pub fn check(
    case: &Case,
    reading: Reading,
    expected: &Expected,
    library: &dyn Library,
    lent: &mut Lent<f64>,
) -> Result<usize, Fault> {
    let whole = Whole {
        count: expected.count,
        numbers: &expected.rows,
    };
    let call = |out: &mut [f64]| library.mesh(reading, case, out);
    whole.ask(case.room, lent, call, |ours| {
        check_count(expected)?;
        check_rows(case, reading, expected, ours)?;
        check_joins(case, reading, expected, ours)
    })?;
    Ok(expected.rows.len())
}

/// Holds the count against document 01's rule for flags.
fn check_count(expected: &Expected) -> Result<(), Fault> {
    match (expected.count, &expected.flags) {
        (Ok(count), Some(flags)) if flags.len() != count => Err(Fault::new(
            "the count, by document 01's rule for flags".into(),
            flags.len().to_string(),
            count.to_string(),
        )),
        _ => Ok(()),
    }
}

/// Holds our rows against the original's: copies bit for bit, computed NaNs as one.
fn check_rows(
    case: &Case,
    reading: Reading,
    expected: &Expected,
    ours: &[f64],
) -> Result<(), Fault> {
    let stride = case.stride();
    let first = first_other(&expected.rows, ours).unwrap_or(ours.len());
    let pairs = expected.rows.iter().zip(ours).enumerate().skip(first);
    for (i, (&a, &b)) in pairs {
        if a.to_bits() == b.to_bits() {
            continue;
        }
        let (row, place) = (i / stride, i % stride);
        let is_one_nan = same_number(a, b) && !case.is_copied(place);
        let is_joined = |flags: &Vec<u32>| {
            joins(case, reading, flags[row])
                .iter()
                .any(|join| (join.to..join.to + join.length).contains(&place))
        };
        let is_joined_otherwise =
            is_its_own_reading(case, reading) && expected.flags.as_ref().is_some_and(is_joined);
        if !is_one_nan && !is_joined_otherwise {
            return Err(Fault::of_bits(
                format!("row {row}, {}", case.place_name(place)),
                a.to_bits(),
                b.to_bits(),
            ));
        }
    }
    Ok(())
}

/// Holds what a triangle or a patch takes over against its predecessor in our output, bit for bit.
fn check_joins(
    case: &Case,
    reading: Reading,
    expected: &Expected,
    ours: &[f64],
) -> Result<(), Fault> {
    let is_bound = is_patched(plain(case.kind)) || is_its_own_reading(case, reading);
    let Some(flags) = expected.flags.as_ref().filter(|_| is_bound) else {
        return Ok(());
    };
    let stride = case.stride();
    for (row, pair) in ours.windows(2 * stride).step_by(stride).enumerate() {
        let (before, after) = pair.split_at(stride);
        for join in joins(case, reading, flags[row + 1]) {
            for i in 0..join.length {
                let (from, to) = (before[join.from + i], after[join.to + i]);
                if from.to_bits() != to.to_bits() {
                    let name = case.place_name(join.to + i);
                    return Err(Fault::of_bits(
                        format!("row {}, {name}, taken over", row + 1),
                        from.to_bits(),
                        to.to_bits(),
                    ));
                }
            }
        }
    }
    Ok(())
}

/// Whether the published reading joins otherwise than the original does.
fn is_its_own_reading(case: &Case, reading: Reading) -> bool {
    reading == Reading::Published
        && case.origin() == Origin::List
        && matches!(plain(case.kind), Kind::Type4 | Kind::Type7)
}

/// Numbers that stand at one place of the predecessor's row and at another of the joined one's.
struct Join {
    from: usize,
    to: usize,
    length: usize,
}

/// Document 01's first side table: points and colours for flags 1 to 3.
pub const SIDES: [([usize; 4], [usize; 2]); 3] = [
    ([3, 4, 5, 6], [1, 2]),
    ([6, 7, 8, 9], [2, 3]),
    ([9, 10, 11, 0], [3, 0]),
];

/// Its second table, of the original's Type 7 list.
const LISTED_SIDES: [([usize; 4], [usize; 2]); 3] = [
    ([3, 7, 11, 15], [1, 2]),
    ([12, 8, 4, 0], [3, 0]),
    ([15, 14, 13, 12], [2, 3]),
];

/// What a triangle or a patch with this flag takes over from the one before it.
fn joins(case: &Case, reading: Reading, flag: u32) -> Vec<Join> {
    if flag == 0 {
        return Vec::new();
    }
    let colour = 8 + case.layout.components;
    let kind = plain(case.kind);
    if !is_patched(kind) {
        let vertex = 2 + colour;
        let first = if flag == 1 { vertex } else { 0 };
        return [(first, 0), (2 * vertex, vertex)]
            .map(|(from, to)| Join {
                from,
                to,
                length: vertex,
            })
            .into();
    }
    let is_listed =
        kind == Kind::Type7 && reading == Reading::Ported && case.origin() == Origin::List;
    let table = if is_listed { LISTED_SIDES } else { SIDES };
    let (points, colours) = table[flag as usize - 1];
    let first_colour = if kind == Kind::Type6 { 24 } else { 32 };
    let points = points.iter().enumerate().map(|(to, from)| Join {
        from: 2 * from,
        to: 2 * to,
        length: 2,
    });
    let colours = colours.iter().enumerate().map(|(to, from)| Join {
        from: first_colour + from * colour,
        to: first_colour + to * colour,
        length: colour,
    });
    points.chain(colours).collect()
}
