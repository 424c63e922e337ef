//! Runs cases one by one and keeps count, function by function.

use crate::case::{plain, Case, Origin};
use crate::checks::{check, Expected};
use crate::lent::Lent;
use crate::library::{Library, Reading};
use crate::raw::{RawCase, RawLent, Task};
use crate::shrink::shrink;
use crate::tensor::{self, TensorCase, TensorLent};
use station::Kind;
use std::fmt;

pub const KINDS: [Kind; 4] = [Kind::Type4, Kind::Type5, Kind::Type6, Kind::Type7];

/// So many disagreements of a function are shrunk, of which the smallest is printed; the others are only counted.
const SHRUNK: u64 = 3;

/// The functions that a line of the table counts, in the table's order.
#[derive(Clone, Copy, Debug)]
enum Group {
    ParsePorted,
    BuildPorted,
    ParsePublished,
    BuildPublished,
    RawRead,
    RawWrite,
    RawToTensor,
    ToTensor,
}

/// Each with its name and the types that it has a line for.
const GROUPS: [(Group, &str, &[Kind]); 8] = [
    (Group::ParsePorted, "parse", &KINDS),
    (Group::BuildPorted, "build", &KINDS),
    (Group::ParsePublished, "published parse", &KINDS),
    (Group::BuildPublished, "published build", &KINDS),
    (Group::RawRead, "raw read", &KINDS),
    (Group::RawWrite, "raw write", &KINDS),
    (Group::RawToTensor, "raw to tensor", &[Kind::Type6]),
    (Group::ToTensor, "to tensor", &[Kind::Type6]),
];

fn line(group: Group, kind: Kind) -> usize {
    group as usize * KINDS.len() + kind as usize
}

/// The counts of one function.
#[derive(Clone, Default)]
struct Tally {
    cases: u64,
    /// Cases that are refused whatever they are lent.
    refused: u64,
    /// Cases that are kept from the original.
    without_original: u64,
    /// Cases of which the original was given the bytes with cleared flags.
    cleared: u64,
    /// Triangles or patches.
    records: u64,
    numbers: u64,
    disagreements: u64,
    /// The text of the smallest disagreement.
    smallest: Option<String>,
}

impl Tally {
    fn add(&mut self, other: Tally) {
        self.cases += other.cases;
        self.refused += other.refused;
        self.without_original += other.without_original;
        self.cleared += other.cleared;
        self.records += other.records;
        self.numbers += other.numbers;
        self.disagreements += other.disagreements;
        if let Some(text) = other.smallest {
            self.keep_smaller(text);
        }
    }

    fn keep_smaller(&mut self, text: String) {
        if self.smallest.as_ref().is_none_or(|s| text.len() < s.len()) {
            self.smallest = Some(text);
        }
    }

    /// Counts a disagreement. The first ones are shrunk.
    fn disagree(&mut self, shrunk: impl FnOnce() -> String) {
        self.disagreements += 1;
        if self.disagreements <= SHRUNK {
            self.keep_smaller(shrunk());
        }
    }
}

/// The counts of all functions.
#[derive(Clone)]
pub struct Report {
    lines: Vec<Tally>,
}

impl Report {
    pub fn new() -> Self {
        Report {
            lines: vec![Tally::default(); GROUPS.len() * KINDS.len()],
        }
    }

    pub fn add(&mut self, other: Report) {
        for (tally, more) in self.lines.iter_mut().zip(other.lines) {
            tally.add(more);
        }
    }

    pub fn cases(&self) -> u64 {
        self.lines.iter().map(|tally| tally.cases).sum()
    }

    pub fn disagreements(&self) -> u64 {
        self.lines.iter().map(|tally| tally.disagreements).sum()
    }
}

impl fmt::Display for Report {
    fn fmt(&self, f: &mut fmt::Formatter<'_>) -> fmt::Result {
        writeln!(
            f,
            "{:<22} {:>12} {:>10} {:>16} {:>13} {:>18} {:>15} {:>13}",
            "function",
            "cases",
            "refused",
            "without original",
            "flags above 3",
            "triangles, patches",
            "numbers",
            "disagreements"
        )?;
        let mut write = |name: &str, t: &Tally| {
            writeln!(
                f,
                "{name:<22} {:>12} {:>10} {:>16} {:>13} {:>18} {:>15} {:>13}",
                t.cases,
                t.refused,
                t.without_original,
                t.cleared,
                t.records,
                t.numbers,
                t.disagreements
            )
        };
        let mut all = Tally::default();
        for (group, name, kinds) in GROUPS {
            for &kind in kinds {
                let tally = &self.lines[line(group, kind)];
                write(&format!("{name} type {}", 4 + kind as usize), tally)?;
                all.add(tally.clone());
            }
        }
        write("all", &all)?;
        writeln!(
            f,
            "Refused: for another reason than ROOM. Every other case is also asked with too little room.\n\
             Without original: refused with COMPONENTS or LENGTH, so only the refusal and the unchanged output are checked.\n\
             Flags above 3: of each flag the published reading takes the two low bits, so the original was given the bytes with no others."
        )?;
        for text in self.lines.iter().filter_map(|t| t.smallest.as_ref()) {
            write!(f, "\n{text}")?;
        }
        Ok(())
    }
}

/// A place to run cases at: a library, the outputs to lend it, and the counts.
pub struct Bench<'a> {
    library: &'a dyn Library,
    rows: Lent<f64>,
    raw: RawLent,
    tensor: TensorLent,
    pub report: Report,
}

impl<'a> Bench<'a> {
    pub fn new(library: &'a dyn Library) -> Self {
        Bench {
            library,
            rows: Lent::new(),
            raw: RawLent::new(),
            tensor: TensorLent::new(),
            report: Report::new(),
        }
    }

    /// Runs a case in both readings.
    pub fn mesh(&mut self, case: &Case) {
        let ported = Expected::ported(case);
        self.mesh_read(case, Reading::Ported, &ported);
        let other = Expected::published(case);
        self.mesh_read(case, Reading::Published, other.as_ref().unwrap_or(&ported));
    }

    fn mesh_read(&mut self, case: &Case, reading: Reading, expected: &Expected) {
        let group = match (case.origin(), reading) {
            (Origin::Bytes, Reading::Ported) => Group::ParsePorted,
            (Origin::List, Reading::Ported) => Group::BuildPorted,
            (Origin::Bytes, Reading::Published) => Group::ParsePublished,
            (Origin::List, Reading::Published) => Group::BuildPublished,
        };
        let (library, rows) = (self.library, &mut self.rows);
        let tally = &mut self.report.lines[line(group, plain(case.kind))];
        tally.cases += 1;
        tally.refused += u64::from(expected.count.is_err());
        tally.without_original += u64::from(!expected.is_by_original);
        tally.cleared += u64::from(expected.is_cleared);
        match check(case, reading, expected, library, rows) {
            Ok(numbers) => {
                tally.numbers += numbers as u64;
                tally.records += expected.count.unwrap_or(0) as u64;
            }
            Err(fault) => tally.disagree(|| {
                let (case, fault) = shrink(case.clone(), fault, |c| {
                    check(c, reading, &Expected::of(c, reading), library, rows).err()
                });
                format!("Disagreement, {group:?}:\n{case}{fault}")
            }),
        }
    }

    pub fn raw(&mut self, case: &RawCase) {
        let group = match case.task {
            Task::Read(_) => Group::RawRead,
            Task::Write(_) => Group::RawWrite,
        };
        let (library, lent) = (self.library, &mut self.raw);
        let tally = &mut self.report.lines[line(group, case.kind)];
        tally.cases += 1;
        match case.check(library, lent) {
            Ok(agreed) => {
                tally.numbers += agreed.numbers as u64;
                tally.refused += u64::from(agreed.is_refused);
            }
            Err(fault) => tally.disagree(|| {
                let (case, fault) = shrink(case.clone(), fault, |c| c.check(library, lent).err());
                format!("Disagreement, {group:?}:\n{case}{fault}")
            }),
        }
    }

    pub fn tensor(&mut self, case: &TensorCase) {
        let group = match case.task {
            tensor::Task::Raw(_) => Group::RawToTensor,
            tensor::Task::Rows(_) | tensor::Task::Read(_) => Group::ToTensor,
        };
        let (library, lent) = (self.library, &mut self.tensor);
        let tally = &mut self.report.lines[line(group, Kind::Type6)];
        tally.cases += 1;
        match case.check(library, lent) {
            Ok(agreed) => {
                tally.records += agreed.count.unwrap_or(0) as u64;
                tally.numbers += agreed.numbers as u64;
                tally.refused += u64::from(agreed.count.is_err());
            }
            Err(fault) => tally.disagree(|| {
                let (case, fault) = shrink(case.clone(), fault, |c| c.check(library, lent).err());
                format!("Disagreement, {group:?}:\n{case}{fault}")
            }),
        }
    }
}
