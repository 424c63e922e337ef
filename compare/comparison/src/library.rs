//! The functions under comparison.

use crate::case::{Case, Input};
use station::{slices, Kind, Layout, Refusal};

/// Whose rules are followed: those of the original Rust, or those of ISO 32000-1, but for what docs/DIFFERENCES.md lists.
#[derive(Clone, Copy, Debug, PartialEq, Eq)]
pub enum Reading {
    Ported,
    Published,
}

/// What a call answers. The crate panics where a count other than 0 is told beside a refusal that isn't ROOM, so that would be found as well.
pub type Answer = Result<usize, Refusal>;

/// A library that answers the calls. The tests put a wrong one in place of the proved one.
pub trait Library: Sync {
    fn mesh(&self, reading: Reading, case: &Case, out: &mut [f64]) -> Answer;

    fn raw_read(&self, kind: Kind, data: &[u8], l: Layout, out: &mut [u32]) -> Answer;

    fn raw_write(&self, kind: Kind, list: &[u32], l: Layout, out: &mut [u8]) -> Answer;

    fn coons_to_tensor_raw(&self, list: &[u32], components: usize, out: &mut [i64]) -> Answer;

    fn coons_to_tensor(&self, values: &[f64], components: usize, out: &mut [f64]) -> Answer;
}

/// The proved library, through the crate.
pub struct Proved;

impl Library for Proved {
    fn mesh(&self, reading: Reading, case: &Case, out: &mut [f64]) -> Answer {
        match &case.input {
            Input::Bytes(data) => {
                let parse = match reading {
                    Reading::Ported => slices::parse,
                    Reading::Published => slices::published,
                };
                parse(case.kind, data, case.layout, &case.decode, out)
            }
            Input::List(values) => {
                let build = match reading {
                    Reading::Ported => slices::build,
                    Reading::Published => slices::build_published,
                };
                build(case.kind, values, case.layout.components, out)
            }
        }
    }

    fn raw_read(&self, kind: Kind, data: &[u8], l: Layout, out: &mut [u32]) -> Answer {
        slices::raw_read(kind, data, l, out)
    }

    fn raw_write(&self, kind: Kind, list: &[u32], l: Layout, out: &mut [u8]) -> Answer {
        slices::raw_write(kind, list, l, out)
    }

    fn coons_to_tensor_raw(&self, list: &[u32], components: usize, out: &mut [i64]) -> Answer {
        slices::coons_to_tensor_raw(list, components, out)
    }

    fn coons_to_tensor(&self, values: &[f64], components: usize, out: &mut [f64]) -> Answer {
        slices::coons_to_tensor(values, components, out)
    }
}
