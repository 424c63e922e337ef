//! Shrinks a failing case: whatever makes it simpler is kept as long as it still fails.

use station::Layout;
use std::ops::Range;
use std::time::{Duration, Instant};

/// Shrinking ends after this time, with what it has then.
const PATIENCE: Duration = Duration::from_secs(10);

/// A case that knows simpler ones than itself.
pub trait Shrinks: Sized {
    /// Simpler cases, those that leave out most first. Each is simpler in one respect and equal in the others, so that shrinking ends.
    fn smaller(&self) -> Box<dyn Iterator<Item = Self> + '_>;
}

/// The simplest case found that still has a fault, and that fault.
pub fn shrink<T: Shrinks, F>(
    mut case: T,
    mut fault: F,
    mut fault_of: impl FnMut(&T) -> Option<F>,
) -> (T, F) {
    let start = Instant::now();
    loop {
        let found = case
            .smaller()
            .take_while(|_| start.elapsed() < PATIENCE)
            .find_map(|smaller| fault_of(&smaller).map(|fault| (smaller, fault)));
        let Some(simpler) = found else {
            return (case, fault);
        };
        (case, fault) = simpler;
    }
}

/// A number that a list can be made of, with the values that are simpler than it.
pub trait Simpler: Copy {
    fn simpler(self) -> Vec<Self>;
}

impl Simpler for u8 {
    fn simpler(self) -> Vec<Self> {
        let less = [0, 1, self / 2];
        less.into_iter().filter(|&x| x < self).collect()
    }
}

impl Simpler for u32 {
    fn simpler(self) -> Vec<Self> {
        let less = [0, 1, self / 2, self.saturating_sub(1)];
        less.into_iter().filter(|&x| x < self).collect()
    }
}

impl Simpler for f64 {
    fn simpler(self) -> Vec<Self> {
        let plain: [f64; 5] = [0.0, 1.0, 2.0, 3.0, -1.0];
        let known = plain.iter().position(|x| x.to_bits() == self.to_bits());
        plain[..known.unwrap_or(plain.len())].to_vec()
    }
}

/// The list with parts left out, from the end and from the middle, the largest first; then with one number simpler.
pub fn smaller_lists<T: Simpler>(list: &[T]) -> impl Iterator<Item = Vec<T>> + '_ {
    let sizes = std::iter::successors(Some(list.len()), |size| Some(size / 2));
    let parts = sizes
        .take_while(|&size| size > 0)
        .flat_map(|size| parts(list.len(), size));
    let without = parts.map(|part| [&list[..part.start], &list[part.end..]].concat());
    let simpler = list.iter().enumerate().flat_map(move |(place, x)| {
        x.simpler().into_iter().map(move |value| {
            let mut other = list.to_vec();
            other[place] = value;
            other
        })
    });
    without.chain(simpler)
}

/// Parts of one size, from the end on.
fn parts(length: usize, size: usize) -> impl Iterator<Item = Range<usize>> {
    (0..length / size).map(move |i| length - (i + 1) * size..length - i * size)
}

/// Lower numbers, down to the least.
pub fn lower(from: usize, least: usize) -> impl Iterator<Item = usize> {
    [least, 8, from / 2, from.saturating_sub(1)]
        .into_iter()
        .filter(move |&to| to >= least && to < from)
}

/// Layouts with one number lower.
pub fn smaller_layouts(l: Layout) -> impl Iterator<Item = Layout> {
    let components = lower(l.components, 0).map(move |components| Layout { components, ..l });
    let coordinates = lower(l.coordinate, 1).map(move |coordinate| Layout { coordinate, ..l });
    let component = lower(l.component, 1).map(move |component| Layout { component, ..l });
    let flags = lower(l.flag, 1).map(move |flag| Layout { flag, ..l });
    components.chain(coordinates).chain(component).chain(flags)
}
