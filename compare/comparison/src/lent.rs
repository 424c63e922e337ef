//! The lent output: filled beforehand with other numbers than the answer's, and with a pattern before and behind the places lent.

/// How many places of the pattern stand before and behind the lent ones.
const GUARD: usize = 4;

/// What an output is made of.
pub trait Place: Copy {
    /// The pattern's value at a place.
    fn filler(place: usize) -> Self;
    /// A number with none of its bits, so that the two can't be taken for one: not even two NaNs.
    fn opposite(self) -> Self;
    fn bits(self) -> u64;
}

impl Place for f64 {
    /// By turns a signalling NaN with a payload and an ordinary number.
    fn filler(place: usize) -> Self {
        let high: u64 = if place.is_multiple_of(2) {
            0x7ff4_5a5a_0000_0000
        } else {
            0xc01d_a5a5_0000_0000
        };
        f64::from_bits(high | place as u64)
    }

    fn opposite(self) -> Self {
        f64::from_bits(!self.to_bits())
    }

    fn bits(self) -> u64 {
        self.to_bits()
    }
}

impl Place for i64 {
    fn filler(place: usize) -> Self {
        (0xa5c3_96e1_0000_0000 ^ (place as u64).wrapping_mul(0x9e37_79b9_7f4a_7c15)) as i64
    }

    fn opposite(self) -> Self {
        !self
    }

    fn bits(self) -> u64 {
        self as u64
    }
}

impl Place for u32 {
    fn filler(place: usize) -> Self {
        0xa5c3_0000 ^ (place as u32).wrapping_mul(0x9e37_79b9)
    }

    fn opposite(self) -> Self {
        !self
    }

    fn bits(self) -> u64 {
        self.into()
    }
}

impl Place for u8 {
    fn filler(place: usize) -> Self {
        0xa5 ^ (place as u8).wrapping_mul(0x1d)
    }

    fn opposite(self) -> Self {
        !self
    }

    fn bits(self) -> u64 {
        self.into()
    }
}

/// An output that can be lent again and again.
pub struct Lent<T> {
    /// What stands in the places before each call.
    before: Vec<T>,
    places: Vec<T>,
}

/// A place that should have been left alone: counted from the first lent one, with its bits before and after.
#[derive(Debug, PartialEq)]
pub struct Touched {
    pub place: isize,
    pub before: u64,
    pub after: u64,
}

impl<T: Place> Lent<T> {
    pub fn new() -> Self {
        Lent {
            before: Vec::new(),
            places: Vec::new(),
        }
    }

    /// Makes ready to lend up to so many places to calls that should write this answer, or nothing. Before each call they hold the opposite
    /// of the answer's numbers, so that each number written shows, and each that isn't.
    pub fn prepare(&mut self, answer: &[T], most: usize) {
        let behind = GUARD + answer.len();
        self.before.clear();
        self.before.extend((0..GUARD).map(T::filler));
        self.before.extend(answer.iter().map(|x| x.opposite()));
        self.before
            .extend((behind..most + 2 * GUARD).map(T::filler));
    }

    /// Fills the output anew and lends so many places to the call.
    pub fn lend<R>(&mut self, room: usize, call: impl FnOnce(&mut [T]) -> R) -> R {
        self.places.clear();
        self.places
            .extend_from_slice(&self.before[..room + 2 * GUARD]);
        call(&mut self.places[GUARD..GUARD + room])
    }

    /// The first so many lent places.
    pub fn written(&self, count: usize) -> &[T] {
        &self.places[GUARD..GUARD + count]
    }

    /// The first place that has changed, apart from the first so many lent ones.
    pub fn touched_beyond(&self, written: usize) -> Option<Touched> {
        let changed = |from: usize, to: usize| {
            let place = first_other(&self.before[from..to], &self.places[from..to]);
            place.map(|at| from + at)
        };
        changed(0, GUARD)
            .or_else(|| changed(GUARD + written, self.places.len()))
            .map(|at| Touched {
                place: at as isize - GUARD as isize,
                before: self.before[at].bits(),
                after: self.places[at].bits(),
            })
    }
}

/// The first place at which two lists of one length have other bits. Mostly there is none, so all places are looked at together first: that is
/// many at a time.
pub fn first_other<T: Place>(a: &[T], b: &[T]) -> Option<usize> {
    let pairs = || a.iter().zip(b).map(|(x, y)| x.bits() ^ y.bits());
    if pairs().fold(0, |all, other| all | other) == 0 {
        return None;
    }
    pairs().position(|other| other != 0)
}

#[cfg(test)]
mod tests {
    use super::*;

    #[test]
    fn a_place_outside_the_lent_ones_is_found() {
        let mut lent = Lent::<f64>::new();
        lent.prepare(&[0.0; 3], 3);
        lent.lend(3, |out| out.fill(0.0));
        assert_eq!(lent.touched_beyond(3), None);
        assert_eq!(lent.touched_beyond(2).map(|t| t.place), Some(2));
        lent.places[GUARD + 3] = 0.0;
        assert_eq!(lent.touched_beyond(3).map(|t| t.place), Some(3));
        lent.places[GUARD - 1] = f64::NAN;
        assert_eq!(lent.touched_beyond(3).map(|t| t.place), Some(-1));
    }
}
