//! Asks for an answer with one output after the other: none, one place less than it needs, just enough, and the case's own room.

use crate::case::Room;
use crate::checks::Fault;
use crate::lent::{Lent, Place};
use crate::library::Answer;
use station::Refusal;

/// A call that is refused whatever it is lent has this room, less or more: enough for one that writes a patch before it looks.
const REFUSED: usize = 256;

/// What a call should give, were there room enough.
pub struct Whole<'a, T> {
    /// The count of an accepted call, or the refusal that comes before ROOM.
    pub count: Result<usize, Refusal>,
    /// The numbers of an accepted call; a refused one has none.
    pub numbers: &'a [T],
}

impl<T: Place> Whole<'_, T> {
    /// The answer with so many places lent.
    fn answer(&self, places: usize) -> Answer {
        let needed = self.numbers.len();
        match self.count {
            Ok(_) if places < needed => Err(Refusal::Room { needed }),
            other => other,
        }
    }

    /// Asks with each room, from the least on: what is refused for want of room tells how many places the whole answer needs, and with just
    /// so many it is given. The numbers written are held against what they should be by `check`.
    pub fn ask(
        &self,
        room: Room,
        lent: &mut Lent<T>,
        mut call: impl FnMut(&mut [T]) -> Answer,
        check: impl Fn(&[T]) -> Result<(), Fault>,
    ) -> Result<(), Fault> {
        let needed = self.numbers.len();
        let own = room.places(match self.count {
            Ok(_) => needed,
            Err(_) => REFUSED,
        });
        // an empty answer is lent a place too, to be left alone
        let mut rooms = [0, needed.saturating_sub(1), needed, own.max(1)];
        rooms.sort_unstable();
        lent.prepare(self.numbers, rooms[3]);
        for same in rooms.chunk_by(|a, b| a == b) {
            self.hold(same[0], lent, &mut call, &check)?;
        }
        Ok(())
    }

    /// Asks once, with more room than the answer needs.
    pub fn ask_once(
        &self,
        beyond: usize,
        lent: &mut Lent<T>,
        call: impl FnOnce(&mut [T]) -> Answer,
        check: impl Fn(&[T]) -> Result<(), Fault>,
    ) -> Result<(), Fault> {
        let places = self.numbers.len() + beyond;
        lent.prepare(self.numbers, places);
        self.hold(places, lent, call, check)
    }

    /// Holds a call with so many places against its answer, and the places that it writes and those that it must leave alone.
    fn hold(
        &self,
        places: usize,
        lent: &mut Lent<T>,
        call: impl FnOnce(&mut [T]) -> Answer,
        check: impl Fn(&[T]) -> Result<(), Fault>,
    ) -> Result<(), Fault> {
        let expected = self.answer(places);
        let answer = lent.lend(places, call);
        if answer != expected {
            return Err(Fault::of_answer(expected, answer).with(places));
        }
        let (written, checked) = match answer {
            Ok(_) => {
                let numbers = self.numbers.len();
                (numbers, check(lent.written(numbers)))
            }
            Err(_) => (0, Ok(())),
        };
        checked
            .and_then(|()| Fault::beyond(lent, written))
            .map_err(|fault| fault.after(answer).with(places))
    }
}
