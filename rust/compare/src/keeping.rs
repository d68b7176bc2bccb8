//! What a list of calls keeps beside its plate, and the calls' second forms held against the
//! definition of what they mend.

use reference::kept::{Change, Kept, KeptLengths};
use reference::spread::Grid;
use reference::{Answer, State};

use crate::engine::Engine;
use crate::guard::{Guarded, KeptBuffers};
use crate::random::Random;

/// Sums and pictures as the last second form of a call left them. They start as garbage, and
/// become the plate's by a show; a change by a first form of a call makes them any contents
/// again.
pub struct Keeping {
    buffers: KeptBuffers,
    are_the_plates: bool,
    /// Changes mended while they were.
    pub followed: usize,
}

impl Keeping {
    pub fn new(cells: usize, random: &mut Random) -> Keeping {
        let buffers = KeptBuffers::garbage(KeptLengths::of(cells), random);
        Keeping { buffers, are_the_plates: false, followed: 0 }
    }

    /// After a change that was not told to them.
    pub fn left_behind(&mut self) {
        self.are_the_plates = false;
    }

    /// Those that are kept, or other ones where a call is to be lent wrong lengths.
    fn lent(&self, lengths: KeptLengths, random: &mut Random) -> KeptBuffers {
        if lengths == KeptLengths::of(self.buffers.values.len()) {
            self.buffers.clone()
        } else {
            KeptBuffers::garbage(lengths, random)
        }
    }

    /// A put or an undo that makes this change, after which the plate is this grid's. If it
    /// makes none it was refused, and must write nothing.
    pub fn mend(
        &mut self,
        lengths: KeptLengths,
        change: Option<Change>,
        grid: &Grid,
        random: &mut Random,
        call: impl FnOnce(Kept) -> Answer,
    ) -> Answer {
        let mut expected = self.lent(lengths, random);
        let mut lent = expected.clone();
        let answer = call(lent.lend());
        if let Some(change) = change {
            expected.lend().mend(grid.width, change);
        }
        assert!(lent.guards_hold(), "a mend wrote beyond its buffers: {change:?}");
        assert!(lent.same_cells(&expected), "a mend is not the definition's: {change:?}");
        if change.is_some() {
            self.buffers = lent;
        }
        if change.is_some() && self.are_the_plates {
            assert!(self.buffers.are_of(grid), "mended, but not a show's: {change:?}");
            self.followed += 1;
        }
        answer
    }

    /// A show of this grid's plate; if there is none it was refused, and must write nothing.
    pub fn show<E: Engine>(
        &mut self,
        state: State,
        planes: &[u64],
        scratch: usize,
        lengths: KeptLengths,
        shown: Option<&Grid>,
        random: &mut Random,
    ) -> Answer {
        let mut scratch = Guarded::garbage(scratch, random);
        let mut lent = self.lent(lengths, random);
        let (scratch_before, before) = (scratch.clone(), lent.clone());
        let answer = E::show_kept(state, planes, &mut scratch, lent.lend());
        assert!(lent.guards_hold() && scratch.guards_hold(), "{}: beyond a buffer", E::NAME);
        match shown {
            Some(grid) => {
                assert!(lent.are_of(grid), "{}: shown of {state:?}", E::NAME);
                assert!(scratch.iter().all(|&cell| cell == 0), "{}: scratch", E::NAME);
                self.buffers = lent;
                self.are_the_plates = true;
            }
            None => {
                let same = lent.same_cells(&before) && *scratch == *scratch_before;
                assert!(same, "{}: a refused show wrote", E::NAME);
            }
        }
        answer
    }
}
