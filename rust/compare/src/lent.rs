//! All that one call is lent, whichever it is.

use reference::kept::KeptLengths;
use reference::{State, Totals};

use crate::engine::Engine;
use crate::guard::{KeptBuffers, PlateBuffers, ShowBuffers};
use crate::random::Random;
use crate::step::Step;

/// The plate, what a show or a total is lent besides, and what a second form keeps. Those that
/// a call is not lent are empty.
#[derive(Clone)]
pub struct Lent {
    plate: PlateBuffers,
    shown: ShowBuffers,
    kept: KeptBuffers,
}

impl Lent {
    /// For a step on this plate, with leftovers in all else; no step is an open.
    pub fn to(step: Option<&Step>, plate: PlateBuffers, random: &mut Random) -> Lent {
        let nothing = KeptLengths::of(0);
        let ([scratch, values, mattes], kept) = match step {
            Some(&Step::Show { scratch, values, mattes }) => {
                ([scratch, values, mattes], nothing)
            }
            Some(&Step::Total { scratch }) => ([scratch, 0, 0], nothing),
            Some(&Step::ShowKept { scratch, kept }) => ([scratch, 0, 0], kept),
            Some(&(Step::PutKept(_, kept) | Step::UndoKept(kept))) => ([0; 3], kept),
            _ => ([0; 3], nothing),
        };
        let shown = ShowBuffers::garbage(scratch, values, mattes, random);
        Lent { plate, shown, kept: KeptBuffers::garbage(kept, random) }
    }

    /// What the call answers; only a total has sums other than 0.
    pub fn call<E: Engine>(&mut self, state: State, step: Option<&Step>) -> Totals {
        let PlateBuffers { planes, pixels, log } = &mut self.plate;
        let ShowBuffers { scratch, values, mattes } = &mut self.shown;
        let kept = self.kept.lend();
        let answer = match step {
            None => E::open(state.width, state.height, state.reach, planes, pixels, log),
            Some(Step::Put(put)) => E::put(state, *put, planes, pixels, log),
            Some(Step::Undo) => E::undo(state, planes, pixels, log),
            Some(Step::Fill(inputs)) => E::fill(state, &inputs.as_fill(), planes, pixels, log),
            Some(Step::Show { .. }) => E::show(state, planes, scratch, values, mattes),
            Some(Step::PutKept(put, _)) => E::put_kept(state, *put, planes, pixels, log, kept),
            Some(Step::UndoKept(_)) => E::undo_kept(state, planes, pixels, log, kept),
            Some(Step::ShowKept { .. }) => E::show_kept(state, planes, scratch, kept),
            Some(Step::Total { .. }) => return E::total(state, planes, scratch),
        };
        Totals::none(answer)
    }

    pub fn guards_hold(&self) -> bool {
        self.plate.guards_hold() && self.shown.guards_hold() && self.kept.guards_hold()
    }

    pub fn same_cells(&self, other: &Lent) -> bool {
        self.plate.same_cells(&other.plate)
            && self.shown.same_cells(&other.shown)
            && self.kept.same_cells(&other.kept)
    }
}
