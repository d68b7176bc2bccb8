//! A list of calls on one plate, held against the notebook.

use std::fmt;

use reference::kept::Kept;
use reference::marks::marks_of_grid;
use reference::notebook::Notebook;
use reference::pixel::entry;
use reference::spread::{Pictures, Sum};
use reference::{Answer, State, Totals};

use crate::engine::{Engine, Stored};
use crate::guard::{Guarded, PlateBuffers, ShowBuffers};
use crate::keeping::Keeping;
use crate::numbers::Numbers;
use crate::random::Random;
use crate::step::{Step, Told};

/// What was tried.
#[derive(Default)]
pub struct Tally {
    lists: usize,
    puts: usize,
    undos: usize,
    fills: usize,
    shows: usize,
    totals: usize,
    /// Those in their second form, and changes whose mended pictures were a show's.
    kept: usize,
    followed: usize,
    pub numbers: Numbers,
    cells: usize,
}

impl Tally {
    fn count(&mut self, step: &Step, number: u32) {
        match step {
            Step::Put(_) | Step::PutKept(..) => self.puts += 1,
            Step::Undo | Step::UndoKept(_) => self.undos += 1,
            Step::Fill(_) => self.fills += 1,
            Step::Show { .. } | Step::ShowKept { .. } => self.shows += 1,
            Step::Total { .. } => self.totals += 1,
        }
        self.kept += usize::from(step.is_kept());
        self.numbers.count(number);
    }
}

impl fmt::Display for Tally {
    fn fmt(&self, f: &mut fmt::Formatter<'_>) -> fmt::Result {
        let Tally { lists, puts, undos, fills, shows, totals, .. } = self;
        let Tally { kept, followed, numbers, cells, .. } = self;
        write!(f, "{lists} lists: {puts} puts, {undos} undos, {fills} fills, {shows} shows, ")?;
        write!(f, "{totals} totals; ")?;
        write!(
            f,
            "{kept} in their second form, {followed} changes followed in kept pictures; "
        )?;
        write!(f, "{numbers}; {cells} plane cells compared")
    }
}

/// Opens a plate, makes the calls, and compares: after each call number, marks, state and
/// guards, and that a refused one changed nothing; for each show both pictures; for each total
/// both sums; for second forms all that they keep; after the list every cell of planes, pixels
/// and log.
pub fn run<E: Engine>(
    sizes: State,
    room: usize,
    steps: &[Step],
    random: &mut Random,
    tally: &mut Tally,
) {
    let mut list = List::open::<E>(sizes, room, random);
    for (index, step) in steps.iter().enumerate() {
        let number = list.step::<E>(index, step, random);
        tally.count(step, number);
    }
    list.compare_stored(E::NAME);
    tally.lists += 1;
    tally.followed += list.keeping.followed;
    tally.cells += list.plate.planes.len();
}

/// The notebook, and beside it the plate as the call before left it, with what is kept.
struct List {
    notebook: Notebook,
    plate: PlateBuffers,
    state: State,
    keeping: Keeping,
}

impl List {
    fn open<E: Engine>(sizes: State, room: usize, random: &mut Random) -> List {
        let State { width, height, reach, .. } = sizes;
        let mut plate = PlateBuffers::garbage(sizes, room, random);
        let PlateBuffers { planes, pixels, log } = &mut plate;
        let answer = E::open(width, height, reach, planes, pixels, log);
        let state = State { count: 0, ..sizes };
        assert_eq!(answer, Answer { number: 0, marks: 0, state }, "{}: open", E::NAME);
        let notebook = Notebook::open(width, height, reach, room);
        List { notebook, plate, state, keeping: Keeping::new(width * height, random) }
    }

    /// Makes one call and compares it; its number.
    fn step<E: Engine>(&mut self, index: usize, step: &Step, random: &mut Random) -> u32 {
        let told = step.tell(&mut self.notebook);
        let report = told.report;
        let before = (report.number != 0).then(|| self.plate.clone());
        let answer = self.call::<E>(step, told, random);
        let expected = Answer {
            number: report.number,
            marks: report.marks,
            state: State { count: self.notebook.pile.len(), ..self.state },
        };
        let call = || format!("{}, call {index} on {:?}: {step:?}", E::NAME, self.state);
        assert_eq!(answer, expected, "{}", call());
        assert!(self.plate.guards_hold(), "cells beyond a buffer changed: {}", call());
        if let Some(before) = before {
            assert!(self.plate.same_cells(&before), "a refused call wrote: {}", call());
        }
        self.state = answer.state;
        report.number
    }

    fn call<E: Engine>(&mut self, step: &Step, told: Told, random: &mut Random) -> Answer {
        let List { notebook, plate, state, keeping } = self;
        let (state, PlateBuffers { planes, pixels, log }) = (*state, plate);
        if step.leaves_kept_behind() && told.report.number == 0 {
            keeping.left_behind();
        }
        match step {
            Step::Put(put) => E::put(state, *put, planes, pixels, log),
            Step::Undo => E::undo(state, planes, pixels, log),
            Step::Fill(inputs) => E::fill(state, &inputs.as_fill(), planes, pixels, log),
            &Step::Show { scratch, values, mattes } => {
                let lent = ShowBuffers::garbage(scratch, values, mattes, random);
                show::<E>(state, planes, lent, told.pictures)
            }
            &Step::Total { scratch } => {
                let lent = Guarded::garbage(scratch, random);
                total::<E>(state, planes, lent, notebook.total(scratch).1)
            }
            &Step::PutKept(put, kept) => {
                let put_kept = |kept: Kept| E::put_kept(state, put, planes, pixels, log, kept);
                keeping.mend(kept, told.change, &notebook.grid, random, put_kept)
            }
            &Step::UndoKept(kept) => {
                let undo_kept = |kept: Kept| E::undo_kept(state, planes, pixels, log, kept);
                keeping.mend(kept, told.change, &notebook.grid, random, undo_kept)
            }
            &Step::ShowKept { scratch, kept } => {
                let shown = told.pictures.map(|_| &notebook.grid);
                keeping.show::<E>(state, planes, scratch, kept, shown, random)
            }
        }
    }

    fn compare_stored(&self, name: &str) {
        let sizes = self.state;
        let Notebook { grid, reach, pile, room } = &self.notebook;
        let planes = marks_of_grid(grid, *reach);
        assert!(self.plate.planes[..] == planes, "{name}: planes of {sizes:?}");
        let words: Vec<u64> = grid.pixels.iter().map(|pixel| pixel.word()).collect();
        assert!(self.plate.pixels[..] == words, "{name}: pixels of {sizes:?}");
        let mut log: Vec<u64> =
            pile.iter().map(|&(place, pixel)| entry(place, pixel)).collect();
        log.resize(*room, 0);
        assert!(self.plate.log[..] == log, "{name}: log of {sizes:?}");
    }
}

/// A show, compared with the plain pictures; if there are none, it must write nothing.
fn show<E: Engine>(
    state: State,
    planes: &[u64],
    mut lent: ShowBuffers,
    pictures: Option<Pictures>,
) -> Answer {
    let before = lent.clone();
    let ShowBuffers { scratch, values, mattes } = &mut lent;
    let answer = E::show(state, planes, scratch, values, mattes);
    match pictures {
        Some(pictures) => {
            assert!(values[..] == pictures.values, "{}: values of {state:?}", E::NAME);
            assert!(mattes[..] == pictures.mattes, "{}: mattes of {state:?}", E::NAME);
            assert!(scratch.iter().all(|&cell| cell == 0), "{}: scratch", E::NAME);
        }
        None => assert!(lent.same_cells(&before), "{}: a refused show wrote", E::NAME),
    }
    assert!(lent.guards_hold(), "{}: show wrote beyond its buffers", E::NAME);
    answer
}

/// A total, compared with the notebook's sums, 0 if it is refused; and with the planes' own,
/// cell by cell.
fn total<E: Engine>(
    state: State,
    planes: &[u64],
    mut scratch: Guarded<u64>,
    sum: Sum,
) -> Answer {
    let mut model = scratch.clone();
    let totals = E::total(state, planes, &mut scratch);
    let Totals { answer, matte, light } = totals;
    assert_eq!(Sum { light, matte }, sum, "{}: total of {state:?}", E::NAME);
    assert_eq!(totals, Stored::total(state, planes, &mut model), "{}: {state:?}", E::NAME);
    assert!(*scratch == *model, "{}: scratch of a total, {answer:?}", E::NAME);
    assert!(scratch.guards_hold(), "{}: total wrote beyond its scratch", E::NAME);
    answer
}
