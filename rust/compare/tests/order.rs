//! Second forms of calls with every choice of faults at once: the first number in the table's
//! order is given, 2 for each buffer whose length is wrong, and nothing is changed.

use compare::engine::{Engine, Stored};
use compare::guard::{Guarded, PlateBuffers};
use compare::lent::Lent;
use compare::random::Random;
use compare::step::Step;
use compare::{for_each_engine, say};
use reference::kept::KeptLengths;
use reference::marks::Layout;
use reference::{Answer, Put, State};

const SIZES: State = State { width: 4, height: 3, reach: 5, count: 1 };
const PLACES: usize = SIZES.width * SIZES.height;
const ROOM: usize = 2;
const TOP_LOG: usize = 65_535;

#[derive(Clone, Copy, Debug)]
enum Call {
    Put,
    Undo,
    Show,
}

/// The lengths that a call is lent.
#[derive(Clone, Copy, Debug)]
struct Lengths {
    planes: usize,
    pixels: usize,
    log: usize,
    scratch: usize,
    kept: KeptLengths,
}

/// A lawful call of any kind, to be changed.
#[derive(Clone, Copy, Debug)]
struct Case {
    state: State,
    put: Put,
    lengths: Lengths,
    /// What stands in every pixel; every entry of the log is 0, the first place's old pixel.
    word: u64,
}

impl Case {
    fn lawful() -> Case {
        let layout = Layout::of(SIZES.width, SIZES.height, SIZES.reach);
        let lengths = Lengths {
            planes: layout.all_planes(),
            pixels: PLACES,
            log: ROOM,
            scratch: 3 * layout.cells(),
            kept: KeptLengths::of(PLACES),
        };
        let put = Put { x: 1, y: 2, value: 7, opacity: 255, shape: 1, radius: 2 };
        Case { state: SIZES, put, lengths, word: 0 }
    }

    fn step(&self, call: Call) -> Step {
        let Lengths { scratch, kept, .. } = self.lengths;
        match call {
            Call::Put => Step::PutKept(self.put, kept),
            Call::Undo => Step::UndoKept(kept),
            Call::Show => Step::ShowKept { scratch, kept },
        }
    }

    fn plate(&self, random: &mut Random) -> PlateBuffers {
        PlateBuffers {
            planes: Guarded::garbage(self.lengths.planes, random),
            pixels: Guarded::filled(self.lengths.pixels, || self.word),
            log: Guarded::filled(self.lengths.log, || 0),
        }
    }

    /// The number that the call answers; a refused one must have changed nothing.
    fn number<E: Engine>(&self, call: Call) -> u32 {
        let random = &mut Random::new(81);
        let step = Some(self.step(call));
        let mut lent = Lent::to(step.as_ref(), self.plate(random), random);
        let before = lent.clone();
        let answer = lent.call::<E>(self.state, step.as_ref()).answer;
        assert!(lent.guards_hold(), "{}: cells beyond a buffer changed", E::NAME);
        if answer.number != 0 {
            let refused = Answer { number: answer.number, marks: 0, state: self.state };
            assert_eq!(answer, refused, "{}", E::NAME);
            assert!(lent.same_cells(&before), "{}: a refused {call:?} wrote", E::NAME);
        }
        answer.number
    }
}

/// What makes a lawful call one that is refused.
type Fault = fn(&mut Case);

/// Each number that a put or an undo is refused by but for 2, with a fault that it is given
/// for. They are made last one first, so that the count is that of the first of them.
const PUT: [(u32, Fault); 8] = [
    (1, |case| case.state.width = 0),
    (3, |case| case.state.count = case.lengths.log + 1),
    (4, |case| case.put.x = SIZES.width),
    (5, |case| case.put.value = 4_096),
    (6, |case| case.put.shape = 6),
    (7, |case| case.put.radius = 3),
    (8, |case| case.state.count = case.lengths.log),
    (10, |case| case.word = 1 << 40),
];
const UNDO: [(u32, Fault); 4] = [
    (1, |case| case.state.height = 4_097),
    (3, |case| case.state.count = case.lengths.log + 1),
    (9, |case| case.state.count = 0),
    (10, |case| case.word = 6 << 20),
];
const SHOW: [(u32, Fault); 1] = [(1, |case| case.state.reach = 65)];

/// One wrong length each: of what both forms of the call are lent, and of what is kept.
const OF_CHANGE: [Fault; 6] = [
    |case| case.lengths.planes -= 1,
    |case| case.lengths.planes += 1,
    |case| case.lengths.pixels -= 1,
    |case| case.lengths.pixels += 1,
    |case| case.lengths.log = TOP_LOG + 1,
    |case| case.lengths.pixels = 0,
];
const OF_SHOW: [Fault; 4] = [
    |case| case.lengths.planes -= 1,
    |case| case.lengths.planes += 1,
    |case| case.lengths.scratch -= 1,
    |case| case.lengths.scratch += 1,
];
const OF_KEPT: [Fault; 9] = [
    |case| case.lengths.kept.sums -= 1,
    |case| case.lengths.kept.sums += 1,
    |case| case.lengths.kept.sums = PLACES,
    |case| case.lengths.kept.values -= 1,
    |case| case.lengths.kept.values += 1,
    |case| case.lengths.kept.values = 0,
    |case| case.lengths.kept.mattes -= 1,
    |case| case.lengths.kept.mattes += 1,
    |case| case.lengths.kept = KeptLengths::of(PLACES + 1),
];

fn every_choice<E: Engine>() {
    let mut tried = 0;
    tried += of_call::<E>(Call::Put, &PUT, &[&OF_CHANGE[..], &OF_KEPT].concat());
    tried += of_call::<E>(Call::Undo, &UNDO, &[&OF_CHANGE[..], &OF_KEPT].concat());
    tried += of_call::<E>(Call::Show, &SHOW, &[&OF_SHOW[..], &OF_KEPT].concat());
    say(&format!("{}, second forms: {tried} choices of faults", E::NAME));
}

/// Every choice of the call's faults, with right lengths and with each wrong one. How many.
fn of_call<E: Engine>(call: Call, faults: &[(u32, Fault)], lengths: &[Fault]) -> usize {
    let mut tried = 0;
    for chosen in 0..1 << faults.len() {
        let is_chosen = |(bit, _): &(usize, _)| chosen >> bit & 1 == 1;
        let chosen = || faults.iter().enumerate().filter(is_chosen);
        let first = chosen().next().map_or(0, |(_, &(number, _))| number);
        for wrong in [None].into_iter().chain(lengths.iter().map(Some)) {
            let mut case = Case::lawful();
            if let Some(wrong) = wrong {
                wrong(&mut case);
            }
            chosen().rev().for_each(|(_, (_, make))| make(&mut case));
            // 2 comes after 1 and before all others.
            let expected = if wrong.is_some() && first != 1 { 2 } else { first };
            assert_eq!(case.number::<E>(call), expected, "{}: {call:?}, {case:?}", E::NAME);
            tried += 1;
        }
    }
    tried
}

for_each_engine! {
    of_refusals: every_choice(),
}

/// The reference's reading of the table is held to the same.
#[test]
fn reference() {
    every_choice::<Stored>();
}
