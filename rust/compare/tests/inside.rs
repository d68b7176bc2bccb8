//! Depths inside the lens, not 0 and at most f: a fill is refused by 17, after every other
//! number.

use compare::engine::{Engine, Stored};
use compare::for_each_engine;
use compare::guard::PlateBuffers;
use compare::random::Random;
use compare::step::{Inputs, PAPER_LENS};
use reference::notebook::Notebook;
use reference::{Answer, Lens, State};

const SIZES: State = State { width: 4, height: 3, reach: 5, count: 0 };
const PLACES: usize = SIZES.width * SIZES.height;
const ROOM: usize = 2;

/// A fill on a plate of these sizes: a lawful one, to be changed.
struct Case {
    state: State,
    inputs: Inputs,
}

impl Case {
    fn lawful(lens: Lens) -> Case {
        let inputs = Inputs {
            lens,
            shape: 5,
            values: vec![7; PLACES],
            opacities: vec![255; PLACES],
            depths: vec![20_000; PLACES],
        };
        Case { state: SIZES, inputs }
    }

    /// The number that the fill answers; a refused one must have changed nothing.
    fn number<E: Engine>(&self) -> u32 {
        let random = &mut Random::new(51);
        let mut plate = PlateBuffers::garbage(SIZES, ROOM, random);
        let before = plate.clone();
        let PlateBuffers { planes, pixels, log } = &mut plate;
        let answer = E::fill(self.state, &self.inputs.as_fill(), planes, pixels, log);
        assert!(plate.guards_hold(), "{}: cells beyond a buffer changed", E::NAME);
        if answer.number != 0 {
            let Answer { number, .. } = answer;
            assert_eq!(answer, Answer { number, marks: 0, state: self.state }, "{}", E::NAME);
            assert!(plate.same_cells(&before), "{}: a refused fill wrote", E::NAME);
        }
        answer.number
    }

    /// The number that the notebook's fill answers.
    fn number_by_notebook(&self) -> u32 {
        let mut notebook = Notebook::open(SIZES.width, SIZES.height, SIZES.reach, ROOM);
        notebook.fill(&self.inputs.as_fill()).number
    }
}

/// One depth at each place in turn, around f for short and long focal lengths.
fn around_f<E: Engine>() {
    for focal in [2, 3, 500, 3_999, 4_000] {
        let around = [(0, 0), (1, 17), (focal - 1, 17), (focal, 17), (focal + 1, 0)];
        refused_at::<E>(focal, &around);
    }
    refused_at::<E>(1, &[(0, 0), (1, 17), (2, 0)]);
}

/// Depths, each with the number that a fill with it answers.
fn refused_at<E: Engine>(focal: u32, depths: &[(u32, u32)]) {
    let lens = Lens { focal, ..PAPER_LENS };
    for &(depth, number) in depths {
        for place in 0..PLACES {
            let mut case = Case::lawful(lens);
            case.inputs.depths[place] = depth;
            let told = format!("{}: f {focal}, depth {depth} at {place}", E::NAME);
            assert_eq!(case.number::<E>(), number, "{told}");
            assert_eq!(case.number_by_notebook(), number, "notebook, {told}");
        }
    }
}

/// What makes a lawful fill one that is refused.
type Fault = fn(&mut Case);

/// Each number that a fill is refused by, with a fault that it is given for. The depth above
/// its range stands at the first place, the one inside the lens at the last.
const FAULTS: [(u32, Fault); 8] = [
    (1, |case| case.state.reach = 65),
    (2, |case| case.inputs.opacities.truncate(PLACES - 1)),
    (3, |case| case.state.count = ROOM + 1),
    (5, |case| case.inputs.values[1] = 4_096),
    (6, |case| case.inputs.shape = 6),
    (11, |case| case.inputs.lens.pitch = 0),
    (12, |case| case.inputs.depths[0] = 10_000_001),
    (17, |case| case.inputs.depths[PLACES - 1] = case.inputs.lens.focal),
];

/// Every choice of these faults at once, with the depths as they stand and in the other order:
/// the first of the chosen numbers is given.
fn beside_each_other<E: Engine>() {
    for chosen in 0..1 << FAULTS.len() {
        let faults = || (0..).zip(FAULTS).filter(|(bit, _)| chosen >> bit & 1 == 1);
        let first = faults().next().map_or(0, |(_, (number, _))| number);
        let mut case = Case::lawful(PAPER_LENS);
        faults().for_each(|(_, (_, make))| make(&mut case));
        for _ in 0..2 {
            assert_eq!(case.number::<E>(), first, "{}: faults {chosen:08b}", E::NAME);
            // In a list the state is the plate's own.
            if case.state == SIZES {
                assert_eq!(case.number_by_notebook(), first, "notebook: faults {chosen:08b}");
            }
            case.inputs.depths.reverse();
        }
    }
}

for_each_engine! {
    depths: around_f(),
    order: beside_each_other(),
}

/// The reference's reading of the table is held to the same.
#[test]
fn reference() {
    around_f::<Stored>();
    beside_each_other::<Stored>();
}
