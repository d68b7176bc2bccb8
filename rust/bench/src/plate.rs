//! A plate with its buffers and inputs, and the times of calls on it.

use std::hint::black_box;
use std::time::Duration;

use compare::engine::{self, Handmade};
use compare::random::Random;
use compare::step::{PAPER_LENS, depth_of};
use reference::kept::Kept;
use reference::kernel::{Kernel, Shape};
use reference::marks::{Layout, PLANES, plane_of_slope};
use reference::pixel::Pixel;
use reference::spread::{Grid, pictures};
use reference::{Answer, Fill, Put, State, Totals};

use crate::clock::time;

/// An engine by name, and how to time a round of its calls.
pub struct Engine {
    pub name: &'static str,
    round: fn(&mut Bench, Shape, &mut Times),
    kept_round: fn(&mut Bench, Shape, &mut KeptTimes),
    disturbed_round: fn(&mut Bench, &mut DisturbedTimes),
}

impl Engine {
    fn of<E: engine::Engine>() -> Engine {
        let kept_round = Bench::kept_round::<E>;
        let disturbed_round = Bench::disturbed_round::<E>;
        Engine { name: E::NAME, round: Bench::round::<E>, kept_round, disturbed_round }
    }
}

/// The engines to compare, the handmade one last.
pub fn engines() -> Vec<Engine> {
    vec![
        #[cfg(feature = "proved")]
        Engine::of::<engine::Proved>(),
        Engine::of::<Handmade>(),
    ]
}

/// The best times of one engine; put + undo is one pair.
#[derive(Clone, Copy)]
pub struct Times {
    pub fill: Duration,
    pub show: Duration,
    pub total: Duration,
    pub put_undo: Duration,
}

impl Times {
    /// Those of the calls that go over all of a plate.
    pub fn of_whole_plate(self) -> [(&'static str, Duration); 3] {
        [("fill", self.fill), ("show", self.show), ("total", self.total)]
    }
}

/// The best times of one engine's first and second forms.
#[derive(Clone, Copy)]
pub struct KeptTimes {
    pub show: Duration,
    pub show_kept: Duration,
    pub put_undo: Duration,
    pub put_undo_kept: Duration,
}

impl KeptTimes {
    /// A put and a show after it; a put takes as long as its undo, about.
    pub fn put_and_show(self) -> Duration {
        self.put_undo / 2 + self.show
    }

    pub fn put_kept(self) -> Duration {
        self.put_undo_kept / 2
    }
}

/// The best times of one engine's shows and totals, of a lawful plate and of a disturbed one.
#[derive(Clone, Copy)]
pub struct DisturbedTimes {
    show: Duration,
    total: Duration,
    disturbed_show: Duration,
    disturbed_total: Duration,
}

impl DisturbedTimes {
    /// By call, of the lawful plate and of the disturbed one.
    pub fn of_calls(self) -> [(&'static str, Duration, Duration); 2] {
        [("show", self.show, self.disturbed_show), ("total", self.total, self.disturbed_total)]
    }
}

/// The best times of a run: one pure read of the 14 planes, and each engine's.
pub struct Run {
    pub read: Duration,
    pub engines: Vec<Times>,
}

impl Run {
    /// The baseline's times.
    pub fn handmade(&self) -> Times {
        *self.engines.last().expect("the handmade engine is always there")
    }
}

/// Pairs of put and undo that are timed together.
const PAIRS: u32 = 20_000;

/// Of those that mend kept pictures no more than mend so many cells.
const MENDED_CELLS: u64 = 10_000_000;

pub struct Bench {
    state: State,
    planes: Vec<u64>,
    pixels: Vec<u64>,
    log: Vec<u64>,
    scratch: Vec<u64>,
    shown_values: Vec<u16>,
    shown_mattes: Vec<u8>,
    /// Kept by the calls' second forms, those that are shown beside those of the first forms.
    sums: Vec<u64>,
    kept_values: Vec<u16>,
    kept_mattes: Vec<u8>,
    values: Vec<u16>,
    opacities: Vec<u8>,
    depths: Vec<u32>,
    /// Where put + undo goes, and the radius it puts.
    places: Vec<(usize, usize)>,
    put_radius: u8,
}

impl Bench {
    /// A plate with values, opacities and places at random.
    pub fn new(width: usize, height: usize, reach: usize) -> Bench {
        let mut random = Random::new(61);
        let layout = Layout::of(width, height, reach);
        let cells = width * height;
        Bench {
            state: State { width, height, reach, count: 0 },
            planes: vec![0; layout.all_planes()],
            pixels: vec![0; cells],
            log: vec![0; 16],
            scratch: vec![0; 3 * layout.cells()],
            shown_values: vec![0; cells],
            shown_mattes: vec![0; cells],
            sums: vec![0; 2 * cells],
            kept_values: vec![0; cells],
            kept_mattes: vec![0; cells],
            values: (0..cells).map(|_| random.below(4_096) as u16).collect(),
            opacities: (0..cells).map(|_| random.below(256) as u8).collect(),
            depths: vec![0; cells],
            places: (0..PAIRS).map(|_| (random.below(width), random.below(height))).collect(),
            put_radius: 0,
        }
    }

    pub fn planes_bytes(&self) -> usize {
        size_of_val(&self.planes[..])
    }

    /// A floor that runs from the focus, at the bottom, into the far distance.
    pub fn lay_depth_ramp(&mut self) {
        let State { width, height, .. } = self.state;
        for (place, depth) in self.depths.iter_mut().enumerate() {
            let above_bottom = height - 1 - place / width;
            *depth = 20_000 + (above_bottom * above_bottom * 4) as u32;
        }
        self.put_radius = 8;
    }

    /// Depths that give every pixel this radius with the paper's lens.
    pub fn lay_radius(&mut self, radius: usize) {
        self.depths.fill(depth_of(radius));
        self.put_radius = radius as u8;
    }

    /// Depths that give every pixel one radius, and puts another.
    pub fn lay_under(&mut self, layer: usize, put: usize) {
        self.lay_radius(layer);
        self.put_radius = put as u8;
    }

    /// Times every engine and the pure read in turn, several rounds long.
    pub fn run(&mut self, engines: &[Engine], shape: Shape, rounds: usize) -> Run {
        let never = Duration::MAX;
        let unset = Times { fill: never, show: never, total: never, put_undo: never };
        let mut run = Run { read: never, engines: vec![unset; engines.len()] };
        for _ in 0..rounds {
            for (engine, best) in engines.iter().zip(&mut run.engines) {
                (engine.round)(self, shape, best);
            }
            run.read = run.read.min(time(|| self.read()));
        }
        run
    }

    /// Times the second forms of every engine's calls, and beside them the first.
    pub fn run_kept(
        &mut self,
        engines: &[Engine],
        shape: Shape,
        rounds: usize,
    ) -> Vec<KeptTimes> {
        let never = Duration::MAX;
        let unset =
            KeptTimes { show: never, show_kept: never, put_undo: never, put_undo_kept: never };
        let mut best = vec![unset; engines.len()];
        self.fill::<Handmade>(shape);
        for _ in 0..rounds {
            for (engine, best) in engines.iter().zip(&mut best) {
                (engine.kept_round)(self, shape, best);
            }
        }
        best
    }

    /// Times every engine's shows and totals of a filled plate, and of the same with a word on a
    /// rising line.
    pub fn run_disturbed(
        &mut self,
        engines: &[Engine],
        shape: Shape,
        rounds: usize,
    ) -> Vec<DisturbedTimes> {
        let never = Duration::MAX;
        let unset = DisturbedTimes {
            show: never,
            total: never,
            disturbed_show: never,
            disturbed_total: never,
        };
        let mut best = vec![unset; engines.len()];
        self.fill::<Handmade>(shape);
        // Once without a clock, so that all memory was touched before.
        self.show::<Handmade>();
        for _ in 0..rounds {
            for (engine, best) in engines.iter().zip(&mut best) {
                (engine.disturbed_round)(self, best);
            }
        }
        best
    }

    fn round<E: engine::Engine>(&mut self, shape: Shape, best: &mut Times) {
        best.fill = best.fill.min(time(|| self.fill::<E>(shape)));
        best.show = best.show.min(time(|| self.show::<E>()));
        best.total = best.total.min(time(|| self.total::<E>()));
        let pairs = time(|| self.put_and_undo::<E>(shape));
        best.put_undo = best.put_undo.min(pairs / PAIRS);
    }

    fn kept_round<E: engine::Engine>(&mut self, shape: Shape, best: &mut KeptTimes) {
        best.show = best.show.min(time(|| self.show::<E>()));
        best.show_kept = best.show_kept.min(time(|| self.show_kept::<E>()));
        let pairs = time(|| self.put_and_undo::<E>(shape));
        best.put_undo = best.put_undo.min(pairs / PAIRS);
        let area = Kernel::of(shape, usize::from(self.put_radius)).area();
        let count = (MENDED_CELLS / area).min(u64::from(PAIRS)) as u32;
        let pairs = time(|| self.put_and_undo_kept::<E>(shape, count));
        best.put_undo_kept = best.put_undo_kept.min(pairs / count);
        let kept_is_shown = self.kept_values == self.shown_values;
        assert!(kept_is_shown && self.kept_mattes == self.shown_mattes);
    }

    fn disturbed_round<E: engine::Engine>(&mut self, best: &mut DisturbedTimes) {
        best.show = best.show.min(time(|| self.show::<E>()));
        best.total = best.total.min(time(|| self.total::<E>()));
        self.disturb(1);
        best.disturbed_show = best.disturbed_show.min(time(|| self.show::<E>()));
        best.disturbed_total = best.disturbed_total.min(time(|| self.total::<E>()));
        self.disturb(1u64.wrapping_neg());
    }

    /// Adds a word to the middle cell of a plane of rising lines, of light and of matte.
    fn disturb(&mut self, word: u64) {
        let State { width, height, reach, .. } = self.state;
        let cells = Layout::of(width, height, reach).cells();
        for plane in [0, PLANES].map(|first| first + plane_of_slope(-1)) {
            let cell = &mut self.planes[plane * cells + cells / 2];
            *cell = cell.wrapping_add(word);
        }
    }

    fn fill<E: engine::Engine>(&mut self, shape: Shape) {
        let fill = Fill {
            lens: PAPER_LENS,
            shape: shape.number(),
            values: &self.values,
            opacities: &self.opacities,
            depths: &self.depths,
        };
        let Bench { state, planes, pixels, log, .. } = self;
        accepted(E::fill(*state, &fill, planes, pixels, log));
    }

    fn show<E: engine::Engine>(&mut self) {
        let Bench { state, planes, scratch, shown_values, shown_mattes, .. } = self;
        accepted(E::show(*state, planes, scratch, shown_values, shown_mattes));
    }

    fn total<E: engine::Engine>(&mut self) {
        let Bench { state, planes, scratch, .. } = self;
        let Totals { answer, matte, light } = E::total(*state, planes, scratch);
        accepted(answer);
        black_box((matte, light));
    }

    fn show_kept<E: engine::Engine>(&mut self) {
        let Bench { state, planes, scratch, sums, kept_values, kept_mattes, .. } = self;
        let kept = Kept { sums, values: kept_values, mattes: kept_mattes };
        accepted(E::show_kept(*state, planes, scratch, kept));
    }

    fn put_and_undo<E: engine::Engine>(&mut self, shape: Shape) {
        let any = self.any_put(shape);
        let Bench { state, planes, pixels, log, .. } = self;
        for &(x, y) in &self.places {
            let put = Put { x, y, ..any };
            let answer = accepted(E::put(*state, put, planes, pixels, log));
            accepted(E::undo(answer.state, planes, pixels, log));
        }
    }

    fn put_and_undo_kept<E: engine::Engine>(&mut self, shape: Shape, pairs: u32) {
        let any = self.any_put(shape);
        let Bench { state, planes, pixels, log, sums, kept_values, kept_mattes, .. } = self;
        for &(x, y) in &self.places[..pairs as usize] {
            let put = Put { x, y, ..any };
            let kept = Kept { sums, values: kept_values, mattes: kept_mattes };
            let answer = accepted(E::put_kept(*state, put, planes, pixels, log, kept));
            let kept = Kept { sums, values: kept_values, mattes: kept_mattes };
            accepted(E::undo_kept(answer.state, planes, pixels, log, kept));
        }
    }

    /// What is put, wherever it is.
    fn any_put(&self, shape: Shape) -> Put {
        let (shape, radius) = (shape.number(), self.put_radius);
        Put { x: 0, y: 0, value: 1_000, opacity: 200, shape, radius }
    }

    fn read(&self) {
        black_box(self.planes.iter().fold(0, |sum: u64, cell| sum.wrapping_add(*cell)));
    }

    /// The time of the tests' tap-by-tap program for the same pictures.
    pub fn tap_by_tap(&self, shape: Shape, radius: usize) -> Duration {
        let State { width, height, .. } = self.state;
        let pixel = |place: usize| Pixel {
            value: self.values[place],
            opacity: self.opacities[place],
            shape,
            radius: radius as u8,
        };
        let grid = Grid { width, height, pixels: (0..width * height).map(pixel).collect() };
        let mut shown = None;
        let time = time(|| shown = Some(pictures(&grid)));
        // The engine showed the same layer last.
        let shown = shown.expect("pictures were made");
        assert!(shown.values == self.shown_values && shown.mattes == self.shown_mattes);
        time
    }
}

fn accepted(answer: Answer) -> Answer {
    assert_eq!(answer.number, 0, "a lawful call was refused");
    answer
}
