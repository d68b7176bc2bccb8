//! The calls as a trait, in the reference's types; those that keep sums and pictures beside
//! the plate are the second forms of show, put and undo.

#[cfg(feature = "proved")]
use lens::raw;
use reference::kept::Kept;
use reference::{Answer, Fill, Lens, Put, State, Totals, stored};

pub trait Engine {
    const NAME: &'static str;

    fn open(
        width: usize,
        height: usize,
        reach: usize,
        planes: &mut [u64],
        pixels: &mut [u64],
        log: &mut [u64],
    ) -> Answer;

    fn put(
        state: State,
        put: Put,
        planes: &mut [u64],
        pixels: &mut [u64],
        log: &mut [u64],
    ) -> Answer;

    fn undo(state: State, planes: &mut [u64], pixels: &mut [u64], log: &mut [u64]) -> Answer;

    fn fill(
        state: State,
        fill: &Fill,
        planes: &mut [u64],
        pixels: &mut [u64],
        log: &mut [u64],
    ) -> Answer;

    fn show(
        state: State,
        planes: &[u64],
        scratch: &mut [u64],
        values: &mut [u16],
        mattes: &mut [u8],
    ) -> Answer;

    fn total(state: State, planes: &[u64], scratch: &mut [u64]) -> Totals;

    fn show_kept(state: State, planes: &[u64], scratch: &mut [u64], kept: Kept) -> Answer;

    fn put_kept(
        state: State,
        put: Put,
        planes: &mut [u64],
        pixels: &mut [u64],
        log: &mut [u64],
        kept: Kept,
    ) -> Answer;

    fn undo_kept(
        state: State,
        planes: &mut [u64],
        pixels: &mut [u64],
        log: &mut [u64],
        kept: Kept,
    ) -> Answer;
}

/// The proved engine, through its C interface.
#[cfg(feature = "proved")]
pub struct Proved;

/// The same calls written by hand; show and total go another way than the proved engine's.
pub struct Handmade;

/// The reference's own reading of what each call leaves: an engine too, only slow.
pub struct Stored;

/// The same tests for the handmade and the proved engine, in a module for each.
#[macro_export]
macro_rules! for_each_engine {
    ($($name:ident: $test:ident($($given:expr),*),)*) => {
        mod handmade {
            use super::*;

            $(#[test]
            fn $name() {
                $test::<$crate::engine::Handmade>($($given),*);
            })*
        }

        #[cfg(feature = "proved")]
        mod proved {
            use super::*;

            $(#[test]
            fn $name() {
                $test::<$crate::engine::Proved>($($given),*);
            })*
        }
    };
}

/// Makes an engine of a module that mirrors the C interface.
macro_rules! mirror {
    ($engine:ident, $name:literal, $module:ident) => {
        impl Engine for $engine {
            const NAME: &'static str = $name;

            fn open(
                width: usize,
                height: usize,
                reach: usize,
                planes: &mut [u64],
                pixels: &mut [u64],
                log: &mut [u64],
            ) -> Answer {
                let answer = $module::open(width, height, reach, planes, pixels, log);
                $engine::answer(answer)
            }

            fn put(
                state: State,
                put: Put,
                planes: &mut [u64],
                pixels: &mut [u64],
                log: &mut [u64],
            ) -> Answer {
                let state = $engine::state(state);
                let Put { x, y, value, opacity, shape, radius } = put;
                let answer = $module::put(
                    state, x, y, value, opacity, shape, radius, planes, pixels, log,
                );
                $engine::answer(answer)
            }

            fn undo(
                state: State,
                planes: &mut [u64],
                pixels: &mut [u64],
                log: &mut [u64],
            ) -> Answer {
                let answer = $module::undo($engine::state(state), planes, pixels, log);
                $engine::answer(answer)
            }

            fn fill(
                state: State,
                fill: &Fill,
                planes: &mut [u64],
                pixels: &mut [u64],
                log: &mut [u64],
            ) -> Answer {
                let state = $engine::state(state);
                let &Fill { lens, shape, values, opacities, depths } = fill;
                let Lens { opening, focal, focus, pitch } = lens;
                let lens = $module::Lens { opening, focal, focus, pitch };
                let answer = $module::fill(
                    state, lens, shape, values, opacities, depths, planes, pixels, log,
                );
                $engine::answer(answer)
            }

            fn show(
                state: State,
                planes: &[u64],
                scratch: &mut [u64],
                values: &mut [u16],
                mattes: &mut [u8],
            ) -> Answer {
                let state = $engine::state(state);
                let answer = $module::show(state, planes, scratch, values, mattes);
                $engine::answer(answer)
            }

            fn total(state: State, planes: &[u64], scratch: &mut [u64]) -> Totals {
                let totals = $module::total($engine::state(state), planes, scratch);
                let $module::Totals { answer, matte, light } = totals;
                Totals { answer: $engine::answer(answer), matte, light }
            }

            fn show_kept(
                state: State,
                planes: &[u64],
                scratch: &mut [u64],
                kept: Kept,
            ) -> Answer {
                let state = $engine::state(state);
                let Kept { sums, values, mattes } = kept;
                let answer = $module::show_kept(state, planes, scratch, values, mattes, sums);
                $engine::answer(answer)
            }

            fn put_kept(
                state: State,
                put: Put,
                planes: &mut [u64],
                pixels: &mut [u64],
                log: &mut [u64],
                kept: Kept,
            ) -> Answer {
                let state = $engine::state(state);
                let Put { x, y, value, opacity, shape, radius } = put;
                let Kept { sums, values, mattes } = kept;
                let answer = $module::put_kept(
                    state, x, y, value, opacity, shape, radius, planes, pixels, log, sums,
                    values, mattes,
                );
                $engine::answer(answer)
            }

            fn undo_kept(
                state: State,
                planes: &mut [u64],
                pixels: &mut [u64],
                log: &mut [u64],
                kept: Kept,
            ) -> Answer {
                let state = $engine::state(state);
                let Kept { sums, values, mattes } = kept;
                let answer =
                    $module::undo_kept(state, planes, pixels, log, sums, values, mattes);
                $engine::answer(answer)
            }
        }

        impl $engine {
            fn state(state: State) -> $module::State {
                let State { width, height, reach, count } = state;
                $module::State { width, height, reach, count }
            }

            fn answer(answer: $module::Answer) -> Answer {
                let $module::Answer { number, marks, state } = answer;
                let $module::State { width, height, reach, count } = state;
                Answer { number, marks, state: State { width, height, reach, count } }
            }
        }
    };
}

#[cfg(feature = "proved")]
mirror!(Proved, "proved", raw);
mirror!(Handmade, "handmade", handmade);

impl Engine for Stored {
    const NAME: &'static str = "reference";

    fn open(
        width: usize,
        height: usize,
        reach: usize,
        planes: &mut [u64],
        pixels: &mut [u64],
        log: &mut [u64],
    ) -> Answer {
        stored::open(State { width, height, reach, count: 0 }, planes, pixels, log)
    }

    fn put(
        state: State,
        put: Put,
        planes: &mut [u64],
        pixels: &mut [u64],
        log: &mut [u64],
    ) -> Answer {
        stored::put(state, put, planes, pixels, log)
    }

    fn undo(state: State, planes: &mut [u64], pixels: &mut [u64], log: &mut [u64]) -> Answer {
        stored::undo(state, planes, pixels, log)
    }

    fn fill(
        state: State,
        fill: &Fill,
        planes: &mut [u64],
        pixels: &mut [u64],
        log: &mut [u64],
    ) -> Answer {
        stored::fill(state, fill, planes, pixels, log)
    }

    fn show(
        state: State,
        planes: &[u64],
        scratch: &mut [u64],
        values: &mut [u16],
        mattes: &mut [u8],
    ) -> Answer {
        stored::show(state, planes, scratch, values, mattes)
    }

    fn total(state: State, planes: &[u64], scratch: &mut [u64]) -> Totals {
        stored::total(state, planes, scratch)
    }

    fn show_kept(state: State, planes: &[u64], scratch: &mut [u64], kept: Kept) -> Answer {
        stored::show_kept(state, planes, scratch, kept)
    }

    fn put_kept(
        state: State,
        put: Put,
        planes: &mut [u64],
        pixels: &mut [u64],
        log: &mut [u64],
        kept: Kept,
    ) -> Answer {
        stored::put_kept(state, put, planes, pixels, log, kept)
    }

    fn undo_kept(
        state: State,
        planes: &mut [u64],
        pixels: &mut [u64],
        log: &mut [u64],
        kept: Kept,
    ) -> Answer {
        stored::undo_kept(state, planes, pixels, log, kept)
    }
}
