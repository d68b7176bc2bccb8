//! Shows and totals of one plate may run at once, each with a scratch of its own.
#![cfg(feature = "proved")]

use std::thread;

use lens::raw::{self, State};

const THREADS: usize = 8;
const ROUNDS: usize = 40;

/// A small plate by the C interface: its state and its planes.
fn raw_plate() -> (State, Vec<u64>) {
    let (mut planes, mut pixels, mut log) = (vec![0; 14 * 66 * 56], vec![0; 1_200], [0; 50]);
    let mut answer = raw::open(40, 30, 10, &mut planes, &mut pixels, &mut log);
    for i in 0..30 {
        let state = answer.state;
        answer = raw::put(state, i, i, 4_000, 255, 5, 10, &mut planes, &mut pixels, &mut log);
    }
    assert_eq!((answer.number, answer.state.count), (0, 30));
    (answer.state, planes)
}

#[test]
fn shows_of_one_plate_at_once() {
    let (state, planes) = raw_plate();
    let show = || {
        let (mut values, mut mattes) = (vec![0; 1_200], vec![0; 1_200]);
        let mut scratch = vec![7; 3 * 66 * 56];
        let answer = raw::show(state, &planes, &mut scratch, &mut values, &mut mattes);
        let totals = raw::total(state, &planes, &mut scratch);
        (answer.number, values, mattes, totals)
    };
    let alone = show();
    assert_eq!((alone.0, alone.3.matte), (0, 8_388_608 * 255 * 30));
    thread::scope(|scope| {
        for _ in 0..THREADS {
            scope.spawn(|| (0..ROUNDS).for_each(|_| assert!(show() == alone)));
        }
    });
}
