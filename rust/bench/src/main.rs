//! Prints tables of ratios of one run.
//!
//! Every figure is processor time, the best of several rounds, and each round runs all that
//! is compared in turn, so that a busy moment of the machine does not fall on one side only.
//! The tables are Markdown.

mod clock;
mod machine;
mod plate;
mod records;
mod table;

use plate::{Bench, Engine, engines};
use reference::kernel::{Kernel, SHAPES, Shape};
use table::{Table, microseconds, milliseconds, nanoseconds, ratio};

const SHAPE: Shape = Shape::Octagon;
const REACH: usize = 64;
const MAIN: (usize, usize) = (2_048, 1_024);
const RADII: [usize; 4] = [0, 1, 8, 64];
const SIZES: [(usize, usize); 5] = [(64, 64), (256, 128), (1_024, 512), MAIN, (4_096, 512)];

/// A radius that every shape has.
const SHAPES_RADIUS: usize = 3;

/// Kernels whose puts mend kept pictures: shapes with a radius of the layer and one that is put,
/// the same, or a wide one on a sharp layer. Every other shape has the radius that all have.
const KEPT_SHAPES: [Shape; 2] = [Shape::Box, Shape::Octagon];
const KEPT_RADII: [(usize, usize); 5] = [(1, 1), (8, 8), (64, 64), (0, 8), (0, 64)];

/// Beyond so many taps the tap-by-tap program is not waited for.
const TAPS_WAITED_FOR: u64 = 2_000_000_000;

fn main() {
    let engines = engines();
    println!(
        "{} Octagons but in tables that name the shape, reach {REACH}. Processor time, the best \
         of several rounds of one run.\n",
        machine::measured()
    );
    main_table(&engines);
    radius_table(&engines);
    size_table(&engines);
    shape_table(&engines);
    total_table(&engines);
    disturbed_table(&engines);
    kept_table(&engines);
    record_line();
}

/// Fill, show, total and put + undo on the main size, with radii by a ramp of depths.
fn main_table(engines: &[Engine]) {
    let (width, height) = MAIN;
    let mut bench = Bench::new(width, height, REACH);
    bench.lay_depth_ramp();
    let times = bench.run(engines, SHAPE, 15);
    let handmade = times.handmade();
    println!("## {width} × {height}, radii 0 to 64 by a ramp of depths\n");
    let mut table = Table::new(&["call", "engine", "to handmade", "to one read", "time"]);
    for (engine, time) in engines.iter().zip(&times.engines) {
        let calls = time.of_whole_plate().into_iter().zip(handmade.of_whole_plate());
        for ((call, time), (_, by_hand)) in calls {
            table.row([
                call.into(),
                engine.name.into(),
                ratio(time, by_hand),
                ratio(time, times.read),
                milliseconds(time),
            ]);
        }
        table.row([
            "put + undo".into(),
            engine.name.into(),
            ratio(time.put_undo, handmade.put_undo),
            String::new(),
            nanoseconds(time.put_undo),
        ]);
    }
    table.row([
        "pure read of the 14 planes".into(),
        String::new(),
        String::new(),
        ratio(times.read, times.read),
        milliseconds(times.read),
    ]);
    table.print();
    let gigabytes = bench.planes_bytes() as f64 / times.read.as_secs_f64() / 1e9;
    println!("The pure read runs at {gigabytes:.1} GB/s.\n");
}

/// The main size with one radius for all pixels.
fn radius_table(engines: &[Engine]) {
    let (width, height) = MAIN;
    println!("## {width} × {height}, one radius for all pixels\n");
    let mut table = Table::new(&[
        "radius",
        "engine",
        "fill to handmade",
        "put + undo to handmade",
        "fill to radius 0",
        "show to radius 0",
        "put + undo to radius 0",
        "tap by tap to fill + show",
        "fill",
        "show",
        "put + undo",
        "tap by tap",
    ]);
    let mut bench = Bench::new(width, height, REACH);
    let mut at_zero = None;
    for radius in RADII {
        bench.lay_radius(radius);
        let times = bench.run(engines, SHAPE, 9);
        let at_zero = at_zero.get_or_insert_with(|| times.engines.clone());
        let handmade = times.handmade();
        let taps = Kernel::of(SHAPE, radius).area() * (width * height) as u64;
        let tap_by_tap = (taps < TAPS_WAITED_FOR).then(|| bench.tap_by_tap(SHAPE, radius));
        for ((engine, time), zero) in engines.iter().zip(&times.engines).zip(at_zero) {
            table.row([
                radius.to_string(),
                engine.name.into(),
                ratio(time.fill, handmade.fill),
                ratio(time.put_undo, handmade.put_undo),
                ratio(time.fill, zero.fill),
                ratio(time.show, zero.show),
                ratio(time.put_undo, zero.put_undo),
                tap_by_tap.map_or("not run".into(), |taps| ratio(taps, time.fill + time.show)),
                milliseconds(time.fill),
                milliseconds(time.show),
                nanoseconds(time.put_undo),
                tap_by_tap.map_or("not run".into(), milliseconds),
            ]);
        }
    }
    table.print();
}

/// Other plates, all pixels of radius 64.
fn size_table(engines: &[Engine]) {
    println!("## Plate sizes, radius 64 for all pixels\n");
    let mut table = Table::new(&[
        "plate",
        "engine",
        "fill to handmade",
        "put + undo to handmade",
        "fill to one read",
        "show to one read",
        "tap by tap to fill + show",
        "fill",
        "show",
        "put + undo",
        "read",
        "tap by tap",
    ]);
    for (width, height) in SIZES {
        let mut bench = Bench::new(width, height, REACH);
        bench.lay_radius(64);
        let times = bench.run(engines, SHAPE, 9);
        let handmade = times.handmade();
        let taps = Kernel::of(SHAPE, 64).area() * (width * height) as u64;
        let tap_by_tap = (taps < TAPS_WAITED_FOR).then(|| bench.tap_by_tap(SHAPE, 64));
        for (engine, time) in engines.iter().zip(&times.engines) {
            table.row([
                format!("{width} × {height}"),
                engine.name.into(),
                ratio(time.fill, handmade.fill),
                ratio(time.put_undo, handmade.put_undo),
                ratio(time.fill, times.read),
                ratio(time.show, times.read),
                tap_by_tap.map_or("not run".into(), |taps| ratio(taps, time.fill + time.show)),
                milliseconds(time.fill),
                milliseconds(time.show),
                nanoseconds(time.put_undo),
                milliseconds(times.read),
                tap_by_tap.map_or("not run".into(), milliseconds),
            ]);
        }
    }
    table.print();
}

/// Every shape, on the main size.
fn shape_table(engines: &[Engine]) {
    let (width, height) = MAIN;
    println!("## {width} × {height}, every shape, radius {SHAPES_RADIUS} for all pixels\n");
    let mut table = Table::new(&[
        "shape",
        "engine",
        "fill to handmade",
        "put + undo to handmade",
        "fill",
        "show",
        "put + undo",
    ]);
    let mut bench = Bench::new(width, height, REACH);
    bench.lay_radius(SHAPES_RADIUS);
    for shape in SHAPES {
        let times = bench.run(engines, shape, 9);
        let handmade = times.handmade();
        for (engine, time) in engines.iter().zip(&times.engines) {
            table.row([
                format!("{shape:?}").to_lowercase(),
                engine.name.into(),
                ratio(time.fill, handmade.fill),
                ratio(time.put_undo, handmade.put_undo),
                milliseconds(time.fill),
                milliseconds(time.show),
                nanoseconds(time.put_undo),
            ]);
        }
    }
    table.print();
}

/// Total beside show, all pixels of radius 64.
fn total_table(engines: &[Engine]) {
    println!("## Total beside show, radius 64 for all pixels\n");
    let mut table = Table::new(&[
        "plate",
        "engine",
        "total to show",
        "total to handmade",
        "total to one read",
        "show",
        "total",
    ]);
    for (width, height) in [(256, 128), MAIN] {
        let mut bench = Bench::new(width, height, REACH);
        bench.lay_radius(64);
        let times = bench.run(engines, SHAPE, 15);
        for (engine, time) in engines.iter().zip(&times.engines) {
            table.row([
                format!("{width} × {height}"),
                engine.name.into(),
                ratio(time.total, time.show),
                ratio(time.total, times.handmade().total),
                ratio(time.total, times.read),
                milliseconds(time.show),
                milliseconds(time.total),
            ]);
        }
    }
    table.print();
}

/// How many runs over the rows a show and a total take. On a lawful plate one is enough; a word
/// that no kernel lays on a rising line, in each channel, asks for a second. So a ratio near 1
/// would say that lawful plates take two runs as well, or that an engine goes another way.
fn disturbed_table(engines: &[Engine]) {
    let (width, height) = MAIN;
    println!(
        "## {width} × {height}, a disturbed plate to a lawful one, radius 64 for all pixels\n"
    );
    let mut table =
        Table::new(&["call", "engine", "disturbed to lawful", "lawful", "disturbed"]);
    let mut bench = Bench::new(width, height, REACH);
    bench.lay_radius(64);
    let times = bench.run_disturbed(engines, SHAPE, 9);
    for (engine, time) in engines.iter().zip(times) {
        for (call, lawful, disturbed) in time.of_calls() {
            table.row([
                call.into(),
                engine.name.into(),
                ratio(disturbed, lawful),
                milliseconds(lawful),
                milliseconds(disturbed),
            ]);
        }
    }
    table.print();
}

/// The second forms of put, undo and show, on the main size.
fn kept_table(engines: &[Engine]) {
    let (width, height) = MAIN;
    println!("## {width} × {height}, pictures kept under the brush\n");
    let mut table = Table::new(&[
        "shape",
        "layer's radius",
        "put radius",
        "engine",
        "put + undo kept to handmade",
        "put and show to put kept",
        "show kept to show",
        "put + undo kept",
        "show kept",
    ]);
    let mut bench = Bench::new(width, height, REACH);
    for (shape, layer, put) in kept_kernels() {
        bench.lay_under(layer, put);
        let times = bench.run_kept(engines, shape, 7);
        let handmade = times[times.len() - 1];
        for (engine, time) in engines.iter().zip(&times) {
            table.row([
                format!("{shape:?}").to_lowercase(),
                layer.to_string(),
                put.to_string(),
                engine.name.into(),
                ratio(time.put_undo_kept, handmade.put_undo_kept),
                ratio(time.put_and_show(), time.put_kept()),
                ratio(time.show_kept, time.show),
                microseconds(time.put_undo_kept),
                milliseconds(time.show_kept),
            ]);
        }
    }
    table.print();
}

/// Shape, the layer's radius and the one that is put.
fn kept_kernels() -> impl Iterator<Item = (Shape, usize, usize)> {
    let wide = KEPT_SHAPES
        .into_iter()
        .flat_map(|shape| KEPT_RADII.map(|(layer, put)| (shape, layer, put)));
    let others = SHAPES.into_iter().filter(|shape| !KEPT_SHAPES.contains(shape));
    wide.chain(others.map(|shape| (shape, SHAPES_RADIUS, SHAPES_RADIUS)))
}

/// The record program, by the wall clock.
fn record_line() {
    println!("## The record program\n");
    let Some(streamed) = records::run() else {
        println!("There is no crates/lens_records/out/lens_records; `rt run` builds it there.");
        return;
    };
    let megabytes = streamed.bytes as f64 / 1e6;
    println!(
        "{megabytes:.1} MB of puts and undos on a plate of 5 × 4 pixels in {}: {:.1} MB/s.",
        milliseconds(streamed.time),
        megabytes / streamed.time.as_secs_f64()
    );
}
