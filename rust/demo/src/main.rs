//! A small layer with depth, seen through each of the six kernels; then a stroke, painted pixel
//! by pixel with the pictures kept under the brush, and undone. Writes pictures to a folder
//! and says what it saw.
//!
//! Usage: `cargo run --release -p demo -- OUTDIR`

mod files;
mod png;
mod scene;
mod sheet;

use std::error::Error;
use std::path::{Path, PathBuf};
use std::time::{Duration, Instant};
use std::{env, fs};

use files::Gray;
use lens::{Canvas, Layer, Lens, Pictures, Plate, Refusal, Shape};
use scene::{FOCUS, HEIGHT, PlacedPixel, Scene, WIDTH};
use sheet::Sheet;

const REACH: usize = 16;
const LENS: Lens = Lens { opening: 60, focal: 500, focus: FOCUS, pitch: 50 };

/// A difference is lifted so many times to be seen.
const LIFT: u16 = 60;

fn main() -> Result<(), Box<dyn Error>> {
    let Some(folder) = env::args_os().nth(1).map(PathBuf::from) else {
        return Err("usage: demo OUTDIR".into());
    };
    fs::create_dir_all(&folder)?;
    let scene = Scene::new();
    let stroke = scene::stroke();
    let mut plate =
        Plate::builder(WIDTH, HEIGHT).reach(REACH).undo_steps(stroke.len()).open()?;
    let mut sheet = Sheet::new(WIDTH, HEIGHT, 4);

    let before = see_shapes(&mut plate, &scene, &folder, &mut sheet)?;
    let mut canvas = plate.paint()?;
    let painted = paint(&mut canvas, &stroke)?;
    see_stroke(canvas.pictures(), &before, &folder, &mut sheet)?;
    painted.tell();

    while canvas.plate().undo_count() > 0 {
        canvas.undo()?;
    }
    let undone = canvas.pictures();
    let left = difference(&before, undone);
    files::write_pgm(&folder.join("difference-undone.pgm"), WIDTH, 4_095, &left)?;
    sheet.add("difference after undo", Gray::of_values(&left));
    if *undone != before {
        return Err("the pictures after the undo are not those before the stroke".into());
    }
    println!(
        "after {} undos the difference is zero everywhere, in value and matte",
        stroke.len()
    );

    let path = folder.join("contact-sheet.png");
    sheet.write(&path)?;
    println!("{} shows it all", path.display());
    Ok(())
}

/// The layer in focus, and with each of the six kernels; the pictures of the last of them.
fn see_shapes(
    plate: &mut Plate,
    scene: &Scene,
    folder: &Path,
    sheet: &mut Sheet,
) -> Result<Pictures, Box<dyn Error>> {
    let sharp = see_sharp(plate, scene)?;
    sheet.add("the layer, all in focus", Gray::of_values(&sharp.values));
    sheet.add("its depth, near is bright", scene.depth_picture());

    let shapes = ["box", "tent", "triple", "diamond", "hexagon", "octagon"];
    let total = plate.total()?;
    let mut shown = sharp;
    for (shape, name) in Shape::ALL.into_iter().zip(shapes) {
        plate.fill(LENS, shape, scene.layer())?;
        if plate.total()? != total {
            return Err(format!("the {name} makes or loses light").into());
        }
        shown = plate.show()?;
        write_pair(folder, name, &shown)?;
        sheet.add(name, Gray::of_values(&shown.values));
    }
    sheet.add("octagon, matte", Gray::of_mattes(&shown.mattes));
    println!("the light adds up to {} in focus and under each of the six kernels", total.light);
    Ok(shown)
}

/// What a stroke has changed.
fn see_stroke(
    after: &Pictures,
    before: &Pictures,
    folder: &Path,
    sheet: &mut Sheet,
) -> Result<(), Box<dyn Error>> {
    write_pair(folder, "stroke", after)?;
    let changed = difference(before, after);
    files::write_pgm(&folder.join("difference-stroke.pgm"), WIDTH, 4_095, &changed)?;
    sheet.add("a stroke put", Gray::of_values(&after.values));
    sheet.add("difference, sixty times", Gray::of_values(&changed));
    println!("a stroke changed {} of {} values", count_changed(&changed), changed.len());
    Ok(())
}

/// How many marks a stroke moved, what a dab of it took on average, and what a show takes.
struct Painted {
    puts: usize,
    marks: u32,
    dab: Duration,
    show: Duration,
}

impl Painted {
    fn tell(&self) {
        let [dab, show] = [self.dab, self.show].map(|time| time.as_secs_f64() * 1e6);
        println!("its {} puts moved {} marks", self.puts, self.marks);
        println!(
            "each took {dab:.2} µs with its pictures mended, a show {show:.0} µs: {:.0} times \
             as long",
            show / dab
        );
    }
}

/// Paints a stroke, and holds the pictures at its end against a show.
fn paint(canvas: &mut Canvas, stroke: &[PlacedPixel]) -> Result<Painted, Box<dyn Error>> {
    let mut marks = 0;
    let start = Instant::now();
    for &(x, y, pixel) in stroke {
        marks += canvas.put(x, y, pixel)?;
    }
    let dab = start.elapsed() / stroke.len() as u32;
    let mut plate = canvas.plate().clone();
    let start = Instant::now();
    let shown = plate.show()?;
    let show = start.elapsed();
    if *canvas.pictures() != shown {
        return Err("the pictures under the brush are not those of a show".into());
    }
    Ok(Painted { puts: stroke.len(), marks, dab, show })
}

/// The layer with every depth at the focus: nothing is spread.
fn see_sharp(plate: &mut Plate, scene: &Scene) -> Result<Pictures, Refusal> {
    let depths = vec![FOCUS; WIDTH * HEIGHT];
    plate.fill(LENS, Shape::Box, Layer { depths: &depths, ..scene.layer() })?;
    plate.show()
}

fn write_pair(folder: &Path, name: &str, shown: &Pictures) -> Result<(), Box<dyn Error>> {
    let mattes: Vec<u16> = shown.mattes.iter().map(|&matte| matte.into()).collect();
    files::write_pgm(&folder.join(format!("{name}-value.pgm")), WIDTH, 4_095, &shown.values)?;
    files::write_pgm(&folder.join(format!("{name}-matte.pgm")), WIDTH, 255, &mattes)?;
    Ok(())
}

/// How far the values differ, lifted.
fn difference(first: &Pictures, second: &Pictures) -> Vec<u16> {
    let lifted = |(a, b): (&u16, &u16)| a.abs_diff(*b).saturating_mul(LIFT).min(4_095);
    first.values.iter().zip(&second.values).map(lifted).collect()
}

fn count_changed(difference: &[u16]) -> usize {
    difference.iter().filter(|&&cell| cell != 0).count()
}
