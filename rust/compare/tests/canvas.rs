//! The Rust crate's canvas: after every put and every undo its sums and its pictures are those
//! of spreading tap by tap.
#![cfg(feature = "proved")]

use compare::random::Random;
use lens::{Canvas, Pixel, Plate, Refusal, Shape};
use reference::kernel;
use reference::spread::{Grid, pictures, sums};

const WIDTH: usize = 13;
const HEIGHT: usize = 9;
const REACH: usize = 6;
const PUTS: usize = 400;

fn any_pixel(random: &mut Random) -> Pixel {
    let shape = random.pick(&Shape::ALL);
    Pixel {
        value: random.below(4_096) as u16,
        opacity: random.below(256) as u8,
        shape,
        radius: random.below(usize::from(shape.top_radius(REACH)) + 1) as u8,
    }
}

fn for_reference(pixel: Pixel) -> reference::pixel::Pixel {
    let Pixel { value, opacity, shape, radius } = pixel;
    let shape = kernel::Shape::from_number(shape.number()).expect("a shape");
    reference::pixel::Pixel { value, opacity, shape, radius }
}

fn compare(canvas: &Canvas, grid: &Grid) {
    assert_eq!([canvas.light_sums(), canvas.matte_sums()].concat(), sums(grid));
    let shown = pictures(grid);
    assert_eq!(canvas.pictures().values, shown.values);
    assert_eq!(canvas.pictures().mattes, shown.mattes);
}

#[test]
fn sums_and_pictures_follow_a_stroke() -> Result<(), Refusal> {
    let random = &mut Random::new(91);
    let plate = Plate::builder(WIDTH, HEIGHT).reach(REACH).undo_steps(PUTS).open()?;
    let mut canvas = plate.paint()?;
    let mut grids = vec![Grid::empty(WIDTH, HEIGHT)];
    for _ in 0..PUTS {
        let (x, y, pixel) = (random.below(WIDTH), random.below(HEIGHT), any_pixel(random));
        canvas.put(x, y, pixel)?;
        let mut grid = grids[grids.len() - 1].clone();
        grid.pixels[y * WIDTH + x] = for_reference(pixel);
        compare(&canvas, &grid);
        grids.push(grid);
    }
    for grid in grids.iter().rev().skip(1) {
        canvas.undo()?;
        compare(&canvas, grid);
    }
    assert_eq!(canvas.undo(), Err(Refusal::LogEmpty));
    Ok(())
}
