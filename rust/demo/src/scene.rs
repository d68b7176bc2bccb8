//! A layer made by rule: a floor that runs into the distance, a wall at infinity with
//! highlights, three balls and a wedge of values.

use lens::{Layer, Pixel, Shape};

use crate::files::Gray;

pub const WIDTH: usize = 320;
pub const HEIGHT: usize = 180;

/// The depth in focus, in 0.1 mm.
pub const FOCUS: u32 = 20_000;

/// The wall's depth: infinity.
const FAR: u32 = 0;

pub struct Scene {
    values: Vec<u16>,
    opacities: Vec<u8>,
    depths: Vec<u32>,
}

/// A round object: its middle, its radius, its depth, its brightest value.
struct Ball {
    x: i32,
    y: i32,
    radius: i32,
    depth: u32,
    value: i32,
}

const BALLS: [Ball; 3] = [
    Ball { x: 230, y: 96, radius: 20, depth: 60_000, value: 2_200 },
    Ball { x: 152, y: 108, radius: 32, depth: FOCUS, value: 3_600 },
    Ball { x: 58, y: 120, radius: 42, depth: 11_000, value: 2_900 },
];

const HIGHLIGHTS: [(i32, i32); 9] = [
    (24, 20),
    (70, 38),
    (112, 16),
    (150, 44),
    (188, 22),
    (226, 46),
    (262, 18),
    (300, 36),
    (206, 62),
];

const HORIZON: i32 = 78;

#[derive(Clone, Copy)]
struct Point {
    value: u16,
    opacity: u8,
    depth: u32,
}

impl Scene {
    pub fn new() -> Scene {
        let mut scene = Scene { values: Vec::new(), opacities: Vec::new(), depths: Vec::new() };
        for y in 0..HEIGHT as i32 {
            for x in 0..WIDTH as i32 {
                let Point { value, opacity, depth } = point(x, y);
                scene.values.push(value);
                scene.opacities.push(opacity);
                scene.depths.push(depth);
            }
        }
        scene
    }

    pub fn layer(&self) -> Layer<'_> {
        Layer { values: &self.values, opacities: &self.opacities, depths: &self.depths }
    }

    /// Near is bright, infinity black.
    pub fn depth_picture(&self) -> Gray {
        let gray = |&depth: &u32| match depth {
            FAR => 0,
            depth => (255 * 9_000 / depth.max(9_000)) as u8,
        };
        Gray(self.depths.iter().map(gray).collect())
    }
}

/// What is seen at a pixel, the nearest first.
fn point(x: i32, y: i32) -> Point {
    let ball = BALLS.iter().rev().find_map(|ball| ball.point(x, y));
    ball.or_else(|| wedge(x, y)).or_else(|| floor(x, y)).unwrap_or_else(|| wall(x, y))
}

impl Ball {
    /// Striped, and brighter in its middle.
    fn point(&self, x: i32, y: i32) -> Option<Point> {
        let (dx, dy) = (x - self.x, y - self.y);
        let (square, whole) = (dx * dx + dy * dy, self.radius * self.radius);
        let stripe = if (dx + dy).rem_euclid(10) < 5 { 2 } else { 3 };
        let value = self.value * (2 * whole - square) / (2 * whole) * stripe / 3;
        (square < whole).then_some(Point {
            value: value as u16,
            opacity: 255,
            depth: self.depth,
        })
    }
}

/// A bar of values from 0 to 4,095, standing a little behind the focus.
fn wedge(x: i32, y: i32) -> Option<Point> {
    let inside = (258..310).contains(&x) && (110..150).contains(&y);
    let value = ((x - 258) / 4 * 4_095 / 12) as u16;
    inside.then_some(Point { value, opacity: 255, depth: 24_000 })
}

/// A chequered floor from the horizon down, nearer towards the bottom.
fn floor(x: i32, y: i32) -> Option<Point> {
    let below = y - HORIZON;
    if below <= 0 {
        return None;
    }
    let depth = 900_000 / below as u32;
    let chequer = (depth / 4_000 + ((x - 160) * 40 / below + 4_000) as u32 / 25) % 2;
    let value = if chequer == 0 { 700 } else { 1_500 };
    Some(Point { value, opacity: 255, depth })
}

/// A faint wall with small bright highlights.
fn wall(x: i32, y: i32) -> Point {
    let lit = HIGHLIGHTS.iter().any(|(hx, hy)| (x - hx).abs() <= 1 && (y - hy).abs() <= 1);
    if lit {
        Point { value: 4_095, opacity: 255, depth: FAR }
    } else {
        Point { value: 260, opacity: 10, depth: FAR }
    }
}

/// A pixel of the stroke, with its place.
pub type PlacedPixel = (usize, usize, Pixel);

/// A wave across the picture, three pixels thick, as a brush would put it.
pub fn stroke() -> Vec<PlacedPixel> {
    let pixel = Pixel { value: 4_095, opacity: 255, shape: Shape::Diamond, radius: 3 };
    let mut pixels = Vec::new();
    for x in 0..200 {
        // Arcs of a parabola, by turns above and below.
        let from_middle = x % 50 - 25;
        let arc = 16 - from_middle * from_middle / 39;
        let middle = if x / 50 % 2 == 0 { 80 - arc } else { 80 + arc };
        for y in middle - 1..=middle + 1 {
            pixels.push((60 + x as usize, y as usize, pixel));
        }
    }
    pixels
}
