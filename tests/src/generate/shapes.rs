//! Geometries, good and bad.

use super::rng::Rng;
use crate::reference::geometry::Geometry;

/// What kind of life a volume leads.
#[derive(Clone, Copy, Debug, PartialEq, Eq)]
pub enum Shape {
    /// So few tracks and records that both run out.
    Tiny,
    /// Many holes: the chain of format 5s grows and shrinks.
    Worn,
    /// Few records, long sets: format 3s and sixteen extents.
    Stretched,
    /// Cylinders of several tracks, cut up.
    Cylinders,
    /// 26, 27, 52 or 53 holes, and hardly a slot left.
    Brink,
    /// Anything up to the limits.
    Large,
    /// With sets that no call of ours makes. Not one of `SHAPES`: its table is not made by calls.
    Elsewhere,
    /// With free tracks behind sets that can be extended. Not one of `SHAPES` either.
    Touching,
}

pub const SHAPES: [Shape; 6] =
    [Shape::Tiny, Shape::Worn, Shape::Stretched, Shape::Cylinders, Shape::Brink, Shape::Large];

/// A geometry that initialise takes.
pub fn geometry(rng: &mut Rng, shape: Shape) -> Geometry {
    loop {
        let (tracks, h, slots) = match shape {
            Shape::Tiny => (rng.range(4, 40), rng.range(1, 6), rng.range(3, 8)),
            Shape::Worn | Shape::Brink => (rng.range(90, 400), rng.range(1, 3), rng.range(32, 120)),
            Shape::Stretched => (rng.range(40, 160), rng.range(1, 4), rng.range(4, 14)),
            Shape::Cylinders => (rng.range(60, 600), rng.range(2, 15), rng.range(10, 70)),
            Shape::Elsewhere | Shape::Touching => {
                (rng.range(20, 130), rng.range(1, 9), rng.range(4, 16))
            }
            Shape::Large => (rng.range(1000, 65_535), rng.range(1, 255), rng.range(3, 468)),
        };
        let c = (tracks / h).max(1);
        let d = match rng.below(5) {
            0 => 1,
            1 => slots.min(255),
            _ => rng.range(1, slots.min(255)),
        };
        let v = (slots / d).max(1);
        let s = match rng.below(4) {
            0 | 1 => 1,
            2 => (c * h).saturating_sub(v),
            _ => rng.range(1, (c * h).saturating_sub(v)),
        };
        if let Some(geometry) = Geometry::new(c, h, d, s, v) {
            return geometry;
        }
    }
}

/// Arguments for initialise that it refuses, most of them just beyond one limit.
pub fn beyond(rng: &mut Rng) -> [u32; 5] {
    loop {
        let shape = *rng.pick(&SHAPES).expect("shapes");
        let g = geometry(rng, shape);
        let mut numbers = [g.cylinders, g.heads, g.per_track, g.vtoc_start, g.vtoc_tracks];
        let at = rng.below(5);
        let edges = [0, 256, 257, 469, g.tracks(), 65_535, 65_536, 1 << 16, 1 << 31, u32::MAX];
        numbers[at] = match rng.below(3) {
            0 => rng.word() as u32,
            1 => numbers[at].wrapping_add(rng.range(0, 2)).wrapping_sub(1),
            _ => *rng.pick(&edges).expect("edges"),
        };
        let [c, h, d, s, v] = numbers;
        if Geometry::new(c, h, d, s, v).is_none() {
            return numbers;
        }
    }
}
