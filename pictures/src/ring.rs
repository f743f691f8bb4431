//! Places for boxes of one size on a ring, in order, groups with a gap between.

use std::f64::consts::PI;

use crate::geometry::{Point, Rect};

/// The room between boxes, and between the many of a large ring.
const GAP: f64 = 16.0;
const SMALL_GAP: f64 = 10.0;
/// More boxes than this make a large ring.
pub const LARGE: usize = 32;
/// The room beside a group of several boxes, in boxes.
const GROUP_GAP: f64 = 0.5;

pub struct Ring {
    pub radius: f64,
    /// Where each box is on the ring, as an angle from the top, clockwise.
    pub angles: Vec<f64>,
    pub width: f64,
    pub height: f64,
}

impl Ring {
    /// The smallest ring with at least the given radius; `groups` has the sizes
    /// of the groups in order.
    pub fn of(groups: &[usize], width: f64, height: f64, least: f64) -> Ring {
        let count: usize = groups.iter().sum();
        if count == 1 {
            return Ring { radius: 0.0, angles: vec![0.0], width, height };
        }
        if count == 2 {
            let angles = vec![1.5 * PI, 0.5 * PI];
            return Ring { radius: least, angles, width, height };
        }
        let mut radius = least;
        loop {
            let ring = Ring { radius, angles: angles(groups, width, height), width, height };
            if !ring.boxes_overlap() {
                return ring;
            }
            radius *= 1.04;
        }
    }

    /// The point of the ring at an angle; the ring's middle is the origin.
    pub fn at(&self, angle: f64) -> Point {
        Point::new(self.radius * angle.sin(), -self.radius * angle.cos())
    }

    pub fn place(&self, i: usize) -> Point {
        self.at(self.angles[i])
    }

    pub fn rect(&self, i: usize) -> Rect {
        Rect::centred(self.place(i), self.width, self.height)
    }

    fn boxes_overlap(&self) -> bool {
        let count = self.angles.len();
        let gap = gap(count);
        let near = |i: usize, j: usize| {
            self.rect(i).grown(gap / 2.0).overlaps(&self.rect(j).grown(gap / 2.0))
        };
        (0..count).any(|i| (0..i).any(|j| near(i, j)))
    }
}

fn gap(count: usize) -> f64 {
    if count > LARGE {
        SMALL_GAP
    } else {
        GAP
    }
}

/// Boxes are further apart where the ring goes along their longer side.
fn angles(groups: &[usize], width: f64, height: f64) -> Vec<f64> {
    const PARTS: usize = 3600;
    let count: usize = groups.iter().sum();
    let gap = gap(count);
    let need = |angle: f64| {
        let along = (angle.cos().abs().max(1e-6), angle.sin().abs().max(1e-6));
        ((width + gap) / along.0).min((height + gap) / along.1)
    };
    let angle = |part: usize| 2.0 * PI * part as f64 / PARTS as f64;
    let total: f64 = (0..PARTS).map(|part| 1.0 / need(angle(part))).sum();
    let gaps: f64 = (0..groups.len()).map(|i| gap_after(groups, i)).sum();
    let unit = total / (count as f64 + gaps);
    let mut angles = Vec::new();
    let (mut wanted, mut passed, mut part) = (0.0, 0.0, 0);
    for (i, group) in groups.iter().enumerate() {
        for _ in 0..*group {
            while passed + 1e-9 < wanted && part < PARTS {
                passed += 1.0 / need(angle(part));
                part += 1;
            }
            angles.push(angle(part));
            wanted += unit;
        }
        wanted += gap_after(groups, i) * unit;
    }
    angles
}

/// The room between a group and the next, in boxes: none between single boxes.
fn gap_after(groups: &[usize], i: usize) -> f64 {
    let next = groups[(i + 1) % groups.len()];
    if groups.len() > 1 && groups[i].max(next) > 1 {
        GROUP_GAP
    } else {
        0.0
    }
}
