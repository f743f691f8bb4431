//! Lines of steps between boxes on a ring.

use crate::geometry::{Curve, Point, Rect};
use crate::ring::Ring;

/// A line from one box to another, or back to the same.
pub struct Line {
    pub from: usize,
    pub to: usize,
    pub curve: Curve,
}

/// The lines of the steps. Lines without labels need no room for them and stay
/// near the ring where their ends are near each other.
pub fn lines(ring: &Ring, steps: &[(usize, usize)], labelled: bool) -> Vec<Line> {
    let rects: Vec<Rect> = (0..ring.angles.len()).map(|i| ring.rect(i)).collect();
    let mut lines = Vec::new();
    for &(from, to) in steps {
        let curve = if from == to {
            own_loop(ring, &rects, from)
        } else {
            between(ring, &rects, from, to, labelled)
        };
        lines.push(Line { from, to, curve });
    }
    lines
}

/// A curve through the inside of the ring, a little to the left, so that two
/// opposite lines are apart.
fn between(ring: &Ring, rects: &[Rect], from: usize, to: usize, labelled: bool) -> Curve {
    let (begin, end) = (ring.place(from), ring.place(to));
    let middle = begin.plus(end).times(0.5);
    let across = end.minus(begin);
    let aside = across.unit().left().times(10.0 + 0.07 * across.length());
    let most = if labelled { ring.radius } else { across.length() + 80.0 };
    let inward = middle.unit().times(-(0.5 * middle.length()).min(most));
    let control = middle.plus(inward).plus(aside.times(2.0));
    let whole = Curve::bent(begin, control, end);
    let outside = |rect: &Rect, t: f64| !rect.grown(3.0).holds(whole.at(t));
    let steps = || (0..=400).map(|i| f64::from(i) / 400.0);
    let first = steps().find(|&t| outside(&rects[from], t)).unwrap_or(0.3);
    let last = steps().find(|&t| outside(&rects[to], 1.0 - t)).map_or(0.7, |t| 1.0 - t);
    if first < last {
        whole.part(first, last)
    } else {
        whole
    }
}

/// A loop on the side of the box that is furthest out and free.
fn own_loop(ring: &Ring, rects: &[Rect], state: usize) -> Curve {
    let rect = &rects[state];
    let outward = ring.place(state).unit();
    let mut sides =
        [(0.0, -1.0), (1.0, 0.0), (0.0, 1.0), (-1.0, 0.0)].map(|(x, y)| Point::new(x, y));
    let score = |side: &Point| -(side.x * outward.x + side.y * outward.y);
    sides.sort_by(|a, b| score(a).total_cmp(&score(b)));
    let free = |curve: &Curve| {
        let bounds = curve.bounds().grown(2.0);
        (0..rects.len()).all(|i| i == state || !rects[i].overlaps(&bounds))
    };
    let loops = sides.map(|side| loop_at(rect, side));
    *loops.iter().find(|curve| free(curve)).unwrap_or(&loops[0])
}

fn loop_at(rect: &Rect, side: Point) -> Curve {
    let middle = Point::new((rect.left + rect.right) / 2.0, (rect.top + rect.bottom) / 2.0);
    let half = if side.x == 0.0 { rect.height() / 2.0 } else { rect.width() / 2.0 };
    let foot = middle.plus(side.times(half + 3.0));
    let along = side.left();
    let far = foot.plus(side.times(26.0));
    Curve([
        foot.plus(along.times(7.0)),
        far.plus(along.times(18.0)),
        far.plus(along.times(-18.0)),
        foot.plus(along.times(-7.0)),
    ])
}
