//! Places for the labels of lines: on their own line, off boxes and other
//! labels, and off other lines where that is possible.

use crate::geometry::{Point, Rect};
use crate::lines::Line;
use crate::svg::text_width;

pub const SIZE: f64 = 10.0;

/// A place for each label and how many other lines the labels lie on, or nothing
/// if one finds no place.
pub fn places(lines: &[Line], texts: &[String], taken: &[Rect]) -> Option<(Vec<Rect>, usize)> {
    let courses: Vec<Vec<Point>> = lines.iter().map(|line| line.curve.points(60)).collect();
    let mut taken = taken.to_vec();
    let mut placed = Vec::new();
    let mut total = 0;
    for (i, text) in texts.iter().enumerate() {
        let (width, height) = (text_width(text, SIZE) + 6.0, SIZE + 5.0);
        let mut best: Option<(usize, Rect)> = None;
        for middle in middles(&lines[i], width, height) {
            let rect = Rect::centred(middle, width, height);
            if taken.iter().any(|other| other.overlaps(&rect)) {
                continue;
            }
            let crossed = crossings(&courses, i, &rect.grown(2.0));
            if best.as_ref().is_none_or(|(least, _)| crossed < *least) {
                best = Some((crossed, rect));
            }
            if crossed == 0 {
                break;
            }
        }
        let (crossed, rect) = best?;
        total += crossed;
        taken.push(rect);
        placed.push(rect);
    }
    Some((placed, total))
}

/// How many other lines go through the rectangle.
fn crossings(courses: &[Vec<Point>], own: usize, rect: &Rect) -> usize {
    let through = |course: &Vec<Point>| course.iter().any(|&point| rect.holds(point));
    (0..courses.len()).filter(|&i| i != own && through(&courses[i])).count()
}

/// Where the middle of a label may be, the preferred places first.
fn middles(line: &Line, width: f64, height: f64) -> Vec<Point> {
    if line.from == line.to {
        // Beyond the far point of the loop.
        let [begin, _, _, end] = line.curve.0;
        let far = line.curve.at(0.5);
        let out = far.minus(begin.plus(end).times(0.5)).unit();
        let room = (out.x.abs() * width + out.y.abs() * height) / 2.0 + 2.0;
        return (0..4).map(|i| far.plus(out.times(room + 4.0 * f64::from(i)))).collect();
    }
    let mut values: Vec<f64> = (0..=28).map(|i| 0.14 + 0.025 * f64::from(i)).collect();
    values.sort_by(|a, b| (a - 0.45).abs().total_cmp(&(b - 0.45).abs()));
    values.into_iter().map(|t| line.curve.at(t)).collect()
}
