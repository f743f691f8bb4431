//! Points, rectangles and curves of a drawing. x grows to the right, y downwards.

#[derive(Clone, Copy, Debug, PartialEq)]
pub struct Point {
    pub x: f64,
    pub y: f64,
}

impl Point {
    pub fn new(x: f64, y: f64) -> Point {
        Point { x, y }
    }

    pub fn plus(self, other: Point) -> Point {
        Point::new(self.x + other.x, self.y + other.y)
    }

    pub fn minus(self, other: Point) -> Point {
        Point::new(self.x - other.x, self.y - other.y)
    }

    pub fn times(self, factor: f64) -> Point {
        Point::new(self.x * factor, self.y * factor)
    }

    pub fn length(self) -> f64 {
        self.x.hypot(self.y)
    }

    /// The same direction with length 1.
    pub fn unit(self) -> Point {
        let length = self.length();
        if length < 1e-9 {
            Point::new(0.0, -1.0)
        } else {
            self.times(1.0 / length)
        }
    }

    /// Turned by a quarter, to the left of the direction as seen on the page.
    pub fn left(self) -> Point {
        Point::new(self.y, -self.x)
    }
}

#[derive(Clone, Copy, Debug, PartialEq)]
pub struct Rect {
    pub left: f64,
    pub top: f64,
    pub right: f64,
    pub bottom: f64,
}

impl Rect {
    pub fn centred(middle: Point, width: f64, height: f64) -> Rect {
        Rect {
            left: middle.x - width / 2.0,
            top: middle.y - height / 2.0,
            right: middle.x + width / 2.0,
            bottom: middle.y + height / 2.0,
        }
    }

    pub fn width(&self) -> f64 {
        self.right - self.left
    }

    pub fn height(&self) -> f64 {
        self.bottom - self.top
    }

    pub fn overlaps(&self, other: &Rect) -> bool {
        self.left < other.right
            && other.left < self.right
            && self.top < other.bottom
            && other.top < self.bottom
    }

    pub fn holds(&self, point: Point) -> bool {
        self.left < point.x && point.x < self.right && self.top < point.y && point.y < self.bottom
    }

    /// Larger by the given length on every side.
    pub fn grown(&self, by: f64) -> Rect {
        Rect {
            left: self.left - by,
            top: self.top - by,
            right: self.right + by,
            bottom: self.bottom + by,
        }
    }

    /// The smallest rectangle around both.
    pub fn around(&self, other: &Rect) -> Rect {
        Rect {
            left: self.left.min(other.left),
            top: self.top.min(other.top),
            right: self.right.max(other.right),
            bottom: self.bottom.max(other.bottom),
        }
    }

    pub fn moved(&self, by: Point) -> Rect {
        Rect {
            left: self.left + by.x,
            top: self.top + by.y,
            right: self.right + by.x,
            bottom: self.bottom + by.y,
        }
    }
}

/// A cubic curve: begin, two control points, end.
#[derive(Clone, Copy, Debug, PartialEq)]
pub struct Curve(pub [Point; 4]);

impl Curve {
    /// The curve with one control point.
    pub fn bent(begin: Point, control: Point, end: Point) -> Curve {
        let toward = |p: Point| p.plus(control.minus(p).times(2.0 / 3.0));
        Curve([begin, toward(begin), toward(end), end])
    }

    /// The point at t, from 0 to 1.
    pub fn at(&self, t: f64) -> Point {
        let u = 1.0 - t;
        let weights = [u * u * u, 3.0 * u * u * t, 3.0 * u * t * t, t * t * t];
        let mut point = Point::new(0.0, 0.0);
        for (p, weight) in self.0.iter().zip(weights) {
            point = point.plus(p.times(weight));
        }
        point
    }

    /// The part between two values of t.
    pub fn part(&self, from: f64, to: f64) -> Curve {
        let (_, late) = self.split(from);
        let (middle, _) = late.split((to - from) / (1.0 - from));
        middle
    }

    fn split(&self, t: f64) -> (Curve, Curve) {
        let between = |p: Point, q: Point| p.plus(q.minus(p).times(t));
        let [a, b, c, d] = self.0;
        let (ab, bc, cd) = (between(a, b), between(b, c), between(c, d));
        let (abc, bcd) = (between(ab, bc), between(bc, cd));
        let middle = between(abc, bcd);
        (Curve([a, ab, abc, middle]), Curve([middle, bcd, cd, d]))
    }

    /// Points along the curve, ends included.
    pub fn points(&self, count: usize) -> Vec<Point> {
        (0..=count).map(|i| self.at(i as f64 / count as f64)).collect()
    }

    /// The smallest rectangle around the drawn points.
    pub fn bounds(&self) -> Rect {
        let points = self.points(40);
        let mut bounds = Rect::centred(points[0], 0.0, 0.0);
        for &point in &points {
            bounds = bounds.around(&Rect::centred(point, 0.0, 0.0));
        }
        bounds
    }
}
