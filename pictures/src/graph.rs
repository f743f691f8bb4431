//! The drawing of steps: a box for each state on a ring, a line for each step.

use crate::boxes::{box_size, class_item, draw_item, family, state_item, Item};
use crate::component::{Class, Component};
use crate::conditions::condition;
use crate::geometry::{Curve, Point, Rect};
use crate::labels;
use crate::lines::{lines, Line};
use crate::palette::Fill;
use crate::ring::{Ring, LARGE};
use crate::svg::{text_width, Anchor, Svg};

/// Up to this many lines have long labels, and labels if there are no inputs.
const FEW: usize = 16;
/// Up to this many lines are labelled.
const LABELLED: usize = 48;
/// With more lines than this none is drawn: the matrix shows the steps.
const DRAWN: usize = 150;

/// A piece of a picture and the room that it takes.
pub struct Sketch {
    pub svg: String,
    pub bounds: Rect,
    /// Boxes and labels, for checking that they are apart.
    pub pieces: Vec<Rect>,
}

/// A group of boxes with a name beside it, or none.
pub struct Group {
    pub count: usize,
    pub name: Option<String>,
    pub fill: Fill,
}

/// Everything that a drawing of steps shows; a step has a label.
pub struct Graph {
    pub family: String,
    pub items: Vec<Item>,
    pub groups: Vec<Group>,
    pub steps: Vec<(usize, usize)>,
    pub labels: Vec<String>,
    /// Whether the labels are shown.
    pub labelled: bool,
}

/// A step between boxes and the assignments on which it is taken.
struct Step {
    from: usize,
    to: usize,
    taken: Vec<bool>,
}

/// Boxes, lines and labels with their places.
struct Placed {
    ring: Ring,
    lines: Vec<Line>,
    labels: Vec<Rect>,
    names: Vec<Option<Rect>>,
    /// How many lines go through labels of others.
    crossed: usize,
}

impl Graph {
    /// The states of a component, members of one class in one group.
    pub fn of_states(component: &Component) -> Graph {
        let order = component.states_by_class();
        let taken = |i: usize, j: usize| component.taken(order[i], order[j]);
        let steps = steps(order.len(), taken);
        let items = order.iter().map(|&state| state_item(component, state)).collect();
        Graph::of(component, items, groups(component), steps)
    }

    /// The merged table of a component.
    pub fn of_classes(component: &Component) -> Graph {
        let classes = &component.classes;
        let taken = |i: usize, j: usize| component.merged_taken(&classes[i], &classes[j]);
        let steps = steps(classes.len(), taken);
        let items = classes.iter().map(|class| class_item(component, class)).collect();
        let alone = |class: &Class| Group { count: 1, name: None, fill: class.fill };
        Graph::of(component, items, classes.iter().map(alone).collect(), steps)
    }

    fn of(
        component: &Component,
        mut items: Vec<Item>,
        groups: Vec<Group>,
        steps: Vec<Step>,
    ) -> Graph {
        // The boxes of a large ring show nothing but their number: the matrix has the rest.
        if items.len() > LARGE {
            items.iter_mut().for_each(Item::shorten);
        }
        let inputs = &component.table.inputs;
        let longest = if steps.len() <= FEW { 24 } else { 12 };
        let label = |step: &Step| condition(inputs, &step.taken, longest);
        Graph {
            family: family(component),
            items,
            groups,
            labels: steps.iter().map(label).collect(),
            labelled: steps.len() <= if inputs.is_empty() { FEW } else { LABELLED },
            steps: steps.iter().map(|step| (step.from, step.to)).collect(),
        }
    }

    /// Whether there are few enough steps for lines.
    pub fn is_readable(&self) -> bool {
        self.steps.len() <= DRAWN
    }

    pub fn sketch(&self) -> Sketch {
        let placed = self.placed();
        let mut svg = Svg::new();
        self.draw_groups(&mut svg, &placed);
        self.draw_lines(&mut svg, &placed);
        for (i, item) in self.items.iter().enumerate() {
            draw_item(&mut svg, item, &placed.ring.rect(i), &self.family);
        }
        self.draw_texts(&mut svg, &placed);
        let pieces = placed.pieces();
        let mut bounds = pieces[0].grown(12.0);
        for piece in &pieces {
            bounds = bounds.around(&piece.grown(12.0));
        }
        for line in &placed.lines {
            bounds = bounds.around(&line.curve.bounds().grown(6.0));
        }
        Sketch { svg: svg.body, bounds, pieces }
    }

    /// A larger ring is tried until every label has a place off other lines.
    fn placed(&self) -> Placed {
        let (width, height) = box_size(&self.items);
        let groups: Vec<usize> = self.groups.iter().map(|group| group.count).collect();
        let longest = self.labels.iter().map(|text| text_width(text, labels::SIZE));
        let longest = if self.labelled { longest.fold(0.0, f64::max) } else { 0.0 };
        let mut least = 60.0 + width / 2.0 + longest / 2.0;
        let mut best: Option<Placed> = None;
        for attempt in 0..10 {
            let ring = Ring::of(&groups, width, height, least);
            if let Some(placed) = self.placed_on(ring, self.labelled) {
                let fewer = best.as_ref().is_none_or(|before| placed.crossed < before.crossed);
                best = if fewer { Some(placed) } else { best };
            }
            let crossed = best.as_ref().map(|placed| placed.crossed);
            if crossed == Some(0) || crossed.is_some() && attempt >= 7 {
                break;
            }
            least = least.max(150.0) * 1.12;
        }
        best.unwrap_or_else(|| {
            let ring = Ring::of(&groups, width, height, least);
            self.placed_on(ring, false).expect("without labels there is nothing to place")
        })
    }

    fn placed_on(&self, ring: Ring, labelled: bool) -> Option<Placed> {
        let lines = lines(&ring, &self.steps, labelled);
        let boxes = (0..self.items.len()).map(|i| ring.rect(i).grown(7.0));
        let mut taken: Vec<Rect> = boxes.collect();
        let loops = lines.iter().filter(|line| line.from == line.to);
        taken.extend(loops.map(|line| line.curve.bounds()));
        let texts: &[String] = if labelled { &self.labels } else { &[] };
        let (labels, crossed) = labels::places(&lines, texts, &taken)?;
        taken.extend(&labels);
        taken.extend(self.areas(&ring));
        let mut names = Vec::new();
        let mut first = 0;
        for group in &self.groups {
            let name = group.name.as_ref();
            let place = name.map(|name| name_place(&ring, first, group.count, name, &taken));
            taken.extend(&place);
            names.push(place);
            first += group.count;
        }
        Some(Placed { ring, lines, labels, names, crossed })
    }

    /// What the light areas between members of a group cover.
    fn areas(&self, ring: &Ring) -> Vec<Rect> {
        let mut areas = Vec::new();
        for (from, to) in self.neighbours() {
            let line = Curve::bent(ring.place(from), ring.place(from), ring.place(to));
            areas.extend(line.points(6).iter().map(|&point| Rect::centred(point, 36.0, 36.0)));
        }
        areas
    }

    /// Members of one group that stand next to each other.
    fn neighbours(&self) -> Vec<(usize, usize)> {
        let mut pairs = Vec::new();
        let mut first = 0;
        for group in &self.groups {
            pairs.extend((first + 1..first + group.count).map(|i| (i - 1, i)));
            first += group.count;
        }
        pairs
    }

    /// A light area behind each group with a name.
    fn draw_groups(&self, svg: &mut Svg, placed: &Placed) {
        let mut first = 0;
        for group in &self.groups {
            if group.name.is_some() {
                let colour = group.fill.colour();
                svg.open(r#"opacity="0.35""#);
                for i in first..first + group.count {
                    let area = placed.ring.rect(i).grown(11.0);
                    svg.rect(&area, 14.0, &format!(r#"fill="{colour}""#));
                    if i > first {
                        let (from, to) = (placed.ring.place(i - 1), placed.ring.place(i));
                        svg.line(from, to, &format!(r#"stroke="{colour}" stroke-width="36""#));
                    }
                }
                svg.close();
            }
            first += group.count;
        }
    }

    fn draw_lines(&self, svg: &mut Svg, placed: &Placed) {
        let many = self.steps.len() > LABELLED;
        let (width, opacity, head) = if many { (0.8, 0.55, 5.5) } else { (1.3, 0.9, 8.0) };
        for line in &placed.lines {
            svg.open(&format!(
                r##"class="step" stroke="#333333" fill="none" opacity="{opacity}""##
            ));
            svg.curve(&line.curve, &format!(r#"stroke-width="{width}""#));
            draw_head(svg, &line.curve, head);
            svg.close();
        }
    }

    fn draw_texts(&self, svg: &mut Svg, placed: &Placed) {
        for (rect, text) in placed.labels.iter().zip(&self.labels) {
            svg.rect(rect, 3.0, r##"fill="#ffffff" opacity="0.88""##);
            svg.text(text, middle(rect), labels::SIZE, Anchor::Middle, r#"class="condition""#);
        }
        for (rect, group) in placed.names.iter().zip(&self.groups) {
            if let (Some(rect), Some(name)) = (rect, &group.name) {
                svg.text(name, middle(rect), 12.0, Anchor::Middle, r#"font-weight="bold""#);
            }
        }
    }
}

impl Placed {
    fn pieces(&self) -> Vec<Rect> {
        let boxes = (0..self.ring.angles.len()).map(|i| self.ring.rect(i));
        let names = self.names.iter().flatten().copied();
        boxes.chain(self.labels.iter().copied()).chain(names).collect()
    }
}

fn middle(rect: &Rect) -> Point {
    Point::new((rect.left + rect.right) / 2.0, (rect.top + rect.bottom) / 2.0)
}

/// The group's name outside the ring, as near as there is room.
fn name_place(ring: &Ring, first: usize, count: usize, name: &str, taken: &[Rect]) -> Rect {
    let (width, height) = (text_width(name, 12.0) + 4.0, 16.0);
    let angle = (ring.angles[first] + ring.angles[first + count - 1]) / 2.0;
    let outward = Point::new(angle.sin(), -angle.cos());
    let between = ring.angles.len() == 2;
    let mut distance = if between { 0.0 } else { ring.radius + 10.0 };
    loop {
        let rect = Rect::centred(outward.times(distance), width, height);
        if !taken.iter().any(|other| other.grown(5.0).overlaps(&rect)) {
            return rect;
        }
        distance += 4.0;
    }
}

fn groups(component: &Component) -> Vec<Group> {
    let group = |class: &Class| {
        let count = class.members.len();
        let name = (count > 1).then(|| format!("class {}: {count} states", class.name));
        Group { count, name, fill: class.fill }
    };
    component.classes.iter().map(group).collect()
}

/// The steps between boxes, with the assignments on which they are taken.
fn steps(count: usize, taken: impl Fn(usize, usize) -> Vec<bool>) -> Vec<Step> {
    let mut steps = Vec::new();
    for from in 0..count {
        for to in 0..count {
            let taken = taken(from, to);
            if taken.contains(&true) {
                steps.push(Step { from, to, taken });
            }
        }
    }
    steps
}

fn draw_head(svg: &mut Svg, curve: &Curve, size: f64) {
    let tip = curve.0[3];
    let back = tip.minus(curve.at(0.93)).unit().times(-size);
    let aside = back.left().times(0.4);
    let base = tip.plus(back);
    let points = [tip, base.plus(aside), base.minus(aside)];
    svg.polygon(&points, r##"fill="#333333" stroke="none""##);
}
