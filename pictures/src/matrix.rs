//! The table as a matrix: a row for each state, members of one class next to
//! each other; columns for outputs, marks and successors.

use crate::boxes::{border, draw_ground, draw_letter, draw_start, family, state_attributes, title};
use crate::component::{Component, Mark};
use crate::conditions::digits;
use crate::formula::node_text;
use crate::geometry::{Point, Rect};
use crate::graph::Sketch;
use crate::svg::{text_width, Anchor, Svg};

/// The room between the parts of the matrix.
const GAP: f64 = 22.0;
const INK: &str = "#26364d";
/// For outputs on which no class depends.
const LIGHT: &str = "#b9c2cf";

/// Where the parts of a matrix are.
struct Frame<'a> {
    component: &'a Component,
    /// States in the order of rows and of successor columns.
    order: Vec<usize>,
    cell: f64,
    top: f64,
    /// The left side of the row names, outputs, marks and successors.
    names: f64,
    outputs: f64,
    marks: f64,
    successors: f64,
    nodes: Vec<usize>,
}

/// The matrix; `boxes` says that its row names stand for the states.
pub fn sketch(component: &Component, boxes: bool) -> Sketch {
    let frame = Frame::of(component);
    let mut svg = Svg::new();
    frame.draw_heads(&mut svg);
    frame.draw_successor_heads(&mut svg);
    frame.draw_class_columns(&mut svg);
    for row in 0..frame.order.len() {
        frame.draw_name(&mut svg, row, boxes);
        frame.draw_outputs(&mut svg, row);
        frame.draw_marks(&mut svg, row);
        frame.draw_successors(&mut svg, row);
    }
    frame.draw_rules(&mut svg);
    let key = frame.draw_key(&mut svg);
    let right = frame.right().max(key.right);
    let bounds = Rect { left: 0.0, top: 0.0, right: right + 8.0, bottom: key.bottom + 8.0 };
    Sketch { svg: svg.body, bounds, pieces: vec![] }
}

fn cell_size(states: usize) -> f64 {
    match states {
        0..=8 => 28.0,
        9..=16 => 24.0,
        17..=32 => 20.0,
        _ => 18.0,
    }
}

/// How an assignment's square lies in a cell: columns and rows of squares.
fn squares(inputs: usize) -> (usize, usize) {
    [(1, 1), (2, 1), (2, 2), (4, 2), (4, 4)][inputs]
}

fn node_head(component: &Component, k: usize) -> String {
    let root = if k == component.root() { " (root)" } else { "" };
    format!("{k}: {}{root}", node_text(&component.nodes[k]))
}

impl<'a> Frame<'a> {
    fn of(component: &'a Component) -> Frame<'a> {
        let nodes = component.nodes_under_root();
        let heads = nodes.iter().map(|&k| text_width(&node_head(component, k), 10.0));
        let top = 40.0 + heads.fold(40.0, f64::max);
        let cell = cell_size(component.table.states());
        let names = 80.0;
        let outputs = names + 48.0 + GAP;
        let marks = outputs + cell * component.table.outputs.len() as f64 + GAP;
        let successors = marks + cell * nodes.len() as f64 + GAP;
        let order = component.states_by_class();
        Frame { component, order, cell, top, names, outputs, marks, successors, nodes }
    }

    fn right(&self) -> f64 {
        self.successors + self.cell * self.order.len() as f64
    }

    fn bottom(&self) -> f64 {
        self.top + self.cell * self.order.len() as f64
    }

    fn row_middle(&self, row: usize) -> f64 {
        self.top + self.cell * (row as f64 + 0.5)
    }

    /// The cell of a row in the column of the part that begins at `left`.
    fn cell_at(&self, left: f64, column: usize, row: usize) -> Rect {
        let x = left + self.cell * (column as f64 + 0.5);
        Rect::centred(Point::new(x, self.row_middle(row)), self.cell, self.cell)
    }

    /// The names of the parts, outputs and nodes over their columns.
    fn draw_heads(&self, svg: &mut Svg) {
        let component = self.component;
        let head = self.top - 8.0;
        let bold = r#"font-weight="bold""#;
        let parts = [
            (self.names, "state", true),
            (self.outputs, "outputs", !component.table.outputs.is_empty()),
            (self.marks, "marks of nodes", true),
            (self.successors, "goes to state", true),
        ];
        for (left, name, shown) in parts {
            if shown {
                svg.upward_text(name, Point::new(left - 11.0, head), 10.0, bold);
            }
        }
        let middle = |left: f64, i: usize| left + self.cell * (i as f64 + 0.5);
        for (j, signal) in component.table.outputs.iter().enumerate() {
            let at = Point::new(middle(self.outputs, j), head);
            svg.upward_text(&format!("s{signal}"), at, 10.0, "");
        }
        for (i, &k) in self.nodes.iter().enumerate() {
            let weight = if k == component.root() { bold } else { "" };
            let at = Point::new(middle(self.marks, i), head);
            svg.upward_text(&node_head(component, k), at, 10.0, weight);
        }
    }

    /// The numbers of the states over the columns of successors.
    fn draw_successor_heads(&self, svg: &mut Svg) {
        for (j, &state) in self.order.iter().enumerate() {
            let x = self.successors + self.cell * (j as f64 + 0.5);
            let at = Point::new(x, self.top - 13.0);
            let head = Rect::centred(at, self.cell - 1.0, 18.0);
            let fill = self.component.class(state).fill;
            let value = fill.value(&family(self.component));
            let thin = r##"stroke="#555555" stroke-width="0.6""##;
            svg.rect(&head, 3.0, &format!(r#"fill="{value}" {thin}"#));
            draw_ground(svg, fill, &head.grown(-3.0));
            svg.text(&state.to_string(), at, 10.0, Anchor::Middle, r#"font-weight="bold""#);
        }
    }

    /// A light column under the successors of each class, and the class's name.
    fn draw_class_columns(&self, svg: &mut Svg) {
        let mut first = 0;
        for class in &self.component.classes {
            let count = class.members.len();
            let left = self.successors + self.cell * first as f64;
            let right = left + self.cell * count as f64;
            let column = Rect { left, top: self.top, right, bottom: self.bottom() };
            let colour = class.fill.colour();
            svg.rect(&column, 0.0, &format!(r#"fill="{colour}" opacity="0.28""#));
            let name = format!("class {}", class.name);
            let at = Point::new((left + right) / 2.0, self.top - 27.0);
            svg.upward_text(&name, at, 10.0, "");
            let at = Point::new(
                self.names - 22.0,
                self.top + self.cell * (first as f64 + count as f64 / 2.0),
            );
            svg.text(&name, at, 11.0, Anchor::End, "");
            first += count;
        }
    }

    fn draw_name(&self, svg: &mut Svg, row: usize, boxes: bool) {
        let component = self.component;
        let state = self.order[row];
        let class = component.class(state);
        let attributes = state_attributes(component, state);
        svg.open(if boxes { &attributes } else { r#"class="row""# });
        svg.title(&title(component, state));
        let y = self.row_middle(row);
        let at = Point::new(self.names + 15.0, y);
        let name = Rect::centred(at, 30.0, self.cell - 5.0);
        let fill = class.fill.value(&family(component));
        let border = border(component.root_mark(state), 2.4);
        svg.rect(&name, 4.0, &format!(r#"fill="{fill}" {border}"#));
        draw_ground(svg, class.fill, &Rect::centred(at, 18.0, self.cell - 10.0));
        let number = r#"class="number" font-weight="bold""#;
        svg.text(&state.to_string(), at, 11.0, Anchor::Middle, number);
        draw_letter(svg, component.root_mark(state), Point::new(self.names + 42.0, y), 7.0);
        if component.is_start[state] {
            draw_start(svg, Point::new(self.names - 14.0, y - 3.0));
        }
        svg.close();
    }

    fn draw_outputs(&self, svg: &mut Svg, row: usize) {
        let levels = &self.component.table.levels[self.order[row]];
        for (j, &high) in levels.iter().enumerate() {
            let cell = self.cell_at(self.outputs, j, row);
            let at = Point::new((cell.left + cell.right) / 2.0, (cell.top + cell.bottom) / 2.0);
            if high {
                let ink = if self.component.is_seen(j) { INK } else { LIGHT };
                svg.circle(at, self.cell * 0.28, &format!(r#"fill="{ink}""#));
            } else {
                svg.circle(at, 2.0, r##"fill="none" stroke="#999999" stroke-width="0.8""##);
            }
        }
    }

    fn draw_marks(&self, svg: &mut Svg, row: usize) {
        for (i, &k) in self.nodes.iter().enumerate() {
            let cell = self.cell_at(self.marks, i, row);
            let (letter, ground, ink) = match self.component.marks[k][self.order[row]] {
                Mark::Pass => ("P", "#d6e4f7", "#0b3d91"),
                Mark::Fail => ("F", "#f9d9d0", "#a50026"),
                Mark::Neither => continue,
            };
            svg.rect(&cell.grown(-1.0), 2.0, &format!(r#"fill="{ground}""#));
            let at = Point::new((cell.left + cell.right) / 2.0, (cell.top + cell.bottom) / 2.0);
            let attributes = format!(r#"fill="{ink}" font-weight="bold""#);
            svg.text(letter, at, 11.0, Anchor::Middle, &attributes);
        }
    }

    /// White under the cells of steps on some assignments, then the squares.
    fn draw_successors(&self, svg: &mut Svg, row: usize) {
        let inputs = self.component.table.inputs.len();
        let (mut ground, mut ink) = (String::new(), String::new());
        for (column, &to) in self.order.iter().enumerate() {
            let taken = self.component.taken(self.order[row], to);
            let cell = self.cell_at(self.successors, column, row).grown(-2.0);
            if taken.iter().all(|&level| level) {
                ink += &outline(&cell);
            } else if taken.contains(&true) {
                ground += &outline(&cell);
                let on = (0..taken.len()).filter(|&assignment| taken[assignment]);
                ink.extend(on.map(|assignment| outline(&square(&cell, inputs, assignment))));
            }
        }
        svg.raw(&format!(
            r##"<path d="{ground}" fill="#ffffff" stroke="{INK}" stroke-width="0.5"/>"##
        ));
        svg.raw(&format!(r#"<path d="{ink}" fill="{INK}"/>"#));
    }

    /// Lines between rows, and heavier ones between classes.
    fn draw_rules(&self, svg: &mut Svg) {
        let thin = r##"stroke="#cccccc" stroke-width="0.6""##;
        let heavy = r##"stroke="#222222" stroke-width="1.6""##;
        let (rows, cell) = (self.order.len(), self.cell);
        let mut ends = vec![0];
        for class in &self.component.classes {
            ends.push(ends[ends.len() - 1] + class.members.len());
        }
        let mut across = |i: usize, style: &str| {
            let y = self.top + cell * i as f64;
            svg.line(Point::new(self.names - 18.0, y), Point::new(self.right(), y), style);
        };
        (0..=rows).for_each(|i| across(i, thin));
        ends.iter().for_each(|&i| across(i, heavy));
        let mut down = |left: f64, i: usize, style: &str| {
            let x = left + cell * i as f64;
            svg.line(Point::new(x, self.top), Point::new(x, self.bottom()), style);
        };
        (0..=self.component.table.outputs.len()).for_each(|i| down(self.outputs, i, thin));
        (0..=self.nodes.len()).for_each(|i| down(self.marks, i, thin));
        (0..=rows).for_each(|i| down(self.successors, i, thin));
        ends.iter().for_each(|&i| down(self.successors, i, heavy));
    }

    /// Which square of a cell stands for which assignment.
    fn draw_key(&self, svg: &mut Svg) -> Rect {
        let inputs = &self.component.table.inputs;
        let top = self.bottom() + 24.0;
        let left = self.names;
        let names: Vec<String> = inputs.iter().map(|signal| format!("s{signal}")).collect();
        let text = match inputs.len() {
            0 => "A filled cell: the step is possible. There are no inputs.".to_string(),
            _ => format!("Squares of a cell, one for each assignment of {}:", names.join(" ")),
        };
        svg.text(&text, Point::new(left, top), 11.0, Anchor::Begin, "");
        let right = left + text_width(&text, 11.0);
        if inputs.is_empty() {
            return Rect { left, top, right, bottom: top + 8.0 };
        }
        let (columns, rows) = squares(inputs.len());
        for assignment in 0..columns * rows {
            let (x, y) = ((assignment % columns) as f64, (assignment / columns) as f64);
            let square = Rect {
                left: left + 40.0 * x,
                top: top + 12.0 + 18.0 * y,
                right: left + 40.0 * (x + 1.0),
                bottom: top + 30.0 + 18.0 * y,
            };
            svg.rect(&square, 0.0, &format!(r#"fill="none" stroke="{INK}" stroke-width="0.8""#));
            let at = Point::new(square.left + 20.0, square.top + 9.0);
            svg.text(&digits(inputs.len(), assignment), at, 11.0, Anchor::Middle, "");
        }
        let bottom = top + 12.0 + 18.0 * rows as f64;
        Rect { left, top, right: right.max(left + 40.0 * columns as f64), bottom }
    }
}

/// The square of an assignment in a cell.
fn square(cell: &Rect, inputs: usize, assignment: usize) -> Rect {
    let (columns, rows) = squares(inputs);
    let (width, height) = (cell.width() / columns as f64, cell.height() / rows as f64);
    let left = cell.left + width * (assignment % columns) as f64;
    let top = cell.top + height * (assignment / columns) as f64;
    Rect { left, top, right: left + width, bottom: top + height }
}

/// A rectangle as a part of a path.
fn outline(rect: &Rect) -> String {
    let (x, y, width, height) = (rect.left, rect.top, rect.width(), rect.height());
    format!("M{x:.1} {y:.1}h{width:.1}v{height:.1}h-{width:.1}z")
}
