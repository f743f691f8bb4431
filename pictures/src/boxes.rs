//! Boxes of states and classes, and the signs of marks.

use crate::component::{Class, Component, Mark};
use crate::geometry::{Point, Rect};
use crate::palette::Fill;
use crate::svg::{counted, text_width, Anchor, Svg};

const NUMBER_SIZE: f64 = 15.0;
const SMALL_SIZE: f64 = 9.0;
const OUTPUTS_IN_ROW: usize = 4;

/// The box of a state, or of a class in the merged table.
pub struct Item {
    /// Attributes of its group.
    pub attributes: String,
    pub title: String,
    pub number: String,
    /// Small rows of text under the number.
    pub rows: Vec<String>,
    pub fill: Fill,
    pub mark: Mark,
    pub is_start: bool,
}

impl Item {
    /// Leaves the number alone: that of a class is its name, without the word.
    pub fn shorten(&mut self) {
        self.rows.clear();
        if let Some(name) = self.number.strip_prefix("class ") {
            self.number = name.to_string();
        }
    }
}

/// Tells the fills of pictures on one page apart.
pub fn family(component: &Component) -> String {
    format!("component-{}", component.number)
}

/// Attributes of a state's group: each state has one such group in a picture.
pub fn state_attributes(component: &Component, state: usize) -> String {
    let class = component.class(state);
    let (name, fill) = (class.name, class.fill.0);
    format!(r#"class="state" id="state-{state}" data-class="{name}" data-fill="{fill}""#)
}

/// The box of a class in the merged table.
pub fn class_item(component: &Component, class: &Class) -> Item {
    let size = counted(class.members.len(), "state", "states");
    let mut rows = vec![size.clone()];
    rows.extend(output_rows(component, class.name));
    let is_start = class.members.iter().any(|&state| component.is_start[state]);
    Item {
        attributes: r#"class="merged""#.to_string(),
        title: format!("class {}, {size}", class.name),
        number: format!("class {}", class.name),
        rows,
        fill: class.fill,
        mark: component.root_mark(class.name),
        is_start,
    }
}

/// The box of a state.
pub fn state_item(component: &Component, state: usize) -> Item {
    let class = component.class(state);
    let mut rows = vec![format!("class {}", class.name)];
    rows.extend(output_rows(component, state));
    Item {
        attributes: state_attributes(component, state),
        title: title(component, state),
        number: state.to_string(),
        rows,
        fill: class.fill,
        mark: component.root_mark(state),
        is_start: component.is_start[state],
    }
}

/// A width and height that all boxes have.
pub fn box_size(items: &[Item]) -> (f64, f64) {
    let widths = items.iter().map(|item| {
        let rows = item.rows.iter().map(|row| text_width(row, SMALL_SIZE));
        rows.fold(text_width(&item.number, NUMBER_SIZE) + 16.0, f64::max)
    });
    let rows = items.iter().map(|item| item.rows.len()).max().unwrap_or(0);
    let least: f64 = if rows == 0 { 32.0 } else { 40.0 };
    (widths.fold(least, f64::max) + 12.0, 28.0 + 11.0 * rows as f64)
}

/// What is shown where the pointer rests on a state.
pub fn title(component: &Component, state: usize) -> String {
    let mark = match component.root_mark(state) {
        Mark::Pass => "PASS of the root",
        Mark::Fail => "FAIL of the root",
        Mark::Neither => "neither PASS nor FAIL of the root",
    };
    format!("state {state}, class {}, {mark}", component.class(state).name)
}

/// The high outputs, some in a row.
fn output_rows(component: &Component, state: usize) -> Vec<String> {
    let high = component.high_outputs(state);
    if component.table.outputs.is_empty() {
        return vec![];
    }
    if high.is_empty() {
        return vec!["all low".to_string()];
    }
    high.chunks(OUTPUTS_IN_ROW).map(|names| names.join(" ")).collect()
}

/// The border of a mark.
pub fn border(mark: Mark, width: f64) -> String {
    match mark {
        Mark::Pass => format!(r##"stroke="#0b3d91" stroke-width="{width}""##),
        Mark::Fail => {
            format!(r##"stroke="#a50026" stroke-width="{width}" stroke-dasharray="7 3""##)
        }
        Mark::Neither => r##"stroke="#555555" stroke-width="1""##.to_string(),
    }
}

/// P in a disc or F in a square.
pub fn draw_letter(svg: &mut Svg, mark: Mark, at: Point, size: f64) {
    let letter = match mark {
        Mark::Pass => {
            svg.circle(at, size, r##"fill="#0b3d91""##);
            "P"
        }
        Mark::Fail => {
            svg.rect(&Rect::centred(at, 1.8 * size, 1.8 * size), 1.0, r##"fill="#a50026""##);
            "F"
        }
        Mark::Neither => return,
    };
    let white = r##"fill="#ffffff" font-weight="bold""##;
    svg.text(letter, at, 1.4 * size, Anchor::Middle, white);
}

/// A triangle at the upper left corner: some start has the state.
pub fn draw_start(svg: &mut Svg, corner: Point) {
    let points =
        [(-4.0, -4.0), (9.0, 3.0), (-4.0, 10.0)].map(|(x, y)| corner.plus(Point::new(x, y)));
    svg.polygon(&points, r##"fill="#000000" stroke="#ffffff" stroke-width="1""##);
}

/// A light ground for text on a fill with a pattern.
pub fn draw_ground(svg: &mut Svg, fill: Fill, rect: &Rect) {
    if fill.has_pattern() {
        svg.rect(rect, 4.0, r##"fill="#ffffff" opacity="0.8""##);
    }
}

pub fn draw_item(svg: &mut Svg, item: &Item, rect: &Rect, family: &str) {
    svg.open(&item.attributes);
    svg.title(&item.title);
    let fill = item.fill.value(family);
    svg.rect(rect, 9.0, &format!(r#"fill="{fill}" {}"#, border(item.mark, 3.2)));
    draw_ground(svg, item.fill, &rect.grown(-4.5));
    let x = (rect.left + rect.right) / 2.0;
    let number = r#"class="number" font-weight="bold""#;
    svg.text(&item.number, Point::new(x, rect.top + 13.0), NUMBER_SIZE, Anchor::Middle, number);
    for (i, row) in item.rows.iter().enumerate() {
        let at = Point::new(x, rect.top + 28.0 + 11.0 * i as f64);
        svg.text(row, at, SMALL_SIZE, Anchor::Middle, "");
    }
    draw_letter(svg, item.mark, Point::new(rect.right - 3.0, rect.top + 3.0), 8.0);
    if item.is_start {
        draw_start(svg, Point::new(rect.left, rect.top));
    }
    svg.close();
}
