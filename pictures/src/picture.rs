//! The whole picture of a component.

use crate::boxes::family;
use crate::component::Component;
use crate::formula::{node_text, root_text};
use crate::geometry::{Point, Rect};
use crate::graph::{Graph, Sketch};
use crate::matrix;
use crate::reasons::together;
use crate::svg::{counted, document, text_width, Anchor, Svg};

/// Up to this width sketches stand beside each other.
const WIDTH: f64 = 1400.0;
const MARGIN: f64 = 24.0;

/// The SVG file of a component.
pub fn picture(component: &Component) -> String {
    let mut svg = Svg::new();
    svg.raw(&definitions(component, &family(component)));
    let head = heading(component, &mut svg);
    let sketches = sketches(component);
    let whole = put(&mut svg, &sketches, head.bottom + 10.0);
    let end = reasons(component, &mut svg, whole.bottom + 26.0);
    let width = head.right.max(whole.right).max(end.right) + MARGIN;
    document(width, end.bottom + MARGIN, &svg.body)
}

/// The drawing of steps and that of the merged table if they can be read, and
/// the matrix always.
fn sketches(component: &Component) -> Vec<(&'static str, Sketch)> {
    let mut sketches = Vec::new();
    let graph = Graph::of_states(component);
    let drawn = graph.is_readable();
    if drawn {
        sketches.push(("Steps", graph.sketch()));
    }
    sketches.push(("Table", matrix::sketch(component, !drawn)));
    let merged = Graph::of_classes(component);
    if component.classes.len() < component.table.states() && merged.is_readable() {
        sketches.push(("Merged table", merged.sketch()));
    }
    sketches
}

/// The patterns that the component's fills name.
pub fn definitions(component: &Component, family: &str) -> String {
    let patterns: Vec<String> =
        component.classes.iter().map(|class| class.fill.definition(family)).collect();
    format!("<defs>{}</defs>", patterns.concat())
}

/// What the picture shows, in words.
fn heading(component: &Component, svg: &mut Svg) -> Rect {
    let states = counted(component.table.states(), "state", "states");
    let classes = counted(component.classes.len(), "class", "classes");
    let names = |signals: &[usize]| match signals {
        [] => "none".to_string(),
        _ => signals.iter().map(|s| format!("s{s}")).collect::<Vec<String>>().join(" "),
    };
    let root = component.root();
    let formula = root_text(&component.nodes).unwrap_or(node_text(&component.nodes[root]));
    let lines = [
        (18.0, format!("Component {}: {states}, {classes}", component.number)),
        (
            12.0,
            format!(
                "inputs {}; outputs {}; root is node {root}: {formula}",
                names(&component.table.inputs),
                names(&component.table.outputs)
            ),
        ),
    ];
    let mut y = MARGIN;
    let mut right: f64 = 0.0;
    for (size, text) in lines {
        svg.text(&text, Point::new(MARGIN, y), size, Anchor::Begin, "");
        right = right.max(MARGIN + text_width(&text, size));
        y += 22.0;
    }
    Rect { left: MARGIN, top: 0.0, right, bottom: y - 8.0 }
}

/// Puts the sketches beside each other, a new row where they are wide.
fn put(svg: &mut Svg, sketches: &[(&str, Sketch)], top: f64) -> Rect {
    let mut corner = Point::new(MARGIN, top);
    let mut whole = Rect { left: MARGIN, top, right: MARGIN, bottom: top };
    for (name, sketch) in sketches {
        if corner.x > MARGIN && corner.x + sketch.bounds.width() > WIDTH {
            corner = Point::new(MARGIN, whole.bottom + MARGIN);
        }
        let at = Point::new(corner.x, corner.y + 8.0);
        svg.text(name, at, 14.0, Anchor::Begin, r#"font-weight="bold""#);
        let by = corner.plus(Point::new(0.0, 20.0));
        let by = by.minus(Point::new(sketch.bounds.left, sketch.bounds.top));
        svg.open(&format!(r#"transform="translate({:.1} {:.1})""#, by.x, by.y));
        svg.raw(sketch.svg.trim_end());
        svg.close();
        let bounds = sketch.bounds.moved(by);
        whole = whole.around(&bounds);
        corner.x = bounds.right + 2.0 * MARGIN;
    }
    whole
}

/// For each class with several members, what they have in common.
fn reasons(component: &Component, svg: &mut Svg, top: f64) -> Rect {
    let mut y = top;
    let mut right: f64 = 0.0;
    for class in component.classes.iter().filter(|class| class.members.len() > 1) {
        let common = together(component, class).join("; ");
        let text = format!("Why class {} is one class: {common}", class.name);
        svg.text(&text, Point::new(MARGIN, y), 12.0, Anchor::Begin, "");
        right = right.max(MARGIN + text_width(&text, 12.0));
        y += 17.0;
    }
    Rect { left: MARGIN, top, right, bottom: y }
}
