//! The page's legend: each sign with what it stands for.

use crate::boxes::{border, draw_letter, draw_start};
use crate::component::Mark;
use crate::geometry::{Point, Rect};
use crate::palette::Fill;
use crate::svg::Svg;

const FILLS: &str = "One fill for each class; its name, the lowest member, is written too. \
    Members of one class stand together on a light area.";
const PASS: &str = "PASS of the root: beside any partners the root is true in every combined \
    state with this state.";
const FAIL: &str = "FAIL of the root: beside any partners the root is false in every combined \
    state with this state.";
const NEITHER: &str = "Neither: marks do not decide.";
const START: &str = "Some start has this state.";
const OUTPUTS: &str = "In a box: the outputs that are high.";
const LABELS: &str = "On a line: the levels of the inputs on which the step is taken. Digits such \
    as on 01 10 are levels of the inputs in their listed order; 8 of 16 is the number of \
    assignments where a text would be long. Where there are many lines they have no labels, and \
    where there are too many none are drawn: the table shows every step.";
const TABLE: &str = "A row for each state: outputs (a disc is high, a light one where no other \
    component reads the output and no node under the root names it), the mark at each node under \
    the root (P, F), and the states it goes to. A full cell is a step on every assignment, \
    squares in a cell are single assignments.";
const MERGED: &str = "A box for each class: the outputs of its lowest state, and a line to each \
    class that holds a successor of any member.";

pub fn legend() -> String {
    let mut start = Svg::new();
    draw_start(&mut start, Point::new(20.0, 12.0));
    let rows = [
        (fill_sample(), FILLS),
        (mark_sample(Mark::Pass), PASS),
        (mark_sample(Mark::Fail), FAIL),
        (mark_sample(Mark::Neither), NEITHER),
        (inline(60.0, &start.body), START),
        ("s0 s3".to_string(), OUTPUTS),
        ("always, s3, not s3".to_string(), LABELS),
        ("table".to_string(), TABLE),
        ("merged table".to_string(), MERGED),
    ];
    let mut html = String::from("<h2>Legend</h2>\n<table>\n");
    for (sign, text) in rows {
        html += &format!("<tr><td>{sign}</td><td>{text}</td></tr>\n");
    }
    html + "</table>\n"
}

/// A small drawing within the text.
pub fn inline(width: f64, content: &str) -> String {
    format!(
        "<svg xmlns=\"http://www.w3.org/2000/svg\" width=\"{width:.0}\" height=\"30\" \
         viewBox=\"0 0 {width:.0} 30\">\n{content}</svg>"
    )
}

/// The first fills.
fn fill_sample() -> String {
    let mut svg = Svg::new();
    for i in 0..3 {
        let at = Point::new(13.0 + 22.0 * i as f64, 16.0);
        let fill = Fill(i).colour();
        svg.rect(&Rect::centred(at, 18.0, 18.0), 4.0, &format!(r#"fill="{fill}""#));
    }
    inline(72.0, &svg.body)
}

fn mark_sample(mark: Mark) -> String {
    let mut svg = Svg::new();
    let rect = Rect { left: 6.0, top: 8.0, right: 46.0, bottom: 27.0 };
    svg.rect(&rect, 6.0, &format!(r##"fill="#ffffff" {}"##, border(mark, 3.2)));
    draw_letter(&mut svg, mark, Point::new(44.0, 10.0), 8.0);
    inline(60.0, &svg.body)
}
