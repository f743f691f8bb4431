//! Writing of SVG.

use std::fmt::Write;

use crate::geometry::{Curve, Point, Rect};

/// The text with the characters that XML keeps for itself written out.
pub fn escaped(text: &str) -> String {
    let text = text.replace('&', "&amp;").replace('<', "&lt;").replace('>', "&gt;");
    text.replace('"', "&quot;")
}

/// A width that the text does not exceed in the usual sans-serif fonts.
pub fn text_width(text: &str, size: f64) -> f64 {
    text.chars().count() as f64 * size * 0.62
}

/// A number with its word, as `1 state` or `3 states`.
pub fn counted(count: usize, one: &str, several: &str) -> String {
    format!("{count} {}", if count == 1 { one } else { several })
}

/// Where a text stands to its point.
#[derive(Clone, Copy, Debug, PartialEq, Eq)]
pub enum Anchor {
    Begin,
    Middle,
    End,
}

/// Elements written so far.
#[derive(Default)]
pub struct Svg {
    pub body: String,
}

impl Svg {
    pub fn new() -> Svg {
        Svg::default()
    }

    pub fn raw(&mut self, text: &str) {
        self.body += text;
        self.body += "\n";
    }

    /// Opens a group with the attributes.
    pub fn open(&mut self, attributes: &str) {
        self.raw(&format!("<g {attributes}>"));
    }

    pub fn close(&mut self) {
        self.raw("</g>");
    }

    /// A name that is shown where the pointer rests on the group.
    pub fn title(&mut self, text: &str) {
        self.raw(&format!("<title>{}</title>", escaped(text)));
    }

    pub fn rect(&mut self, rect: &Rect, corner: f64, attributes: &str) {
        let (x, y, w, h) = (rect.left, rect.top, rect.width(), rect.height());
        self.raw(&format!(
            r#"<rect x="{x:.1}" y="{y:.1}" width="{w:.1}" height="{h:.1}" rx="{corner}" {attributes}/>"#
        ));
    }

    pub fn circle(&mut self, middle: Point, radius: f64, attributes: &str) {
        let (x, y) = (middle.x, middle.y);
        self.raw(&format!(r#"<circle cx="{x:.1}" cy="{y:.1}" r="{radius:.1}" {attributes}/>"#));
    }

    pub fn line(&mut self, from: Point, to: Point, attributes: &str) {
        let (x1, y1, x2, y2) = (from.x, from.y, to.x, to.y);
        self.raw(&format!(
            r#"<line x1="{x1:.1}" y1="{y1:.1}" x2="{x2:.1}" y2="{y2:.1}" {attributes}/>"#
        ));
    }

    pub fn polygon(&mut self, points: &[Point], attributes: &str) {
        let points = listed(points);
        self.raw(&format!(r#"<polygon points="{points}" {attributes}/>"#));
    }

    pub fn polyline(&mut self, points: &[Point], attributes: &str) {
        let points = listed(points);
        self.raw(&format!(r#"<polyline points="{points}" {attributes}/>"#));
    }

    pub fn curve(&mut self, curve: &Curve, attributes: &str) {
        let [a, b, c, d] = curve.0;
        self.raw(&format!(
            r#"<path d="M{:.1} {:.1}C{:.1} {:.1} {:.1} {:.1} {:.1} {:.1}" {attributes}/>"#,
            a.x, a.y, b.x, b.y, c.x, c.y, d.x, d.y
        ));
    }

    /// A text whose middle line goes through the point.
    pub fn text(&mut self, text: &str, at: Point, size: f64, anchor: Anchor, attributes: &str) {
        let anchor = match anchor {
            Anchor::Begin => "start",
            Anchor::Middle => "middle",
            Anchor::End => "end",
        };
        let (x, y, text) = (at.x, at.y + 0.36 * size, escaped(text));
        self.raw(&format!(
            r#"<text x="{x:.1}" y="{y:.1}" font-size="{size}" text-anchor="{anchor}" {attributes}>{text}</text>"#
        ));
    }

    /// A text that goes upwards from the point.
    pub fn upward_text(&mut self, text: &str, at: Point, size: f64, attributes: &str) {
        let (x, y, text) = (at.x + 0.36 * size, at.y, escaped(text));
        self.raw(&format!(
            r#"<text transform="translate({x:.1} {y:.1}) rotate(-90)" font-size="{size}" {attributes}>{text}</text>"#
        ));
    }
}

fn listed(points: &[Point]) -> String {
    let mut text = String::new();
    for point in points {
        let _ = write!(text, "{:.1},{:.1} ", point.x, point.y);
    }
    text.trim_end().to_string()
}

/// A whole SVG file with the given content.
pub fn document(width: f64, height: f64, content: &str) -> String {
    format!(
        concat!(
            r#"<?xml version="1.0" encoding="UTF-8"?>"#,
            "\n",
            r#"<svg xmlns="http://www.w3.org/2000/svg" width="{w:.0}" height="{h:.0}" "#,
            r#"viewBox="0 0 {w:.0} {h:.0}" font-family="Helvetica, Arial, 'DejaVu Sans', sans-serif" "#,
            "fill=\"#222222\">\n",
            "<rect width=\"{w:.0}\" height=\"{h:.0}\" fill=\"#ffffff\"/>\n",
            "{content}</svg>\n"
        ),
        w = width,
        h = height,
        content = content
    )
}
