//! Fills of classes. The nine colours are Paul Tol's light scheme, made for
//! cells with dark text and told apart by colour-blind readers. After them
//! come the same colours with a pattern, seven of them: 72 fills in all, for
//! up to 64 classes.

const COLOURS: [&str; 9] = [
    "#77aadd", "#ee8866", "#eedd88", "#ffaabb", "#99ddff", "#44bb99", "#bbcc33", "#aaaa00",
    "#dddddd",
];

/// The fill of the class that is the given one in the order of colouring.
#[derive(Clone, Copy, Debug, PartialEq, Eq)]
pub struct Fill(pub usize);

impl Fill {
    pub fn colour(self) -> &'static str {
        COLOURS[self.0 % COLOURS.len()]
    }

    /// Whether the colour alone does not tell the class.
    pub fn has_pattern(self) -> bool {
        self.0 >= COLOURS.len()
    }

    /// The value of a `fill` attribute; `family` tells pictures on one page apart.
    pub fn value(self, family: &str) -> String {
        if self.has_pattern() {
            format!("url(#{family}-fill-{})", self.0)
        } else {
            self.colour().to_string()
        }
    }

    /// The pattern that `value` names, if it names one.
    pub fn definition(self, family: &str) -> String {
        if !self.has_pattern() {
            return String::new();
        }
        let ink = r##"stroke="#ffffff" stroke-width="2" fill="none""##;
        let dark = r##"stroke="#444444" stroke-width="1.2" fill="none""##;
        let lines = match self.0 / COLOURS.len() {
            1 => format!(r#"<path d="M-2 2L2 -2M0 8L8 0M6 10L10 6" {ink}/>"#),
            2 => r##"<circle cx="4" cy="4" r="2" fill="#ffffff"/>"##.to_string(),
            3 => format!(r#"<path d="M0 4H8M4 0V8" {ink}/>"#),
            4 => format!(r#"<path d="M-2 6L2 10M0 0L8 8M6 -2L10 2" {dark}/>"#),
            5 => r##"<circle cx="4" cy="4" r="1.5" fill="#444444"/>"##.to_string(),
            6 => format!(r#"<path d="M0 4H8" {dark}/>"#),
            _ => format!(r#"<path d="M4 0V8" {dark}/>"#),
        };
        let colour = self.colour();
        format!(
            concat!(
                r#"<pattern id="{}-fill-{}" width="8" height="8" patternUnits="userSpaceOnUse">"#,
                r#"<rect width="8" height="8" fill="{}"/>{}</pattern>"#
            ),
            family, self.0, colour, lines
        )
    }
}
