//! The page that shows all pictures of an instrument.

use second::instrument::Instrument;

use crate::component::{Class, Component, Mark};
use crate::formula::{node_text, root_text};
use crate::geometry::Rect;
use crate::legend::{inline, legend};
use crate::reasons::{apart, together};
use crate::svg::{escaped, Svg};

const STYLE: &str = "body { font-family: Helvetica, Arial, sans-serif; margin: 2em; color: #222; }
table { border-collapse: collapse; margin: 0.5em 0 1.5em; }
td, th { border: 1px solid #bbb; padding: 0.25em 0.6em; text-align: left; vertical-align: top; }
img { max-width: none; border: 1px solid #ccc; }
.picture { overflow-x: auto; }
.verdict { font-size: 1.3em; font-weight: bold; }";

/// Up to this many classes the page says what keeps each two apart.
const PAIRED: usize = 16;

pub fn page(instrument: &Instrument, components: &[Component], verdict: &str) -> String {
    let mut html = String::from("<!DOCTYPE html>\n<html lang=\"en\">\n<head>\n");
    html += "<meta charset=\"utf-8\"/>\n<title>Instrument</title>\n";
    html += &format!("<style>\n{STYLE}\n</style>\n</head>\n<body>\n<h1>Instrument</h1>\n");
    html += &format!("<p class=\"verdict\">{}</p>\n", escaped(verdict));
    html += &sizes(components);
    html += &formula(instrument);
    html += &legend();
    for component in components {
        html += &section(component);
    }
    html + "</body>\n</html>\n"
}

/// `merged M of N`, as the listing prints it.
fn sizes(components: &[Component]) -> String {
    let merged: usize = components.iter().map(|component| component.classes.len()).product();
    let full: usize = components.iter().map(|component| component.table.states()).product();
    format!("<p>merged {merged} of {full}</p>\n")
}

fn formula(instrument: &Instrument) -> String {
    let root = instrument.root();
    let mut html = match root_text(&instrument.nodes) {
        Some(text) => format!("<p>Formula: {}</p>\n", escaped(&text)),
        None => String::new(),
    };
    html += "<p>Nodes: ";
    let nodes: Vec<String> = instrument.nodes.iter().map(node_text).collect();
    let nodes: Vec<String> = (0..nodes.len()).map(|k| format!("{k}: {}", nodes[k])).collect();
    html += &escaped(&nodes.join("; "));
    html += &format!(". The root is node {root}.</p>\n");
    let starts: Vec<String> = instrument.starts.iter().map(|start| combined(start)).collect();
    let starts = if starts.is_empty() { "none".to_string() } else { starts.join(", ") };
    html + &format!("<p>Starts: {starts}</p>\n")
}

fn combined(states: &[usize]) -> String {
    let states: Vec<String> = states.iter().map(usize::to_string).collect();
    format!("({})", states.join(", "))
}

fn section(component: &Component) -> String {
    let c = component.number;
    let mut html = format!("<h2>Component {c}</h2>\n<div class=\"picture\">");
    html += &format!("<img src=\"component-{c}.svg\" alt=\"Drawing of component {c}\"/></div>\n");
    html += "<table>\n<tr><th>class</th><th>fill</th><th>size</th><th>states</th>";
    html += "<th>root</th><th>in common</th></tr>\n";
    for class in &component.classes {
        html += &class_row(component, class);
    }
    html += "</table>\n";
    html + &pairs(component)
}

fn class_row(component: &Component, class: &Class) -> String {
    let family = format!("page-{}-{}", component.number, class.name);
    let mut svg = Svg::new();
    svg.raw(&format!("<defs>{}</defs>", class.fill.definition(&family)));
    let rect = Rect { left: 4.0, top: 4.0, right: 46.0, bottom: 26.0 };
    let fill = class.fill.value(&family);
    svg.rect(&rect, 5.0, &format!(r##"fill="{fill}" stroke="#555555""##));
    let states: Vec<String> = class.members.iter().map(usize::to_string).collect();
    let root = match component.root_mark(class.name) {
        Mark::Pass => "PASS",
        Mark::Fail => "FAIL",
        Mark::Neither => "",
    };
    let common = match class.members.len() {
        1 => String::new(),
        _ => together(component, class).join("; "),
    };
    format!(
        "<tr><td>{}</td><td>{}</td><td>{}</td><td>{}</td><td>{root}</td><td>{}</td></tr>\n",
        class.name,
        inline(50.0, &svg.body),
        class.members.len(),
        states.join(" "),
        escaped(&common)
    )
}

/// For each two classes something that keeps them apart.
fn pairs(component: &Component) -> String {
    let classes = &component.classes;
    if classes.len() < 2 || classes.len() > PAIRED {
        return String::new();
    }
    let mut html = String::from("<p>What keeps classes apart: a level or a mark that differs, ");
    html += "else an output that another component reads, else steps that have no match.</p>\n";
    html += "<table>\n<tr><th></th>";
    for other in &classes[..classes.len() - 1] {
        html += &format!("<th>{}</th>", other.name);
    }
    html += "</tr>\n";
    for (i, one) in classes.iter().enumerate().skip(1) {
        html += &format!("<tr><th>{}</th>", one.name);
        for other in &classes[..i] {
            html += &format!("<td>{}</td>", apart(component, one, other));
        }
        html += "</tr>\n";
    }
    html + "</table>\n"
}
