//! What the program answers about a file: class names, marks and the verdict.

/// Class names of every component's states, marks of every component and node,
/// and the verdict's line.
#[derive(Clone, Debug, PartialEq, Eq)]
pub struct Answers {
    /// For each component and state, the name of its class.
    pub classes: Vec<Vec<usize>>,
    /// For each component and node, PASS and FAIL as words.
    pub marks: Vec<Vec<(u64, u64)>>,
    pub verdict: String,
}

impl Answers {
    /// From the texts that the program prints for `classes`, `marks` and `verdict`.
    pub fn of_texts(classes: &str, marks: &str, verdict: &str) -> Result<Answers, String> {
        for text in [classes, marks] {
            if text.starts_with("refused ") {
                return Err(text.trim_end().to_string());
            }
        }
        Ok(Answers {
            classes: class_names(classes)?,
            marks: mark_words(marks)?,
            verdict: verdict_line(verdict),
        })
    }
}

/// `component C classes N N ..`, a line for each component.
fn class_names(text: &str) -> Result<Vec<Vec<usize>>, String> {
    let mut components = Vec::new();
    for line in text.lines() {
        let words: Vec<&str> = line.split(' ').collect();
        let (c, names) = match words.as_slice() {
            ["component", c, "classes", names @ ..] if !names.is_empty() => (c, names),
            _ => return Err(not_understood("classes", line)),
        };
        let names: Option<Vec<usize>> = names.iter().map(|name| name.parse().ok()).collect();
        match names {
            Some(names) if **c == components.len().to_string() => components.push(names),
            _ => return Err(not_understood("classes", line)),
        }
    }
    Ok(components)
}

/// `component C node K PASS P FAIL F`, components outermost.
fn mark_words(text: &str) -> Result<Vec<Vec<(u64, u64)>>, String> {
    let mut components: Vec<Vec<(u64, u64)>> = Vec::new();
    for line in text.lines() {
        let words: Vec<&str> = line.split(' ').collect();
        let &["component", c, "node", k, "PASS", pass, "FAIL", fail] = words.as_slice() else {
            return Err(not_understood("marks", line));
        };
        if k == "0" {
            components.push(Vec::new());
        }
        let count = components.len();
        match (components.last_mut(), pass.parse(), fail.parse()) {
            (Some(nodes), Ok(pass), Ok(fail))
                if c == (count - 1).to_string() && k == nodes.len().to_string() =>
            {
                nodes.push((pass, fail));
            }
            _ => return Err(not_understood("marks", line)),
        }
    }
    Ok(components)
}

/// `holds marks` and the like, or a refusal; anything else is no answer.
fn verdict_line(text: &str) -> String {
    let line = text.trim_end();
    match line {
        "holds marks" | "holds merged" | "fails marks" | "fails merged" => {
            format!("verdict {line}")
        }
        _ if line.starts_with("refused ") => format!("verdict {line}"),
        _ => "verdict not answered".to_string(),
    }
}

fn not_understood(question: &str, line: &str) -> String {
    format!("the program's answer to `{question}` is not understood: {line}")
}

#[cfg(test)]
mod tests {
    use super::*;

    const MARKS: &str = "component 0 node 0 PASS 3 FAIL 4\ncomponent 0 node 1 PASS 0 FAIL 7\n";

    #[test]
    fn the_chain() {
        let answers = Answers::of_texts("component 0 classes 0 0 2\n", MARKS, "fails marks\n");
        let expected = Answers {
            classes: vec![vec![0, 0, 2]],
            marks: vec![vec![(3, 4), (0, 7)]],
            verdict: "verdict fails marks".to_string(),
        };
        assert_eq!(answers, Ok(expected));
    }

    #[test]
    fn a_refusal_and_other_texts() {
        assert_eq!(Answers::of_texts("refused 3\n", "refused 3\n", ""), Err("refused 3".into()));
        assert!(Answers::of_texts("usage: query stretch C < FILE\n", MARKS, "").is_err());
        assert!(Answers::of_texts("component 1 classes 0\n", MARKS, "").is_err());
        assert!(Answers::of_texts("component 0 classes 0 0 2\n", "component 0\n", "").is_err());
    }
}
