//! A small check that a text is well-formed XML.

/// An element with its attributes, the text right inside it and its depth.
#[derive(Debug)]
pub struct Element {
    pub name: String,
    pub attributes: Vec<(String, String)>,
    pub text: String,
    pub depth: usize,
}

impl Element {
    pub fn attribute(&self, name: &str) -> Option<&str> {
        let found = self.attributes.iter().find(|(key, _)| key == name);
        found.map(|(_, value)| value.as_str())
    }
}

/// The elements in the order in which they begin, or what is wrong.
pub fn elements(text: &str) -> Result<Vec<Element>, String> {
    let mut elements: Vec<Element> = Vec::new();
    let mut open: Vec<usize> = Vec::new();
    let mut rest = text;
    while !rest.is_empty() {
        let Some(tag) = rest.strip_prefix('<') else {
            let end = rest.find('<').unwrap_or(rest.len());
            check_text(&rest[..end])?;
            match open.last() {
                Some(&last) => elements[last].text += &rest[..end],
                None if rest[..end].trim().is_empty() => {}
                None => return Err("text outside the root".to_string()),
            }
            rest = &rest[end..];
            continue;
        };
        let end = end_of_tag(tag).ok_or("a tag that does not end")?;
        let (inside, after) = (&tag[..end], &tag[end + 1..]);
        rest = after;
        if inside.starts_with("!DOCTYPE") || inside.starts_with('?') && elements.is_empty() {
            continue;
        }
        if let Some(name) = inside.strip_prefix('/') {
            let last = open.pop().ok_or("an end without a begin")?;
            if elements[last].name != name {
                return Err(format!("{} ends as {name}", elements[last].name));
            }
            continue;
        }
        if open.is_empty() && !elements.is_empty() {
            return Err("two roots".to_string());
        }
        let closed = inside.ends_with('/');
        elements.push(element(inside.trim_end_matches('/'), open.len())?);
        if !closed {
            open.push(elements.len() - 1);
        }
    }
    if open.is_empty() && !elements.is_empty() {
        Ok(elements)
    } else {
        Err("an element that does not end".to_string())
    }
}

/// Where the tag's `>` is, outside quotes.
fn end_of_tag(tag: &str) -> Option<usize> {
    let mut quoted = false;
    for (i, character) in tag.char_indices() {
        match character {
            '"' => quoted = !quoted,
            '>' if !quoted => return Some(i),
            '<' => return None,
            _ => {}
        }
    }
    None
}

fn element(inside: &str, depth: usize) -> Result<Element, String> {
    let end = inside.find(char::is_whitespace).unwrap_or(inside.len());
    let name = name(&inside[..end])?;
    let mut attributes: Vec<(String, String)> = Vec::new();
    let mut rest = inside[end..].trim_start();
    while !rest.is_empty() {
        let (key, after) = rest.split_once("=\"").ok_or(format!("an attribute in {inside}"))?;
        let (value, after) = after.split_once('"').ok_or(format!("a value in {inside}"))?;
        check_text(value)?;
        let key = self::name(key)?;
        if attributes.iter().any(|(other, _)| *other == key) {
            return Err(format!("{key} twice in {inside}"));
        }
        if !after.is_empty() && !after.starts_with(char::is_whitespace) {
            return Err(format!("no space after {key} in {inside}"));
        }
        attributes.push((key, value.to_string()));
        rest = after.trim_start();
    }
    Ok(Element { name, attributes, text: String::new(), depth })
}

fn name(text: &str) -> Result<String, String> {
    let good = |c: char| c.is_ascii_alphanumeric() || "-_:".contains(c);
    let begins = text.chars().next().is_some_and(|c| c.is_ascii_alphabetic());
    if begins && text.chars().all(good) {
        Ok(text.to_string())
    } else {
        Err(format!("{text} is not a name"))
    }
}

/// No bare `&`, `<` or `>`.
fn check_text(text: &str) -> Result<(), String> {
    for (i, _) in text.match_indices('&') {
        let known = ["&amp;", "&lt;", "&gt;", "&quot;"];
        if !known.iter().any(|entity| text[i..].starts_with(entity)) {
            return Err(format!("a bare & in {text}"));
        }
    }
    if text.contains(['<', '>']) {
        return Err(format!("a bare < or > in {text}"));
    }
    Ok(())
}
