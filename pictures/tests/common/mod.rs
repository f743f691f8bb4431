//! What the tests share: answers about a file, and checks of a picture.

pub mod xml;

use pictures::answers::Answers;
use second::answer::answer;
use second::queries::Queries;
use xml::Element;

/// Answers in the program's format; tests of the drawing need no proved ones.
pub fn answers(file: &[u8]) -> Answers {
    let queries = Queries::of(file);
    let text = |question: &str| answer(question, &queries);
    Answers::of_texts(&text("classes"), &text("marks"), &text("verdict")).expect("an answer")
}

/// The groups of states: the group, and the elements inside it.
pub fn state_groups(elements: &[Element]) -> Vec<(&Element, &[Element])> {
    let mut groups = Vec::new();
    for (i, group) in elements.iter().enumerate() {
        if group.name == "g" && group.attribute("class") == Some("state") {
            let after = &elements[i + 1..];
            let end = after.iter().position(|element| element.depth <= group.depth);
            groups.push((group, &after[..end.unwrap_or(after.len())]));
        }
    }
    groups
}

/// Every state is named once, and there is one fill for each class.
pub fn check_states(svg: &str, class_names: &[usize]) {
    let elements = xml::elements(svg).expect("well-formed XML");
    let groups = state_groups(&elements);
    assert_eq!(groups.len(), class_names.len());
    let mut fills: Vec<(usize, String)> = Vec::new();
    for (state, &class) in class_names.iter().enumerate() {
        let id = format!("state-{state}");
        let mut named = groups.iter().filter(|(group, _)| group.attribute("id") == Some(&id));
        let (group, inside) = named.next().expect("a group for the state");
        assert!(named.next().is_none());
        assert_eq!(group.attribute("data-class"), Some(class.to_string().as_str()));
        let is_number = |element: &&Element| element.attribute("class") == Some("number");
        let numbers: Vec<&str> =
            inside.iter().filter(is_number).map(|element| element.text.as_str()).collect();
        assert_eq!(numbers, [state.to_string()]);
        let fill = inside.iter().find(|element| element.name == "rect");
        let fill = fill.and_then(|rect| rect.attribute("fill")).expect("a fill");
        fills.push((class, fill.to_string()));
    }
    for (class, fill) in &fills {
        for (other_class, other_fill) in &fills {
            assert_eq!(class == other_class, fill == other_fill);
        }
        if let Some(id) = fill.strip_prefix("url(#").and_then(|rest| rest.strip_suffix(')')) {
            let pattern = |element: &&Element| element.attribute("id") == Some(id);
            assert_eq!(elements.iter().filter(pattern).count(), 1);
        }
    }
}

/// The letters P and F of the states are the root's marks.
pub fn check_letters(svg: &str, (pass, fail): (u64, u64)) {
    let elements = xml::elements(svg).expect("well-formed XML");
    for (group, inside) in state_groups(&elements) {
        let state = group.attribute("id").and_then(|id| id.strip_prefix("state-"));
        let state: u32 = state.and_then(|number| number.parse().ok()).expect("a number");
        let has = |letter: &str| inside.iter().any(|element| element.text == letter);
        assert_eq!(has("P"), pass >> state & 1 == 1);
        assert_eq!(has("F"), fail >> state & 1 == 1);
    }
}

/// Draws the file and checks every picture and the page.
pub fn check_drawings(file: &[u8]) {
    let answers = answers(file);
    let files = pictures::command::drawings(file, &answers).expect("drawings");
    assert_eq!(files.len(), answers.classes.len() + 1);
    for (c, names) in answers.classes.iter().enumerate() {
        let (name, svg) = &files[c];
        assert_eq!(*name, format!("component-{c}.svg"));
        check_states(svg, names);
        check_letters(svg, *answers.marks[c].last().expect("the root"));
    }
    let (name, page) = &files[answers.classes.len()];
    assert_eq!(name, "index.html");
    xml::elements(page).expect("a well-formed page");
    assert!(page.contains(&answers.verdict));
    for c in 0..answers.classes.len() {
        assert!(page.contains(&format!("<img src=\"component-{c}.svg\"")));
    }
}
