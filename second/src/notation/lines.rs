//! Lines, words and names of the text notation.

use std::fmt;

/// What is wrong in a text, and on which line.
#[derive(Clone, Debug, PartialEq, Eq)]
pub struct TextError {
    pub line: usize,
    pub message: String,
}

impl fmt::Display for TextError {
    fn fmt(&self, f: &mut fmt::Formatter) -> fmt::Result {
        write!(f, "line {}: {}", self.line, self.message)
    }
}

/// A line that is not empty, without its comment.
#[derive(Clone, Debug)]
pub struct Line {
    pub number: usize,
    pub words: Vec<String>,
}

impl Line {
    pub fn first(&self) -> &str {
        &self.words[0]
    }

    /// The words after the first.
    pub fn rest(&self) -> &[String] {
        &self.words[1..]
    }

    pub fn error<T>(&self, message: impl Into<String>) -> Result<T, TextError> {
        Err(TextError { line: self.number, message: message.into() })
    }
}

/// The lines that hold words; a comment goes from `#` to the end of its line.
pub fn lines(text: &str) -> Vec<Line> {
    let mut lines = Vec::new();
    for (i, whole) in text.lines().enumerate() {
        let without_comment = whole.split('#').next().unwrap_or("");
        let words: Vec<String> = without_comment.split_whitespace().map(String::from).collect();
        if !words.is_empty() {
            lines.push(Line { number: i + 1, words });
        }
    }
    lines
}

/// Names in order of their numbers. A name is made of letters, digits and `_`.
pub struct Names {
    /// What is named, for messages.
    thing: &'static str,
    names: Vec<String>,
}

impl Names {
    pub fn new(thing: &'static str) -> Names {
        Names { thing, names: vec![] }
    }

    pub fn count(&self) -> usize {
        self.names.len()
    }

    /// Gives the next number to the name. A name of digits only must be that number.
    pub fn add(&mut self, line: &Line, name: &str) -> Result<(), TextError> {
        let thing = self.thing;
        let own_number = self.names.len().to_string();
        if !name.chars().all(|c| c.is_ascii_alphanumeric() || c == '_') {
            return line.error(format!(
                "{thing} name {name} has other characters than letters, digits and _"
            ));
        }
        if name.chars().all(|c| c.is_ascii_digit()) && name != own_number {
            return line.error(format!("{thing} {name} is {thing} number {own_number}"));
        }
        if self.names.iter().any(|earlier| earlier == name) {
            return line.error(format!("{thing} {name} is named twice"));
        }
        self.names.push(name.to_string());
        Ok(())
    }

    /// The number of a name; a number stands for itself.
    pub fn number(&self, line: &Line, name: &str) -> Result<usize, TextError> {
        let is_name = |i: &usize| self.names[*i] == name || i.to_string() == name;
        match (0..self.names.len()).find(is_name) {
            Some(number) => Ok(number),
            None => line.error(format!("there is no {} {name} here", self.thing)),
        }
    }

    /// The numbers of names that must be in ascending order.
    pub fn ascending(&self, line: &Line, names: &[String]) -> Result<Vec<usize>, TextError> {
        let mut numbers: Vec<usize> = Vec::new();
        for name in names {
            let number = self.number(line, name)?;
            if numbers.iter().any(|&before| before >= number) {
                return line.error(format!("{} {name} is not in ascending order", self.thing));
            }
            numbers.push(number);
        }
        Ok(numbers)
    }
}
