//! What is wrong in a job file, and where.
use std::fmt;

/// The most of a line or a word that is shown, in characters.
const SHOWN: usize = 72;

#[derive(Clone, Debug, PartialEq, Eq)]
pub struct Mistake {
    /// From 1, in characters.
    pub line: usize,
    pub column: usize,
    pub expected: String,
    pub found: String,
    /// The line as it stands in the file.
    pub text: String,
}

impl Mistake {
    /// The message under a file's name, the line below it and a caret below that.
    pub fn under<'a>(&'a self, file: &'a str) -> impl fmt::Display + 'a {
        fmt::from_fn(move |f| {
            let Mistake { line, column, expected, found, .. } = self;
            writeln!(f, "{file}:{line}:{column}: expected {expected}, found {found}")?;
            let (shown, caret) = self.window();
            let number = line.to_string();
            writeln!(f, "  {number} | {shown}")?;
            write!(f, "  {:w$} | {:caret$}^", "", "", w = number.len())
        })
    }

    /// The part of the line around the column, and how many characters of it come before the column.
    fn window(&self) -> (String, usize) {
        let before = self.column - 1;
        let from = before.saturating_sub(SHOWN / 2);
        (shown(&self.text, from), before - from)
    }
}

/// As much of a text as is shown, from a character on; what does not print is a dot.
fn shown(text: &str, from: usize) -> String {
    text.chars().skip(from).take(SHOWN).map(printed).collect()
}

fn printed(c: char) -> char {
    match c {
        '\t' => ' ',
        c if c.is_control() => '.',
        c => c,
    }
}

/// A word in quotes, cut short where it is long.
pub fn quoted(word: &str) -> String {
    let dots = if word.chars().nth(SHOWN).is_some() { ".." } else { "" };
    format!("`{}{dots}`", shown(word, 0))
}

/// The name that a wrong one was probably meant to be: fewer than half of its letters are wrong.
pub fn meant<'a>(wrong: &str, names: impl IntoIterator<Item = &'a str>) -> Option<&'a str> {
    let scored = names.into_iter().map(|name| (edits(wrong, name), name));
    scored
        .min_by_key(|&(edits, _)| edits)
        .filter(|&(edits, _)| 2 * edits < wrong.chars().count())
        .map(|(_, name)| name)
}

/// How many letters are to be put in, left out or changed to make one word the other.
fn edits(a: &str, b: &str) -> usize {
    let b: Vec<char> = b.chars().collect();
    let mut last: Vec<usize> = (0..=b.len()).collect();
    // A word that is much longer than all names is as wrong when it is cut.
    for (i, x) in a.chars().take(SHOWN).enumerate() {
        let mut next = vec![i + 1];
        for (j, y) in b.iter().enumerate() {
            next.push((last[j] + usize::from(x != *y)).min(last[j + 1] + 1).min(next[j] + 1));
        }
        last = next;
    }
    last[b.len()]
}
