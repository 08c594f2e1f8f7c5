//! Rows, as docs/ROWS.md describes them.

use cfgrammar::yacc::{YaccKind, YaccOriginalActionKind};
use std::io;

/// A row: what it tries, its name, its text, and its other lines.
pub struct Row {
    pub tries: String,
    pub name: String,
    pub text: String,
    pub lines: Vec<(String, String)>,
    /// The text of the row.
    pub spelled: String,
    has_text: bool,
}

impl Row {
    fn new(head: &str) -> Self {
        let (tries, name) = head.split_once(' ').unwrap_or((head, ""));
        Row {
            tries: tries.to_string(),
            name: name.to_string(),
            text: String::new(),
            lines: Vec::new(),
            spelled: format!("{head}\n"),
            has_text: false,
        }
    }

    fn add(&mut self, line: &str) {
        let (word, rest) = line.split_once(' ').unwrap_or((line, ""));
        self.spelled += &format!("  {line}\n");
        match word {
            "text" => self.add_text(if self.has_text { "\n" } else { "" }, rest),
            "then" => self.add_text("", rest),
            "times" => self.add_times(rest),
            _ => self.lines.push((word.to_string(), rest.to_string())),
        }
    }

    fn add_text(&mut self, before: &str, marked: &str) {
        self.text += before;
        self.text.extend(marked.chars().map(|character| match character {
            '␍' => '\r',
            '␊' => '\n',
            '␉' => '\t',
            other => other,
        }));
        self.has_text = true;
    }

    /// Adds a line so many times, with the turn's number for each `#`.
    fn add_times(&mut self, rest: &str) {
        let (count, line) = rest.split_once(' ').unwrap_or((rest, ""));
        for turn in 0..count.parse().unwrap_or(0) {
            self.add_text("", &line.replace('#', &turn.to_string()));
        }
    }

    /// The rest of the first line with this word.
    pub fn first(&self, word: &str) -> Option<&str> {
        let (_, rest) = self.lines.iter().find(|(first, _)| first == word)?;
        Some(rest)
    }

    /// The kind as which the text is read; `None` if the text names it.
    pub fn kind(&self) -> Option<YaccKind> {
        match self.first("kind") {
            Some("original-noaction") => Some(YaccKind::Original(YaccOriginalActionKind::NoAction)),
            Some("original-useraction") => Some(YaccKind::Original(YaccOriginalActionKind::UserAction)),
            Some("grmtools") => Some(YaccKind::Grmtools),
            Some("eco") => Some(YaccKind::Eco),
            Some("section") => None,
            _ => Some(YaccKind::Original(YaccOriginalActionKind::GenericParseTree)),
        }
    }
}

/// The rows in a text.
pub fn rows(spelled: &str) -> io::Result<Vec<Row>> {
    let mut rows: Vec<Row> = Vec::new();
    for line in spelled.split('\n').filter(|line| !line.is_empty() && !line.starts_with('#')) {
        match line.strip_prefix("  ") {
            Some(inner) => rows.last_mut().ok_or_else(|| io::Error::other("a line without a row"))?.add(inner),
            None => rows.push(Row::new(line)),
        }
    }
    Ok(rows)
}
