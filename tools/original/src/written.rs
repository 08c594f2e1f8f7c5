//! How spans, names and lists of numbers are written.

use cfgrammar::Span;
use cfgrammar::yacc::Precedence;
use std::fmt::{Debug, Display};

pub fn span(span: Span) -> String {
    format!("({},{})", span.start(), span.end())
}

pub fn spans(spans: &[Span]) -> String {
    spans.iter().map(|it| format!(" {}", span(*it))).collect()
}

/// A text between quotes, and where it is.
pub fn placed(text: &str, at: Span) -> String {
    format!("{text:?} {}", span(at))
}

/// Numbers, each after a space.
pub fn numbers<T: Display>(numbers: impl IntoIterator<Item = T>) -> String {
    numbers.into_iter().map(|number| format!(" {number}")).collect()
}

pub fn precedence(precedence: Precedence) -> String {
    format!("{} {:?}", precedence.level, precedence.kind)
}

/// A text with pictures for CR and TAB.
pub fn marked(text: &str) -> String {
    text.replace('\r', "␍").replace('\t', "␉")
}

/// The kind of an error or a warning, which only its debug text shows.
pub fn kind_of(error: &impl Debug) -> String {
    let shown = format!("{error:?}");
    let begin = shown.find("kind: ").map_or(0, |at| at + "kind: ".len());
    let end = shown.rfind(", spans: [").unwrap_or(shown.len());
    shown[begin..end].to_string()
}
