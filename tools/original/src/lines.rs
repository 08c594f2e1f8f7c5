//! Lines and columns of a text, as a row `lines` requests them.

use crate::limit::{PANICS, guarded};
use crate::row::Row;
use crate::written::span;
use cfgrammar::{NewlineCache, Span};
use std::str::FromStr;

/// Lines of the results of a cache that was fed the whole text: of each byte, the end, past it, and the row's spans.
pub fn lines(row: &Row) -> Vec<String> {
    let cache = NewlineCache::from_str(&row.text).expect("never fails");
    let mut lines = vec![format!("text of {} bytes", row.text.len())];
    lines.extend((0..row.text.len() + 2).map(|byte| byte_line(&cache, &row.text, byte)));
    for (_, rest) in row.lines.iter().filter(|(word, _)| word == "span") {
        let mut ends = rest.split(' ').filter_map(|it| it.parse().ok());
        if let (Some(start), Some(end)) = (ends.next(), ends.next()) {
            let found = guarded(|| cache.span_line_bytes(Span::new(start, end)));
            let found = found.map_or(PANICS.to_string(), |(first, last)| format!("({first},{last})"));
            lines.push(format!("    lines of {}: {found}", span(Span::new(start, end))));
        }
    }
    lines
}

fn byte_line(cache: &NewlineCache, text: &str, byte: usize) -> String {
    let line = cache.byte_to_line_num(byte).map_or("no line".to_string(), |it| format!("line {it}"));
    let start = cache.byte_to_line_byte(byte).map_or("nowhere".to_string(), |it| it.to_string());
    let place = match cache.byte_to_line_num_and_col_num(text, byte) {
        Some((line, column)) => format!("at {line}:{column}"),
        None => "no column".to_string(),
    };
    format!("    {byte}: {line} from {start}, {place}")
}
