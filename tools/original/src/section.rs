//! Sections by themselves: what their keys have, and the kinds that the values name.

use crate::row::Row;
use crate::written::{placed, span, spans};
use cfgrammar::Span;
use cfgrammar::header::{GrmtoolsSectionParser, HeaderError, Namespaced, Setting, Value};
use cfgrammar::yacc::YaccKind;

/// Lines of the answers to a section.
pub fn lines(row: &Row) -> Vec<String> {
    let mut lines = vec![format!("text of {} bytes", row.text.len())];
    let ends = || (0..=row.text.len()).filter(|end| row.text.is_char_boundary(*end));
    match row.first("show") {
        Some("cuts") => lines.extend(ends().flat_map(|end| section_lines(&format!("cut {end}"), &row.text[..end]))),
        Some("entries") => lines.extend(ends().flat_map(|begin| entry_lines(&row.text, begin))),
        _ => lines.extend(section_lines("section", &row.text)),
    }
    lines
}

fn section_lines(title: &str, text: &str) -> Vec<String> {
    let (mut needed, mut free) = (parsed_lines(text, true), parsed_lines(text, false));
    if needed == free {
        needed[0].insert_str(0, &format!("{title}:"));
        return needed;
    }
    needed[0].insert_str(0, &format!("{title}, required:"));
    free[0].insert_str(0, "    not required:");
    needed.extend(free);
    needed
}

fn parsed_lines(text: &str, is_required: bool) -> Vec<String> {
    match GrmtoolsSectionParser::new(text, is_required).parse() {
        Ok((header, end)) => {
            let mut lines = vec![format!(" ends at {end}")];
            for key in header.keys() {
                if let Some(value) = header.get(key) {
                    lines.push(format!("    {}: {}", placed(key, value.0), value_text(&value.1)));
                }
            }
            lines
        }
        Err(errors) => error_lines(&errors),
    }
}

fn error_lines(errors: &[HeaderError<Span>]) -> Vec<String> {
    let mut lines: Vec<String> = errors.iter().map(|error| format!("    {}", error_text(error))).collect();
    lines[0].drain(..3);
    lines
}

fn error_text(error: &HeaderError<Span>) -> String {
    format!("{:?}{} {:?}: {error}", error.kind, spans(&error.locations), error.spanskind())
}

/// Lines of an entry that begins here.
fn entry_lines(text: &str, begin: usize) -> Vec<String> {
    match GrmtoolsSectionParser::new(text, true).parse_key_value(begin) {
        Ok((key, place, value, end)) => {
            vec![format!("entry at {begin}: {}: {}, then {end}", placed(&key, place), value_text(&value))]
        }
        Err(error) => vec![format!("entry at {begin}: {}", error_text(&error))],
    }
}

fn value_text(value: &Value<Span>) -> String {
    let kind = match YaccKind::try_from(value) {
        Ok(kind) => format!("kind {kind:?}"),
        Err(error) => format!("{:?}{}", error.kind, spans(&error.locations)),
    };
    match value {
        Value::Flag(is_set, place) => format!("{is_set} {}; {kind}", span(*place)),
        Value::Setting(setting) => format!("{}; {kind}", setting_text(setting)),
    }
}

fn setting_text(setting: &Setting<Span>) -> String {
    match setting {
        Setting::Unitary(name) => named(name),
        Setting::Constructor { ctor, arg } => format!("{}({})", named(ctor), named(arg)),
        Setting::Num(number, place) => format!("{number} {}", span(*place)),
        Setting::String(text, place) => placed(text, *place),
        Setting::Array(items, opening, closing) => {
            let items: Vec<String> = items.iter().map(setting_text).collect();
            format!("[{}] {} {}", items.join(", "), span(*opening), span(*closing))
        }
    }
}

/// A name, after its namespace if it has one.
fn named(name: &Namespaced<Span>) -> String {
    let member = format!("{} {}", name.member.0, span(name.member.1));
    match &name.namespace {
        Some((outer, place)) => format!("{outer} {}::{member}", span(*place)),
        None => member,
    }
}
