//! Answers to rows, each in a separate process.

use crate::limit::{PANICS, within};
use crate::row::{Row, rows};
use crate::{costs, grammar, lines, marks, section, syntax};
use cfgrammar::yacc::ast::ASTWithValidityInfo;
use cfgrammar::yacc::{YaccGrammar, YaccGrammarError};
use std::io::{self, Write};
use std::process::{Command, Stdio};
use std::str::FromStr;
use std::time::Duration;

/// Prints the answers to each row in these files.
pub fn write_files(limit: &str, files: &[&str]) -> io::Result<()> {
    for file in files {
        for row in rows(&std::fs::read_to_string(file)?)? {
            let answer = of_process(limit, &row)?;
            io::stdout().write_all(format!("== {}\n{answer}\n", row.name).as_bytes())?;
        }
    }
    Ok(())
}

/// The answers of a separate process to a row. It is killed when its stack is used up, which is printed like a panic.
fn of_process(limit: &str, row: &Row) -> io::Result<String> {
    let mut command = Command::new(std::env::current_exe()?);
    let mut process =
        command.args(["row", limit]).stdin(Stdio::piped()).stdout(Stdio::piped()).stderr(Stdio::null()).spawn()?;
    process.stdin.take().ok_or(io::ErrorKind::BrokenPipe)?.write_all(row.spelled.as_bytes())?;
    let output = process.wait_with_output()?;
    match output.status.success() {
        true => String::from_utf8(output.stdout).map_err(io::Error::other),
        false => Ok(format!("{PANICS}\n")),
    }
}

/// Prints the answers to a row, within this time.
pub fn write_row(row: &Row, limit: Duration) {
    let spelled = row.spelled.clone();
    let answered = match row.tries.as_str() {
        "generator" => costs_of(row, limit),
        _ => within(limit, move || spelled_lines(&spelled)),
    };
    let lines = answered.unwrap_or_else(|why| vec![why.to_string()]);
    println!("{}", lines.join("\n"));
}

fn spelled_lines(spelled: &str) -> Vec<String> {
    rows(spelled).unwrap_or_default().iter().flat_map(lines_of).collect()
}

fn lines_of(row: &Row) -> Vec<String> {
    match row.tries.as_str() {
        "section" => section::lines(row),
        "lines" => lines::lines(row),
        "marks" => marks::lines(row),
        _ => grammar_lines(row),
    }
}

/// Lines of a text's errors, syntax, warnings and tables, and of its paths if the row requests them.
fn grammar_lines(row: &Row) -> Vec<String> {
    let parsed = match parse(row) {
        Ok(parsed) => parsed,
        Err(errors) => {
            let mut lines = vec![head(row, "no kind")];
            lines.extend(syntax::errors(&row.text, &errors));
            return lines;
        }
    };
    let mut lines = vec![head(row, &format!("{:?}", parsed.yacc_kind()))];
    lines.extend(syntax::errors(&row.text, parsed.errors()));
    lines.extend(syntax::syntax(&parsed));
    lines.extend(grammar::tables(&parsed));
    if let (Some(_), Some(grammar)) = (row.first("paths"), grammar_of(&parsed)) {
        lines.extend(grammar::paths(&grammar));
    }
    lines
}

fn head(row: &Row, kind: &str) -> String {
    format!("text of {} bytes, {kind}", row.text.len())
}

fn parse(row: &Row) -> Result<ASTWithValidityInfo, Vec<YaccGrammarError>> {
    match row.kind() {
        Some(kind) => Ok(ASTWithValidityInfo::new(kind, &row.text)),
        None => ASTWithValidityInfo::from_str(&row.text),
    }
}

fn grammar_of(parsed: &ASTWithValidityInfo) -> Option<YaccGrammar<u32>> {
    YaccGrammar::new_from_ast_with_validity_info(parsed).ok()
}

/// Lines of the costs of a text's rules.
fn costs_of(row: &Row, limit: Duration) -> Result<Vec<String>, &'static str> {
    let spelled = row.spelled.clone();
    let grammar = within(limit, move || rows(&spelled).ok().and_then(|rows| grammar_of(&parse(&rows[0]).ok()?)))?;
    let title = format!("costs of {} bytes", row.text.len());
    match grammar {
        Some(grammar) => Ok([vec![title], costs::lines(row, grammar, limit)].concat()),
        None => Ok(vec![title, "no grammar".to_string()]),
    }
}
