//! The errors, the syntax and the warnings of a text.

use crate::written::{kind_of, numbers, placed, precedence, span, spans};
use cfgrammar::yacc::YaccGrammarError;
use cfgrammar::yacc::ast::{ASTWithValidityInfo, GrammarAST, Production, Symbol};
use cfgrammar::{NewlineCache, Span, Spanned};
use std::collections::HashMap;
use std::str::FromStr;

/// Lines of the errors of a text.
pub fn errors(text: &str, errors: &[YaccGrammarError]) -> Vec<String> {
    if errors.is_empty() {
        return vec!["errors: none".to_string()];
    }
    let mut lines = vec!["errors".to_string()];
    lines.extend(errors.iter().map(|error| error_line(text, error)));
    lines
}

fn error_line(text: &str, error: &YaccGrammarError) -> String {
    let lines = NewlineCache::from_str(text).expect("never fails");
    let start = error.spans().first().map_or(0, Span::start);
    let place = match lines.byte_to_line_num_and_col_num(text, start) {
        Some((line, column)) => format!("{line}:{column}"),
        None => "no place".to_string(),
    };
    format!("    {}{} {place} {:?}: {error}", kind_of(error), spans(error.spans()), error.spanskind())
}

/// Lines of the syntax and the warnings.
pub fn syntax(parsed: &ASTWithValidityInfo) -> Vec<String> {
    let ast = parsed.ast();
    let mut lines = vec!["syntax".to_string()];
    add_settings(&mut lines, ast);
    add_said_of_tokens(&mut lines, ast);
    for (name, rule) in &ast.rules {
        let of_type = rule.actiont.as_ref().map_or(String::new(), |it| format!(", type {it:?}"));
        lines.push(format!("    rule {}:{}{of_type}", placed(name, rule.name.1), numbers(&rule.pidxs)));
    }
    lines.extend(ast.prods.iter().enumerate().map(|(index, production)| production_line(index, production)));
    for (index, name) in ast.tokens.iter().enumerate() {
        let declared = if ast.token_directives.contains(&index) { " declared" } else { "" };
        lines.push(format!("    token {index} {}{declared}", placed(name, ast.spans[index])));
    }
    lines.push(warnings_line(ast));
    lines
}

fn add_settings(lines: &mut Vec<String>, ast: &GrammarAST) {
    if let Some((name, at)) = &ast.start {
        lines.push(format!("    start {}", placed(name, *at)));
    }
    for (word, number) in [("expect", ast.expect), ("expect-rr", ast.expectrr)] {
        if let Some((number, at)) = number {
            lines.push(format!("    {word} {number} {}", span(at)));
        }
    }
    add_said_of_parser(lines, &ast.parse_param, &ast.parse_generics, &ast.programs);
    lines.extend(ast.expect_unused.iter().map(|symbol| format!("    expect-unused {}", symbol_text(symbol))));
}

/// The settings of a file for its parser, as its syntax and its tables have them.
pub fn add_said_of_parser(
    lines: &mut Vec<String>,
    param: &Option<(String, String)>,
    generics: &Option<String>,
    programs: &Option<String>,
) {
    if let Some((name, of_type)) = param {
        lines.push(format!("    parse-param {name:?} {of_type:?}"));
    }
    if let Some(generics) = generics {
        lines.push(format!("    parse-generics {generics:?}"));
    }
    if let Some(programs) = programs {
        lines.push(format!("    programs {programs:?}"));
    }
}

/// The settings of tokens. Maps here have no order, so their entries are printed by their offsets.
fn add_said_of_tokens(lines: &mut Vec<String>, ast: &GrammarAST) {
    let mut levels: Vec<_> = ast.precs.iter().collect();
    levels.sort_by_key(|(_, (_, at))| at.start());
    for (name, (level, at)) in levels {
        lines.push(format!("    precedence {}: {}", placed(name, *at), precedence(*level)));
    }
    let mut forms: Vec<_> = ast.epp.iter().collect();
    forms.sort_by_key(|(_, (at, _))| at.start());
    for (name, (at, (form, form_at))) in forms {
        lines.push(format!("    epp {}: {}", placed(name, *at), placed(form, *form_at)));
    }
    add_list(lines, "avoid_insert", &ast.avoid_insert);
    add_list(lines, "implicit_tokens", &ast.implicit_tokens);
}

fn add_list(lines: &mut Vec<String>, word: &str, list: &Option<HashMap<String, Span>>) {
    if let Some(list) = list {
        let mut names: Vec<_> = list.iter().collect();
        names.sort_by_key(|(_, at)| at.start());
        let names: String = names.iter().map(|(name, at)| format!(" {}", placed(name, **at))).collect();
        lines.push(format!("    {word}:{names}"));
    }
}

fn symbol_text(symbol: &Symbol) -> String {
    match symbol {
        Symbol::Rule(name, at) => format!("rule {}", placed(name, *at)),
        Symbol::Token(name, at) => format!("token {}", placed(name, *at)),
    }
}

fn production_line(index: usize, production: &Production) -> String {
    let symbols: String = production.symbols.iter().map(|symbol| format!(" {}", symbol_text(symbol))).collect();
    let of_token = production.precedence.as_ref().map_or(String::new(), |it| format!(", precedence of {it:?}"));
    let action =
        production.action.as_ref().map_or(String::new(), |(text, at)| format!(", action {}", placed(text, *at)));
    format!("    production {index} {}:{symbols}{of_token}{action}", span(production.prod_span))
}

fn warnings_line(ast: &GrammarAST) -> String {
    let warnings: Vec<String> =
        ast.warnings().iter().map(|warning| format!("{}{}", kind_of(warning), spans(warning.spans()))).collect();
    match warnings.as_slice() {
        [] => "warnings: none".to_string(),
        some => format!("warnings: {}", some.join(", ")),
    }
}
