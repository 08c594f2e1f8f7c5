//! The tables of a grammar over each index type, its FIRST and FOLLOW sets, and its paths.

use crate::limit::{PANICS, guarded};
use crate::syntax::add_said_of_parser;
use crate::written::{marked, numbers, placed, precedence, span};
use cfgrammar::yacc::YaccGrammar;
use cfgrammar::yacc::ast::ASTWithValidityInfo;
use cfgrammar::{PIdx, RIdx, Symbol, TIdx};
use num_traits::{AsPrimitive, PrimInt, Unsigned};

/// Lines of the tables over each index type, once where they are the same.
pub fn tables(parsed: &ASTWithValidityInfo) -> Vec<String> {
    let (narrow, middle, wide) = (tables_over::<u8>(parsed), tables_over::<u16>(parsed), tables_over::<u32>(parsed));
    if narrow == middle && middle == wide {
        return titled("grammar over u8, u16 and u32", wide);
    }
    let mut lines = titled("grammar over u8", narrow);
    lines.extend(titled("grammar over u16", middle));
    lines.extend(titled("grammar over u32", wide));
    lines
}

/// Lines, with a title before the first one.
fn titled(title: &str, mut lines: Vec<String>) -> Vec<String> {
    lines[0].insert_str(0, title);
    lines
}

fn tables_over<S: 'static + PrimInt + Unsigned>(parsed: &ASTWithValidityInfo) -> Vec<String>
where
    usize: AsPrimitive<S>,
{
    let made = guarded(|| YaccGrammar::<S>::new_from_ast_with_validity_info(parsed));
    let lines = made.and_then(|made| guarded(|| made.map(|grammar| Tables { grammar: &grammar }.lines())));
    match lines {
        Ok(Ok(lines)) => lines,
        Ok(Err(_)) => vec![": refused".to_string()],
        Err(why) => vec![format!(": {why}")],
    }
}

/// Lines of the rules that are reachable from each rule.
pub fn paths(grammar: &YaccGrammar<u32>) -> Vec<String> {
    let led_to = |from: RIdx<u32>| {
        let rules = grammar.iter_rules().filter(|to| grammar.has_path(from, *to));
        numbers(rules.map(|to| grammar.rule_name_str(to)))
    };
    grammar.iter_rules().map(|from| format!("paths of {}:{}", grammar.rule_name_str(from), led_to(from))).collect()
}

/// A grammar whose tables are printed.
struct Tables<'a, S> {
    grammar: &'a YaccGrammar<S>,
}

impl<S: 'static + PrimInt + Unsigned> Tables<'_, S>
where
    usize: AsPrimitive<S>,
{
    fn lines(&self) -> Vec<String> {
        let mut lines = vec![String::new()];
        self.add_lengths(&mut lines);
        lines.extend(self.grammar.iter_rules().map(|rule| self.rule_line(rule)));
        lines.extend(self.grammar.iter_pidxs().map(|production| self.production_line(production)));
        lines.extend(self.grammar.iter_tidxs().map(|token| self.token_line(token)));
        self.add_names(&mut lines);
        self.add_sets(&mut lines);
        lines
    }

    fn add_lengths(&self, lines: &mut Vec<String>) {
        let grammar = self.grammar;
        let implicit = grammar.implicit_rule().map(|rule| format!("; implicit tokens in {}", usize::from(rule)));
        lines.push(format!(
            "    rules {}, start {}; productions {}, start {}; tokens {}, end {}{}",
            usize::from(grammar.rules_len()),
            usize::from(grammar.start_rule_idx()),
            usize::from(grammar.prods_len()),
            usize::from(grammar.start_prod()),
            usize::from(grammar.tokens_len()),
            usize::from(grammar.eof_token_idx()),
            implicit.unwrap_or_default(),
        ));
        for (word, number) in [("expect", grammar.expect()), ("expect-rr", grammar.expectrr())] {
            lines.extend(number.map(|number| format!("    {word} {number}")));
        }
        add_said_of_parser(lines, grammar.parse_param(), grammar.parse_generics(), grammar.programs());
    }

    fn rule_line(&self, rule: RIdx<S>) -> String {
        let name = placed(self.grammar.rule_name_str(rule), self.grammar.rule_name_span(rule));
        let productions = numbers(self.grammar.rule_to_prods(rule).iter().map(|it| usize::from(*it)));
        let of_type = self.grammar.actiontype(rule).as_ref().map(|it| format!(", type {it:?}"));
        format!("    rule {} {name}:{productions}{}", usize::from(rule), of_type.unwrap_or_default())
    }

    /// The line of a production. Calls on added ones may panic, which is printed instead of their results.
    fn production_line(&self, production: PIdx<S>) -> String {
        let grammar = self.grammar;
        let place = guarded(|| span(grammar.prod_span(production)));
        let symbols: String = grammar.prod(production).iter().map(|symbol| symbol_text(*symbol)).collect();
        let level = grammar.prod_precedence(production).map(|it| format!(", precedence {}", precedence(it)));
        format!(
            "    production {} {} of rule {}, {} symbols:{symbols}; {}{}{}",
            usize::from(production),
            place.unwrap_or(PANICS.to_string()),
            usize::from(grammar.prod_to_rule(production)),
            usize::from(grammar.prod_len(production)),
            marked(&grammar.pp_prod(production)),
            level.unwrap_or_default(),
            self.action_text(production),
        )
    }

    fn action_text(&self, production: PIdx<S>) -> String {
        let action = guarded(|| self.grammar.action(production).as_deref());
        let place = guarded(|| self.grammar.action_span(production));
        match (action, place) {
            (Ok(None), Ok(None)) => String::new(),
            (Ok(Some(action)), Ok(Some(place))) => format!(", action {}", placed(action, place)),
            (action, place) => format!(", action {}, action_span {}", written(action), written(place)),
        }
    }

    fn token_line(&self, token: TIdx<S>) -> String {
        let (grammar, number) = (self.grammar, usize::from(token));
        let (Some(name), Some(place)) = (grammar.token_name(token), grammar.token_span(token)) else {
            return format!("    token {number}");
        };
        let level = grammar.token_precedence(token).map(|it| format!(", precedence {}", precedence(it)));
        let form = grammar.token_epp(token).filter(|form| *form != name).map(|form| format!(", epp {form:?}"));
        let avoided = if grammar.avoid_insert(token) { ", avoid_insert" } else { "" };
        let (level, form) = (level.unwrap_or_default(), form.unwrap_or_default());
        format!("    token {number} {}{level}{form}{avoided}", placed(name, place))
    }

    /// The rule and the token of each name.
    fn add_names(&self, lines: &mut Vec<String>) {
        let grammar = self.grammar;
        let rules = grammar.iter_rules().map(|rule| grammar.rule_name_str(rule));
        let tokens = grammar.iter_tidxs().filter_map(|token| grammar.token_name(token));
        for name in rules.chain(tokens).chain([""]) {
            let rule = grammar.rule_idx(name).map(|rule| format!(" rule {}", usize::from(rule)));
            let token = grammar.token_idx(name).map(|token| format!(" token {}", usize::from(token)));
            let found = rule.into_iter().chain(token).collect::<String>();
            lines.push(format!("    name {name:?}:{}", if found.is_empty() { " nothing" } else { &found }));
        }
    }

    fn add_sets(&self, lines: &mut Vec<String>) {
        let (firsts, follows) = (self.grammar.firsts(), self.grammar.follows());
        for rule in self.grammar.iter_rules() {
            let tokens = self.grammar.iter_tidxs().filter(|token| firsts.is_set(rule, *token));
            let empty = if firsts.is_epsilon_set(rule) { " empty" } else { "" };
            lines.push(format!("    first of {}:{}{empty}", usize::from(rule), numbers(tokens.map(usize::from))));
        }
        for rule in self.grammar.iter_rules() {
            let tokens = self.grammar.iter_tidxs().filter(|token| follows.is_set(rule, *token));
            lines.push(format!("    follow of {}:{}", usize::from(rule), numbers(tokens.map(usize::from))));
        }
    }
}

fn symbol_text<S: PrimInt + Unsigned>(symbol: Symbol<S>) -> String {
    match symbol {
        Symbol::Rule(rule) => format!(" rule {}", usize::from(rule)),
        Symbol::Token(token) => format!(" token {}", usize::from(token)),
    }
}

/// What a call returned, or that it panics.
fn written(answer: Result<Option<impl std::fmt::Debug>, &str>) -> String {
    match answer {
        Ok(Some(answer)) => format!("{answer:?}"),
        Ok(None) => "none".to_string(),
        Err(why) => why.to_string(),
    }
}
