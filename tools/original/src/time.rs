//! How long the phases take.

use cfgrammar::RIdx;
use cfgrammar::yacc::ast::ASTWithValidityInfo;
use cfgrammar::yacc::{SentenceGenerator, YaccGrammar, YaccKind, YaccOriginalActionKind};
use std::hint::black_box;
use std::io;
use std::time::Instant;

/// A text that is read before the clock starts, so that no phase compiles the crate's patterns.
const SMALL: &str = "%token a %% A: 'b' a;";

/// Runs these phases on a grammar, and those that they need, and prints a line for each of them: its
/// name, how much it found, and how many microseconds it took.
pub fn run(file: &str, phases: &[&str]) -> io::Result<()> {
    let text = std::fs::read_to_string(file)?;
    let watch = Watch { phases };
    let kind = YaccKind::Original(YaccOriginalActionKind::NoAction);
    println!("begun {}", ASTWithValidityInfo::new(kind, SMALL).errors().len());
    let parsed = watch.time("reading", || ASTWithValidityInfo::new(kind, &text), |it| it.errors().len());
    if parsed.is_valid() {
        let make = || YaccGrammar::<u32>::new_from_ast_with_validity_info(&parsed);
        let count = |made: &Result<YaccGrammar, _>| made.as_ref().map_or(0, |it| usize::from(it.prods_len()));
        if let Ok(grammar) = watch.time("tables", make, count) {
            analyse(&watch, &grammar);
            generate(&watch, &grammar);
        }
    }
    Ok(())
}

/// The phases that are printed.
struct Watch<'a> {
    phases: &'a [&'a str],
}

impl Watch<'_> {
    fn selects(&self, phase: &str) -> bool {
        self.phases.contains(&phase)
    }

    /// Makes a call, and prints how long it took if its phase is selected.
    fn time<T>(&self, phase: &str, call: impl FnOnce() -> T, found: impl FnOnce(&T) -> usize) -> T {
        let began = Instant::now();
        let answer = black_box(call());
        let took = began.elapsed().as_micros();
        if self.selects(phase) {
            println!("{phase} {} {took}", found(&answer));
        }
        answer
    }

    /// Makes a call on which nothing else depends, if its phase is selected.
    fn time_if_selected<T>(&self, phase: &str, call: impl FnOnce() -> T, found: impl FnOnce(&T) -> usize) {
        if self.selects(phase) {
            self.time(phase, call, found);
        }
    }
}

fn analyse(watch: &Watch<'_>, grammar: &YaccGrammar<u32>) {
    let (start, end) = (grammar.start_rule_idx(), grammar.eof_token_idx());
    watch.time_if_selected("firsts", || grammar.firsts(), |it| usize::from(it.is_epsilon_set(start)));
    watch.time_if_selected("follows", || grammar.follows(), |it| usize::from(it.is_set(start, end)));
    watch.time_if_selected("path", || grammar.has_path(start, start), |it| usize::from(*it));
}

/// Costs are computed when the first of them is requested.
fn generate(watch: &Watch<'_>, grammar: &YaccGrammar<u32>) {
    let rules: Vec<RIdx<u32>> = grammar.iter_rules().collect();
    let generator = grammar.sentence_generator(|_| 1);
    let greatest = || rules.iter().filter(|rule| generator.max_sentence_cost(**rule).is_some()).count();
    watch.time_if_selected("greatest", greatest, |count| *count);
    if ["least", "min_sentence", "min_sentences", "every"].iter().any(|phase| watch.selects(phase)) {
        let start = grammar.start_rule_idx();
        watch.time("least", || generator.min_sentence_cost(start), |_| rules.len());
        find_sentences(watch, &generator, start, &rules);
    }
}

fn find_sentences(watch: &Watch<'_>, generator: &SentenceGenerator<'_, u32>, start: RIdx<u32>, rules: &[RIdx<u32>]) {
    watch.time_if_selected("min_sentence", || generator.min_sentence(start), Vec::len);
    watch.time_if_selected("min_sentences", || generator.min_sentences(start), Vec::len);
    let every = || rules.iter().map(|rule| generator.min_sentences(*rule).len()).sum::<usize>();
    watch.time_if_selected("every", every, |count| *count);
}
