//! What the sentences of a grammar cost.

use crate::limit::within;
use crate::row::Row;
use cfgrammar::yacc::{SentenceGenerator, YaccGrammar};
use cfgrammar::{RIdx, Symbol, TIdx};
use std::sync::Arc;
use std::time::Duration;

/// How many derivations a rule may have for its minimal sentences to be requested.
const MOST: u64 = 200;

/// How many sentences, and how many tokens of one, are printed at most; if there are more, their number is.
const WRITTEN: usize = 20;

/// What a call returns for each rule, or why it doesn't return.
type OfRules = Result<Vec<String>, &'static str>;

/// A question to a generator about a rule.
type Question = fn(&Costed, &SentenceGenerator<'_, u32>, RIdx<u32>) -> String;

/// The cost of each token, by a row.
fn costs(row: &Row, tokens: usize) -> Vec<u8> {
    let listed = row.first("costs").unwrap_or("");
    let each = row.first("cost").and_then(|it| it.parse().ok()).unwrap_or(1);
    let mut costs: Vec<u8> = listed.split(' ').filter_map(|it| it.parse().ok()).collect();
    costs.resize(tokens.max(costs.len()), each);
    costs
}

/// Lines of the costs of each rule and of its minimal sentences. Those of all rules are found at once, so a call that
/// doesn't end or panics does so for each.
pub fn lines(row: &Row, grammar: YaccGrammar<u32>, limit: Duration) -> Vec<String> {
    let costed = Arc::new(Costed { costs: costs(row, usize::from(grammar.tokens_len())), grammar });
    let greatest = costed
        .of_rules(limit, |_, it, rule| it.max_sentence_cost(rule).map_or("unbounded".to_string(), |it| it.to_string()));
    let least = costed.of_rules(limit, |_, it, rule| it.min_sentence_cost(rule).to_string());
    let sentence =
        least.clone().and_then(|_| costed.of_rules(limit, |_, it, rule| tokens_text(&it.min_sentence(rule))));
    let all = least.clone().and_then(|_| costed.of_rules(limit, Costed::sentences));
    let mut lines = vec![costed.tokens_line()];
    for (number, rule) in costed.grammar.iter_rules().enumerate() {
        let of_rule = |answers: &OfRules| answers.as_ref().map_or_else(|why| why.to_string(), |it| it[number].clone());
        lines.push(format!(
            "    rule {number} {}: least {}, greatest {}; sentence {}{}",
            costed.grammar.rule_name_str(rule),
            of_rule(&least),
            of_rule(&greatest),
            of_rule(&sentence),
            all.as_ref().map_or("", |it| &it[number]),
        ));
    }
    lines
}

/// A grammar, and what its tokens cost.
struct Costed {
    grammar: YaccGrammar<u32>,
    costs: Vec<u8>,
}

impl Costed {
    /// The answer to a question for each rule, within this time.
    fn of_rules(self: &Arc<Self>, limit: Duration, question: Question) -> OfRules {
        let costed = Arc::clone(self);
        within(limit, move || {
            let generator = costed.grammar.sentence_generator(|token| costed.costs[usize::from(token)]);
            costed.grammar.iter_rules().map(|rule| question(&costed, &generator, rule)).collect()
        })
    }

    /// The minimal sentences of a rule, as often and in the order in which they are listed, unless they have too many
    /// derivations.
    fn sentences(&self, generator: &SentenceGenerator<'_, u32>, rule: RIdx<u32>) -> String {
        let least: Vec<u64> = self.grammar.iter_rules().map(|rule| generator.min_sentence_cost(rule).into()).collect();
        if self.derivations(&least, rule, &mut vec![None; least.len()]) > MOST {
            return String::new();
        }
        let mut sentences = generator.min_sentences(rule);
        if sentences.len() <= WRITTEN {
            return format!("; all {}", sentences.iter().map(|it| tokens_text(it)).collect::<Vec<_>>().join(" "));
        }
        let count = sentences.len();
        sentences.sort();
        sentences.dedup();
        match sentences.len() {
            different if different < count => format!("; all {count}, {different} of them different"),
            _ => format!("; all {count}"),
        }
    }

    /// How many derivations the minimal sentences of a rule have.
    fn derivations(&self, least: &[u64], rule: RIdx<u32>, known: &mut Vec<Option<u64>>) -> u64 {
        if let Some(count) = known[usize::from(rule)] {
            return count;
        }
        let mut count = 0u64;
        for production in self.grammar.rule_to_prods(rule) {
            let symbols = self.grammar.prod(*production);
            let sum: u64 = symbols.iter().map(|symbol| self.cost(least, *symbol)).sum();
            if sum == least[usize::from(rule)] {
                let of_symbols = symbols.iter().map(|symbol| match symbol {
                    Symbol::Rule(inner) => self.derivations(least, *inner, known),
                    Symbol::Token(_) => 1,
                });
                count = count.saturating_add(of_symbols.fold(1, u64::saturating_mul));
            }
        }
        known[usize::from(rule)] = Some(count);
        count
    }

    fn cost(&self, least: &[u64], symbol: Symbol<u32>) -> u64 {
        match symbol {
            Symbol::Rule(rule) => least[usize::from(rule)],
            Symbol::Token(token) => u64::from(self.costs[usize::from(token)]),
        }
    }

    fn tokens_line(&self) -> String {
        let of_token = |token: TIdx<u32>| {
            let cost = self.costs[usize::from(token)];
            self.grammar.token_name(token).map_or(format!(" end {cost}"), |name| format!(" {name:?} {cost}"))
        };
        format!("    tokens:{}", self.grammar.iter_tidxs().map(of_token).collect::<String>())
    }
}

fn tokens_text(sentence: &[TIdx<u32>]) -> String {
    if sentence.len() > WRITTEN {
        return format!("{} tokens", sentence.len());
    }
    let numbers: Vec<String> = sentence.iter().map(|token| usize::from(*token).to_string()).collect();
    format!("[{}]", numbers.join(" "))
}
