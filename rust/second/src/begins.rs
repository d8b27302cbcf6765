//! The longest beginning that a text shares with a text of the grammar: refusal 19's place.
//!
//! The grammar is written out as rules, and read by sets of items (Earley's way): an item is a rule as far as it has
//! been met. Every rule can be finished, so that words begin a text exactly as long as some item goes on with them.

use super::words::{self, Token};

/// What stands in a rule: another rule, or a word.
#[derive(Clone, Copy, Debug, PartialEq, Eq)]
enum Symbol {
    Of(Rule),
    /// This word or bracket.
    Is(&'static str),
    Number,
    Operator,
    /// A name, reserved or not: where something is bound.
    Name,
    /// A name that is no word of the notation.
    Own,
}

#[derive(Clone, Copy, Debug, PartialEq, Eq)]
enum Rule {
    Program,
    Definitions,
    Definition,
    Parameters,
    Expression,
    Function,
    Operands,
}

use Rule::*;
use Symbol::*;

const OPEN: Symbol = Is("(");
const CLOSE: Symbol = Is(")");
const E: Symbol = Of(Expression);

impl Rule {
    /// What the rule can be.
    fn ways(self) -> &'static [&'static [Symbol]] {
        match self {
            Program => &[&[E], &[Of(Definitions), E]],
            Definitions => &[&[Of(Definition)], &[Of(Definitions), Of(Definition)]],
            Definition => &[&[OPEN, Is("def"), Name, Of(Parameters), E, CLOSE]],
            Parameters => &[
                &[OPEN, CLOSE],
                &[OPEN, Name, CLOSE],
                &[OPEN, Name, Name, CLOSE],
                &[OPEN, Name, Name, Name, CLOSE],
                &[OPEN, Name, Name, Name, Name, CLOSE],
            ],
            Expression => &[
                &[Number],
                &[Own],
                &[OPEN, Operator, E, E, CLOSE],
                &[OPEN, Is("sense"), E, CLOSE],
                &[OPEN, Is("rep"), Name, E, E, CLOSE],
                &[OPEN, Is("if"), E, E, E, CLOSE],
                &[OPEN, Is("mux"), E, E, E, CLOSE],
                &[OPEN, Is("nbr"), E, CLOSE],
                &[OPEN, Is("nbr-range"), CLOSE],
                &[OPEN, Is("nbr-lag"), CLOSE],
                &[OPEN, Is("fold-hood*"), Of(Function), E, E, CLOSE],
                &[OPEN, Own, CLOSE],
                &[OPEN, Own, Of(Operands), CLOSE],
            ],
            Function => &[&[Operator], &[Own]],
            Operands => &[&[E], &[Of(Operands), E]],
        }
    }
}

impl Symbol {
    /// Whether this word stands for the symbol; none stands for a rule.
    fn is(self, word: &[u8]) -> bool {
        match self {
            Of(_) => false,
            Is(this) => this.as_bytes() == word,
            Number => words::number(word).is_some(),
            Operator => words::operator(word).is_some(),
            Name => words::is_name(word),
            Own => words::is_own(word),
        }
    }

    /// Whether a word that stands for the symbol begins with this part, which is not empty.
    fn goes_on(self, part: &[u8]) -> bool {
        let begins = |word: &&str| word.as_bytes().starts_with(part);
        match self {
            Of(_) => false,
            Is(this) => begins(&this),
            Number => words::number(part).is_some() || part == b"-" || begins(&"inf"),
            Operator => words::OPERATORS.iter().any(begins),
            // A letter makes another name of a reserved one; all of those are short.
            Name | Own => words::is_name(part),
        }
    }
}

/// One way of a rule, met up to a symbol, begun before a token.
#[derive(Clone, Copy, Debug, PartialEq, Eq)]
struct Item {
    rule: Rule,
    way: usize,
    met: usize,
    begun: usize,
}

impl Item {
    fn next(&self) -> Option<Symbol> {
        self.rule.ways()[self.way].get(self.met).copied()
    }

    fn past(&self) -> Item {
        Item { met: self.met + 1, ..*self }
    }
}

/// The sets of items before each token, as far as some item goes on, and behind the last.
struct Chart {
    sets: Vec<Vec<Item>>,
}

impl Chart {
    fn new(tokens: &[Token]) -> Chart {
        let mut chart = Chart { sets: Vec::new() };
        chart.add(begin(Program, 0));
        for (at, token) in tokens.iter().enumerate() {
            let takes = |item: &&Item| item.next().is_some_and(|symbol| symbol.is(token.word));
            let met: Vec<Item> = chart.sets[at].iter().filter(takes).map(Item::past).collect();
            if met.is_empty() {
                break;
            }
            chart.add(met);
        }
        chart
    }

    /// Adds the set that these items lead to: rules that may begin here, and what rules that end here are part of.
    fn add(&mut self, mut set: Vec<Item>) {
        let here = self.sets.len();
        let mut at = 0;
        while at < set.len() {
            let item = set[at];
            let more = match item.next() {
                Some(Of(rule)) => begin(rule, here),
                Some(_) => Vec::new(),
                // No rule is empty: it was begun in an earlier set.
                None => {
                    let waits = |other: &&Item| other.next() == Some(Of(item.rule));
                    self.sets[item.begun].iter().filter(waits).map(Item::past).collect()
                }
            };
            for item in more {
                if !set.contains(&item) {
                    set.push(item);
                }
            }
            at += 1;
        }
        self.sets.push(set);
    }

    /// Whether these many tokens, and behind them part of a word, which may go on, begin a text.
    fn begins(&self, whole: usize, part: &[u8]) -> bool {
        let goes_on = |item: &Item| item.next().is_some_and(|symbol| symbol.goes_on(part));
        self.sets.get(whole).is_some_and(|set| part.is_empty() || set.iter().any(goes_on))
    }
}

fn begin(rule: Rule, here: usize) -> Vec<Item> {
    (0..rule.ways().len()).map(|way| Item { rule, way, met: 0, begun: here }).collect()
}

/// The length of the longest beginning that a text shares with a text of the grammar. Shorter ones are shared too, so
/// that halving finds it.
pub fn longest(text: &[u8]) -> usize {
    let tokens = words::tokens(text);
    let chart = Chart::new(&tokens);
    let begins = |length: usize| {
        // A word that ends here may go on in another text.
        let ended = |token: &Token| token.end() < length || token.end() == length && token.is_bracket();
        let whole = tokens.partition_point(ended);
        let part = tokens.get(whole).map_or(&[][..], |token| &text[token.start.min(length)..length]);
        chart.begins(whole, part)
    };
    let (mut shared, mut most) = (0, text.len());
    while shared < most {
        let middle = most - (most - shared) / 2;
        if begins(middle) {
            shared = middle;
        } else {
            most = middle - 1;
        }
    }
    shared
}

#[cfg(test)]
/// Whether a text is one of the grammar, by its rules.
pub fn whole(text: &[u8]) -> bool {
    let tokens = words::tokens(text);
    let chart = Chart::new(&tokens);
    let ends = |item: &Item| item.rule == Program && item.next().is_none();
    chart.sets.get(tokens.len()).is_some_and(|set| set.iter().any(ends))
}
