//! The place of 19 by brute force: all short texts over a few words, against texts of the grammar that are made, not
//! read.
use std::collections::HashSet;

/// What reading returns.
fn read(text: &str) -> (u32, usize) {
    second::read_text(text.as_bytes(), &mut [0; 256])
}

/// The words that the texts are made of.
struct Words {
    atoms: &'static [&'static str],
    names: &'static [&'static str],
    operators: &'static [&'static str],
    callees: &'static [&'static str],
    /// Heads with so many expressions behind them.
    heads: &'static [(&'static str, usize)],
}

/// What is still to be made of a text.
#[derive(Clone, Copy)]
enum Part {
    Word(&'static str),
    Program,
    /// At most so many.
    Parameters(usize),
    Name,
    Function,
    Expression,
    Operands,
}

use Part::*;

impl Words {
    /// All ways to make a part, one that needs no other part first.
    fn ways(&self, part: Part) -> Vec<Vec<Part>> {
        let one = |words: &[&'static str]| words.iter().map(|word| vec![Word(word)]).collect::<Vec<_>>();
        match part {
            Word(_) => vec![vec![part]],
            Program => {
                let front = [Word("("), Word("def"), Name, Word("("), Parameters(4), Word(")")];
                vec![vec![Expression], [&front[..], &[Expression, Word(")"), Program]].concat()]
            }
            Parameters(0) => vec![vec![]],
            Parameters(most) => vec![vec![], vec![Name, Parameters(most - 1)]],
            Name => one(self.names),
            Function => [one(self.operators), one(self.callees)].concat(),
            Operands => vec![vec![], vec![Expression, Operands]],
            Expression => {
                let form = |parts: &[Part]| [&[Word("(")], parts, &[Word(")")]].concat();
                let mut ways = one(self.atoms);
                ways.extend(self.operators.iter().map(|word| form(&[Word(word), Expression, Expression])));
                ways.extend(self.callees.iter().map(|word| form(&[Word(word), Operands])));
                let heads = self.heads.iter();
                ways.extend(heads.map(|(word, count)| form(&[&[Word(word)][..], &vec![Expression; *count]].concat())));
                ways.push(form(&[Word("rep"), Name, Expression, Expression]));
                ways.push(form(&[Word("fold-hood*"), Function, Expression, Expression]));
                ways
            }
        }
    }

    /// Shows texts to `see`: one for each list of at most `length` words that begins some text, with that text's words.
    fn texts(&self, length: usize, see: &mut impl FnMut(&[&'static str])) {
        // Words that are made, and what is to be made behind them, the next part last.
        let mut begun: Vec<(Vec<&str>, Vec<Part>)> = vec![(vec![], vec![Program])];
        while let Some((mut words, mut parts)) = begun.pop() {
            let free = words.len() < length;
            match parts.pop() {
                None => see(&words),
                Some(Word(word)) => {
                    words.push(word);
                    begun.push((words, parts));
                }
                // Behind these words any way will do.
                Some(part) => {
                    for way in self.ways(part).into_iter().take(if free { usize::MAX } else { 1 }) {
                        let parts = parts.iter().copied().chain(way.into_iter().rev()).collect();
                        begun.push((words.clone(), parts));
                    }
                }
            }
        }
    }
}

/// Words with a blank between each two, or only where one must be.
fn laid_out(words: &[&str], tight: bool) -> String {
    let bracket = |word: &str| word == "(" || word == ")";
    let mut text = String::new();
    for (at, word) in words.iter().enumerate() {
        if at > 0 && !(tight && (bracket(word) || bracket(words[at - 1]))) {
            text.push(' ');
        }
        text.push_str(word);
    }
    text
}

/// All lists of so many of these words.
fn all_lists(words: &[&'static str], length: usize, see: &mut impl FnMut(&[&str])) {
    let mut list = vec![0; length];
    loop {
        let chosen: Vec<&str> = list.iter().map(|at| words[*at]).collect();
        see(&chosen);
        let Some(last) = list.iter().rposition(|at| at + 1 < words.len()) else {
            break;
        };
        list[last] += 1;
        list[last + 1..].fill(0);
    }
}

/// Holds all lists of at most `length` of these words to the texts that can be made; how many were outside the
/// grammar, and how many in it, in both layouts.
fn hold(tried: &[&'static str], length: usize, words: &Words) -> [usize; 2] {
    let mut counts = [0, 0];
    for tight in [false, true] {
        let (mut whole, mut begun) = (HashSet::new(), HashSet::new());
        words.texts(length, &mut |words| {
            let text = laid_out(words, tight) + " ";
            begun.extend((0..=text.len()).map(|end| text[..end].to_string()));
            // A blank may stand behind every word and bracket.
            begun.extend((0..=words.len()).map(|end| laid_out(&words[..end], tight) + " "));
            assert_ne!(read(&text).0, 19, "{text}");
            whole.insert(text);
        });
        for length in 0..=length {
            all_lists(tried, length, &mut |list| {
                let text = laid_out(list, tight);
                let (number, place) = read(&text);
                assert_eq!(number != 19, whole.contains(&(text.clone() + " ")), "{text}: {number}");
                counts[usize::from(number != 19)] += 1;
                if number == 19 {
                    let shared = (0..=text.len()).rev().find(|end| begun.contains(&text[..*end]));
                    assert_eq!(Some(place), shared, "{text}");
                }
            });
        }
    }
    counts
}

/// Texts of a few words in all their orders. What begins a word of another kind must be there as such a word too.
#[test]
fn words_in_all_orders() {
    let words = Words {
        atoms: &["1", "f", "-1", "inf", "defx", "repx", "nbrx", "nbr-lagx", "fold-hood*x"],
        names: &["f", "inf", "def", "rep", "nbr", "nbr-lag", "fold-hood*"],
        operators: &["+", "-", "=="],
        callees: &["f", "infx", "defx", "repx", "nbrx", "nbr-lagx", "fold-hood*x"],
        heads: &[("nbr", 1), ("nbr-lag", 0)],
    };
    let tried = ["(", ")", "+", "-", "=", "-1", "f", "inf", "def", "rep", "nbr", "nbr-lag", "fold-hood*"];
    assert_eq!(hold(&tried, 5, &words).iter().sum::<usize>(), 2 * (13_usize.pow(6) - 1) / 12);
}

/// Definitions in and behind others, with up to five parameters.
#[test]
fn definitions() {
    let words = Words {
        atoms: &["f", "defx", "repx"],
        names: &["f", "def"],
        operators: &["+"],
        callees: &["f", "defx"],
        heads: &[],
    };
    let [_, fine] = hold(&["(", ")", "f", "def"], 9, &words);
    assert_eq!(fine, 72);
}

/// By the definition, over bytes: a text's place is the longest of its beginnings with which some text begins that is
/// read.
#[test]
fn bytes_in_all_orders() {
    const BYTES: [&str; 5] = ["(", ")", "1", "a", " "];
    let mut begun: HashSet<String> = HashSet::new();
    // What five bytes begin, four more can end: "(a(a(" needs so many.
    for length in 0..=9 {
        all_lists(&BYTES, length, &mut |list| {
            let text = list.concat();
            if read(&text).0 != 19 {
                begun.extend((0..=text.len().min(5)).map(|end| text[..end].to_string()));
            }
        });
    }
    for length in 0..=5 {
        all_lists(&BYTES, length, &mut |list| {
            let text = list.concat();
            let shared =
                (0..=text.len()).rev().find(|end| begun.contains(&text[..*end])).expect("nothing is shared by all");
            let (number, place) = read(&text);
            assert!(
                number != 19 && shared == text.len() || place == shared,
                "{text:?}: {number} {place}, not {shared}"
            );
        });
    }
}
