//! Programs as text (02's L4): a text as a tree, its names, its table; refusals 19 and 20.

use super::begins;
use super::words::{self, Token};
use super::{refused, Refusal};
use std::collections::HashMap;

/// What brackets make of a text.
enum Thing<'t> {
    Word(&'t [u8]),
    /// The things between two brackets, by their numbers.
    List(Vec<usize>),
}

/// All things of a text, each behind those in it, and the numbers of those in no bracket; none where brackets don't
/// match.
fn things<'t>(tokens: &[Token<'t>]) -> Option<(Vec<Thing<'t>>, Vec<usize>)> {
    let mut things = Vec::new();
    let mut around: Vec<Vec<usize>> = Vec::new();
    let mut list = Vec::new();
    for token in tokens {
        let thing = match token.word {
            b"(" => {
                around.push(std::mem::take(&mut list));
                continue;
            }
            b")" => Thing::List(std::mem::replace(&mut list, around.pop()?)),
            word => Thing::Word(word),
        };
        list.push(things.len());
        things.push(thing);
    }
    around.is_empty().then_some((things, list))
}

/// What an expression is, besides its operands.
#[derive(Clone, Copy)]
enum Head<'t> {
    Constant(i32),
    Name(&'t [u8]),
    Operator(usize),
    Sense,
    Rep(&'t [u8]),
    If,
    Mux,
    Nbr,
    NbrRange,
    NbrLag,
    FoldByOperator(usize),
    FoldByDefinition(&'t [u8]),
    Call(&'t [u8]),
}

struct Expression<'t> {
    head: Head<'t>,
    /// By the numbers of their things.
    operands: Vec<usize>,
}

struct Definition<'t> {
    name: &'t [u8],
    parameters: Vec<&'t [u8]>,
    body: usize,
}

/// A text of the grammar.
struct Program<'t> {
    /// By the number of a thing; none where it is no expression.
    expressions: Vec<Option<Expression<'t>>>,
    definitions: Vec<Definition<'t>>,
    main: usize,
}

/// The word that a thing is.
fn word<'t>(things: &[Thing<'t>], number: usize) -> Option<&'t [u8]> {
    match &things[number] {
        Thing::Word(word) => Some(word),
        Thing::List(_) => None,
    }
}

/// The expression that a thing is; of those before it is known what they are.
fn expression<'t>(things: &[Thing<'t>], before: &[Option<Expression<'t>>]) -> Option<Expression<'t>> {
    let list = match &things[before.len()] {
        Thing::Word(word) => {
            let name = || words::is_own(word).then_some(Head::Name(word));
            let head = words::number(word).map(Head::Constant).or_else(name)?;
            return Some(Expression { head, operands: Vec::new() });
        }
        Thing::List(list) => list,
    };
    let (first, items) = list.split_first()?;
    let first = word(things, *first)?;
    // The word behind the head, which some forms have, and their operands.
    let led = || Some((word(things, *items.first()?)?, &items[1..]));
    let (head, operands, count) = match first {
        b"sense" => (Head::Sense, items, 1),
        b"rep" => {
            let (name, operands) = led().filter(|(name, _)| words::is_name(name))?;
            (Head::Rep(name), operands, 2)
        }
        b"if" => (Head::If, items, 3),
        b"mux" => (Head::Mux, items, 3),
        b"nbr" => (Head::Nbr, items, 1),
        b"nbr-range" => (Head::NbrRange, items, 0),
        b"nbr-lag" => (Head::NbrLag, items, 0),
        b"fold-hood*" => {
            let (function, operands) = led()?;
            let own = || words::is_own(function).then_some(Head::FoldByDefinition(function));
            (words::operator(function).map(Head::FoldByOperator).or_else(own)?, operands, 2)
        }
        name if words::is_own(name) => (Head::Call(name), items, items.len()),
        other => (Head::Operator(words::operator(other)?), items, 2),
    };
    let fine = operands.len() == count && operands.iter().all(|operand| before[*operand].is_some());
    fine.then(|| Expression { head, operands: operands.to_vec() })
}

/// The definition that a thing in no bracket is.
fn definition<'t>(
    things: &[Thing<'t>],
    expressions: &[Option<Expression<'t>>],
    number: usize,
) -> Option<Definition<'t>> {
    let Thing::List(list) = &things[number] else {
        return None;
    };
    let &[def, name, parameters, body] = &list[..] else {
        return None;
    };
    let name = word(things, name)?;
    let Thing::List(parameters) = &things[parameters] else {
        return None;
    };
    let parameters: Vec<&[u8]> = parameters.iter().map(|parameter| word(things, *parameter)).collect::<Option<_>>()?;
    let named = words::is_name(name) && parameters.iter().all(|parameter| words::is_name(parameter));
    let fine = word(things, def)? == b"def" && named && parameters.len() <= 4 && expressions[body].is_some();
    fine.then_some(Definition { name, parameters, body })
}

/// The program that a text spells; none where it is outside the grammar.
fn program(text: &[u8]) -> Option<Program<'_>> {
    let (things, outermost) = things(&words::tokens(text))?;
    let mut expressions = Vec::with_capacity(things.len());
    for _ in 0..things.len() {
        let next = expression(&things, &expressions);
        expressions.push(next);
    }
    let (main, definitions) = outermost.split_last()?;
    let definitions: Option<Vec<Definition>> =
        definitions.iter().map(|number| definition(&things, &expressions, *number)).collect();
    expressions[*main].as_ref()?;
    Some(Program { definitions: definitions?, main: *main, expressions })
}

/// What a name stands for.
#[derive(Clone, Copy)]
enum Meaning {
    Parameter(usize),
    Variable(usize),
}

/// What is still to be done with an expression, in reading order.
enum Step<'t> {
    Enter(usize),
    Bind(&'t [u8], Meaning),
    Unbind(&'t [u8]),
    /// Its operands are written: its node, as far as it was known before them.
    Leave(usize, Vec<u8>),
}

/// A table that is being written.
#[derive(Default)]
struct Writer<'t> {
    bytes: Vec<u8>,
    nodes: usize,
    slots: usize,
    variables: usize,
    definitions: HashMap<&'t [u8], usize>,
    /// By name what it stands for, the nearest binder last.
    bound: HashMap<&'t [u8], Vec<Meaning>>,
    /// A name was unresolved, repeated or reserved.
    bad_name: bool,
}

/// A number as a byte; one past it is out of every range.
fn byte(number: usize) -> u8 {
    u8::try_from(number).unwrap_or(u8::MAX)
}

impl<'t> Writer<'t> {
    fn field(&mut self, tag: u8, body: &[u8]) {
        // Before a field that long there are more nodes than a table may have.
        let length = u16::try_from(body.len()).unwrap_or(u16::MAX);
        self.bytes.push(tag);
        self.bytes.extend(length.to_be_bytes());
        self.bytes.extend(body);
    }

    fn slot(&mut self) -> u8 {
        self.slots += 1;
        byte(self.slots)
    }

    /// The byte of the definition with this name.
    fn definition(&mut self, name: &[u8]) -> u8 {
        let number = self.definitions.get(name).copied();
        self.bad_name |= number.is_none();
        byte(number.unwrap_or(0))
    }

    /// Kind and item of the node of a name.
    fn name(&mut self, name: &[u8]) -> Vec<u8> {
        match self.bound.get(name).and_then(|all| all.last()) {
            Some(Meaning::Parameter(p)) => vec![1, byte(*p)],
            Some(Meaning::Variable(v)) => vec![2, byte(*v)],
            None => {
                self.bad_name = true;
                vec![]
            }
        }
    }

    /// Writes an expression's nodes; the number of the last is that of the expression.
    fn expression(&mut self, expressions: &[Option<Expression<'t>>], numbers: &mut [usize], whole: usize) {
        let mut steps = vec![Step::Enter(whole)];
        while let Some(step) = steps.pop() {
            match step {
                Step::Enter(number) => {
                    let expression = expressions[number].as_ref().expect("it is of the grammar");
                    let (front, variable) = self.front(expression.head);
                    steps.push(Step::Leave(number, front));
                    match (expression.head, &expression.operands[..]) {
                        (Head::Rep(name), &[initial, update]) => steps.extend([
                            Step::Unbind(name),
                            Step::Enter(update),
                            Step::Bind(name, Meaning::Variable(variable)),
                            Step::Enter(initial),
                        ]),
                        (_, operands) => steps.extend(operands.iter().rev().map(|operand| Step::Enter(*operand))),
                    }
                }
                Step::Bind(name, meaning) => self.bind(name, meaning),
                Step::Unbind(name) => {
                    self.bound.get_mut(name).expect("it was bound").pop();
                }
                Step::Leave(number, mut body) => {
                    let operands = &expressions[number].as_ref().expect("it is of the grammar").operands;
                    body.extend(operands.iter().map(|operand| byte(numbers[*operand])));
                    self.field(1, &body);
                    numbers[number] = self.nodes;
                    self.nodes += 1;
                }
            }
        }
    }

    /// Kind and items of a node that is entered, and the variable that it takes if it is a rep.
    fn front(&mut self, head: Head<'t>) -> (Vec<u8>, usize) {
        let variable = self.variables;
        let front = match head {
            Head::Constant(number) => [&[0][..], &number.to_be_bytes()].concat(),
            Head::Name(name) => self.name(name),
            Head::Operator(o) => vec![3, byte(o)],
            Head::Sense => vec![4],
            Head::Rep(_) => {
                self.variables += 1;
                vec![5, byte(variable)]
            }
            Head::If => vec![6],
            Head::Mux => vec![7],
            Head::Nbr => vec![8, self.slot()],
            Head::NbrRange => vec![9, self.slot()],
            Head::NbrLag => vec![13, self.slot()],
            Head::FoldByOperator(o) => vec![10, byte(o)],
            Head::FoldByDefinition(name) => vec![11, self.definition(name)],
            Head::Call(name) => vec![12, self.definition(name)],
        };
        (front, variable)
    }

    fn bind(&mut self, name: &'t [u8], meaning: Meaning) {
        self.bad_name |= words::is_reserved(name);
        self.bound.entry(name).or_default().push(meaning);
    }
}

/// The table of a program; refusal 20 where a name is bad.
fn table(program: &Program) -> Result<Vec<u8>, Refusal> {
    let mut writer = Writer::default();
    let mut numbers = vec![0; program.expressions.len()];
    for definition in &program.definitions {
        writer.bad_name |= words::is_reserved(definition.name);
        for (p, parameter) in definition.parameters.iter().enumerate() {
            writer.bad_name |= writer.bound.contains_key(parameter);
            writer.bind(parameter, Meaning::Parameter(p));
        }
        writer.expression(&program.expressions, &mut numbers, definition.body);
        writer.bound.clear();
        writer.field(2, &[byte(definition.parameters.len()), byte(numbers[definition.body])]);
        // Behind its body, which does not see it.
        let number = writer.definitions.len();
        writer.bad_name |= writer.definitions.insert(definition.name, number).is_some();
    }
    writer.expression(&program.expressions, &mut numbers, program.main);
    writer.field(3, &[byte(numbers[program.main])]);
    match writer.bad_name {
        true => refused(20, 0),
        false => Ok(writer.bytes),
    }
}

/// Reads a text: its table, which is not yet tested.
pub fn read(text: &[u8]) -> Result<Vec<u8>, Refusal> {
    match program(text) {
        Some(program) => table(&program),
        None => refused(19, begins::longest(text)),
    }
}

#[cfg(test)]
mod tests {
    use super::*;

    /// Tree and rules agree which texts are in the grammar: all of up to six words are tried.
    #[test]
    fn trees_are_what_the_rules_say() {
        const WORDS: [&str; 9] = ["(", ")", "+", "1", "f", "def", "rep", "nbr-lag", "nbr"];
        let mut in_it = 0;
        for length in 0..=6 {
            for number in 0..9_usize.pow(length) {
                let words: Vec<&str> = (0..length).map(|at| WORDS[number / 9_usize.pow(at) % 9]).collect();
                let text = words.join(" ");
                let fine = program(text.as_bytes()).is_some();
                assert_eq!(fine, begins::whole(text.as_bytes()), "{text}");
                in_it += u32::from(fine);
            }
        }
        // Two atoms; forms of three and four words, of five, of six (20 of them reps: one of five names, two atoms).
        assert_eq!(in_it, 2 + 6 + 8 + 32);
    }
}
