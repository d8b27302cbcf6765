//! From a program's text to its table, with the refusals in words. The engine's reader decides; `scan` explains.
#![deny(warnings)]
#![forbid(unsafe_code)]

mod scan;

use scan::{is_blank, next_token, parts_words, Lines, Scan, Span};

/// What reads texts: `cuddystove_read_text`, or a stand-in for it.
pub trait Reader {
    /// The number and place; a table goes to the start of the slice.
    fn read_text(&self, text: &[u8], table: &mut [u8]) -> (u32, usize);
}

/// The proved engine.
#[cfg(feature = "proved")]
pub struct Proved;

#[cfg(feature = "proved")]
impl Reader for Proved {
    fn read_text(&self, text: &[u8], table: &mut [u8]) -> (u32, usize) {
        cuddystove::plain::read_text(text, table)
    }
}

/// The second engine.
pub struct Second;

impl Reader for Second {
    fn read_text(&self, text: &[u8], table: &mut [u8]) -> (u32, usize) {
        second::read_text(text, table)
    }
}

/// More than any table has: 256 nodes of at most 9 bytes, 32 definitions of 5, main.
const ROOM: usize = 4_096;

/// The table of a text, or what to say of its refusal.
pub fn compile(reader: &dyn Reader, file: &str, text: &[u8]) -> Result<Vec<u8>, String> {
    let mut table = vec![0; ROOM];
    match reader.read_text(text, &mut table) {
        (0, length) => {
            table.truncate(length);
            Ok(table)
        }
        (number, place) => Err(refusal(reader, file, text, (number, place))),
    }
}

/// Every node of a text whose names are good: its number, line and column, kind, words. None where it is refused with
/// 19 or 20.
pub fn nodes(reader: &dyn Reader, text: &[u8]) -> Option<String> {
    if matches!(reader.read_text(text, &mut vec![0; ROOM]), (19 | 20, _)) {
        return None;
    }
    let scan = Scan::up_to(text, text.len());
    let lines = Lines::of(text);
    let line = |(number, node): (usize, &scan::Node)| {
        let (line, column) = lines.position(node.span.start);
        format!("{number} {line}:{column} {} {}\n", node.kind, on_one_line(scan.word(node.span)))
    };
    Some(scan.nodes.iter().enumerate().map(line).collect())
}

/// The words of a node with one blank between them, cut where they are many.
fn on_one_line(words: &[u8]) -> String {
    let mut line = String::new();
    for piece in words.split(|byte| is_blank(*byte)).filter(|piece| !piece.is_empty()) {
        let blank = if line.is_empty() { "" } else { " " };
        line.push_str(blank);
        line.extend(piece.iter().take(61).map(|byte| char::from(*byte)));
        if line.len() > 60 {
            line.truncate(60);
            return line + "..";
        }
    }
    line
}

/// A refusal in words: the place in the text, its line with a caret, a sentence.
fn refusal(reader: &dyn Reader, file: &str, text: &[u8], (number, place): (u32, usize)) -> String {
    // Of a text outside the grammar what stands before the word that is wrong.
    let fine = if number == 19 { fine_words(reader, text, place) } else { text.len() };
    let scan = Scan::up_to(text, fine);
    let whole = Span { start: 0, end: 0 };
    let node = |place: usize| scan.nodes.get(place).map_or(whole, |node| node.span);
    let (name, at, sentence) = match number {
        19 => ("outside the notation", Span { start: place, end: place }, outside(text, place, &scan, fine)),
        20 => {
            let (at, why) =
                scan.bad_name.clone().unwrap_or((whole, "a name is unresolved, repeated or reserved.".into()));
            ("bad name", at, why)
        }
        1..=5 => {
            let field = scan.fields.get(place).copied().or(scan.main()).unwrap_or(whole);
            (table_name(number), field, format!("{} It is field {place} of the table.", of_a_field(number)))
        }
        7..=9 => (table_name(number), node(place), format!("{} It is node {place} of the table.", of_a_node(number))),
        10 => (table_name(10), scan.main().unwrap_or(whole), COST.into()),
        13 => ("short space", whole, format!("the table has more than {ROOM} bytes.")),
        _ => ("refused", whole, "the table is refused.".into()),
    };
    let (line, column) = Lines::of(text).position(at.start);
    let shown = pointed(text, at);
    format!("{file}:{line}:{column}: refused {number} {place} ({name}): {sentence}\n{shown}")
}

const COST: &str =
    "a round would cost more than 1,000,000: a node costs 1 and its operands, a call its definition's body besides, \
                    a fold by a definition 15 times that body.";

fn table_name(number: u32) -> &'static str {
    match number {
        1 => "bad field",
        2 => "too many",
        3 => "out of range",
        4 => "not given",
        5 => "taken",
        7 => "wrong sort",
        8 => "misread",
        9 => "misused definition",
        _ => "too costly",
    }
}

fn of_a_field(number: u32) -> &'static str {
    match number {
        1 => "this call has another number of operands than its definition has parameters.",
        2 => "this is the 257th node or the 33rd definition.",
        3 => {
            "its slot or variable is past 15: a program has at most 15 nbr, nbr-range and nbr-lag, and 16 rep; \
             the numbers are given out in reading order."
        }
        4 => "it names what is not yet given.",
        _ => "it names what is taken already.",
    }
}

fn of_a_node(number: u32) -> &'static str {
    match number {
        7 => {
            "a field stands where a number belongs, or a number where a field does: as an operand of this, \
             or as main or a definition's body, if this is one."
        }
        8 => "this reads what it may not.",
        _ => {
            "this is a second call of a spatial definition (one with rep, nbr, nbr-range or nbr-lag), \
             or folds by one that is spatial or has not two parameters."
        }
    }
}

/// The end of the words that can stand before the place of 19. A word that ends there may be shared only as the
/// beginning of a longer one; whether it can stand itself the reader says, asked with a blank behind it.
fn fine_words(reader: &dyn Reader, text: &[u8], place: usize) -> usize {
    let start = text[..place].iter().rposition(|byte| parts_words(*byte)).map_or(0, |at| at + 1);
    let goes_on = text.get(place).is_some_and(|byte| !parts_words(*byte));
    let stands = || reader.read_text(&[&text[..place], b" "].concat(), &mut []) != (19, place);
    if start == place || !goes_on && stands() {
        return place;
    }
    start
}

/// Why a text is outside the grammar, and what would go on behind its fine words.
fn outside(text: &[u8], place: usize, scan: &Scan, fine: usize) -> String {
    let wanted = scan.wanted();
    let Some(token) = next_token(text, fine) else {
        let open = match scan.depth() {
            0 => String::new(),
            1 => " One bracket is open.".into(),
            open => format!(" {open} brackets are open."),
        };
        return format!("the text ends here: {wanted}.{open}");
    };
    let (word, shown) = (scan.word(token), scan.shown(token));
    if let Some(byte) = text.get(place).filter(|byte| !is_blank(**byte) && !of_the_notation(**byte)) {
        return strange(*byte, &shown);
    }
    // A word of which nothing is shared is not itself what is wrong: none may stand here, or none of its kind.
    let (within, whole) = (place > token.start, place == token.end);
    match word {
        b"-inf" if within && !scan.at_function() => "`inf` takes no minus; the least number is -2147483647.".into(),
        b"=" if within => "there is no `=`; equality is `==`.".into(),
        b"!" if within => "there is no `!`; unequal is `!=`.".into(),
        b"<=" if within => "there is no `<=`; write `(>= b a)` for `(<= a b)`.".into(),
        b"def" if whole && scan.at_head() => {
            "a definition cannot stand within an expression; definitions come first.".into()
        }
        b"inf" if whole && scan.at_head() => "`inf` is a number and heads nothing.".into(),
        _ if within && is_decimal(word) => match is_past_inf(word) && !scan.at_function() {
            true => format!("{shown} is outside floor..inf, -2147483647 to 2147483647."),
            false => format!("{shown} is a number and cannot stand here: {wanted}."),
        },
        [b'a'..=b'z', ..] if place == token.start + 16 && !whole => format!("{shown} has more than 16 characters."),
        _ if whole => format!("{shown} is a word of the notation and cannot stand here: {wanted}."),
        _ if within => {
            format!("{shown} is no word of the notation; is a blank missing? {}.", capitalised(&wanted))
        }
        _ => format!("{shown} cannot follow: {wanted}."),
    }
}

/// Why a byte that no word of the notation has cannot stand in the word that is shown.
fn strange(byte: u8, shown: &str) -> String {
    match byte {
        b'\t' => "a tab parts no words; only spaces and line ends do.".into(),
        b';' | b'#' => "the notation has no comments.".into(),
        b'A'..=b'Z' => format!("{shown} has a capital, and the notation has none."),
        _ if byte.is_ascii_graphic() => format!("`{}` is part of no word of the notation.", char::from(byte)),
        _ => format!("byte {byte} is part of no word of the notation."),
    }
}

/// The same as a sentence begins.
fn capitalised(words: &str) -> String {
    let (first, rest) = words.split_at(1);
    first.to_ascii_uppercase() + rest
}

fn of_the_notation(byte: u8) -> bool {
    byte.is_ascii_lowercase() || byte.is_ascii_digit() || b"()+-*/<>=!".contains(&byte)
}

fn is_decimal(word: &[u8]) -> bool {
    let digits = word.strip_prefix(b"-").unwrap_or(word);
    !digits.is_empty() && digits.iter().all(u8::is_ascii_digit)
}

/// Whether the digits of a number stand for more than inf.
fn is_past_inf(word: &[u8]) -> bool {
    let zeros = word.iter().take_while(|byte| b"-0".contains(byte)).count();
    let digits = &word[zeros..];
    (digits.len(), digits) > (10, b"2147483647")
}

/// The most bytes that are shown of a line before the caret, and behind it.
const SHOWN: [usize; 2] = [60, 40];

/// The line of a place, and a caret under it, with a tail under the rest of what is meant.
fn pointed(text: &[u8], at: Span) -> String {
    let ends = |byte: &u8| b"\n\r".contains(byte);
    let start = text[..at.start].iter().rposition(ends).map_or(0, |end| end + 1);
    let end = text[at.start..].iter().position(ends).map_or(text.len(), |length| at.start + length);
    let (first, last) = (start.max(at.start.saturating_sub(SHOWN[0])), end.min(at.start + SHOWN[1]));
    let printable = |byte: &u8| if byte.is_ascii_graphic() || *byte == b' ' { char::from(*byte) } else { '?' };
    let line: String = text[first..last].iter().map(printable).collect();
    let [before, behind] = [first > start, last < end].map(|cut| if cut { ".." } else { "" });
    let tail = "~".repeat(at.end.min(last).saturating_sub(at.start + 1));
    let indent = " ".repeat(before.len() + at.start - first);
    format!("    {before}{line}{behind}\n    {indent}^{tail}\n")
}

#[cfg(test)]
mod tests {
    use super::*;

    fn said(text: &str) -> String {
        compile(&Second, "t", text.as_bytes()).expect_err("it is refused")
    }

    #[track_caller]
    fn says(text: &str, expected: &str) {
        assert_eq!(said(text), expected, "\n{text}");
    }

    /// The first line only, without the refusal's name.
    #[track_caller]
    fn begins(text: &str, at: &str, refused: &str, sentence: &str) {
        let said = said(text);
        let (front, rest) = said.lines().next().and_then(|line| line.split_once(" (")).expect("a name");
        let (_, found) = rest.split_once("): ").expect("a sentence");
        assert_eq!((front, found), (&format!("t:{at}: refused {refused}")[..], sentence), "\n{text}");
    }

    #[test]
    fn tables() {
        let table = compile(&Second, "t", b"(rep x 0 (+ x 1))").expect("it is good");
        assert_eq!((table.len(), &table[..8]), (39, &[1, 0, 5, 0, 0, 0, 0, 0][..]));
    }

    #[test]
    fn outside_the_notation() {
        says(
            "(def f (x)\n  (if x 1))\n(f 2)",
            "t:2:10: refused 19 20 (outside the notation): `)` cannot follow: `if` takes 3 operands, and has 2 so far.\n\
             \x20     (if x 1))\n\
             \x20            ^\n",
        );
        for (text, at, refused, sentence) in [
            ("", "1:1", "19 0", "the text ends here: here stands a definition or the main expression."),
            ("(def f () 1)\n", "2:1", "19 13", "the text ends here: here stands a definition or the main expression."),
            ("(+ 1 (sense", "1:12", "19 11", "the text ends here: `sense` takes one operand, and has 0 so far. 2 brackets are open."),
            ("(+ 1 2 3)", "1:8", "19 7", "`3` cannot follow: `+` takes 2 operands, and a bracket closes it."),
            ("1 2", "1:3", "19 2", "`2` cannot follow: nothing follows the main expression."),
            ("(+\t1 2)", "1:3", "19 2", "a tab parts no words; only spaces and line ends do."),
            ("1 ; one", "1:3", "19 2", "the notation has no comments."),
            ("2147483648", "1:10", "19 9", "`2147483648` is outside floor..inf, -2147483647 to 2147483647."),
            ("abcdefghijklmnopq", "1:17", "19 16", "`abcdefghijklmnopq` has more than 16 characters."),
            ("(+ if 1)", "1:6", "19 5", "`if` is a word of the notation and cannot stand here: `+` takes 2 operands, and has 0 so far."),
            ("(def f (a b c d e) 1) 2", "1:17", "19 16", "`e` cannot follow: a definition has at most 4 parameters, and a bracket closes them."),
            ("(def f a 1) 2", "1:8", "19 7", "`a` cannot follow: the parameters stand in brackets, also where there is one or none."),
            ("(nbr-range 1)", "1:12", "19 11", "`1` cannot follow: `nbr-range` takes no operand, and a bracket closes it."),
            ("()", "1:2", "19 1", "`)` cannot follow: an opening bracket is followed by an operator, the word of a form (`sense`, `rep`, `if` ..), a definition's name or `def`."),
            ("(+ X 1)", "1:4", "19 3", "`X` has a capital, and the notation has none."),
            ("(rep x 0)", "1:9", "19 8", "`)` cannot follow: `rep` takes a name, an initial part and an update, and has 2 parts so far."),
        ] {
            begins(text, at, refused, sentence);
        }
    }

    /// What follows an opening bracket, `def` besides where none is open around it.
    const HEAD: &str = "n opening bracket is followed by an operator, the word of a form (`sense`, `rep`, `if` ..)";

    #[test]
    fn numbers_outside_the_notation() {
        let head = format!("a{HEAD}, a definition's name or `def`.");
        for (text, at, refused, sentence) in [
            ("(-1 2)", "1:3", "19 2", &format!("`-1` is a number and cannot stand here: {head}")[..]),
            ("(1 2)", "1:2", "19 1", &format!("`1` cannot follow: {head}")),
            (
                "(fold-hood* -1 0 (nbr 1))",
                "1:14",
                "19 13",
                "`-1` is a number and cannot stand here: `fold-hood*` is followed by an operator or the name of a definition.",
            ),
            ("(inf)", "1:5", "19 4", "`inf` is a number and heads nothing."),
            ("-inf", "1:2", "19 1", "`inf` takes no minus; the least number is -2147483647."),
            ("(-inf 1)", "1:3", "19 2", &format!("`-inf` is no word of the notation; is a blank missing? A{HEAD}, a definition's name or `def`.")),
            ("(+ 1 2 -inf)", "1:8", "19 7", "`-inf` cannot follow: `+` takes 2 operands, and a bracket closes it."),
            ("(-99999999999 2)", "1:3", "19 2", &format!("`-99999999999` is a number and cannot stand here: {head}")),
            ("-2147483648", "1:11", "19 10", "`-2147483648` is outside floor..inf, -2147483647 to 2147483647."),
            ("0002147483648", "1:13", "19 12", "`0002147483648` is outside floor..inf, -2147483647 to 2147483647."),
            ("99999999999", "1:10", "19 9", "`99999999999` is outside floor..inf, -2147483647 to 2147483647."),
            ("(+ 1 2 2147483648)", "1:8", "19 7", "`2147483648` cannot follow: `+` takes 2 operands, and a bracket closes it."),
            (
                "0000000000000000x",
                "1:17",
                "19 16",
                "`0000000000000000x` is no word of the notation; is a blank missing? Here stands a definition or the main expression.",
            ),
        ] {
            begins(text, at, refused, sentence);
        }
        for (digits, past) in
            [("2147483647", false), ("-2147483647", false), ("-002147483648", true), ("0000000000000", false)]
        {
            assert_eq!(is_past_inf(digits.as_bytes()), past, "{digits}");
        }
    }

    #[test]
    fn words_outside_the_notation() {
        let (inner, outer) =
            (format!("A{HEAD} or a definition's name."), format!("A{HEAD}, a definition's name or `def`."));
        let definition = "a definition cannot stand within an expression; definitions come first.";
        for (text, at, refused, sentence) in [
            ("(= 1 2)", "1:3", "19 2", "there is no `=`; equality is `==`."),
            ("(fold-hood* ! 0 (nbr 1))", "1:14", "19 13", "there is no `!`; unequal is `!=`."),
            ("(! 1 2)", "1:3", "19 2", "there is no `!`; unequal is `!=`."),
            ("(<= 1 2)", "1:3", "19 2", "there is no `<=`; write `(>= b a)` for `(<= a b)`."),
            ("(+ (def f () 1) 2)", "1:8", "19 7", definition),
            ("(def f () (def g () 1)) 2", "1:15", "19 14", definition),
            (
                "(+ def 1)",
                "1:7",
                "19 6",
                "`def` is a word of the notation and cannot stand here: `+` takes 2 operands, and has 0 so far.",
            ),
            ("(+1 2)", "1:3", "19 2", &format!("`+1` is no word of the notation; is a blank missing? {outer}")[..]),
            ("(+ 1 (-x 2))", "1:8", "19 7", &format!("`-x` is no word of the notation; is a blank missing? {inner}")),
            (
                "1x",
                "1:2",
                "19 1",
                "`1x` is no word of the notation; is a blank missing? Here stands a definition or the main expression.",
            ),
            (
                "(+ a+b 1)",
                "1:5",
                "19 4",
                "`a+b` is no word of the notation; is a blank missing? `+` takes 2 operands, and has 0 so far.",
            ),
            ("1.5", "1:2", "19 1", "`.` is part of no word of the notation."),
            ("(+ a\u{7f} 1)", "1:5", "19 4", "byte 127 is part of no word of the notation."),
            ("(+ \u{e9} 1)", "1:4", "19 3", "byte 195 is part of no word of the notation."),
        ] {
            begins(text, at, refused, sentence);
        }
    }

    /// Where no word, or none of its kind, may stand, the word itself is not blamed, nor what is odd in it behind the place.
    #[test]
    fn words_that_cannot_follow() {
        for (text, at, refused, sentence) in [
            ("1 <=", "1:3", "19 2", "`<=` cannot follow: nothing follows the main expression."),
            ("(x = 3)", "1:4", "19 3", "`=` cannot follow: here stands an operand or the closing bracket."),
            ("(rep ! 0 1)", "1:6", "19 5", "`!` cannot follow: `rep` is followed by the variable's name."),
            ("1 x;", "1:3", "19 2", "`x;` cannot follow: nothing follows the main expression."),
            ("(1\t2)", "1:2", "19 1", &format!("`1?2` cannot follow: a{HEAD}, a definition's name or `def`.")),
            ("abcdefghijklmnopqR", "1:17", "19 16", "`abcdefghijklmnopqR` has more than 16 characters."),
        ] {
            begins(text, at, refused, sentence);
        }
    }

    #[test]
    fn bad_names() {
        says(
            "(def f (x)\r\n  (+ x y))\r\n(f 2)",
            "t:2:8: refused 20 0 (bad name): `y` is no parameter here, and no variable of a rep whose update this is.\n\
             \x20     (+ x y))\n\
             \x20          ^\n",
        );
        for (text, at, refused, sentence) in [
            ("(+ (g) 1)", "1:5", "20 0", "`g`: there is no definition of this name above."),
            ("(def f () (f)) 1", "1:12", "20 0", "`f`: a definition does not see itself; there is no recursion."),
            ("(def f () 1)\n(def f () 2) 3", "2:6", "20 0", "`f` is defined already, in line 1, column 6."),
            ("(def f (a b a) 1) 3", "1:13", "20 0", "the definition has the parameter `a` twice."),
            ("(def if () 1) 3", "1:6", "20 0", "`if` is a word of the notation and cannot name a definition."),
            ("(rep inf 0 1)", "1:6", "20 0", "`inf` is a word of the notation and cannot name a variable."),
            ("(def f (a) 1) (+ 1 f)", "1:20", "20 0", "`f` is a definition: a call of it stands in brackets."),
            ("(rep x x 1)", "1:8", "20 0", "`x` is no parameter here, and no variable of a rep whose update this is."),
            (
                "(+ (rep x 0 x) x)",
                "1:16",
                "20 0",
                "`x` is no parameter here, and no variable of a rep whose update this is.",
            ),
            ("(fold-hood* min 0 (nbr 1))", "1:13", "20 0", "`min`: there is no definition of this name above."),
        ] {
            begins(text, at, refused, sentence);
        }
    }

    #[test]
    fn refused_tables() {
        says(
            "(def f (a) a)\n(+ 1\n   (f 1 2))",
            "t:3:4: refused 1 5 (bad field): this call has another number of operands than its definition has parameters. \
             It is field 5 of the table.\n\
             \x20      (f 1 2))\n\
             \x20      ^~~~~~~\n",
        );
        let second_call = said("(def f () (rep x 0 x))\n(+ (f) (f))");
        assert!(
            second_call.starts_with("t:2:8: refused 9 4 (misused definition): this is a second call"),
            "{second_call}"
        );
        assert!(said("(+ (nbr 1) 2)").starts_with("t:1:1: refused 7 3 (wrong sort): "));
        assert!(said("(def f () (nbr-lag)) 1").starts_with("t:1:11: refused 7 0 (wrong sort): "));
        let slots = format!("1{}", "\n(fold-hood* + 0 (nbr-lag)))".repeat(16));
        assert!(said(&("(+ ".repeat(16) + &slots)).starts_with("t:17:17: refused 3 62 (out of range): "));
        let definitions: String = (0..33).map(|n| format!("(def f{n} () 1)\n")).collect();
        assert!(said(&(definitions + "2")).starts_with("t:33:1: refused 2 65 (too many): "));
        let doubling: String = (1..25).map(|n| format!("(def f{n} () (+ (f{0}) (f{0})))\n", n - 1)).collect();
        assert!(said(&format!("(def f0 () 1)\n{doubling}(f24)")).starts_with("t:26:1: refused 10 0 (too costly): "));
    }

    #[test]
    fn long_lines_are_cut() {
        let text = format!("{}x{}", "(sense ".repeat(30), ")".repeat(30));
        let shown = said(&text);
        let lines: Vec<&str> = shown.lines().collect();
        assert_eq!(lines[1].len(), 4 + 2 + 60 + 31);
        assert_eq!(lines[2].find('^'), lines[1].find('x'));
    }

    #[test]
    fn nodes_with_their_places() {
        let text = b"(def f (a)\n  (rep a a (+ a 1)))\n(f (sense\n 1))";
        let expected = "0 2:10 parameter a\n1 2:15 variable a\n2 2:17 constant 1\n3 2:12 operator (+ a 1)\n\
                        4 2:3 rep (rep a a (+ a 1))\n5 4:2 constant 1\n6 3:4 sense (sense 1)\n7 3:1 call (f (sense 1))\n";
        assert_eq!(nodes(&Second, text).as_deref(), Some(expected));
        assert_eq!(nodes(&Second, b"(+ 1"), None);
        assert_eq!(nodes(&Second, b"(+ 1 x)"), None);
        assert!(nodes(&Second, b"(nbr 1)").is_some());
    }

    /// The kinds of a table's nodes, in the words of the list.
    fn kinds(table: &[u8]) -> Vec<&'static str> {
        let names: Vec<&str> =
            "constant parameter variable operator sense rep if mux nbr nbr-range fold fold call nbr-lag"
                .split(' ')
                .collect();
        let mut kinds = vec![];
        let mut rest = table;
        while let [tag, high, low, after @ ..] = rest {
            let (body, more) = after.split_at(usize::from(u16::from_be_bytes([*high, *low])));
            if *tag == 1 {
                kinds.push(names[usize::from(body[0])]);
            }
            rest = more;
        }
        kinds
    }

    /// The scan finds as many nodes as the table has, each of the kind that the table says, in texts that nest deep
    /// too.
    #[test]
    fn scan_and_table_agree() {
        let texts = [
            "(def min (a b) (if (< a b) a b)) (def d (s) (rep d inf (mux s 0 (fold-hood* min inf (+ (nbr d) (nbr-range)))))) (d (sense 1))",
            "(fold-hood* + 0 (nbr (rep x (rep x 0 x) (+ x (rep y x (- x y))))))",
            "(def f () 1) (+ (f) (fold-hood* * -2 (nbr-lag)))",
        ];
        for text in texts {
            let table = compile(&Second, "t", text.as_bytes()).expect(text);
            let scan = Scan::up_to(text.as_bytes(), text.len());
            let found: Vec<&str> = scan.nodes.iter().map(|node| node.kind).collect();
            assert_eq!(found, kinds(&table), "{text}");
        }
        let deep = 100_000;
        assert!(said(&format!("{}1{}", "(sense ".repeat(deep), ")".repeat(deep))).contains("refused 2 256"));
        assert!(said(&"(sense ".repeat(deep)).contains("100000 brackets are open."));
    }
}
