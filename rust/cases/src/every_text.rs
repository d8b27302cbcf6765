//! Texts, one after the other: the readings of 02, everything done to the examples, every word in every place, limits.

use crate::spell::{NAMES, OPERATORS, RESERVED};
use crate::texts::{Meant, TextCase, VOCABULARY};

/// The examples' programs.
pub const EXAMPLES: [&[u8]; 11] = [
    include_bytes!("../../../examples/counter/program.proto"),
    include_bytes!("../../../examples/branch/program.proto"),
    include_bytes!("../../../examples/line-of-four/program.proto"),
    include_bytes!("../../../examples/just-heard/program.proto"),
    include_bytes!("../../../examples/shift-of-sixteen/program.proto"),
    include_bytes!("../../../examples/papers/ever/program.proto"),
    include_bytes!("../../../examples/papers/greatest/program.proto"),
    include_bytes!("../../../examples/papers/hops/program.proto"),
    include_bytes!("../../../examples/papers/neighbours/program.proto"),
    include_bytes!("../../../examples/papers/obstacle/program.proto"),
    include_bytes!("../../../examples/papers/timer/program.proto"),
];

/// Texts with the number and place that 02, as it is read, gives them.
pub const READINGS: [(&str, u32, usize); 78] = [
    ("(rep x 0 (+ x 1))", 0, 39),
    ("(def + (a b) a) 1", 19, 5),
    ("(def if (a b) a) 1", 20, 0),
    ("(def f (inf) 1) 1", 20, 0),
    ("(rep def 0 1)", 20, 0),
    ("(rep 1 0 1)", 19, 5),
    ("(+ 1)", 19, 4),
    ("(+ 1 2 3)", 19, 7),
    ("(if 1 2)", 19, 7),
    ("(nbr-range 1)", 19, 11),
    ("(sense +)", 19, 7),
    ("(sense)", 19, 6),
    ("if", 19, 2),
    ("if ", 19, 2),
    ("iffy", 20, 0),
    ("(def f (a) a) (f 1 2)", 1, 4),
    ("(def f (a) a) (f)", 1, 2),
    ("(def f (a) a) (f 1)", 0, 28),
    ("(fold-hood* if 0 (nbr 1))", 19, 14),
    ("(fold-hood* f 0 (nbr 1))", 20, 0),
    ("-inf", 19, 1),
    ("-2147483647", 0, 12),
    ("-2147483648", 19, 10),
    ("2147483647", 0, 12),
    ("2147483648", 19, 9),
    ("002147483648", 19, 11),
    ("(def f () 1)", 19, 12),
    ("", 19, 0),
    (" \r\n", 19, 3),
    ("abcdefghijklmnopq", 19, 16),
    ("abcdefghijklmnop", 20, 0),
    ("(def f (a b c d e) 1) 2", 19, 16),
    ("(def f (a b c d) 1) 2", 0, 25),
    ("(inf)", 19, 4),
    ("(<= 1 2)", 19, 2),
    ("(= 1 2)", 19, 2),
    ("(-1 2)", 19, 2),
    ("(- 1 2)", 0, 27),
    ("(+ (def f () 1) 2)", 19, 7),
    ("(+ (def", 19, 7),
    ("(def f()1)2", 0, 25),
    ("(+\t1 2)", 19, 2),
    ("1\t", 19, 1),
    ("(def f (f) f) (f 1)", 0, 28),
    ("(def f (g) (g)) 1", 20, 0),
    ("(def f () 1) f", 20, 0),
    ("(def f () (f)) 1", 20, 0),
    ("(def f () 1) (def f () 2) 3", 20, 0),
    ("(def f (a a) 1) 2", 20, 0),
    ("(def f (a) a) (def g (a) a) (f (g 1))", 0, 44),
    ("(rep x 0 (rep x x x))", 0, 36),
    ("(rep x x 1)", 20, 0),
    ("(+ (rep x 0 x) x)", 20, 0),
    ("(rep x 0 y)", 20, 0),
    ("(def f (a) (rep a a a)) (f 1)", 0, 40),
    ("(share 1)", 20, 0),
    ("(def share (x) x) (share 1)", 0, 28),
    ("floor", 20, 0),
    ("(nbr 1)", 7, 1),
    ("(fold-hood* + 0 (nbr (fold-hood* * 1 (nbr 1))))", 0, 54),
    ("(fold-hood* + 0 1)", 7, 2),
    ("(def f () (nbr-lag)) 1", 7, 0),
    ("(def f () (rep x 0 x)) (+ (f) (f))", 9, 4),
    ("(def f (a) a) (fold-hood* f 0 (nbr 1))", 9, 4),
    ("1 2", 19, 2),
    ("1)", 19, 1),
    ("(f))", 19, 3),
    ("()", 19, 1),
    ("((f))", 19, 1),
    (")", 19, 0),
    ("(f (g x", 19, 7),
    ("(def f () (def g () 1)) 1", 19, 14),
    ("1 (def f () 1)", 19, 2),
    ("(def nbr-r (nbr-) nbr-) (nbr-r 1)", 0, 28),
    ("(f 1 2 3 4 5", 19, 12),
    ("(def f (a) a) a", 20, 0),
    ("(nbr-lag 1)", 19, 9),
    ("(rep x 0 (+ (rep x 0 x) x))", 0, 51),
];

pub const LABELS: [&str; 10] = [
    "text: reading of 02",
    "text: every byte changed",
    "text: every byte left out or put in",
    "text: every beginning",
    "text: every word left out, twice or changed",
    "text: every word in every place",
    "text: few words in all orders",
    "text: slots, variables, nodes, definitions",
    "text: every length of space",
    "text: deep and long",
];

/// Texts with a place for a word.
const PLACES: [&str; 24] = [
    "@",
    "@ ",
    " @",
    "(@",
    "(@)",
    "(@ 1)",
    "(@ 1 2)",
    "(@ 1 2 3)",
    "(@ x 1 2)",
    "(@ + 1 2)",
    "(+ @ 1)",
    "(+ 1 @)",
    "(+ 1 1 @)",
    "(f @)",
    "(f 1 @ 2)",
    "(nbr-lag @)",
    "(rep @ 0 1)",
    "(rep x @ x)",
    "(rep x 0 @)",
    "(fold-hood* @ 0 (nbr 1))",
    "(def @ () 1) 2",
    "(def f (@) 1) 2",
    "(def f (a b c @) 1) (def g () @) 2",
    "(def x () 1) @",
];

/// Words of every kind, their beginnings, and words near them.
fn many_words() -> Vec<String> {
    let mut words: Vec<String> = VOCABULARY.iter().map(|word| word.to_string()).collect();
    for word in RESERVED.iter().chain(&OPERATORS) {
        words.extend((1..=word.len()).map(|end| word[..end].to_string()));
        words.extend(["a", "1", "-", "*", "+", "=", "A"].map(|end| format!("{word}{end}")));
    }
    words.extend(NAMES.map(String::from));
    words.extend((14..19).map(|length| "abcdefghijklmnopqrs"[..length].to_string()));
    words.extend((14..19).map(|length| "fold-hood*********"[..length].to_string()));
    for number in 2_147_483_640_u32..2_147_483_660 {
        words.extend(["", "-", "0", "-00"].map(|sign| format!("{sign}{number}")));
    }
    words.extend(
        ["9", "99999999999999999999", "-99999999999999999999", "4294967296", "4294967297", "0x1", "1e3"]
            .map(String::from),
    );
    words.extend((0..=255_u8).filter(u8::is_ascii).map(|byte| char::from(byte).to_string()));
    words.extend((0..=255_u8).filter(u8::is_ascii).map(|byte| format!("a{}", char::from(byte))));
    words
}

fn case(label: &'static str, text: impl Into<Vec<u8>>, meant: Meant) -> TextCase {
    TextCase { label, text: text.into(), space: 4_096, meant }
}

/// Shows every systematic text to `see`.
pub fn all(see: &mut dyn FnMut(TextCase)) {
    few(see);
    few_words(&mut |text| see(case(LABELS[6], text, Meant::Unknown)));
    for example in EXAMPLES {
        changed_bytes(example, &mut |label, text, meant| see(case(label, text, meant)));
        changed_words(example, &mut |text| see(case(LABELS[4], text, Meant::Unknown)));
    }
}

/// Those of them that are few.
pub fn few(see: &mut dyn FnMut(TextCase)) {
    for (text, number, place) in READINGS {
        see(case(LABELS[0], text, Meant::Returned(number, place)));
    }
    for word in many_words() {
        for place in PLACES {
            see(case(LABELS[5], place.replace('@', &word), Meant::Unknown));
        }
    }
    counts(&mut |text| see(case(LABELS[7], text, Meant::Unknown)));
    for text in ["(rep x 0 (+ x 1))", "1"] {
        for space in 0..45 {
            see(TextCase { space, ..case(LABELS[8], text, Meant::Unknown) });
        }
    }
    deep_and_long(&mut |text| see(case(LABELS[9], text, Meant::Unknown)));
}

fn changed_bytes(example: &[u8], see: &mut dyn FnMut(&'static str, Vec<u8>, Meant)) {
    for at in 0..example.len() {
        for byte in 0..=255 {
            let mut text = example.to_vec();
            text[at] = byte;
            see(LABELS[1], text, Meant::Unknown);
        }
        see(LABELS[2], [&example[..at], &example[at + 1..]].concat(), Meant::Unknown);
        for byte in b"() \n\ta0-*+".iter() {
            see(LABELS[2], [&example[..at], &[*byte], &example[at..]].concat(), Meant::Unknown);
        }
        see(LABELS[3], example[..at].to_vec(), Meant::Begins);
    }
}

/// The words and brackets of a text.
fn words(text: &[u8]) -> Vec<String> {
    let spaced: String = text.iter().map(|byte| char::from(*byte).to_string()).collect();
    spaced.replace('(', " ( ").replace(')', " ) ").split_whitespace().map(String::from).collect()
}

fn changed_words(example: &[u8], see: &mut dyn FnMut(Vec<u8>)) {
    let words = words(example);
    let mut show = |words: &[String]| see(words.join(" ").into());
    for at in 0..words.len() {
        let mut other = words.clone();
        other.remove(at);
        show(&other);
        other.insert(at, words[at].clone());
        other.insert(at, words[at].clone());
        show(&other);
        for next in at + 1..words.len() {
            let mut other = words.clone();
            other.swap(at, next);
            show(&other);
        }
        for word in VOCABULARY {
            let mut other = words.clone();
            other[at] = word.into();
            show(&other);
        }
        for word in &words {
            let mut other = words.clone();
            other[at] = word.clone();
            show(&other);
        }
    }
}

/// All lists of at most four of some words.
fn few_words(see: &mut dyn FnMut(Vec<u8>)) {
    const WORDS: [&str; 17] = [
        "(",
        ")",
        "def",
        "sense",
        "rep",
        "if",
        "nbr",
        "nbr-lag",
        "fold-hood*",
        "inf",
        "+",
        "-",
        "-1",
        "1",
        "f",
        "()",
        "==",
    ];
    let mut lists: Vec<String> = vec!["".into()];
    for _ in 0..4 {
        lists = lists.iter().flat_map(|list| WORDS.map(|word| format!("{list}{word} "))).collect();
        lists.iter().for_each(|list| see(list.clone().into()));
    }
    // Those that end with 1 also behind a definition, and without the blank at the end.
    for list in lists.iter().filter(|list| list.ends_with("1 ")) {
        see(format!("(def f (a) a) {}", list.trim_end()).into());
    }
}

/// Slots, variables, nodes and definitions up to their limits and past them, and past a byte.
fn counts(see: &mut dyn FnMut(String)) {
    let sum = |parts: Vec<String>| {
        let brackets = ")".repeat(parts.len() - 1);
        let opened: Vec<String> = parts.iter().map(|part| format!("(+ {part} ")).collect();
        format!("{}{}{brackets}", opened[..opened.len() - 1].concat(), parts[parts.len() - 1])
    };
    for count in
        [1, 2, 14, 15, 16, 17, 18, 31, 63, 64, 85, 86, 127, 128, 129, 254, 255, 256, 257, 258, 270, 271, 272, 300]
    {
        for part in ["(fold-hood* + 0 (nbr-lag))", "(fold-hood* + 0 (nbr-range))", "(rep x 0 x)", "(rep x 0 1)", "1"] {
            see(sum(vec![part.into(); count]));
        }
        for (front, middle, back) in [
            ("(fold-hood* + 0 (nbr ", "1", "))"),
            ("(nbr ", "1", ")"),
            ("(rep x 0 ", "x", ")"),
            ("(rep x ", "0", " 1)"),
            ("(rep x ", "0", " x)"),
            ("(sense ", "1", ")"),
            ("(+ 1 ", "1", ")"),
            ("(+ ", "1", " 1)"),
            ("(if 1 2 ", "3", ")"),
        ] {
            see(format!("{}{middle}{}", front.repeat(count), back.repeat(count)));
        }
        let definitions: String = (0..count).map(|number| format!("(def f{number} (a) a)")).collect();
        see(format!("{definitions} 1"));
        see(format!("{definitions} (f{} 1)", count - 1));
        see(format!("{definitions} (f0 (f{} 1))", count / 2));
        see(format!("{definitions} (f{count} 1)"));
        see(format!("(def f (a) a) (f{})", " 1".repeat(count)));
        let parameters: String = (0..count).map(|number| format!(" p{number}")).collect();
        see(format!("(def f ({parameters}) p0) 1"));
    }
}

fn deep_and_long(see: &mut dyn FnMut(String)) {
    let many = 3_000;
    for front in [
        "(",
        "(f ",
        "(sense ",
        "(rep x ",
        "(rep x 0 ",
        "(if ",
        "(def f () ",
        "(def f () 1) ",
        "1 ",
        " ",
        "a",
        "1",
        "0",
        ")",
    ] {
        see(front.repeat(many));
        see(format!("{}1", front.repeat(many)));
        for closed in [many - 1, many, many + 1] {
            see(format!("{}1{}", front.repeat(many), ")".repeat(closed)));
        }
    }
    see(format!("(f{}", " 1".repeat(70_000)));
    see(format!("(f{})", " 1".repeat(70_000)));
    see(format!("(def f () 1) (f{})", " 1".repeat(70_000)));
}
