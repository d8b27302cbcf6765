//! The second engine's reader against the definitions that the proved reader is held to (`crates/notation/specs` and
//! `crates/translation/specs`), set over into Rust word for word and evaluated on all small programs. The trees are
//! made, never read, so that no reader stands in this file.

/// Grammar.antt: Tree, Items.
#[derive(Clone, Debug)]
enum Tree {
    Leaf(&'static str),
    Form(&'static str, Vec<Item>),
}

#[derive(Clone, Debug)]
enum Item {
    Expr(Tree),
    Bare(&'static str),
}

#[derive(Clone, Debug)]
struct Def {
    name: &'static str,
    params: Vec<&'static str>,
    body: Tree,
}

use Item::*;
use Tree::*;

/// Grammar.antt: tokens, itemTokens.
fn tokens(tree: &Tree, out: &mut Vec<&'static str>) {
    match tree {
        Leaf(w) => out.push(w),
        Form(h, items) => {
            out.extend(["(", h]);
            for item in items {
                match item {
                    Expr(t) => tokens(t, out),
                    Bare(w) => out.push(w),
                }
            }
            out.push(")");
        }
    }
}

/// Grammar.antt: programTokens.
fn program_tokens(defs: &[Def], main: &Tree) -> Vec<&'static str> {
    let mut out = vec![];
    for d in defs {
        out.extend(["(", "def", d.name, "("]);
        out.extend(&d.params);
        out.push(")");
        tokens(&d.body, &mut out);
        out.push(")");
    }
    tokens(main, &mut out);
    out
}

/// Words.antt: Head.
#[derive(Clone, Copy, PartialEq, Eq)]
enum Head {
    Plain(u8),
    Slotted(u8),
    Operation,
    Rep,
    Fold,
    Call,
}

const RESERVED: [&str; 10] = ["def", "sense", "rep", "if", "mux", "nbr", "nbr-range", "nbr-lag", "fold-hood*", "inf"];
const OPERATORS: [&str; 9] = ["+", "-", "*", "/", "<", ">", ">=", "==", "!="];

fn reserved(w: &str) -> bool {
    RESERVED.contains(&w)
}

fn operator(w: &str) -> bool {
    OPERATORS.contains(&w)
}

fn is_number(w: &str) -> bool {
    w == "inf" || w.trim_start_matches('-').bytes().all(|b| b.is_ascii_digit())
}

/// Of the words that are used here those that begin with a letter are names.
fn own_name(w: &str) -> bool {
    w.as_bytes()[0].is_ascii_lowercase() && !reserved(w)
}

fn head_of(w: &str) -> Head {
    match w {
        "sense" => Head::Plain(4),
        "rep" => Head::Rep,
        "if" => Head::Plain(6),
        "mux" => Head::Plain(7),
        "nbr" => Head::Slotted(8),
        "nbr-range" => Head::Slotted(9),
        "nbr-lag" => Head::Slotted(13),
        "fold-hood*" => Head::Fold,
        w if operator(w) => Head::Operation,
        _ => Head::Call,
    }
}

// Names.antt.

fn known(ds: &[&str], w: &str) -> bool {
    !own_name(w) || ds.contains(&w)
}

fn binding<A: Clone>(h: Head, is: &[Item], f: impl Fn(&'static str) -> A, around: &[A]) -> Vec<A> {
    match is.first() {
        Some(Bare(x)) if h == Head::Rep => [&[f(x)], around].concat(),
        _ => around.to_vec(),
    }
}

fn lead_good(ds: &[&str], h: Head, is: &[Item]) -> bool {
    match is.first() {
        Some(Bare(w)) if h == Head::Rep => !reserved(w),
        Some(Bare(w)) => known(ds, w),
        _ => true,
    }
}

fn resolves(ds: &[&str], bs: &[&'static str], tree: &Tree) -> bool {
    match tree {
        Leaf(w) => is_number(w) || bs.contains(w),
        Form(h, is) => {
            known(ds, h)
                && lead_good(ds, head_of(h), is)
                && items_resolve(ds, bs, &binding(head_of(h), is, |x| x, bs), is)
        }
    }
}

fn items_resolve(ds: &[&str], bs: &[&'static str], later: &[&'static str], is: &[Item]) -> bool {
    match is {
        [] => true,
        [Expr(t), is @ ..] => resolves(ds, bs, t) && items_resolve(ds, later, later, is),
        [Bare(_), is @ ..] => items_resolve(ds, bs, later, is),
    }
}

fn parameters_good(xs: &[&str]) -> bool {
    match xs {
        [] => true,
        [x, xs @ ..] => !reserved(x) && !xs.contains(x) && parameters_good(xs),
    }
}

fn definition_good(ds: &[&str], d: &Def) -> bool {
    !reserved(d.name) && !ds.contains(&d.name) && parameters_good(&d.params) && resolves(ds, &d.params, &d.body)
}

fn names_from(ds: &[&'static str], defs: &[Def], main: &Tree) -> bool {
    match defs {
        [] => resolves(ds, &[], main),
        [d, more @ ..] => definition_good(ds, d) && names_from(&[ds, &[d.name]].concat(), more, main),
    }
}

// Numbering.antt.

fn byte(k: usize) -> u8 {
    k.min(255) as u8
}

#[derive(Clone, Copy, Default)]
struct Given {
    slots: usize,
    variables: usize,
    nodes: usize,
}

fn entered(h: Head, g: Given) -> Given {
    let has_slot = matches!(h, Head::Slotted(_));
    Given {
        slots: g.slots + usize::from(has_slot),
        variables: g.variables + usize::from(h == Head::Rep),
        nodes: g.nodes,
    }
}

fn one_more(g: Given) -> Given {
    Given { nodes: g.nodes + 1, ..g }
}

fn after(tree: &Tree, g: Given) -> Given {
    match tree {
        Leaf(_) => one_more(g),
        Form(h, is) => one_more(after_items(is, entered(head_of(h), g))),
    }
}

fn after_items(is: &[Item], g: Given) -> Given {
    match is {
        [] => g,
        [Expr(t), is @ ..] => after_items(is, after(t, g)),
        [Bare(_), is @ ..] => after_items(is, g),
    }
}

#[derive(Clone, Copy)]
enum Meaning {
    Parameter(usize),
    Variable(usize),
}

type Scope = Vec<(&'static str, Meaning)>;

/// A part as the bytes of its field.
fn of_kind(kind: u8, values: &[u8]) -> Vec<u8> {
    let length = 1 + values.len() as u16;
    [&[1][..], &length.to_be_bytes(), &[kind], values].concat()
}

fn bits_of(w: &str) -> u32 {
    match w.strip_prefix('-') {
        Some(digits) => digits.parse::<u32>().expect("small").wrapping_neg(),
        None if w == "inf" => 2_147_483_647,
        None => w.parse().expect("small"),
    }
}

fn leaf_part(sc: &Scope, w: &str) -> Vec<u8> {
    if is_number(w) {
        return of_kind(0, &bits_of(w).to_be_bytes());
    }
    match sc.iter().find(|(x, _)| *x == w).map_or(Meaning::Parameter(0), |(_, meaning)| *meaning) {
        Meaning::Parameter(p) => of_kind(1, &[p as u8]),
        Meaning::Variable(v) => of_kind(2, &[byte(v)]),
    }
}

fn operands(is: &[Item], g: Given) -> Vec<u8> {
    match is {
        [] => vec![],
        [Expr(t), is @ ..] => [&[byte(after(t, g).nodes - 1)], &operands(is, after(t, g))[..]].concat(),
        [Bare(_), is @ ..] => operands(is, g),
    }
}

fn index_of(w: &str, list: &[&str]) -> usize {
    list.iter().position(|x| *x == w).unwrap_or(list.len())
}

fn form_part(ds: &[&str], g: Given, h: &str, is: &[Item], ns: &[u8]) -> Vec<u8> {
    let led = |first: usize| [&[byte(first)], ns].concat();
    match (head_of(h), is.first()) {
        (Head::Plain(kind), _) => of_kind(kind, ns),
        (Head::Slotted(kind), _) => of_kind(kind, &led(g.slots + 1)),
        (Head::Operation, _) => of_kind(3, &led(index_of(h, &OPERATORS))),
        (Head::Rep, _) => of_kind(5, &led(g.variables)),
        (Head::Fold, Some(Bare(w))) if operator(w) => of_kind(10, &led(index_of(w, &OPERATORS))),
        (Head::Fold, Some(Bare(w))) => of_kind(11, &led(index_of(w, ds))),
        (Head::Fold, _) => of_kind(10, ns),
        (Head::Call, _) => of_kind(12, &led(index_of(h, ds))),
    }
}

fn parts(ds: &[&str], sc: &Scope, tree: &Tree, g: Given) -> Vec<u8> {
    match tree {
        Leaf(w) => leaf_part(sc, w),
        Form(h, is) => {
            let inner = entered(head_of(h), g);
            let later = binding(head_of(h), is, |x| (x, Meaning::Variable(g.variables)), sc);
            [items_parts(ds, sc, &later, is, inner), form_part(ds, g, h, is, &operands(is, inner))].concat()
        }
    }
}

fn items_parts(ds: &[&str], sc: &Scope, later: &Scope, is: &[Item], g: Given) -> Vec<u8> {
    match is {
        [] => vec![],
        [Expr(t), is @ ..] => [parts(ds, sc, t, g), items_parts(ds, later, later, is, after(t, g))].concat(),
        [Bare(_), is @ ..] => items_parts(ds, sc, later, is, g),
    }
}

fn table(ds: &[&'static str], defs: &[Def], main: &Tree, g: Given) -> Vec<u8> {
    match defs {
        [] => [&parts(ds, &vec![], main, g)[..], &[3, 0, 1, byte(after(main, g).nodes - 1)]].concat(),
        [d, more @ ..] => {
            let then = after(&d.body, g);
            let scope = d.params.iter().enumerate().map(|(k, x)| (*x, Meaning::Parameter(k))).collect();
            let body = parts(ds, &scope, &d.body, g);
            let field = [2, 0, 2, d.params.len() as u8, byte(then.nodes - 1)];
            [&body[..], &field, &table(&[ds, &[d.name]].concat(), more, main, then)].concat()
        }
    }
}

/// Reads.antt: compiled, of a slice that is long enough.
fn compiled(defs: &[Def], main: &Tree) -> ((u32, usize), Vec<u8>) {
    if !names_from(&[], defs, main) {
        return ((20, 0), vec![]);
    }
    let table = table(&[], defs, main, Given::default());
    match second::check(&table) {
        (0, _) => ((0, table.len()), table),
        refused => (refused, vec![]),
    }
}

/// By size, in nodes, all expressions over these words.
fn expressions(most: usize) -> Vec<Vec<Tree>> {
    let mut all: Vec<Vec<Tree>> = vec![vec![], ["1", "-2", "inf", "x", "f"].map(Leaf).to_vec()];
    for size in 2..=most {
        // By size, the lists of so many expressions.
        let lists = |count: usize| -> Vec<Vec<Item>> {
            let mut lists: Vec<(usize, Vec<Item>)> = vec![(0, vec![])];
            for _ in 0..count {
                let longer = |(used, list): &(usize, Vec<Item>)| {
                    let (used, list) = (*used, list.clone());
                    let next = |one: usize| all[one].iter().map(move |t| (one, Expr(t.clone())));
                    let more = (1..size - used).flat_map(next).collect::<Vec<_>>();
                    more.into_iter().map(move |(one, item)| (used + one, [&list[..], &[item]].concat()))
                };
                lists = lists.iter().flat_map(longer).collect();
            }
            lists.into_iter().filter(|(used, _)| used + 1 == size).map(|(_, list)| list).collect()
        };
        let mut here = vec![];
        for (heads, count) in [(&["f", "g", "nbr", "sense"][..], 1), (&["+", "f"], 2), (&["if"], 3)] {
            for items in lists(count) {
                here.extend(heads.iter().map(|h| Form(h, items.clone())));
            }
        }
        for items in lists(2) {
            for (h, leads) in [("rep", &["x", "f", "if"][..]), ("fold-hood*", &["-", "f", "x"])] {
                here.extend(leads.iter().map(|w| Form(h, [&[Bare(w)], &items[..]].concat())));
            }
        }
        all.push(here);
        if size == 2 {
            let bare = ["f", "x", "nbr-range", "nbr-lag"].map(|h| Form(h, vec![]));
            all[1].extend(bare);
        }
    }
    all
}

fn hold(defs: &[Def], main: &Tree, met: &mut [u64; 32]) {
    let text = program_tokens(defs, main).join(" ");
    let mut space = [0; 512];
    let returned = second::read_text(text.as_bytes(), &mut space);
    let (expected, table) = compiled(defs, main);
    assert_eq!(returned, expected, "{text}");
    assert_eq!(space[..table.len()], table[..], "{text}");
    met[returned.0 as usize] += 1;
}

#[test]
fn all_small_programs() {
    let all = expressions(4);
    let mut met = [0; 32];
    for main in all.iter().flatten() {
        hold(&[], main, &mut met);
        hold(&[], &updating(main), &mut met);
    }
    // One definition, then two, with smaller bodies.
    let small: Vec<&Tree> = all[1].iter().chain(&all[2]).collect();
    let larger: Vec<&Tree> = all[1].iter().chain(&all[2]).chain(all[3].iter().step_by(7)).collect();
    let heads: Vec<(&str, Vec<&str>)> = vec![
        ("f", vec![]),
        ("f", vec!["x"]),
        ("f", vec!["f", "x"]),
        ("f", vec!["x", "x"]),
        ("x", vec!["f"]),
        ("if", vec!["x"]),
        ("g", vec!["def"]),
    ];
    let def = |(name, params): &(&'static str, Vec<&'static str>), body: &Tree| Def {
        name,
        params: params.clone(),
        body: body.clone(),
    };
    for head in &heads {
        for body in &larger {
            for main in &larger {
                hold(&[def(head, body)], main, &mut met);
                hold(&[def(head, &updating(body))], &updating(main), &mut met);
            }
        }
    }
    for (one, two) in heads.iter().flat_map(|one| heads.iter().map(move |two| (one, two))) {
        for body in &small {
            for (at, other) in small.iter().enumerate() {
                let main = small[(at * 7 + body_size(body)) % small.len()];
                hold(&[def(one, body), def(two, other)], main, &mut met);
            }
        }
    }
    for number in [0, 1, 7, 9, 20] {
        assert!(met[number] > 50, "{number}: {met:?}");
    }
}

/// A rep of this as its update, so that x is bound.
fn updating(tree: &Tree) -> Tree {
    Form("rep", vec![Bare("x"), Expr(Leaf("1")), Expr(tree.clone())])
}

fn body_size(tree: &Tree) -> usize {
    after(tree, Given::default()).nodes
}

/// Words.antt, of any word.
mod words {
    use super::{OPERATORS, RESERVED};

    fn is_letter(b: u8) -> bool {
        (97..=122).contains(&b)
    }

    fn is_digit(b: u8) -> bool {
        (48..=57).contains(&b)
    }

    fn name_byte(b: u8) -> bool {
        is_letter(b) || is_digit(b) || b == 45 || b == 42
    }

    fn one_of(w: &[u8], words: &[&str]) -> bool {
        words.iter().any(|x| x.as_bytes() == w)
    }

    pub fn is_name(w: &[u8]) -> bool {
        match w {
            [] => false,
            [b, w @ ..] => is_letter(*b) && w.iter().all(|b| name_byte(*b)) && w.len() <= 15,
        }
    }

    fn own_name(w: &[u8]) -> bool {
        is_name(w) && !one_of(w, &RESERVED)
    }

    fn value_from(n: u128, w: &[u8]) -> u128 {
        w.iter().fold(n, |n, d| n * 10 + u128::from(*d) - 48)
    }

    fn is_count(w: &[u8]) -> bool {
        !w.is_empty() && w.iter().all(|d| is_digit(*d)) && value_from(0, w) <= 2_147_483_647
    }

    fn is_number(w: &[u8]) -> bool {
        let is_negative = |w: &[u8]| w.first() == Some(&45) && is_count(&w[1..]);
        w == b"inf" || is_count(w) || is_negative(w)
    }

    pub fn atom(w: &[u8]) -> bool {
        is_number(w) || own_name(w)
    }

    pub fn function(w: &[u8]) -> bool {
        one_of(w, &OPERATORS) || own_name(w)
    }

    /// The number of pieces of a form, any for a call; none where no form begins so.
    pub fn takes(w: &[u8], pieces: usize) -> bool {
        match w {
            b"def" => false,
            b"sense" | b"nbr" => pieces == 1,
            b"rep" | b"if" | b"mux" | b"fold-hood*" => pieces == 3,
            b"nbr-range" | b"nbr-lag" => pieces == 0,
            w if one_of(w, &OPERATORS) => pieces == 2,
            w => own_name(w),
        }
    }
}

/// Every word of at most two bytes, and others near the words of the notation, names and numbers, in each place.
#[test]
fn words_as_defined() {
    let parts = |byte: &u8| b" \n\r()".contains(byte);
    let bytes: Vec<u8> = (0..=255).filter(|byte| !parts(byte)).collect();
    let mut all: Vec<Vec<u8>> = bytes.iter().map(|byte| vec![*byte]).collect();
    all.extend(bytes.iter().flat_map(|one| bytes.iter().map(|two| vec![*one, *two])));
    for word in RESERVED.iter().chain(&OPERATORS).chain(&[
        "abcdefghijklmno",
        "a-*0123456789z",
        "214748364",
        "-214748364",
        "0000214748364",
    ]) {
        for byte in &bytes {
            all.push([word.as_bytes(), &[*byte]].concat());
            all.push([word.as_bytes(), b"a", &[*byte]].concat());
            all.push([&[*byte], word.as_bytes()].concat());
            all.push([&word.as_bytes()[..word.len() - 1], &[*byte]].concat());
        }
    }
    let inside = |front: &str, word: &[u8], back: &str| {
        let text = [front.as_bytes(), word, back.as_bytes()].concat();
        second::read_text(&text, &mut []).0 != 19
    };
    for word in &all {
        let shown = String::from_utf8_lossy(word);
        assert_eq!(inside("", word, ""), words::atom(word), "{shown}");
        assert_eq!(inside("(rep ", word, " 0 1)"), words::is_name(word), "{shown}");
        assert_eq!(inside("(def ", word, "() 0) 1"), words::is_name(word), "{shown}");
        assert_eq!(inside("(def f(a ", word, ") 0) 1"), words::is_name(word), "{shown}");
        assert_eq!(inside("(fold-hood* ", word, " 0 1)"), words::function(word), "{shown}");
        for pieces in 0..=5 {
            assert_eq!(
                inside("(", word, &(" a".repeat(pieces) + ")")),
                words::takes(word, pieces),
                "{shown}, {pieces}"
            );
        }
    }
}
