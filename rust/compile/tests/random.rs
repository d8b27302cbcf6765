//! The tool's scan against the reader, on the texts of the comparison of engines: it explains what the reader answered.
use cases::{every_text, texts};
// Who decides in the tool.
#[cfg(feature = "proved")]
use compile::Proved as Decides;
#[cfg(not(feature = "proved"))]
use compile::Second as Decides;
use compile::{compile, nodes, Reader};

/// What the list calls the kinds of the table's nodes, from 0.
const KINDS: &str = "constant parameter variable operator sense rep if mux nbr nbr-range fold fold call nbr-lag";

/// The kind of each node of a table, in the words of the list.
fn kinds(table: &[u8]) -> Vec<&'static str> {
    let names: Vec<&str> = KINDS.split(' ').collect();
    let nodes = cases::table::split(table).into_iter().filter(|field| field[0] == 1);
    nodes.map(|field| names[usize::from(field[3])]).collect()
}

/// The place that a line and a column of a text stand for.
fn place(text: &[u8], position: &str) -> usize {
    let (line, column) = position.split_once(':').expect("a line and a column");
    let (line, column): (usize, usize) = (line.parse().expect("a line"), column.parse().expect("a column"));
    let mut start = 0;
    for _ in 1..line {
        let end = start + text[start..].iter().position(|byte| b"\n\r".contains(byte)).expect("a line's end");
        start = if text[end..].starts_with(b"\r\n") { end + 2 } else { end + 1 };
    }
    start + column - 1
}

/// Bad names further behind are taken as they are: to make a text of so much takes long.
const FAR: usize = 400;

/// What is answered to the beginning of a text once brackets and constants, but no names, have made a text of it.
fn closed(beginning: &[u8]) -> Option<u32> {
    let mut text = beginning.to_vec();
    loop {
        let number = Decides.read_text(&text, &mut []).0;
        if number != 19 {
            return Some(number);
        }
        let goes_on = |more: &&[u8]| {
            let longer = [&text, *more].concat();
            !matches!(Decides.read_text(&longer, &mut []), (19, place) if place < longer.len())
        };
        let more = [&b")"[..], b" 1", b" ()"].into_iter().find(goes_on)?;
        text.extend(more);
    }
}

/// Whether the name that ends there is bad, and the first that is. So it is where the text up to it, made a whole one,
/// is refused for a name, and no longer with a good word instead: a number, an operator, or a name that is new.
fn is_bad(text: &[u8], start: usize, end: usize) -> bool {
    let good = |word: &[u8]| closed(&[&text[..start], word].concat()).is_some_and(|number| number != 20);
    closed(&text[..end]) == Some(20) && [&b"1"[..], b"+", b"new-name-of-mine"].into_iter().any(good)
}

/// The nodes of a table in the order in which their words begin in the text: each before its operands, definitions first.
fn in_reading_order(table: &[u8]) -> Vec<usize> {
    let fields = cases::table::split(table);
    let nodes: Vec<&[u8]> = fields.iter().filter(|field| field[0] == 1).map(|field| &field[3..]).collect();
    let operands = |node: usize| match nodes[node] {
        [0..=2 | 9 | 13, ..] => &[][..],
        [4 | 6 | 7, operands @ ..] => operands,
        [_, _, operands @ ..] => operands,
        _ => panic!("a node without a body"),
    };
    // A definition's body is its field's last byte, and so is main.
    let roots = fields.iter().filter(|field| field[0] != 1).filter_map(|field| field.last());
    let mut waiting: Vec<usize> = roots.map(|root| usize::from(*root)).collect();
    waiting.reverse();
    let mut order = vec![];
    while let Some(node) = waiting.pop() {
        order.push(node);
        waiting.extend(operands(node).iter().rev().map(|operand| usize::from(*operand)));
    }
    order
}

/// Each listed node begins where its words do: those of the table's trees one behind the other, each as its kind begins.
fn places_fit(text: &[u8], list: &str, table: &[u8]) {
    let words = |line: &str| -> Option<(usize, bool)> {
        let mut words = line.split(' ').skip(1);
        let (at, kind) = (place(text, words.next()?), words.next()?);
        let fits = match kind {
            "constant" => text[at..].starts_with(b"inf") || b"-0123456789".contains(&text[at]),
            "parameter" | "variable" => text[at].is_ascii_lowercase(),
            _ => text[at] == b'(',
        };
        Some((at, fits))
    };
    let found: Vec<(usize, bool)> = list.lines().map(|line| words(line).expect("a place and a kind")).collect();
    assert!(found.iter().all(|(_, fits)| *fits), "{}: {list}", String::from_utf8_lossy(text));
    let order = in_reading_order(table);
    let behind = order.windows(2).all(|pair| found[pair[0]].0 < found[pair[1]].0);
    assert!(order.len() == found.len() && behind, "{}: {list}", String::from_utf8_lossy(text));
}

/// The caret stands under the byte that is meant, behind the line where that is its end.
fn points(text: &[u8], found: usize, said: &str) -> bool {
    let lines: Vec<&str> = said.lines().collect();
    let [_, line, below] = lines[..] else { return false };
    let Some(caret) = below.find('^') else { return false };
    let meant = text.get(found).copied().filter(|byte| !b"\n\r".contains(byte));
    let printable = |byte: u8| if byte.is_ascii_graphic() || byte == b' ' { byte } else { b'?' };
    line.as_bytes().get(caret).copied() == meant.map(printable) && (meant.is_some() || caret == line.len())
}

/// What a refusal of the table points at is what it says: 1 a call, 2 the 257th node or a definition, 3 what has a slot or a
/// variable, 7 to 9 the node of that number, 10 main.
fn is_meant(number: u32, at: usize, list: &str, position: &str) -> bool {
    let here = list.lines().find(|line| line.split(' ').nth(1) == Some(position));
    let kind = here.and_then(|line| line.split(' ').nth(2));
    match (number, kind) {
        (1, Some(kind)) => kind == "call",
        (2, Some(_)) => here == list.lines().nth(256),
        (2, None) => true,
        (3, Some(kind)) => ["nbr", "nbr-range", "nbr-lag", "rep", "variable"].contains(&kind),
        (7..=9, Some(_)) => here == list.lines().nth(at),
        (10, Some(_)) => here == list.lines().last(),
        _ => false,
    }
}

/// What is said of a refusal fits what was answered.
fn explains(text: &[u8], (number, at): (u32, usize), listed: Option<&str>, said: &str) {
    let shown = String::from_utf8_lossy(text);
    let (position, _) = said[2..].split_once(": ").expect("a position");
    let found = place(text, position);
    assert!(said.contains(&format!("refused {number} {at} (")), "{shown}: {said}");
    assert!(said.ends_with('\n') && points(text, found, said), "{shown}: {said}");
    assert_eq!(listed.is_none(), matches!(number, 19 | 20), "{shown}: {said}");
    match number {
        19 => assert_eq!(found, at, "{shown}: {said}"),
        // A name is named, and it is the one that stands at the place.
        20 => {
            let (_, rest) = said.split_once('`').unwrap_or_else(|| panic!("{shown}: {said}"));
            let (name, _) = rest.split_once('`').expect("the other quote");
            assert!(text[found..].starts_with(name.as_bytes()), "{shown}: {said}");
            assert!(found > FAR || is_bad(text, found, found + name.len()), "{shown}: {said}");
        }
        _ => assert!(listed.is_some_and(|list| is_meant(number, at, list, position)), "{shown}: {said}"),
    }
}

fn hold(text: &[u8]) {
    let answer = Decides.read_text(text, &mut [0; 4_096]);
    let listed = nodes(&Decides, text);
    match compile(&Decides, "t", text) {
        Ok(table) => {
            let list = listed.as_deref().unwrap_or_default();
            let found: Vec<&str> = list.lines().filter_map(|line| line.split(' ').nth(2)).collect();
            assert_eq!((answer.0, found), (0, kinds(&table)), "{}", String::from_utf8_lossy(text));
            places_fit(text, list, &table);
        }
        Err(said) => explains(text, answer, listed.as_deref(), &said),
    }
}

#[test]
fn random_texts() {
    (0..20_000).for_each(|index| hold(&texts::nth(301, index).text));
}

#[test]
fn systematic_texts() {
    every_text::few(&mut |case| hold(&case.text));
}
