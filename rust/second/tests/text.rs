//! Texts (02's L4) against the second engine: the readings of 02, number and place of each.
mod common;
use common::*;

/// What reading a text returns, and what it left in a space of this length, which is longer than the table or too
/// short.
fn read_into(text: &[u8], space: usize) -> ((u32, usize), Vec<u8>) {
    let before: Vec<u8> = (0..space).map(|at| 200 + (at % 50) as u8).collect();
    let mut after = before.clone();
    let returned = second::read_text(text, &mut after);
    let written = if returned.0 == 0 { returned.1 } else { 0 };
    assert_eq!(after[written..], before[written..], "{returned:?}: more was written");
    after.truncate(written);
    (returned, after)
}

fn read(text: &str) -> (u32, usize) {
    read_into(text.as_bytes(), 70_000).0
}

/// The table of a text that is accepted.
fn table(text: &str) -> Vec<u8> {
    let ((number, place), table) = read_into(text.as_bytes(), 70_000);
    assert_eq!((number, place), (0, table.len()), "{text}");
    assert_eq!(second::check(&table), (0, 0), "{text}");
    table
}

#[track_caller]
fn outside(text: &str, place: usize) {
    assert_eq!(read(text), (19, place), "{text}");
}

#[track_caller]
fn bad_name(text: &str) {
    assert_eq!(read(text), (20, 0), "{text}");
}

#[track_caller]
fn good(text: &str) {
    table(text);
}

/// 01's program (i), in its own bytes.
#[test]
fn paper_i() {
    let hex =
        "01 0005 00 00000000 01 0002 02 00 01 0005 00 00000001 01 0004 03 00 01 02 01 0004 05 00 00 03 03 0001 04";
    let digits: Vec<u8> = hex.bytes().filter(|byte| *byte != b' ').collect();
    let byte = |pair: &[u8]| u8::from_str_radix(std::str::from_utf8(pair).expect("hex"), 16).expect("hex");
    let expected: Vec<u8> = digits.chunks(2).map(byte).collect();
    assert_eq!(table("(rep x 0 (+ x 1))"), expected);
    assert_eq!(read("(rep x 0 (+ x 1))"), (0, 39));
}

const DISTANCE_TO: &str = "(def min (a b) (if (< a b) a b))
(def distance-to (source)
  (rep d inf
    (mux source 0
      (fold-hood* min inf (+ (nbr d) (nbr-range))))))
(distance-to (sense 1))
";

/// 000's distance-to by this kind of measure, its nodes in the order of the text.
fn distance_in_order(kind: u8) -> Vec<u8> {
    let mut t = Table::new();
    let (a, b) = (t.parameter(0), t.parameter(1));
    let less = t.node(&[3, LESS, a, b]);
    let (a, b) = (t.parameter(0), t.parameter(1));
    let smaller = t.node(&[6, less, a, b]);
    let min = t.define(2, smaller);
    let start = t.constant(INF);
    let source = t.parameter(0);
    let zero = t.constant(0);
    let inf = t.constant(INF);
    let d = t.variable(0);
    let nbr = t.node(&[8, 1, d]);
    let measure = t.node(&[kind, 2]);
    let sum = t.node(&[3, ADD, nbr, measure]);
    let fold = t.node(&[11, min, inf, sum]);
    let mux = t.node(&[7, source, zero, fold]);
    let rep = t.node(&[5, 0, start, mux]);
    let distance_to = t.define(1, rep);
    let one = t.constant(1);
    let sense = t.node(&[4, one]);
    let call = t.node(&[12, distance_to, sense]);
    t.main(call)
}

/// 000's distance-to, and the same by ages; blanks don't matter.
#[test]
fn distance_to_of_000() {
    assert_eq!(table(DISTANCE_TO), distance_in_order(9));
    assert_eq!(table(&DISTANCE_TO.replace("range", "lag")), distance_in_order(13));
    assert_eq!(table(&DISTANCE_TO.replace('\n', "\r\n")), distance_in_order(9));
    assert_eq!(table(&DISTANCE_TO.replace('\n', "").replace("  ", "").replace(" (", "(")), distance_in_order(9));
    // The text's program does what the same program in another order of nodes does.
    let mut networks = [fresh(), fresh()];
    let set_up = [signal(1, 1, 1), link(1, 2, 10), link(2, 1, 10)];
    let rounds = [fire(1), fire(1), fire(1), deliver(1, 2), fire(2), fire(2)];
    let events = [&set_up[..], &rounds].concat();
    let answers = [run(&table(DISTANCE_TO), &mut networks[0], &events), run(&distance_to(), &mut networks[1], &events)];
    assert_eq!(answers[0], answers[1]);
    assert_eq!(networks[0], networks[1]);
    assert_eq!(answers[0][7..], [(0, INF), (0, 10)]);
}

/// 4.1: an operator or a number can't be bound, a reserved name is 20 where it is.
#[test]
fn what_can_be_bound() {
    outside("(def + (a b) a) 1", 5);
    outside("(def f (+) 1) 1", 8);
    outside("(rep + 0 1)", 5);
    outside("(def 1 () 1) 1", 5);
    outside("(def f (1) 1) 1", 8);
    outside("(rep 1 0 1)", 5);
    outside("(def -a () 1) 1", 5);
    outside("(def f (a -) 1) 1", 10);
    for reserved in ["def", "sense", "rep", "if", "mux", "nbr", "nbr-range", "nbr-lag", "fold-hood*", "inf"] {
        bad_name(&format!("(def {reserved} () 1) 2"));
        bad_name(&format!("(def f ({reserved}) 1) 2"));
        bad_name(&format!("(def f (a b c {reserved}) 1) 2"));
        bad_name(&format!("(rep {reserved} 0 1)"));
        // Elsewhere it is only itself.
        if reserved != "inf" {
            outside(reserved, reserved.len());
            outside(&format!("{reserved} "), reserved.len());
            outside(&format!("(nbr {reserved})"), 5 + reserved.len());
        }
        outside(&format!("(fold-hood* {reserved} 0 (nbr 1))"), 12 + reserved.len());
        good(&format!("(rep {reserved}x 0 {reserved}x)"));
    }
    bad_name("(rep inf 0 inf)");
}

/// 4.2: slots and variables by the text, the outer before the inner; nodes operands first.
#[test]
fn reading_order() {
    let mut t = Table::new();
    let five = t.constant(5);
    let zero = t.constant(0);
    let one = t.constant(1);
    let inner = t.node(&[8, 2, one]);
    let fold = t.node(&[10, ADD, zero, inner]);
    let outer = t.node(&[8, 1, fold]);
    let whole = t.node(&[10, ADD, five, outer]);
    assert_eq!(table("(fold-hood* + 5 (nbr (fold-hood* + 0 (nbr 1))))"), t.main(whole));

    let mut t = Table::new();
    let zero = t.constant(0);
    let one = t.constant(1);
    let first = t.node(&[5, 1, zero, one]);
    let (two, three) = (t.constant(2), t.constant(3));
    let second = t.node(&[5, 2, two, three]);
    let outer = t.node(&[5, 0, first, second]);
    assert_eq!(table("(rep x (rep y 0 1) (rep z 2 3))"), t.main(outer));

    // Definitions are read before what stands behind them, called or not.
    let text = "(def f () (fold-hood* + 0 (nbr-lag))) (+ (rep a 0 a) (fold-hood* + 0 (nbr-range)))";
    let mut t = Table::new();
    let zero = t.constant(0);
    let lag = t.node(&[13, 1]);
    let fold = t.node(&[10, ADD, zero, lag]);
    t.define(0, fold);
    let zero = t.constant(0);
    let a = t.variable(0);
    let rep = t.node(&[5, 0, zero, a]);
    let zero = t.constant(0);
    let range = t.node(&[9, 2]);
    let fold = t.node(&[10, ADD, zero, range]);
    let sum = t.node(&[3, ADD, rep, fold]);
    assert_eq!(table(text), t.main(sum));
}

/// 4.3 and 4.4: each form has the operands of its kind, only a call any number.
#[test]
fn operands_of_forms() {
    outside("(+ 1)", 4);
    outside("(+ 1 2 3)", 7);
    outside("(if 1 2)", 7);
    outside("(if 1 2 3 4)", 10);
    outside("(mux 1 2)", 8);
    outside("(nbr-range 1)", 11);
    outside("(nbr-lag ())", 9);
    outside("(sense +)", 7);
    outside("(sense)", 6);
    outside("(sense 1 2)", 9);
    outside("(nbr)", 4);
    outside("(rep x 1)", 8);
    outside("(rep x 1 2 3)", 11);
    outside("(rep (x) 1 2)", 5);
    outside("(rep)", 4);
    outside("(fold-hood* + 1)", 15);
    outside("(fold-hood* + 1 2 3)", 18);
    outside("(fold-hood* if 1 2)", 14);
    outside("(fold-hood* inf 1 2)", 15);
    outside("(fold-hood* 1 1 2)", 12);
    outside("(fold-hood* (f) 1 2)", 12);
    outside("if", 2);
    outside("if ", 2);
    outside("(+ if 1)", 5);
    outside("+", 0);
    outside("-", 1);
    outside("()", 1);
    outside("((f))", 1);
    outside("(nbr-r 1", 8);
    // Calls of definitions with too few and too many operands are of the grammar, and 1 at their fields.
    assert_eq!(read("(def f (a) a) (f)"), (1, 2));
    assert_eq!(read("(def f (a) a) (f 1 2)"), (1, 4));
    assert_eq!(read("(def f () 1) (f 1)"), (1, 3));
    assert_eq!(read("(def f (a b c d) a) (f 1 2 3 4 5)"), (1, 7));
    good("(def f (a b c d) a) (f 1 2 3 4)");
    good("(def f () 1) (f)");
}

/// 4.5 and the numbers.
#[test]
fn numbers() {
    outside("-inf", 1);
    outside("--1", 1);
    outside("+1", 0);
    outside("1.5", 1);
    outside("1a", 1);
    outside("1-", 1);
    outside("2147483648", 9);
    outside("-2147483648", 10);
    outside("0002147483648", 12);
    outside("21474836470", 10);
    outside("99999999999", 9);
    outside("(+ 2147483648 1)", 12);
    for (text, number) in [
        ("2147483647", i32::MAX),
        ("-2147483647", -i32::MAX),
        ("inf", i32::MAX),
        ("0000000000000000000000000000000000000002147483647", i32::MAX),
        ("-0", 0),
        ("-00", 0),
        ("0", 0),
        ("12", 12),
        ("-1", -1),
        ("65536", 65_536),
    ] {
        let mut t = Table::new();
        let node = t.constant(number);
        assert_eq!(table(text), t.main(node), "{text}");
    }
    let zeros = "0".repeat(100_000);
    good(&zeros);
    outside(&format!("{zeros}2147483648"), 100_009);
    outside(&"1".repeat(100_000), 10);
    outside(&"a".repeat(100_000), 16);
    outside(&format!("{zeros}a"), 100_000);
}

/// 4.6: the place of 19.
#[test]
fn places() {
    outside("(def f () 1)", 12);
    outside("(def f () 1) ", 13);
    outside("", 0);
    outside(" ", 1);
    outside("\r\n", 2);
    outside("abcdefghijklmnopq", 16);
    outside("(abcdefghijklmnopq 1)", 17);
    outside("(rep abcdefghijklmnopq 0 1)", 21);
    outside("(def f (a b c d e) 1) 2", 16);
    outside("(def f (a b c d(e)) 1) 2", 15);
    outside("(inf)", 4);
    outside("(inf 1)", 4);
    outside("(<= 1 2)", 2);
    outside("(= 1 2)", 2);
    outside("(! 1 2)", 2);
    outside("(=", 2);
    outside("(=!", 2);
    outside("(-1 2)", 2);
    outside("(- 1", 4);
    outside("(+ (def f () 1) 2)", 7);
    outside("(+ (def", 7);
    outside("(+ (defy", 8);
    outside("(def f () (def g () 1)) 1", 14);
    outside("1 2", 2);
    outside("1 (def f () 1)", 2);
    outside("(def f () 1) 2 3", 15);
    outside("(def f () 1 2) 3", 12);
    outside("(def f 1) 2", 7);
    outside("(def f a b) 2", 7);
    outside("(def f) 2", 6);
    outside("(def) 2", 4);
    outside("(def (f) 2", 5);
    outside(")", 0);
    outside("1)", 1);
    outside("(f))", 3);
    outside("(f", 2);
    outside("(", 1);
    outside("(f (f (f 1)", 11);
    outside("; no comments", 0);
    outside("1 ; no comments", 2);
    outside("(RANGE)", 1);
    outside("(nbr-RANGE)", 5);
    outside("\u{feff}1", 0);
    // Texts all of which are beginnings, also by a word that is none yet.
    for text in
        ["(fold-hood", "(nbr-ran", "(!", "-", "(+ -", "(d", "(def fold-hood* (", "(def f (a b c d", "(if 1 2 3", "in"]
    {
        let expected = if text == "in" { (20, 0) } else { (19, text.len()) };
        assert_eq!(read(text), expected, "{text}");
    }
    // A beginning needs no names that resolve.
    outside("(g x (h", 7);
    outside("(g x (h y)) z", 12);
}

/// 4.7: what parts words.
#[test]
fn layout() {
    good("(def f()1)2");
    good("(def f(a)a)(f 2)");
    good("(+(sense(sense 1))1)");
    good("\r\r(\n+ 1\r2 )\n ");
    outside("(+\t1 2)", 2);
    outside("(+ 1\t2)", 4);
    outside("1\t", 1);
    outside("\t1", 0);
    outside("1\u{b}", 1);
    outside("1\0", 1);
    outside("1\u{a0}", 1);
    assert_eq!(read_into(b"1\xff", 100).0, (19, 1));
    assert_eq!(read_into(b"a\x80b", 100).0, (19, 1));
    outside("1,2", 1);
    outside("[1]", 0);
}

/// 4.8 to 4.11: names.
#[test]
fn names() {
    bad_name("x");
    bad_name("floor");
    bad_name("(f)");
    bad_name("(share x 0 1)");
    bad_name("(fold-hood* f 0 (nbr 1))");
    bad_name("(fold-hood* f 0 1)");
    // Two spaces of names: heads see definitions, all else binders.
    good("(def f (f) f) (f 1)");
    good("(def f (f) f) (rep f (f 0) (f f))");
    bad_name("(def f (g) (g)) 1");
    bad_name("(def f () 1) f");
    bad_name("(def f () 1) (+ f 1)");
    bad_name("(rep f 0 (f))");
    bad_name("(def f (g) (fold-hood* g 0 (nbr 1))) 1");
    // Earlier definitions only.
    bad_name("(def f () (f)) 1");
    bad_name("(def f () (g)) (def g () 1) (f)");
    good("(def g () 1) (def f () (g)) (f)");
    // Repeated.
    bad_name("(def f () 1) (def f () 2) 3");
    bad_name("(def f () 1) (def g () 1) (def f (a) a) 3");
    bad_name("(def f (a a) 1) 2");
    bad_name("(def f (a b c a) 1) 2");
    good("(def f (a) a) (def g (a) a) (f (g 1))");
    good("(def f (g) g) (def g (f) f) (g 1)");
    // A rep may bind what is bound around it, and binds in its update only.
    good("(def f (a) (rep a a a)) (f 1)");
    good("(rep x 0 (rep x x x))");
    bad_name("(rep x x 1)");
    bad_name("(+ (rep x 0 x) x)");
    bad_name("(+ x (rep x 0 x))");
    bad_name("(def f (a) a) a");
    bad_name("(def f (a) 1) (def g (b) a) 1");
    bad_name("(def f () x) (rep x 0 (f))");
    bad_name("(rep x 0 (rep y x z))");
    // 19 before 20, 20 before the table's refusals.
    outside("(f x", 4);
    bad_name("(+ x (nbr-range))");
    bad_name("(def f (a) a) (f 1 2 x)");
    assert_eq!(read("(nbr 1)"), (7, 1));
}

/// The nearest binder counts, and the initial part sees what is around the rep.
#[test]
fn nearest_binder() {
    let mut t = Table::new();
    let zero = t.constant(0);
    let around = t.variable(0);
    let near = t.variable(1);
    let inner = t.node(&[5, 1, around, near]);
    let again = t.variable(0);
    let sum = t.node(&[3, ADD, inner, again]);
    let outer = t.node(&[5, 0, zero, sum]);
    assert_eq!(table("(rep x 0 (+ (rep x x x) x))"), t.main(outer));

    let mut t = Table::new();
    let a = t.parameter(1);
    let near = t.variable(0);
    let rep = t.node(&[5, 0, a, near]);
    let behind = t.parameter(1);
    let sum = t.node(&[3, ADD, rep, behind]);
    let f = t.define(2, sum);
    let (one, two) = (t.constant(1), t.constant(2));
    let call = t.node(&[12, f, one, two]);
    assert_eq!(table("(def f (b a) (+ (rep a a a) a)) (f 1 2)"), t.main(call));
}

/// Nested calls of `(+ .. )` over as many parts.
fn sum(parts: &[String]) -> String {
    let (last, others) = parts.split_last().expect("some");
    let opened: String = others.iter().map(|part| format!("(+ {part} ")).collect();
    format!("{opened}{last}{}", ")".repeat(others.len()))
}

/// 4.12: slots and variables past 15, also past a byte.
#[test]
fn slots_and_variables() {
    let folds = |count: usize| sum(&vec!["(fold-hood* + 0 (nbr-lag))".to_string(); count]);
    good(&folds(15));
    // Three nodes each: the sixteenth's slot is in the 47th field.
    assert_eq!(read(&folds(16)), (3, 46));
    assert_eq!(read(&folds(17)), (3, 46));
    assert_eq!(read(&folds(300)), (3, 46));
    let nbrs = |count: usize| format!("(fold-hood* + 0 {}1{})", "(nbr ".repeat(count), ")".repeat(count));
    // The innermost nbr has the highest slot and the first field that carries one: 257 is not 1.
    for (count, place) in [(16, 2), (255, 2), (256, 2), (257, 2), (271, 2), (300, 2), (1_000, 2)] {
        assert_eq!(read(&nbrs(count)), (3, place), "{count} slots");
    }
    let reps = |count: usize| sum(&vec!["(rep x 0 x)".to_string(); count]);
    good(&reps(16));
    // The seventeenth: behind 16 of three nodes each, 0, then x.
    assert_eq!(read(&reps(17)), (3, 49));
    let unread = |count: usize| sum(&vec!["(rep x 0 1)".to_string(); count]);
    good(&unread(16));
    assert_eq!(read(&unread(17)), (3, 50));
    let nested = |count: usize| format!("{}x{}", "(rep x 0 ".repeat(count), ")".repeat(count));
    good(&nested(16));
    for count in [17, 250, 255] {
        assert_eq!(read(&nested(count)), (3, count), "{count} variables");
    }
    // More nodes than a table may have come first: 256 zeros, then x.
    for count in [256, 257, 258, 1_000] {
        assert_eq!(read(&nested(count)), (2, 256), "{count} variables");
    }
    // The innermost of nested initial parts has the highest variable and the first field.
    let initial = |count: usize| format!("{}0{}", "(rep x ".repeat(count), " 1)".repeat(count));
    good(&initial(16));
    for count in [17, 257, 1_000] {
        assert_eq!(read(&initial(count)), (3, 2), "{count} variables");
    }
}

/// Tables at their limits.
#[test]
fn limits_of_tables() {
    let ones = |count: usize| sum(&vec!["1".to_string(); count]);
    // 128 ones and 127 sums are 255 nodes.
    good(&ones(128));
    assert_eq!(read(&ones(129)), (2, 256));
    good(&format!("(sense {})", ones(128)));
    assert_eq!(read(&format!("(sense (sense {}))", ones(128))), (2, 256));
    let definitions = |count: usize| (0..count).map(|number| format!("(def f{number}()1)")).collect::<String>();
    good(&(definitions(32) + "1"));
    assert_eq!(read(&(definitions(33) + "1")), (2, 65));
    assert_eq!(read(&(definitions(300) + "1")), (2, 65));
    good(&(definitions(32) + "(f31)"));
    assert_eq!(read(&format!("(def f () 1) (f {})", "1 ".repeat(70_000))), (2, 257));
    // Sorts, use, cost.
    assert_eq!(read("(nbr-range)"), (7, 0));
    assert_eq!(read("(sense (nbr 1))"), (7, 2));
    assert_eq!(read("(def f () (nbr-range)) 1"), (7, 0));
    assert_eq!(read("(def f () (rep x 0 x)) (+ (f) (f))"), (9, 4));
    assert_eq!(read("(def f (a) a) (fold-hood* f 0 (nbr 1))"), (9, 4));
    assert_eq!(read("(def f (a b) (rep x a b)) (fold-hood* f 0 (nbr 1))"), (9, 6));
    let doubling: String = (1..32).map(|n| format!("(def f{n} () (+ (f{}) (f{})))", n - 1, n - 1)).collect();
    assert_eq!(read(&format!("(def f0 () 1) {doubling} (f31)")), (10, 0));
}

/// 4.14: 13 is last, and needs the table's length and no more; no refusal writes (`read_into` looks).
#[test]
fn room() {
    let text = b"(rep x 0 (+ x 1))";
    for space in 0..45 {
        let (returned, table) = read_into(text, space);
        assert_eq!(returned, if space < 39 { (13, 0) } else { (0, 39) });
        assert_eq!(table.len(), if space < 39 { 0 } else { 39 });
        assert_eq!(read_into(b"(nbr 1)", space).0, (7, 1));
        assert_eq!(read_into(b"x", space).0, (20, 0));
        assert_eq!(read_into(b"(x", space).0, (19, 2));
    }
    assert_eq!(read_into(&[&text[..], &[b' '; 1_000]].concat(), 39).0, (0, 39));
}

/// Depth and length cost no stack.
#[test]
fn deep_and_long_texts() {
    let deep = 50_000;
    outside(&"(".repeat(deep), 1);
    outside(&"(f ".repeat(deep), 3 * deep);
    outside(&format!("{}1{}", "(f ".repeat(deep), ")".repeat(deep - 1)), 4 * deep);
    outside(&format!("{}1{}", "(f ".repeat(deep), ")".repeat(deep + 1)), 4 * deep + 1);
    bad_name(&format!("{}1{}", "(f ".repeat(deep), ")".repeat(deep)));
    assert_eq!(read(&format!("{}1{}", "(sense ".repeat(deep), ")".repeat(deep))), (2, 256));
    assert_eq!(read(&format!("(def f () 1) (f {})", "(f)".repeat(deep))), (2, 257));
    outside(&format!("{}1{} 1", "(sense ".repeat(deep), ")".repeat(deep)), 8 * deep + 2);
    good(&format!("{}1{}", " ".repeat(deep), "\n".repeat(deep)));
    outside(&"(def f () 1)".repeat(5_000), 60_000);
    assert_eq!(read(&format!("{}x{}", "(rep x 0 ".repeat(deep), ")".repeat(deep))), (2, 256));
}
