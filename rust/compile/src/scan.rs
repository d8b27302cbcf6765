//! The tool's own look at a text, to explain what the engine's reader answered: which word stands where, which node
//! and field comes from which words, which name is bad. It decides nothing.
use std::collections::HashMap;

/// Bytes of a text, from the first to behind the last.
#[derive(Clone, Copy, Debug, PartialEq, Eq)]
pub struct Span {
    pub start: usize,
    pub end: usize,
}

/// A node of the table: where its words stand, and what it is.
#[derive(Clone, Copy, Debug, PartialEq, Eq)]
pub struct Node {
    pub span: Span,
    pub kind: &'static str,
}

/// What a bracket that is open belongs to.
#[derive(Clone, Copy, Debug, PartialEq, Eq)]
enum Role {
    /// Its head is not read yet.
    New,
    Definition,
    Parameters,
    /// A form with so many parts behind its head.
    Form {
        kind: &'static str,
        parts: usize,
    },
    Call,
}

#[derive(Clone, Copy, Debug)]
struct Frame {
    start: usize,
    head: Span,
    role: Role,
    /// Parts behind the head so far.
    met: usize,
    /// How many names were bound around it.
    bound: usize,
}

/// What was found in a text, or in its beginning.
pub struct Scan<'t> {
    text: &'t [u8],
    pub nodes: Vec<Node>,
    /// Where each field of the table comes from, main's besides.
    pub fields: Vec<Span>,
    /// The first name that is bad, and why.
    pub bad_name: Option<(Span, String)>,
    frames: Vec<Frame>,
    /// The names of the definitions so far, and where each stands first.
    definitions: HashMap<&'t [u8], Span>,
    /// The names that are bound here, the nearest last, with the kind of node that reads each.
    bound: Vec<(Span, &'static str)>,
    main: Option<Span>,
}

const RESERVED: [&str; 10] = ["def", "sense", "rep", "if", "mux", "nbr", "nbr-range", "nbr-lag", "fold-hood*", "inf"];
const OPERATORS: [&str; 9] = ["+", "-", "*", "/", "<", ">", ">=", "==", "!="];

pub fn is_blank(byte: u8) -> bool {
    matches!(byte, b' ' | b'\n' | b'\r')
}

/// Whether no word goes on at a byte.
pub fn parts_words(byte: u8) -> bool {
    is_blank(byte) || matches!(byte, b'(' | b')')
}

/// The bracket or word that stands at a byte or next behind it.
pub fn next_token(text: &[u8], from: usize) -> Option<Span> {
    let start = from + text.get(from..)?.iter().position(|byte| !is_blank(*byte))?;
    let length = text[start..].iter().position(|byte| parts_words(*byte)).unwrap_or(text.len() - start);
    Some(Span { start, end: start + length.max(1) })
}

/// The form of a head, unless it is def or a call.
fn form(word: &[u8]) -> Option<Role> {
    let (kind, parts) = match word {
        b"sense" => ("sense", 1),
        b"rep" => ("rep", 3),
        b"if" => ("if", 3),
        b"mux" => ("mux", 3),
        b"nbr" => ("nbr", 1),
        b"nbr-range" => ("nbr-range", 0),
        b"nbr-lag" => ("nbr-lag", 0),
        b"fold-hood*" => ("fold", 3),
        _ if OPERATORS.iter().any(|operator| operator.as_bytes() == word) => ("operator", 2),
        _ => return None,
    };
    Some(Role::Form { kind, parts })
}

impl<'t> Scan<'t> {
    /// Scans the words that end at or before a byte; they begin a text of the grammar.
    pub fn up_to(text: &'t [u8], end: usize) -> Scan<'t> {
        let mut scan = Scan {
            text,
            nodes: vec![],
            fields: vec![],
            bad_name: None,
            frames: vec![],
            definitions: HashMap::new(),
            bound: vec![],
            main: None,
        };
        let mut at = 0;
        while let Some(token) = next_token(text, at).filter(|token| token.end <= end) {
            match scan.word(token) {
                b"(" => scan.open(token),
                b")" => scan.close(token),
                _ => scan.plain(token),
            }
            at = token.end;
        }
        scan
    }

    pub fn word(&self, span: Span) -> &'t [u8] {
        &self.text[span.start..span.end]
    }

    /// A word as people read it; what is no printable character is shown as ?, and a long one is cut.
    pub fn shown(&self, span: Span) -> String {
        let word = self.word(span);
        let printable = |byte: &u8| if byte.is_ascii_graphic() { char::from(*byte) } else { '?' };
        let cut = if word.len() > 40 { ".." } else { "" };
        format!("`{}{cut}`", word.iter().take(40).map(printable).collect::<String>())
    }

    fn same(&self, one: Span, two: Span) -> bool {
        self.word(one) == self.word(two)
    }

    /// Notes a bad name, if it is the first: the others are not looked at, as a text may have very many.
    fn bad(&mut self, span: Span, why: impl FnOnce(&Self) -> String) {
        if self.bad_name.is_none() {
            self.bad_name = Some((span, why(self)));
        }
    }

    fn open(&mut self, token: Span) {
        let parameters = matches!(self.frames.last(), Some(Frame { role: Role::Definition, met: 1, .. }));
        let role = if parameters { Role::Parameters } else { Role::New };
        self.frames.push(Frame { start: token.start, head: token, role, met: 0, bound: self.bound.len() });
    }

    fn close(&mut self, token: Span) {
        let Some(frame) = self.frames.pop() else {
            return;
        };
        let span = Span { start: frame.start, end: token.end };
        let kind = match frame.role {
            Role::Parameters => {
                self.part();
                return;
            }
            Role::Definition => {
                self.fields.push(span);
                self.definitions.entry(self.word(frame.head)).or_insert(frame.head);
                self.bound.clear();
                return;
            }
            Role::Form { kind, .. } => kind,
            Role::Call | Role::New => "call",
        };
        self.bound.truncate(frame.bound);
        self.node(span, kind);
    }

    /// A node is complete.
    fn node(&mut self, span: Span, kind: &'static str) {
        self.nodes.push(Node { span, kind });
        self.fields.push(span);
        if self.frames.is_empty() {
            self.main = Some(span);
        }
        self.part();
    }

    /// A part of the innermost bracket is complete.
    fn part(&mut self) {
        let Some(frame) = self.frames.last_mut() else {
            return;
        };
        frame.met += 1;
        // Behind its initial part a rep binds its name.
        if let Frame { role: Role::Form { kind: "rep", .. }, met: 2, head, .. } = *frame {
            let name = next_token(self.text, head.end);
            self.bound.extend(name.map(|name| (name, "variable")));
        }
    }

    fn plain(&mut self, token: Span) {
        let frame = self.frames.last().copied();
        match frame {
            Some(Frame { role: Role::New, .. }) => self.head(token),
            Some(Frame { role: Role::Definition, met: 0, .. }) => self.define(token),
            Some(Frame { role: Role::Parameters, bound, .. }) => self.parameter(token, bound),
            Some(Frame { role: Role::Form { kind: "rep", .. }, met: 0, .. }) => {
                self.not_reserved(token, "variable");
                self.part();
            }
            Some(Frame { role: Role::Form { kind: "fold", .. }, met: 0, .. }) => {
                if form(self.word(token)).is_none() {
                    self.known(token);
                }
                self.part();
            }
            _ => self.leaf(token),
        }
    }

    fn head(&mut self, token: Span) {
        let role = match self.word(token) {
            b"def" => Role::Definition,
            word => form(word).unwrap_or(Role::Call),
        };
        if role == Role::Call {
            self.known(token);
        }
        if let Some(frame) = self.frames.last_mut() {
            (frame.head, frame.role) = (token, role);
        }
    }

    fn define(&mut self, token: Span) {
        self.not_reserved(token, "definition");
        if let Some(first) = self.definitions.get(self.word(token)).copied() {
            self.bad(token, |scan| {
                let (line, column) = Lines::of(scan.text).position(first.start);
                format!("{} is defined already, in line {line}, column {column}.", scan.shown(token))
            });
        }
        if let Some(frame) = self.frames.last_mut() {
            frame.head = token;
        }
        self.part();
    }

    fn parameter(&mut self, token: Span, first: usize) {
        self.not_reserved(token, "parameter");
        if self.bound[first..].iter().any(|(name, _)| self.same(*name, token)) {
            self.bad(token, |scan| format!("the definition has the parameter {} twice.", scan.shown(token)));
        }
        self.bound.push((token, "parameter"));
        self.part();
    }

    fn not_reserved(&mut self, token: Span, what: &str) {
        if RESERVED.iter().any(|word| word.as_bytes() == self.word(token)) {
            self.bad(token, |scan| {
                format!("{} is a word of the notation and cannot name a {what}.", scan.shown(token))
            });
        }
    }

    /// A head, or the function of a fold.
    fn known(&mut self, token: Span) {
        if self.definitions.contains_key(self.word(token)) {
            return;
        }
        self.bad(token, |scan| {
            let itself = |frame: &Frame| frame.role == Role::Definition && scan.same(frame.head, token);
            let why = match scan.frames.iter().any(itself) {
                true => "a definition does not see itself; there is no recursion.",
                false => "there is no definition of this name above.",
            };
            format!("{}: {why}", scan.shown(token))
        });
    }

    fn leaf(&mut self, token: Span) {
        let word = self.word(token);
        let is_number = word == b"inf" || !word[0].is_ascii_lowercase();
        let bound = || self.bound.iter().rfind(|(name, _)| self.same(*name, token));
        let kind = if is_number { Some("constant") } else { bound().map(|(_, kind)| *kind) };
        if kind.is_none() {
            let why = match self.definitions.contains_key(word) {
                true => "is a definition: a call of it stands in brackets.",
                false => "is no parameter here, and no variable of a rep whose update this is.",
            };
            self.bad(token, |scan| format!("{} {why}", scan.shown(token)));
        }
        let kind = kind.unwrap_or("name");
        self.node(token, kind);
    }

    pub fn main(&self) -> Option<Span> {
        self.main
    }

    pub fn depth(&self) -> usize {
        self.frames.len()
    }

    /// Whether the last word is a bracket whose head comes next.
    pub fn at_head(&self) -> bool {
        matches!(self.frames.last(), Some(Frame { role: Role::New, .. }))
    }

    /// Whether a head or the function of a fold comes next: an operator may stand there, and no number.
    pub fn at_function(&self) -> bool {
        self.at_head()
            || matches!(self.frames.last(), Some(Frame { role: Role::Form { kind: "fold", .. }, met: 0, .. }))
    }

    /// What must or may stand next, in words.
    pub fn wanted(&self) -> String {
        let Some(frame) = self.frames.last() else {
            return match self.main {
                Some(_) => "nothing follows the main expression".into(),
                None => "here stands a definition or the main expression".into(),
            };
        };
        let wanted = match (frame.role, frame.met) {
            (Role::New, _) if self.frames.len() == 1 => {
                "an opening bracket is followed by an operator, the word of a form (`sense`, `rep`, `if` ..), \
                 a definition's name or `def`"
            }
            (Role::New, _) => {
                "an opening bracket is followed by an operator, the word of a form (`sense`, `rep`, `if` ..) \
                 or a definition's name"
            }
            (Role::Definition, 0) => "`def` is followed by the definition's name",
            (Role::Definition, 1) => "the parameters stand in brackets, also where there is one or none",
            (Role::Definition, 2) => "here stands the definition's body",
            (Role::Definition, _) => "a definition has one body, and a bracket closes it",
            (Role::Parameters, 4) => "a definition has at most 4 parameters, and a bracket closes them",
            (Role::Parameters, _) => "here stands a parameter's name or the closing bracket",
            (Role::Form { kind, parts }, met) => return wanted_in(&self.shown(frame.head), kind, parts, met),
            (Role::Call, _) => "here stands an operand or the closing bracket",
        };
        wanted.into()
    }
}

/// What must or may stand next in a form that has met so many of its parts.
fn wanted_in(head: &str, kind: &str, parts: usize, met: usize) -> String {
    let count = |parts: usize, what: &str| match parts {
        1 => format!("one {what}"),
        parts => format!("{parts} {what}s"),
    };
    let named = match kind {
        "rep" => Some(("the variable's name", "a name, an initial part and an update")),
        "fold" => Some(("an operator or the name of a definition", "a function, an initial number and a field")),
        _ => None,
    };
    match named {
        Some((first, _)) if met == 0 => format!("{head} is followed by {first}"),
        Some((_, all)) if met < parts => format!("{head} takes {all}, and has {} so far", count(met, "part")),
        Some(_) => format!("{head} has all its parts, and a bracket closes it"),
        None if met < parts => format!("{head} takes {}, and has {met} so far", count(parts, "operand")),
        None if parts == 0 => format!("{head} takes no operand, and a bracket closes it"),
        None => format!("{head} takes {}, and a bracket closes it", count(parts, "operand")),
    }
}

/// Where the lines of a text begin. A line ends with byte 10, 13, or both in this order.
pub struct Lines(Vec<usize>);

impl Lines {
    pub fn of(text: &[u8]) -> Lines {
        let ends = |at: &usize| text[*at] == b'\n' || text[*at] == b'\r' && text.get(at + 1) != Some(&b'\n');
        Lines([0].into_iter().chain((0..text.len()).filter(ends).map(|end| end + 1)).collect())
    }

    /// The line and column of a byte, both from 1; a column is a byte.
    pub fn position(&self, at: usize) -> (usize, usize) {
        let line = self.0.partition_point(|start| *start <= at);
        (line, at - self.0[line - 1] + 1)
    }
}
