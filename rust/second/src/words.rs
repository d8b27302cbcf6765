//! The words of a text: how it falls into them, and what a word can be.

/// The words of the notation that are spelt like names.
pub const RESERVED: [&str; 10] =
    ["def", "sense", "rep", "if", "mux", "nbr", "nbr-range", "nbr-lag", "fold-hood*", "inf"];

/// The operators, in 01's order, which is their byte.
pub const OPERATORS: [&str; 9] = ["+", "-", "*", "/", "<", ">", ">=", "==", "!="];

/// inf in decimal.
const LARGEST: &[u8] = b"2147483647";
const LONGEST_NAME: usize = 16;

/// A bracket or a word, and where it begins in the text.
#[derive(Clone, Copy, Debug, PartialEq, Eq)]
pub struct Token<'t> {
    pub word: &'t [u8],
    pub start: usize,
}

impl Token<'_> {
    pub fn end(&self) -> usize {
        self.start + self.word.len()
    }

    pub fn is_bracket(&self) -> bool {
        is_bracket(&self.word[0])
    }
}

fn is_blank(byte: &u8) -> bool {
    matches!(byte, b' ' | b'\n' | b'\r')
}

fn is_bracket(byte: &u8) -> bool {
    matches!(byte, b'(' | b')')
}

/// The brackets and words of a text: pieces between blanks, cut at brackets.
pub fn tokens(text: &[u8]) -> Vec<Token<'_>> {
    let mut tokens = Vec::new();
    let mut start = 0;
    for piece in text.split(is_blank) {
        let end = start + piece.len();
        while start < end {
            let rest = &text[start..end];
            let length = rest.iter().position(is_bracket).unwrap_or(rest.len()).max(1);
            tokens.push(Token { word: &rest[..length], start });
            start += length;
        }
        start += 1;
    }
    tokens
}

/// Whether a word is a name, reserved or not.
pub fn is_name(word: &[u8]) -> bool {
    let may_follow = |byte: &u8| byte.is_ascii_lowercase() || byte.is_ascii_digit() || b"-*".contains(byte);
    word.first().is_some_and(u8::is_ascii_lowercase) && word.len() <= LONGEST_NAME && word.iter().all(may_follow)
}

pub fn is_reserved(word: &[u8]) -> bool {
    RESERVED.iter().any(|reserved| reserved.as_bytes() == word)
}

/// Whether a word is a name that is free to be given.
pub fn is_own(word: &[u8]) -> bool {
    is_name(word) && !is_reserved(word)
}

pub fn operator(word: &[u8]) -> Option<usize> {
    OPERATORS.iter().position(|operator| operator.as_bytes() == word)
}

/// The number that a word is, if it is one.
pub fn number(word: &[u8]) -> Option<i32> {
    if word == b"inf" {
        return Some(i32::MAX);
    }
    let digits = word.strip_prefix(b"-").unwrap_or(word);
    if digits.is_empty() || !digits.iter().all(u8::is_ascii_digit) {
        return None;
    }
    let zeros = digits.iter().take_while(|digit| **digit == b'0').count();
    let counting = &digits[zeros..];
    // Of numbers without leading zeros the longer is the larger, and of equally long ones the later by their digits.
    if (counting.len(), counting) > (LARGEST.len(), LARGEST) {
        return None;
    }
    let size = counting.iter().fold(0, |size: i32, digit| 10 * size + i32::from(digit - b'0'));
    Some(if digits.len() < word.len() { -size } else { size })
}

#[cfg(test)]
mod tests {
    use super::*;

    #[test]
    fn texts_fall_into_words() {
        let words = |text: &str| -> Vec<(String, usize)> {
            let shown = |token: Token| (String::from_utf8(token.word.to_vec()).expect("ascii"), token.start);
            tokens(text.as_bytes()).into_iter().map(shown).collect()
        };
        let expected = [("(", 0), ("def", 1), ("f", 5), ("(", 6), (")", 7), ("1", 8), (")", 9), ("2", 10)];
        assert_eq!(words("(def f()1)2"), expected.map(|(word, start)| (word.to_string(), start)));
        let expected = [("a", 2), ("b\tc", 4), (")", 9), ("(", 10), ("d", 12)];
        assert_eq!(words(" \na b\tc\r )( d\r\n"), expected.map(|(word, start)| (word.to_string(), start)));
        assert_eq!(words(""), []);
        assert_eq!(words(" \r\n "), []);
    }

    #[test]
    fn numbers() {
        for (word, expected) in [
            ("0", Some(0)),
            ("-0", Some(0)),
            ("007", Some(7)),
            ("-12", Some(-12)),
            ("2147483647", Some(i32::MAX)),
            ("-2147483647", Some(-i32::MAX)),
            ("00000000002147483647", Some(i32::MAX)),
            ("inf", Some(i32::MAX)),
            ("2147483648", None),
            ("-2147483648", None),
            ("10000000000", None),
            ("9999999999", None),
            ("999999999", Some(999_999_999)),
            ("-inf", None),
            ("-", None),
            ("", None),
            ("--1", None),
            ("+1", None),
            ("1a", None),
            ("1-", None),
            ("floor", None),
        ] {
            assert_eq!(number(word.as_bytes()), expected, "{word}");
        }
    }

    #[test]
    fn names() {
        for name in
            ["a", "z9", "a-", "a*", "min-hood*", "abcdefghijklmnop", "share", "floor", "def", "inf", "fold-hood*"]
        {
            assert!(is_name(name.as_bytes()), "{name}");
        }
        for other in ["", "1a", "-a", "*", "A", "aB", "a_", "a\tb", "abcdefghijklmnopq", "a+", "é"] {
            assert!(!is_name(other.as_bytes()), "{other}");
        }
        assert!(RESERVED.iter().all(|word| is_name(word.as_bytes()) && !is_own(word.as_bytes())));
    }
}
