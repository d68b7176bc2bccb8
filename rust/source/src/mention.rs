//! What stands in words of types and in words of code: arrays, and names of other items.

use crate::token::{Kind, Token};
use std::collections::BTreeSet;

const KEYWORDS: [&str; 34] = [
    "as", "break", "const", "continue", "crate", "dyn", "else", "enum", "extern", "false",
    "fn", "for", "if", "impl", "in", "let", "loop", "match", "mod", "move", "mut", "pub",
    "ref", "return", "self", "Self", "struct", "super", "trait", "true", "type", "use",
    "where", "while",
];

#[derive(Clone, Copy, Debug, PartialEq, Eq)]
pub enum How {
    /// `path(..)`.
    Call,
    /// `value.name(..)`, and what follows a type with arguments: `Type::<n>::name(..)`.
    Method,
    Plain,
}

#[derive(Clone, Debug)]
pub struct Mention {
    pub how: How,
    pub path: Vec<String>,
    pub line: usize,
    /// Where the last name of the path starts in its text.
    pub at: usize,
}

/// The paths and methods that words name. A label before `:`, a field and a keyword are none.
pub fn mentions(tokens: &[Token]) -> Vec<Mention> {
    let mut found = Vec::new();
    let mut i = 0;
    while i < tokens.len() {
        let end = path_end(tokens, i);
        let keyword = end == i + 1 && KEYWORDS.contains(&tokens[i].text.as_str());
        if let Some(how) = how_named(tokens, i, end).filter(|_| !keyword) {
            let names = tokens[i..end].iter().step_by(2);
            let path = names.map(|name| name.text.clone()).collect();
            let Token { line, at, .. } = tokens[end - 1];
            found.push(Mention { how, path, line, at });
        }
        i = end;
    }
    found
}

/// The end of the path that starts here, or of the one word where none does.
fn path_end(tokens: &[Token], start: usize) -> usize {
    let name = |i: usize| tokens.get(i).is_some_and(|token| token.kind == Kind::Name);
    let mut end = start + 1;
    while name(end - 1) && is_at(tokens, end, "::") && name(end + 1) {
        end += 2;
    }
    end
}

fn is_at(tokens: &[Token], i: usize, word: &str) -> bool {
    tokens.get(i).is_some_and(|token| token.is(word))
}

fn how_named(tokens: &[Token], start: usize, end: usize) -> Option<How> {
    // `path::<>(..)` is a call as well, and so is `(path)(..)`, which no text here needs: what
    // it calls is taken to be `)`, and that is never found.
    let called = is_at(tokens, end, "(") || is_at(tokens, end, "::");
    let before = |sign: &str| start > 0 && tokens[start - 1].is(sign);
    let field = before(".") || before("::");
    match tokens[start].kind {
        Kind::Name if field => called.then_some(How::Method),
        Kind::Name if called => Some(How::Call),
        Kind::Name if is_at(tokens, end, ":") => None,
        Kind::Name => Some(How::Plain),
        _ => (tokens[start].is(")") && called).then_some(How::Call),
    }
}

/// The names that a signature and a body give to values: to parameters, and by `let`. A closure
/// among them is called by its name.
pub fn locals<'a>(types: &'a [Token], code: &'a [Token]) -> BTreeSet<&'a str> {
    let labels = types.windows(2).filter(|words| words[1].is(":"));
    let bound = |next: &Token| !next.opens() && !next.is("::");
    let lets = code
        .windows(3)
        .filter(|words| (words[0].is("let") || words[0].is("mut")) && bound(&words[2]));
    let names = labels.map(|words| &words[0]).chain(lets.map(|words| &words[1]));
    names.map(|name| name.text.as_str()).collect()
}

/// The arrays among words that are types: brackets with `;`, since those without are slices.
pub fn array_types(tokens: &[Token]) -> Vec<&Token> {
    let opens = (0..tokens.len()).filter(|&i| tokens[i].is("["));
    opens.filter(|&i| holds_semicolon(&tokens[i..])).map(|i| &tokens[i]).collect()
}

/// Whether the bracket that opens the words has a `;` of its own.
fn holds_semicolon(tokens: &[Token]) -> bool {
    let mut depth = 0;
    for token in tokens {
        depth += i32::from(token.opens()) - i32::from(token.closes());
        if depth == 0 {
            return false;
        }
        if depth == 1 && token.is(";") {
            return true;
        }
    }
    false
}

/// The arrays among words that are code: each bracket that is no index, each string of bytes, and
/// what the type of a `let` holds.
pub fn array_values(tokens: &[Token]) -> Vec<&Token> {
    let mut found = Vec::new();
    let mut i = 0;
    while i < tokens.len() {
        let end = let_type_end(tokens, i);
        if end > i {
            found.extend(array_types(&tokens[i..end]));
            i = end;
            continue;
        }
        let index = i > 0 && ends_value(&tokens[i - 1]);
        if tokens[i].kind == Kind::Quoted || (tokens[i].is("[") && !index) {
            found.push(&tokens[i]);
        }
        i += 1;
    }
    found
}

fn ends_value(token: &Token) -> bool {
    let value_name = token.text == "self" || !KEYWORDS.contains(&token.text.as_str());
    match token.kind {
        Kind::Name => value_name,
        Kind::Number => true,
        _ => token.is(")") || token.is("]") || token.is("?"),
    }
}

/// Where a `let` with a type stands here, the end of that type; else this place.
fn let_type_end(tokens: &[Token], start: usize) -> usize {
    if !tokens[start].is("let") {
        return start;
    }
    let mut depth = 0;
    let mut typed = false;
    for (i, token) in tokens.iter().enumerate().skip(start) {
        depth += i32::from(token.opens()) - i32::from(token.closes());
        if depth == 0 && (token.is("=") || token.is(";")) {
            return if typed { i } else { start };
        }
        typed |= depth == 0 && token.is(":");
    }
    start
}
