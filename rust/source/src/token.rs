//! The words of a Rattle text. What it says to the prover alone, a clause, a ghost field or member
//! or a `ghost use`, runs in no program and is left out.

#[derive(Clone, Copy, Debug, PartialEq, Eq)]
pub enum Kind {
    /// A name or a keyword.
    Name,
    Number,
    /// A lifetime or the label of a loop: `'rows`.
    Label,
    /// `b'a'`.
    Byte,
    /// `"abc"`, of which code has strings of bytes alone: `b"abc"`, `br"abc"`.
    Quoted,
    /// One of `LONG_SIGNS`, or a sign of one letter.
    Sign,
}

#[derive(Clone, Debug)]
pub struct Token {
    pub kind: Kind,
    pub text: String,
    /// Where it starts in its text, in bytes.
    pub at: usize,
    pub line: usize,
}

impl Token {
    pub fn is(&self, sign_or_name: &str) -> bool {
        matches!(self.kind, Kind::Name | Kind::Sign) && self.text == sign_or_name
    }

    pub fn opens(&self) -> bool {
        ["(", "[", "{"].iter().any(|sign| self.is(sign))
    }

    pub fn closes(&self) -> bool {
        [")", "]", "}"].iter().any(|sign| self.is(sign))
    }
}

/// What stands before the braces of a clause, with a name between or not.
const CLAUSES: [&str; 3] = ["requires", "ensures", "ghost"];

const LONG_SIGNS: [&str; 5] = ["::", "->", "=>", "..=", ".."];

/// All words of a text, or the line that cannot be read.
pub fn tokens(text: &str) -> Result<Vec<Token>, String> {
    let mut lexer = Lexer { text, at: 0, line: 1, tokens: Vec::new() };
    while lexer.skip_blank()? {
        lexer.next()?;
    }
    Ok(lexer.tokens)
}

struct Lexer<'a> {
    text: &'a str,
    at: usize,
    line: usize,
    tokens: Vec<Token>,
}

impl<'a> Lexer<'a> {
    fn rest(&self) -> &'a str {
        &self.text[self.at..]
    }

    fn fault(&self, what: &str) -> String {
        format!("line {}: {what}", self.line)
    }

    fn pass(&mut self, length: usize) -> &'a str {
        let passed = &self.rest()[..length];
        self.at += length;
        self.line += passed.matches('\n').count();
        passed
    }

    fn take(&mut self, kind: Kind, length: usize) {
        let (at, line) = (self.at, self.line);
        let text = self.pass(length).to_string();
        self.tokens.push(Token { kind, text, at, line });
    }

    /// Over blanks and comments; whether anything follows.
    fn skip_blank(&mut self) -> Result<bool, String> {
        loop {
            let rest = self.rest();
            self.pass(rest.len() - rest.trim_start().len());
            if self.rest().starts_with("/*") {
                return Err(self.fault("a comment of a form that is not read"));
            }
            if !self.rest().starts_with("//") {
                return Ok(!self.rest().is_empty());
            }
            self.pass(self.rest().find('\n').unwrap_or(self.rest().len()));
        }
    }

    fn next(&mut self) -> Result<(), String> {
        let rest = self.rest();
        let first = rest.chars().next().expect("a text that is not at its end");
        if first == '"' {
            self.take_quoted(Kind::Quoted, 1, '"')
        } else if rest.starts_with("b'") {
            self.take_quoted(Kind::Byte, 2, '\'')
        } else if first == '\'' && name_length(&rest[1..]) > 0 {
            self.take(Kind::Label, 1 + name_length(&rest[1..]));
            Ok(())
        } else if first.is_ascii_digit() {
            self.take(Kind::Number, number_length(rest));
            Ok(())
        } else if name_length(rest) > 0 {
            self.take(Kind::Name, name_length(rest));
            self.pass_ghost_use()
        } else {
            self.take_sign(first)
        }
    }

    /// What ends at the first `end` that no `\` stands before.
    fn take_quoted(&mut self, kind: Kind, start: usize, end: char) -> Result<(), String> {
        let mut escaped = false;
        for (i, letter) in self.rest().char_indices().skip(start) {
            if letter == end && !escaped {
                self.take(kind, i + 1);
                return Ok(());
            }
            escaped = letter == '\\' && !escaped;
        }
        Err(self.fault("a quotation without an end"))
    }

    fn take_sign(&mut self, sign: char) -> Result<(), String> {
        if sign == '{' && self.drop_clause_words() {
            return self.pass_braces();
        }
        if sign == '{' && self.drop_member_words() {
            return self.pass_member();
        }
        if let Some(long) = LONG_SIGNS.iter().find(|long| self.rest().starts_with(**long)) {
            self.take(Kind::Sign, long.len());
            return Ok(());
        }
        if !sign.is_ascii_punctuation() || sign == '\'' {
            return Err(self.fault(&format!("an unknown sign {sign}")));
        }
        self.take(Kind::Sign, 1);
        Ok(())
    }

    /// Takes back the words of a clause whose braces open here; whether there are any.
    fn drop_clause_words(&mut self) -> bool {
        let names = self.tokens.iter().rev().take_while(|token| token.kind == Kind::Name);
        let mut words = names.take(2).map(|name| CLAUSES.contains(&name.text.as_str()));
        let Some(before) = words.position(|clause| clause) else {
            return false;
        };
        self.tokens.truncate(self.tokens.len() - before - 1);
        true
    }

    /// Takes back the words of a ghost field or member whose braces open here: `ghost name:` or
    /// `ghost name =`.
    fn drop_member_words(&mut self) -> bool {
        let start = self.tokens.len().saturating_sub(3);
        let [ghost, name, sign] = &self.tokens[start..] else {
            return false;
        };
        let member = ghost.is("ghost") && name.kind == Kind::Name;
        let member = member && (sign.is(":") || sign.is("="));
        if member {
            self.tokens.truncate(start);
        }
        member
    }

    /// A ghost field's or member's braces, a default's after them, and the `;` of a member.
    fn pass_member(&mut self) -> Result<(), String> {
        self.pass_braces()?;
        if self.pass_blank_and("=") {
            self.pass_blank_and("");
            self.pass_braces()?;
        }
        self.pass_blank_and(";");
        Ok(())
    }

    /// Over blanks to a word, and over it; whether it is there.
    fn pass_blank_and(&mut self, word: &str) -> bool {
        let ahead = self.rest().trim_start();
        let there = ahead.starts_with(word);
        if there {
            self.pass(self.rest().len() - ahead.len() + word.len());
        }
        there
    }

    fn pass_braces(&mut self) -> Result<(), String> {
        let mut depth = 0;
        for (i, letter) in self.rest().char_indices() {
            match letter {
                '{' => depth += 1,
                '}' => depth -= 1,
                _ => {}
            }
            if depth == 0 {
                self.pass(i + 1);
                return Ok(());
            }
        }
        Err(self.fault("a clause without an end"))
    }

    fn pass_ghost_use(&mut self) -> Result<(), String> {
        let words = self.tokens.iter().rev().map(|token| token.text.as_str());
        if !words.take(2).eq(["use", "ghost"]) {
            return Ok(());
        }
        let Some(end) = self.rest().find(';') else {
            return Err(self.fault("a ghost use without an end"));
        };
        self.pass(end + 1);
        self.tokens.truncate(self.tokens.len() - 2);
        Ok(())
    }
}

fn name_length(text: &str) -> usize {
    if text.starts_with(|letter: char| letter.is_ascii_digit()) {
        return 0;
    }
    text.find(|letter: char| !letter.is_ascii_alphanumeric() && letter != '_')
        .unwrap_or(text.len())
}

/// A point belongs to a number where a digit follows, so that `0..n` starts with 0.
fn number_length(text: &str) -> usize {
    let digits =
        |text: &str| text.find(|letter: char| !letter.is_ascii_alphanumeric() && letter != '_');
    let whole = digits(text).unwrap_or(text.len());
    let Some(fraction) = text[whole..].strip_prefix('.') else {
        return whole;
    };
    if !fraction.starts_with(|letter: char| letter.is_ascii_digit()) {
        return whole;
    }
    whole + 1 + digits(fraction).unwrap_or(fraction.len())
}
