//! The items of a file. A form that is not known here is a fault: nothing is passed over.

use crate::token::{Kind, Token};

#[derive(Clone, Copy, Debug, PartialEq, Eq)]
pub enum Sort {
    Function,
    Constant,
    /// A struct, an enum, a trait or a name for a type.
    Type,
}

/// An item that has words of its own.
#[derive(Clone, Debug)]
pub struct Item {
    pub sort: Sort,
    pub name: String,
    pub line: usize,
    /// Where its name starts in its text.
    pub at: usize,
    /// The names of its type and const parameters, and of those of its `impl` block.
    pub generics: Vec<String>,
    /// A function's signature, with the first line of its `impl` block; a constant's type; the
    /// fields of a struct or of an enum's variants.
    pub types: Vec<Token>,
    /// A function's body, a constant's value. A function of C has none.
    pub code: Option<Vec<Token>>,
    pub variants: Vec<String>,
    /// The traits that the compiler implements for a type.
    pub derives: Vec<String>,
}

/// A block of functions of a type, or the functions that a trait has of its own.
#[derive(Clone, Debug)]
pub struct Block {
    pub owner: Vec<String>,
    /// For the `impl` of a trait the name that the compiler gives it: type, trait and the trait's
    /// arguments, as `U8FromShape`.
    pub name: Option<String>,
    pub items: Vec<Item>,
}

#[derive(Clone, Debug)]
pub enum Entry {
    Item(Item),
    /// A module, and its entries where they stand in this file.
    Module(String, Option<Vec<Entry>>),
    Use(Use),
    Block(Block),
}

/// A name that is brought in, where it stands, and the path that it stands for. The name `*` is for
/// all names of a module.
#[derive(Clone, Debug)]
pub struct Use {
    pub name: String,
    pub at: usize,
    pub path: Vec<String>,
}

pub fn entries(tokens: &[Token]) -> Result<Vec<Entry>, String> {
    let mut reader = Reader { tokens, at: 0 };
    let mut all = Vec::new();
    while reader.at < tokens.len() {
        reader.entry(&mut all)?;
    }
    Ok(all)
}

struct Reader<'a> {
    tokens: &'a [Token],
    at: usize,
}

impl<'a> Reader<'a> {
    fn here(&self) -> Result<&'a Token, String> {
        self.tokens.get(self.at).ok_or_else(|| "the text ends inside an item".to_string())
    }

    fn at_word(&self, word: &str) -> bool {
        self.tokens.get(self.at).is_some_and(|token| token.is(word))
    }

    fn skip(&mut self, word: &str) -> bool {
        let there = self.at_word(word);
        self.at += usize::from(there);
        there
    }

    fn expect(&mut self, word: &str) -> Result<(), String> {
        let here = self.here()?;
        if self.skip(word) {
            return Ok(());
        }
        Err(format!("line {}: {word} expected, not {}", here.line, here.text))
    }

    fn name(&mut self) -> Result<String, String> {
        let here = self.here()?;
        if here.kind != Kind::Name {
            return Err(format!("line {}: a name expected, not {}", here.line, here.text));
        }
        self.at += 1;
        Ok(here.text.clone())
    }

    /// What stands between the brackets that open here.
    fn group(&mut self) -> Result<&'a [Token], String> {
        let open = self.here()?;
        if !open.opens() {
            return Err(format!("line {}: a bracket expected, not {}", open.line, open.text));
        }
        let start = self.at + 1;
        let mut depth = 0;
        while let Some(token) = self.tokens.get(self.at) {
            self.at += 1;
            depth += i32::from(token.opens()) - i32::from(token.closes());
            if depth == 0 {
                return Ok(&self.tokens[start..self.at - 1]);
            }
        }
        Err(format!("line {}: {} is not closed", open.line, open.text))
    }

    /// The words up to the first of these that stands in no bracket.
    fn up_to(&mut self, ends: &[&str]) -> Result<&'a [Token], String> {
        let start = self.at;
        while !ends.iter().any(|end| self.at_word(end)) {
            if self.here()?.opens() {
                self.group()?;
            } else {
                self.at += 1;
            }
        }
        Ok(&self.tokens[start..self.at])
    }

    /// Hands out what they derive. Of those of a whole file `#![tactic(..)]` alone is known, which
    /// only the prover reads.
    fn attributes(&mut self) -> Result<Vec<String>, String> {
        let mut derives = Vec::new();
        while self.skip("#") {
            self.at += usize::from(self.at_words(&["!", "[", "tactic"]));
            let words = self.group()?;
            if words.first().is_some_and(|word| word.is("derive")) {
                let names = words[1..].iter().filter(|word| word.kind == Kind::Name);
                derives.extend(names.map(|name| name.text.clone()));
            }
        }
        Ok(derives)
    }

    fn at_words(&self, words: &[&str]) -> bool {
        let here = &self.tokens[self.at..];
        words.len() <= here.len() && words.iter().zip(here).all(|(word, token)| token.is(word))
    }

    fn skip_visibility(&mut self) -> Result<(), String> {
        if self.skip("pub") && self.at_word("(") {
            self.group()?;
        }
        Ok(())
    }

    /// What stands between the `<` here and its `>`, if there is any.
    fn arguments(&mut self) -> Result<&'a [Token], String> {
        if !self.at_word("<") {
            return Ok(&[]);
        }
        let start = self.at + 1;
        let mut depth = 0;
        loop {
            depth += i32::from(self.at_word("<")) - i32::from(self.at_word(">"));
            self.here()?;
            self.at += 1;
            if depth == 0 {
                return Ok(&self.tokens[start..self.at - 1]);
            }
        }
    }

    fn path(&mut self) -> Result<Vec<String>, String> {
        let mut path = vec![self.name()?];
        while self.skip("::") {
            path.push(self.name()?);
        }
        Ok(path)
    }

    fn entry(&mut self, all: &mut Vec<Entry>) -> Result<(), String> {
        let derives = self.attributes()?;
        self.skip_visibility()?;
        let here = self.here()?;
        match here.text.as_str() {
            "use" => self.uses(all),
            "mod" => self.module().map(|module| all.push(module)),
            "impl" => self.block().map(|block| all.push(Entry::Block(block))),
            "trait" => self.own_of_trait(all),
            "extern" => self.foreign(all),
            "struct" | "enum" => {
                let item = if self.at_word("enum") { self.choice() } else { self.structure() };
                all.push(Entry::Item(Item { derives, ..item? }));
                Ok(())
            }
            _ => self.member().map(|item| all.push(Entry::Item(item))),
        }
    }

    /// What stands alone and in blocks.
    fn member(&mut self) -> Result<Item, String> {
        let here = self.here()?;
        if self.at_words(&["const", "fn"]) {
            self.at += 1;
        }
        match self.here()?.text.as_str() {
            "fn" => self.function(),
            "const" => self.constant(),
            "type" => self.alias(),
            other => Err(format!("line {}: an item of an unknown form, {other}", here.line)),
        }
    }

    fn uses(&mut self, all: &mut Vec<Entry>) -> Result<(), String> {
        self.expect("use")?;
        self.use_tree(Vec::new(), all)?;
        self.expect(";")
    }

    fn use_tree(&mut self, mut path: Vec<String>, all: &mut Vec<Entry>) -> Result<(), String> {
        loop {
            if self.at_word("{") {
                let mut inner = Reader { tokens: self.group()?, at: 0 };
                while inner.at < inner.tokens.len() {
                    inner.use_tree(path.clone(), all)?;
                    inner.skip(",");
                }
                return Ok(());
            }
            let Token { at, .. } = *self.here()?;
            if self.skip("*") {
                all.push(Entry::Use(Use { name: "*".into(), at, path }));
                return Ok(());
            }
            path.push(self.name()?);
            if !self.skip("::") {
                break;
            }
        }
        if path.len() > 1 && path[path.len() - 1] == "self" {
            path.pop();
        }
        let name = if self.skip("as") { self.name()? } else { path[path.len() - 1].clone() };
        let Token { at, .. } = self.tokens[self.at - 1];
        all.push(Entry::Use(Use { name, at, path }));
        Ok(())
    }

    fn module(&mut self) -> Result<Entry, String> {
        self.expect("mod")?;
        let name = self.name()?;
        if self.skip(";") {
            return Ok(Entry::Module(name, None));
        }
        Ok(Entry::Module(name, Some(entries(self.group()?)?)))
    }

    fn block(&mut self) -> Result<Block, String> {
        self.expect("impl")?;
        let generics = parameters(self.arguments()?);
        let start = self.at;
        let mut owner = self.path()?;
        let arguments = self.arguments()?;
        let mut name = None;
        if self.skip("for") {
            let of_trait = owner;
            owner = self.path()?;
            self.arguments()?;
            let words = [&owner, &of_trait].map(|path| path[path.len() - 1].as_str());
            name = Some(words.into_iter().chain(heads(arguments)).map(capital).collect());
        }
        self.up_to(&["{"])?;
        let first_line = &self.tokens[start..self.at];
        let items = self.members(&generics, first_line)?;
        Ok(Block { owner, name, items })
    }

    /// A trait, and those of its functions that have a body.
    fn own_of_trait(&mut self, all: &mut Vec<Entry>) -> Result<(), String> {
        let mut item = self.item("trait", Sort::Type)?;
        item.types.extend_from_slice(self.up_to(&["{"])?);
        let owner = vec![item.name.clone()];
        let mut items = self.members(&item.generics, &[])?;
        items.retain(|item| item.code.is_some());
        all.push(Entry::Item(item));
        all.push(Entry::Block(Block { owner, name: None, items }));
        Ok(())
    }

    fn members(&mut self, generics: &[String], types: &[Token]) -> Result<Vec<Item>, String> {
        let mut inner = Reader { tokens: self.group()?, at: 0 };
        let mut items = Vec::new();
        while inner.at < inner.tokens.len() {
            inner.attributes()?;
            inner.skip_visibility()?;
            let mut item = inner.member()?;
            item.generics.extend_from_slice(generics);
            item.types.extend_from_slice(types);
            items.push(item);
        }
        Ok(items)
    }

    /// A function that C can call, or functions that C has.
    fn foreign(&mut self, all: &mut Vec<Entry>) -> Result<(), String> {
        self.expect("extern")?;
        self.at += 1;
        if self.at_word("fn") {
            all.push(Entry::Item(self.function()?));
            return Ok(());
        }
        let inner = entries(self.group()?)?;
        all.extend(inner);
        Ok(())
    }

    fn function(&mut self) -> Result<Item, String> {
        let mut item = self.item("fn", Sort::Function)?;
        item.types.extend_from_slice(self.up_to(&["{", ";"])?);
        if !self.skip(";") {
            item.code = Some(without_attributes(self.group()?)?);
        }
        Ok(item)
    }

    fn constant(&mut self) -> Result<Item, String> {
        let mut item = self.item("const", Sort::Constant)?;
        self.expect(":")?;
        item.types = self.up_to(&["="])?.to_vec();
        self.expect("=")?;
        item.code = Some(self.up_to(&[";"])?.to_vec());
        self.expect(";")?;
        Ok(item)
    }

    /// A name for a type. One that a trait asks for stands for none yet.
    fn alias(&mut self) -> Result<Item, String> {
        let mut item = self.item("type", Sort::Type)?;
        self.skip("=");
        item.types.extend_from_slice(self.up_to(&[";"])?);
        self.expect(";")?;
        Ok(item)
    }

    fn structure(&mut self) -> Result<Item, String> {
        let mut item = self.item("struct", Sort::Type)?;
        item.types.extend_from_slice(self.up_to(&["{", "(", ";"])?);
        let named = self.at_word("{");
        if self.here()?.opens() {
            item.types.extend_from_slice(self.group()?);
        }
        if !named {
            item.types.extend_from_slice(self.up_to(&[";"])?);
            self.expect(";")?;
        }
        Ok(item)
    }

    fn choice(&mut self) -> Result<Item, String> {
        let mut item = self.item("enum", Sort::Type)?;
        item.types.extend_from_slice(self.up_to(&["{"])?);
        let mut inner = Reader { tokens: self.group()?, at: 0 };
        while inner.at < inner.tokens.len() {
            inner.attributes()?;
            item.variants.push(inner.name()?);
            if inner.at_word("(") || inner.at_word("{") {
                item.types.extend_from_slice(inner.group()?);
            }
            if inner.skip("=") {
                inner.skip("-");
                inner.at += 1;
            }
            inner.skip(",");
        }
        Ok(item)
    }

    /// An item's first word, its name and its parameters; the rest is to be filled in.
    fn item(&mut self, word: &str, sort: Sort) -> Result<Item, String> {
        self.expect(word)?;
        let Token { line, at, .. } = *self.here()?;
        let name = self.name()?;
        let start = self.at;
        let generics = parameters(self.arguments()?);
        let types = self.tokens[start..self.at].to_vec();
        let (code, variants, derives) = (None, Vec::new(), Vec::new());
        Ok(Item { sort, name, line, at, generics, types, code, variants, derives })
    }
}

/// An attribute of a statement says something to the compiler or to the prover, and runs nowhere.
fn without_attributes(code: &[Token]) -> Result<Vec<Token>, String> {
    let mut reader = Reader { tokens: code, at: 0 };
    let mut kept = Vec::new();
    while let Some(token) = code.get(reader.at) {
        if reader.at_words(&["#", "["]) {
            reader.attributes()?;
        } else {
            kept.push(token.clone());
            reader.at += 1;
        }
    }
    Ok(kept)
}

/// The names of type and const parameters: what stands first between commas, but for lifetimes.
fn parameters(arguments: &[Token]) -> Vec<String> {
    let mut depth = 0;
    let mut first = true;
    let mut names = Vec::new();
    for token in arguments {
        depth += i32::from(token.is("<")) - i32::from(token.is(">"));
        if first && token.kind == Kind::Name && !token.is("const") {
            names.push(token.text.clone());
        }
        first = depth == 0 && (token.is(",") || (first && token.is("const")));
    }
    names
}

/// The last name of each path that stands among arguments, but for arguments of its own.
fn heads(arguments: &[Token]) -> Vec<&str> {
    let mut depth = 0;
    let mut names = Vec::new();
    for (i, token) in arguments.iter().enumerate() {
        depth += i32::from(token.is("<")) - i32::from(token.is(">"));
        let last = !arguments.get(i + 1).is_some_and(|next| next.is("::"));
        if depth == 0 && token.kind == Kind::Name && last {
            names.push(token.text.as_str());
        }
    }
    names
}

fn capital(word: &str) -> String {
    let (first, rest) = word.split_at(1);
    first.to_uppercase() + rest
}
