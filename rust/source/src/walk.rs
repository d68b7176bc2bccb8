//! All that calls run through, and the arrays among it.

use crate::form::{Compiled, Form};
use crate::item::Item;
use crate::mention::{How, Mention, array_types, array_values, locals, mentions};
use crate::program::{Named, Placed, Program, is_plain};
use std::collections::btree_map::Entry;
use std::collections::{BTreeMap, BTreeSet};
use std::fmt;

/// What the compiler makes instructions or loops of, and no call: of numbers, slices and ranges.
const OWN: [&str; 10] = [
    "count_ones",
    "enumerate",
    "iter",
    "iter_mut",
    "len",
    "rev",
    "step_by",
    "wrapping_add",
    "wrapping_mul",
    "wrapping_sub",
];

/// Calls that run a function of another name, of the `impl` that types choose.
const TURNS: [(&str, &str); 2] = [("into", "from"), ("try_into", "try_from")];

#[derive(Clone, Debug, PartialEq, Eq)]
pub enum What {
    /// A type `[T; n]`, a value `[a, b]`, `[v; n]` or a byte string.
    Array,
    /// A name that stands for nothing, or for what of `std` may hold an array; and a function that
    /// the compiler has run, where no text has it, or its form has not.
    NotFound(String),
    /// A function of C, whose text is not Rattle.
    Foreign,
}

#[derive(Clone, Debug)]
pub struct Fault {
    pub what: What,
    /// The path of the item that has it.
    pub item: String,
    pub place: String,
    /// The items by which a start reaches it, the start first.
    pub through: Vec<String>,
}

impl fmt::Display for Fault {
    fn fmt(&self, f: &mut fmt::Formatter) -> fmt::Result {
        let Fault { what, item, place, through } = self;
        match what {
            What::Array => write!(f, "{item} has an array ({place})")?,
            What::NotFound(name) => write!(f, "{item} names {name}, not found ({place})")?,
            What::Foreign => write!(f, "{item} has no text ({place})")?,
        }
        if !through.is_empty() {
            write!(f, ", by {}", through.join(", "))?;
        }
        Ok(())
    }
}

/// What is reached: an item of a text, or a function that the compiler's form alone has.
#[derive(Clone, Debug, PartialEq, Eq, PartialOrd, Ord)]
enum Node {
    Item(usize),
    Compiled(String),
}

/// What was reached, and by what: in the order in which it was found.
#[derive(Debug)]
pub struct Walk<'a> {
    program: &'a Program,
    form: &'a Form,
    order: Vec<Node>,
    by: BTreeMap<Node, Option<Node>>,
    pub faults: Vec<Fault>,
}

impl<'a> Walk<'a> {
    /// From functions, by their paths, through all that they name and run, and all that those do.
    /// Of a function that the form does not have, the text alone is followed.
    pub fn from(
        program: &'a Program,
        form: &'a Form,
        starts: &[&str],
    ) -> Result<Walk<'a>, String> {
        let (order, by, faults) = (Vec::new(), BTreeMap::new(), Vec::new());
        let mut walk = Walk { program, form, order, by, faults };
        for start in starts {
            let item = program.function(start).ok_or(format!("there is no {start}"))?;
            walk.reach(Node::Item(item), None);
        }
        let mut next = 0;
        while next < walk.order.len() {
            let node = walk.order[next].clone();
            match &node {
                Node::Item(item) => walk.visit(&node, *item),
                Node::Compiled(name) => walk.visit_compiled(&node, name),
            }
            next += 1;
        }
        Ok(walk)
    }

    /// The items of texts that were reached.
    pub fn items(&self) -> impl Iterator<Item = usize> {
        self.order.iter().filter_map(|node| match node {
            Node::Item(item) => Some(*item),
            Node::Compiled(_) => None,
        })
    }

    /// The functions among them.
    pub fn functions(&self) -> impl Iterator<Item = usize> {
        self.items().filter(|item| self.program.is_function(*item))
    }

    /// The functions among what was reached that no text has.
    pub fn compiled(&self) -> impl Iterator<Item = &str> {
        self.order.iter().filter_map(|node| match node {
            Node::Item(_) => None,
            Node::Compiled(name) => Some(name.as_str()),
        })
    }

    fn reach(&mut self, node: Node, by: Option<&Node>) {
        if let Entry::Vacant(new) = self.by.entry(node.clone()) {
            new.insert(by.cloned());
            self.order.push(node);
        }
    }

    fn visit(&mut self, node: &Node, item: usize) {
        let placed = self.program.item(item);
        let Item { types, code, line, .. } = &placed.item;
        let words = code.as_deref().unwrap_or_default();
        for array in array_types(types).into_iter().chain(array_values(words)) {
            self.add_fault(node, array.line, What::Array);
        }
        if code.is_none() && self.program.is_function(item) {
            self.add_fault(node, *line, What::Foreign);
        }
        let runs = self.form.get(&self.program.path(item)).map(|compiled| &compiled.runs);
        let mut lost = BTreeSet::new();
        let place = Place { placed, runs, locals: locals(types, words) };
        for mention in mentions(types).into_iter().chain(mentions(words)) {
            match place.found(self.program, &mention) {
                Some(found) => {
                    found
                        .into_iter()
                        .for_each(|found| self.reach(Node::Item(found), Some(node)));
                }
                None => {
                    let name = mention.path.join("::");
                    self.add_fault(node, mention.line, What::NotFound(name));
                    lost.extend(mention.path.last().cloned());
                }
            }
        }
        for name in runs.into_iter().flatten() {
            let found = self.reach_by_name(name, node);
            let unwritten =
                self.program.function(name).is_none() && !self.program.is_made(name);
            if (!found || unwritten) && !lost.contains(last(name)) {
                self.add_fault(node, *line, What::NotFound(name.clone()));
            }
        }
    }

    /// Reaches the function of a name, and tells whether a text or the compiler's form has it.
    fn reach_by_name(&mut self, name: &str, by: &Node) -> bool {
        let written = self.program.function(name).map(Node::Item);
        let compiled = || self.form.get(name).map(|_| Node::Compiled(name.to_string()));
        let found = written.or_else(compiled);
        let has = found.is_some();
        found.into_iter().for_each(|found| self.reach(found, Some(by)));
        has
    }

    fn visit_compiled(&mut self, node: &Node, name: &str) {
        let form = self.form;
        let compiled = form.get(name).expect("a function that the form has");
        let Compiled { runs, has_array, is_foreign } = compiled;
        if *has_array {
            self.add_fault(node, 0, What::Array);
        }
        if *is_foreign {
            self.add_fault(node, 0, What::Foreign);
        }
        for name in runs {
            if !self.reach_by_name(name, node) {
                self.add_fault(node, 0, What::NotFound(name.clone()));
            }
        }
    }

    fn path(&self, node: &Node) -> String {
        match node {
            Node::Item(item) => self.program.path(*item),
            Node::Compiled(name) => name.clone(),
        }
    }

    /// The items by which a start reaches an item, the start first.
    pub fn way(&self, item: usize) -> Vec<String> {
        self.way_to(&Node::Item(item))
    }

    fn way_to(&self, node: &Node) -> Vec<String> {
        let mut way = Vec::new();
        let mut by = self.by[node].as_ref();
        while let Some(above) = by {
            way.insert(0, self.path(above));
            by = self.by[above].as_ref();
        }
        way
    }

    fn add_fault(&mut self, node: &Node, line: usize, what: What) {
        let place = match node {
            Node::Item(item) => format!("{}:{line}", self.program.item(*item).file),
            Node::Compiled(_) => "as it is compiled".to_string(),
        };
        let (item, through) = (self.path(node), self.way_to(node));
        self.faults.push(Fault { what, item, place, through });
    }
}

/// Where a name stands: in an item, of which the compiler says what it runs where it has it.
struct Place<'a> {
    placed: &'a Placed,
    runs: Option<&'a BTreeSet<String>>,
    locals: BTreeSet<&'a str>,
}

impl Place<'_> {
    /// The items that a name stands for; none of a text for what the compiler has of its own and
    /// for a local value.
    fn found(&self, program: &Program, mention: &Mention) -> Option<Vec<usize>> {
        let (name, before) = mention.path.split_last()?;
        let generic =
            mention.path.first().filter(|name| self.placed.item.generics.contains(name));
        match (mention.how, generic) {
            (How::Method, _) => self.method(program, name),
            (How::Call, Some(_)) if !before.is_empty() => self.method(program, name),
            (_, Some(_)) => Some(Vec::new()),
            (How::Call, None) if !before.is_empty() => self.called(program, name, before),
            (how, None) => self.named(program, &mention.path, how),
        }
    }

    /// A text does not tell of which type a value is: so each function of this name, or those
    /// among them that the compiler says are run.
    fn method(&self, program: &Program, name: &str) -> Option<Vec<usize>> {
        let turned = TURNS.iter().find(|(turns, _)| *turns == name);
        let found = self.run(program, program.methods(turned.map_or(name, |(_, into)| into)));
        let known = OWN.contains(&name) || !found.is_empty() || self.runs_made(program, name);
        known.then_some(found)
    }

    /// `Type::name(..)`, or the same of a module.
    fn called(&self, program: &Program, name: &str, before: &[String]) -> Option<Vec<usize>> {
        let of = program.find(self.placed.module, self.placed.owner.as_ref(), before)?;
        if let Named::Module(_) = of {
            let path = [before, &[name.to_string()]].concat();
            return self.named(program, &path, How::Call);
        }
        let own = self.run(program, program.own(&of, name));
        if !own.is_empty() || self.runs_made(program, name) {
            return Some(own);
        }
        match of {
            Named::Standard(path) => self.standard(program, &format!("{path}::{name}")),
            _ => program.find_in_type(&of, name).map(|item| vec![item]),
        }
    }

    /// A name in lower case that is no item's is that of a local value; so is one of a function
    /// that is not called, but where the compiler says that this function is run.
    fn named(&self, program: &Program, path: &[String], how: How) -> Option<Vec<usize>> {
        let found = program.find(self.placed.module, self.placed.owner.as_ref(), path);
        let first = path[0].as_str();
        let lower = first.starts_with(|letter: char| letter.is_lowercase() || letter == '_');
        let local = path.len() == 1 && lower && self.locals.contains(first);
        let may_be_local = local || (path.len() == 1 && lower && how == How::Plain);
        match found {
            Some(Named::Item(found)) if may_be_local && program.is_function(found) => {
                let run = self.runs.map(|_| self.run(program, vec![found]));
                Some(run.unwrap_or_default())
            }
            Some(Named::Item(found)) => Some(vec![found]),
            Some(Named::Outside) => Some(Vec::new()),
            Some(Named::Standard(path)) if !local => self.standard(program, &path),
            _ => may_be_local.then(Vec::new),
        }
    }

    /// Of what `std` has no text is followed. A type or a constant of it is found where it is known
    /// to hold no array; a function, called or not, where the compiler says that it is run here.
    fn standard(&self, program: &Program, path: &str) -> Option<Vec<usize>> {
        let found = is_plain(path) || self.runs_made(program, last(path));
        found.then(Vec::new)
    }

    /// Those of functions that the compiler says are run here; all, where it says nothing.
    fn run(&self, program: &Program, mut functions: Vec<usize>) -> Vec<usize> {
        if let Some(runs) = self.runs {
            functions.retain(|&function| runs.contains(&program.path(function)));
        }
        functions
    }

    /// Whether the compiler has a function of this name run here that it made itself, or that is
    /// the toolchain's.
    fn runs_made(&self, program: &Program, name: &str) -> bool {
        let mut runs = self.runs.into_iter().flatten();
        runs.any(|run| last(run) == name && program.is_made(run))
    }
}

fn last(path: &str) -> &str {
    path.rsplit_once("::").map_or(path, |(_, name)| name)
}
