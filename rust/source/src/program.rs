//! Crates as trees of modules, and what a path names in one of them.

use crate::item::{Item, Sort, Use};
use std::collections::{BTreeMap, BTreeSet};

/// The crate that every crate may name.
pub const STANDARD: &str = "std";

/// Types that no text declares.
const NUMBERS: [&str; 17] = [
    "u8", "u16", "u32", "u64", "u128", "usize", "i8", "i16", "i32", "i64", "i128", "isize",
    "f32", "f64", "bool", "char", "str",
];

/// Types and constants of `std` that hold no array. No text tells what others hold: so these alone
/// may be named.
const PLAIN: [&str; 1] = ["std::ops::Range"];

/// What every module has of `std` without a `use`.
const PRELUDE: &str = "Option Some None Result Ok Err From Into TryFrom TryInto Clone Copy \
    Default PartialEq Eq PartialOrd Ord Drop Iterator IntoIterator ExactSizeIterator \
    DoubleEndedIterator AsRef AsMut Fn FnMut FnOnce";

/// How often a name may stand for another one: more often only where it stands for itself.
const DEEPEST_USE: usize = 16;

#[derive(Clone, Debug, PartialEq, Eq)]
pub enum Named {
    Module(usize),
    Item(usize),
    /// What every module has and no text: a number type, or a name of the prelude.
    Outside,
    /// A path of `std`, whether it has such a name or not, where no text of `std` was read.
    Standard(String),
}

/// An item, and where it stands.
#[derive(Debug)]
pub struct Placed {
    pub item: Item,
    pub module: usize,
    pub file: String,
    /// The type in whose block it stands.
    pub owner: Option<Named>,
    /// The compiler's name for that block, where it is the `impl` of a trait.
    pub block: Option<String>,
}

#[derive(Debug)]
pub(crate) struct Module {
    pub path: String,
    /// The first module of its crate.
    pub root: usize,
    pub parent: Option<usize>,
    pub names: BTreeMap<String, Named>,
    pub uses: Vec<Use>,
}

/// The first module of a crate, and the crates that it may name.
#[derive(Debug)]
pub(crate) struct Root {
    pub module: usize,
    pub needs: Vec<String>,
}

#[derive(Debug, Default)]
pub struct Program {
    pub(crate) modules: Vec<Module>,
    pub(crate) items: Vec<Placed>,
    pub(crate) roots: BTreeMap<String, Root>,
    functions: BTreeMap<String, usize>,
    /// The blocks that the compiler writes.
    derived: BTreeSet<String>,
}

impl Program {
    pub fn item(&self, item: usize) -> &Placed {
        &self.items[item]
    }

    /// An item's path, from its crate on, as the compiler has it.
    pub fn path(&self, item: usize) -> String {
        let Placed { item, module, owner, block, .. } = &self.items[item];
        let module = &self.modules[*module].path;
        match (block, owner) {
            (Some(block), _) => format!("{module}::{block}::{}", item.name),
            (None, Some(Named::Item(owner))) => format!("{}::{}", self.path(*owner), item.name),
            (None, _) => format!("{module}::{}", item.name),
        }
    }

    /// The function of a path, from its crate on.
    pub fn function(&self, path: &str) -> Option<usize> {
        self.functions.get(path).copied()
    }

    /// The paths of all functions.
    pub fn functions(&self) -> impl Iterator<Item = &str> {
        self.functions.keys().map(String::as_str)
    }

    /// Whether a function stands in the `impl` of a trait, which may be run by no name of its own.
    pub fn is_of_trait(&self, path: &str) -> bool {
        self.function(path).is_some_and(|item| self.items[item].block.is_some())
    }

    pub fn is_function(&self, item: usize) -> bool {
        self.items[item].item.sort == Sort::Function
    }

    /// Whether the compiler itself made a function: it stands outside of what was read, or it is
    /// of a closure, or of a trait that a type derives.
    pub fn is_made(&self, path: &str) -> bool {
        let (name, _) = path.split_once("::").unwrap_or((path, ""));
        let block = path.rsplit_once("::").map_or("", |(block, _)| block);
        let of_closure = path.split("::").any(|name| name == "fn") || path.contains('+');
        !self.roots.contains_key(name) || of_closure || self.derived.contains(block)
    }

    /// All functions of this name that belong to a type.
    pub fn methods(&self, name: &str) -> Vec<usize> {
        self.functions_where(|placed| placed.item.name == name && placed.owner.is_some())
    }

    fn functions_where(&self, wanted: impl Fn(&Placed) -> bool) -> Vec<usize> {
        let functions = (0..self.items.len()).filter(|&item| self.is_function(item));
        functions.filter(|&item| wanted(&self.items[item])).collect()
    }

    /// All functions of this name that belong to this type.
    pub fn own(&self, of: &Named, name: &str) -> Vec<usize> {
        self.functions_where(|placed| {
            placed.item.name == name && placed.owner.as_ref() == Some(of)
        })
    }

    /// Once all is placed: the functions by their paths, and what types derive.
    pub(crate) fn list(&mut self) -> Result<(), String> {
        for item in 0..self.items.len() {
            let path = self.path(item);
            let derives = &self.items[item].item.derives;
            self.derived.extend(derives.iter().map(|name| format!("{path}{name}")));
            if self.is_function(item) && self.functions.insert(path.clone(), item).is_some() {
                return Err(format!("two functions have the path {path}"));
            }
        }
        Ok(())
    }

    /// What a path names in a module, in a block of the type `owner` where it stands in one.
    pub fn find(&self, module: usize, owner: Option<&Named>, path: &[String]) -> Option<Named> {
        match path.split_first()? {
            (first, rest) if first == "Self" => self.members(owner?.clone(), rest, 0),
            _ => self.find_in(module, path, 0),
        }
    }

    fn find_in(&self, module: usize, path: &[String], depth: usize) -> Option<Named> {
        let (first, rest) = path.split_first()?;
        let start = match first.as_str() {
            "crate" => Named::Module(self.modules[module].root),
            "self" | "super" => self.member(Named::Module(module), first, depth)?,
            name => {
                let found = self.in_scope(module, name, depth);
                found.or_else(|| self.needed(module, name))?
            }
        };
        self.members(start, rest, depth)
    }

    fn members(&self, of: Named, path: &[String], depth: usize) -> Option<Named> {
        path.iter().try_fold(of, |named, name| self.member(named, name, depth))
    }

    fn member(&self, of: Named, name: &str, depth: usize) -> Option<Named> {
        match (&of, name) {
            (Named::Module(_), "self") => Some(of),
            (Named::Module(module), "super") => self.modules[*module].parent.map(Named::Module),
            (Named::Module(module), _) => self.in_scope(*module, name, depth),
            (Named::Item(item), _) => self.of_type(*item, name),
            (Named::Outside, _) => Some(Named::Outside),
            (Named::Standard(path), _) => Some(Named::Standard(format!("{path}::{name}"))),
        }
    }

    /// What is named by a type and is no function of it: a variant, or a constant.
    pub fn find_in_type(&self, of: &Named, name: &str) -> Option<usize> {
        match of {
            Named::Item(item) => match self.of_type(*item, name) {
                Some(Named::Item(found)) if !self.is_function(found) => Some(found),
                _ => None,
            },
            _ => None,
        }
    }

    /// A variant of a type, which is the type, or the first in its blocks of this name.
    fn of_type(&self, of: usize, name: &str) -> Option<Named> {
        let Item { sort, variants, .. } = &self.items[of].item;
        if *sort == Sort::Type && variants.iter().any(|variant| variant == name) {
            return Some(Named::Item(of));
        }
        let owner = Some(Named::Item(of));
        let mut own = (0..self.items.len()).filter(|&item| self.items[item].owner == owner);
        own.find(|&item| self.items[item].item.name == name).map(Named::Item)
    }

    /// A name of the module itself, or one that it brings in: by name, or with all of a module,
    /// which of a module of `std` are those of `PLAIN`.
    fn in_scope(&self, module: usize, name: &str, depth: usize) -> Option<Named> {
        let Module { names, uses, .. } = &self.modules[module];
        if let Some(named) = names.get(name) {
            return Some(named.clone());
        }
        if depth == DEEPEST_USE {
            return None;
        }
        let find = |path: &[String]| self.find_in(module, path, depth + 1);
        let mut by_name = uses.iter().filter(|brought| brought.name == name);
        let mut by_all = uses.iter().filter(|brought| brought.name == "*");
        by_name.find_map(|brought| find(&brought.path)).or_else(|| {
            by_all.find_map(|brought| match find(&brought.path)? {
                Named::Standard(path) => {
                    let path = format!("{path}::{name}");
                    is_plain(&path).then_some(Named::Standard(path))
                }
                of => self.member(of, name, depth + 1),
            })
        })
    }

    /// The functions that a module brings in by name, each with the place where its name stands.
    pub fn brought_in(&self, module: usize) -> Vec<(usize, usize)> {
        let found = self.modules[module].uses.iter().filter_map(|brought| {
            match self.find_in(module, &brought.path, 0)? {
                Named::Item(item) if self.is_function(item) => Some((brought.at, item)),
                _ => None,
            }
        });
        found.collect()
    }

    /// A crate that a module's own crate may name, or what every module has.
    fn needed(&self, module: usize, name: &str) -> Option<Named> {
        let own = self.modules[module].root;
        let mut roots = self.roots.values();
        let Root { needs, .. } = roots.find(|root| root.module == own)?;
        let known = name == STANDARD || needs.iter().any(|need| need == name);
        let root = self.roots.get(name).filter(|_| known);
        root.map(|root| Named::Module(root.module)).or_else(|| untold(name))
    }
}

/// Whether a path of `std` is that of a type or a constant which is known to hold no array.
pub fn is_plain(path: &str) -> bool {
    PLAIN.contains(&path)
}

/// What no text has.
fn untold(name: &str) -> Option<Named> {
    let mut prelude = PRELUDE.split_whitespace();
    if name == STANDARD {
        return Some(Named::Standard(name.into()));
    }
    let outside = NUMBERS.contains(&name) || prelude.any(|word| word == name);
    outside.then_some(Named::Outside)
}
