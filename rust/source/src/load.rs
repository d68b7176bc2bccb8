//! A program from the texts of its crates.

use crate::item::{Block, Entry, Item, entries};
use crate::program::{Module, Named, Placed, Program, Root, STANDARD};
use crate::sources::Sources;
use crate::token::tokens;
use std::collections::BTreeMap;

impl Program {
    /// A crate and all that it needs, or what cannot be read.
    pub fn read(sources: &Sources, name: &str) -> Result<Program, String> {
        let mut loader = Loader { sources, program: Program::default(), waiting: Vec::new() };
        let mut wanted = vec![name.to_string()];
        wanted.extend(sources.needs(STANDARD).map(|_| STANDARD.to_string()));
        while let Some(name) = wanted.pop() {
            if !loader.program.roots.contains_key(&name) {
                wanted.extend(loader.read_crate(&name)?);
            }
        }
        loader.place_blocks()?;
        loader.program.list()?;
        Ok(loader.program)
    }
}

struct Loader<'a> {
    sources: &'a Sources,
    program: Program,
    /// Blocks, whose types are found once all modules are read.
    waiting: Vec<(Block, Place)>,
}

/// A module, the file that it stands in, and the folder that has the files of those below it.
#[derive(Clone)]
struct Place {
    module: usize,
    file: String,
    folder: String,
}

impl Loader<'_> {
    /// Reads a crate, and hands out which crates it needs.
    fn read_crate(&mut self, name: &str) -> Result<Vec<String>, String> {
        let needs = self.sources.needs(name).ok_or(format!("no list has a crate {name}"))?;
        let folder = format!("{name}/src");
        let mut files = ["lib", "main"].map(|file| format!("{folder}/{file}.rt")).into_iter();
        let file = files.find(|file| self.sources.text(file).is_some());
        let file = file.ok_or(format!("{folder} has no first file"))?;
        let module = self.add_module(name.into(), None);
        self.program.roots.insert(name.into(), Root { module, needs: needs.to_vec() });
        self.read_file(Place { module, file, folder })?;
        Ok(needs.to_vec())
    }

    fn add_module(&mut self, path: String, parent: Option<usize>) -> usize {
        let modules = &mut self.program.modules;
        let root = parent.map_or(modules.len(), |parent| modules[parent].root);
        modules.push(Module { path, root, parent, names: BTreeMap::new(), uses: Vec::new() });
        modules.len() - 1
    }

    fn read_file(&mut self, place: Place) -> Result<(), String> {
        let file = &place.file;
        let text = self.sources.text(file).ok_or(format!("there is no {file}"))?;
        let read = tokens(text).and_then(|tokens| entries(&tokens));
        let read = read.map_err(|fault| format!("{file}: {fault}"))?;
        self.place_all(&place, read)
    }

    fn place_all(&mut self, place: &Place, entries: Vec<Entry>) -> Result<(), String> {
        for entry in entries {
            match entry {
                Entry::Use(brought) => self.program.modules[place.module].uses.push(brought),
                Entry::Item(item) => {
                    let name = item.name.clone();
                    let item = self.add_item(place, item, None, None);
                    self.give_name(place, name, Named::Item(item))?;
                }
                Entry::Block(block) => self.waiting.push((block, place.clone())),
                Entry::Module(name, inner) => self.place_module(place, name, inner)?,
            }
        }
        Ok(())
    }

    /// A module whose entries stand here, or in a file of its own.
    fn place_module(
        &mut self,
        above: &Place,
        name: String,
        inner: Option<Vec<Entry>>,
    ) -> Result<(), String> {
        let path = format!("{}::{name}", self.program.modules[above.module].path);
        let module = self.add_module(path, Some(above.module));
        let folder = format!("{}/{name}", above.folder);
        match inner {
            Some(inner) => {
                self.place_all(&Place { module, file: above.file.clone(), folder }, inner)?;
            }
            None => self.read_file(Place { module, file: format!("{folder}.rt"), folder })?,
        }
        self.give_name(above, name, Named::Module(module))
    }

    fn add_item(
        &mut self,
        place: &Place,
        item: Item,
        owner: Option<Named>,
        block: Option<String>,
    ) -> usize {
        let (module, file) = (place.module, place.file.clone());
        self.program.items.push(Placed { item, module, file, owner, block });
        self.program.items.len() - 1
    }

    fn give_name(&mut self, place: &Place, name: String, named: Named) -> Result<(), String> {
        let names = &mut self.program.modules[place.module].names;
        match names.insert(name.clone(), named) {
            None => Ok(()),
            Some(_) => Err(format!("{}: two items have the name {name}", place.file)),
        }
    }

    fn place_blocks(&mut self) -> Result<(), String> {
        for (Block { owner, name, items }, place) in std::mem::take(&mut self.waiting) {
            let found = self.program.find(place.module, None, &owner);
            let of = match found {
                Some(Named::Item(_)) => found,
                Some(Named::Outside | Named::Standard(_)) if name.is_some() => found,
                _ => {
                    return Err(format!(
                        "{}: there is no type {}",
                        place.file,
                        owner.join("::")
                    ));
                }
            };
            for item in items {
                self.add_item(&place, item, of.clone(), name.clone());
            }
        }
        Ok(())
    }
}
