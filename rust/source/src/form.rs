//! The compiler's own form of the program, read as far as names go: which functions each function
//! runs, and whether an array is among its types and values.
//!
//! `rt lib` leaves that form beside a library for other crates, and not beside one for C. So it is
//! called on a copy of the crates, in which the C library is one for other crates.

use crate::sources::{Sources, repository, toolchain};
use std::collections::{BTreeMap, BTreeSet};
use std::path::{Path, PathBuf};
use std::process::Command;
use std::{env, fs, io, process};

/// The toolchain's crates whose functions a crate of the repository may run, and those that these
/// crates stand on.
const TOOLCHAIN: [&str; 9] =
    ["core", "io", "libc", "os", "std", "std_alloc", "std_collections", "std_heap", "std_io"];

/// The call of what an address leads to: no path tells what that is, so it is never found.
const BY_ADDRESS: &str = "CallV";

/// What a crate is checked from, and what `rt lib` left of it, which is made anew where it is of
/// other texts.
const PARTS: [&str; 4] = ["src", "specs", "proofs", "out/rlib"];

/// What the compiler says of one function.
#[derive(Debug, Default)]
pub struct Compiled {
    /// The functions that it calls, and those of each `impl` that it hands to one of them.
    pub runs: BTreeSet<String>,
    pub has_array: bool,
    /// Whether it is a function of C.
    pub is_foreign: bool,
}

#[derive(Debug, Default)]
pub struct Form {
    functions: BTreeMap<String, Compiled>,
}

impl Form {
    /// Of a crate and of all that it needs, the toolchain's included.
    pub fn built(sources: &Sources, name: &str) -> io::Result<Form> {
        let copy = Copy::new(sources, name)?;
        let texts: io::Result<Vec<String>> = copy
            .folders()?
            .iter()
            .map(|at| fs::read_to_string(at.join("toolchain/mir.json")))
            .collect();
        Ok(Form::read(&texts?))
    }

    /// A function starts with `["PATH",{"lifetimes":`. What it runs stands quoted among its words:
    /// each function that one of the texts has, and what is called or handed on though none has it.
    /// The type of an array is `"Array"`, and in place of a body a function of C has `"Foreign"`.
    pub fn read(texts: &[String]) -> Form {
        let bodies: BTreeMap<&str, &str> = texts.iter().flat_map(|text| bodies(text)).collect();
        let functions = bodies.iter().map(|(&name, body)| {
            let had =
                quoted(body).filter(|word| bodies.contains_key(word) || *word == BY_ADDRESS);
            let runs = had.chain(callees(body)).filter(|&other| other != name);
            let compiled = Compiled {
                runs: runs.map(str::to_string).collect(),
                has_array: body.contains("\"Array\""),
                is_foreign: body.contains("\"Foreign\""),
            };
            (name.to_string(), compiled)
        });
        Form { functions: functions.collect() }
    }

    pub fn names(&self) -> impl Iterator<Item = &String> {
        self.functions.keys()
    }

    pub fn get(&self, name: &str) -> Option<&Compiled> {
        self.functions.get(name)
    }

    /// What a function runs through, itself included.
    pub fn run_through(&self, name: &str) -> BTreeSet<&str> {
        let mut reached = BTreeSet::new();
        let mut next = Vec::from_iter(self.functions.get_key_value(name));
        while let Some((name, compiled)) = next.pop() {
            if reached.insert(name.as_str()) {
                let runs = compiled.runs.iter();
                next.extend(runs.filter_map(|name| self.functions.get_key_value(name)));
            }
        }
        reached
    }
}

fn quoted(text: &str) -> impl Iterator<Item = &str> {
    text.split('"').skip(1).step_by(2)
}

/// What a body has run, whether a text has it or not: a call is of `{"Fn":["PATH"` or of a function
/// of an `impl`, and the body has the list of those, `"methods":["PATH","PATH"]`.
fn callees(body: &str) -> impl Iterator<Item = &str> {
    let called = body.split("{\"Fn\":[").skip(1).filter_map(|call| quoted(call).next());
    let lists = body.split("\"methods\":[").skip(1);
    let handed = lists.flat_map(|list| quoted(list.split(']').next().unwrap_or_default()));
    called.chain(handed)
}

/// The functions of one crate: the name of each, and what stands from there to the next name.
fn bodies(text: &str) -> Vec<(&str, &str)> {
    let marks = text.match_indices("\",{\"lifetimes\":").map(|(at, _)| at);
    let names: Vec<(usize, usize)> =
        marks.map(|end| (text[..end].rfind('"').map_or(0, |quote| quote + 1), end)).collect();
    let ends = names.iter().skip(1).map(|(start, _)| start - 1).chain([text.len()]);
    names
        .iter()
        .zip(ends)
        .map(|(&(start, end), past)| (&text[start..end], &text[end + 1..past]))
        .collect()
}

/// A copy of a crate and of what it needs, in a folder of its own.
struct Copy {
    folder: PathBuf,
    /// The crate first.
    names: Vec<String>,
}

impl Copy {
    fn new(sources: &Sources, name: &str) -> io::Result<Copy> {
        let folder = env::temp_dir().join(format!("{name}_{}", process::id()));
        let mut copy = Copy { folder, names: Vec::new() };
        let mut list = String::new();
        let mut wanted = vec![name.to_string()];
        while let Some(name) = wanted.pop() {
            if copy.names.contains(&name) {
                continue;
            }
            let needs = sources.needs(&name).ok_or(io::ErrorKind::NotFound)?;
            list += &format!("{name}: {}\n", needs.join(" "));
            wanted.extend_from_slice(needs);
            for part in PARTS {
                let crates = Path::new("crates").join(&name).join(part);
                copy_folder(&repository().join(&crates), &copy.folder.join(&crates))?;
            }
            copy.names.push(name);
        }
        fs::write(copy.folder.join("crates.txt"), list)?;
        Ok(copy)
    }

    /// The libraries of its crates, which are built here, and the toolchain's.
    fn folders(&self) -> io::Result<Vec<PathBuf>> {
        let crates = self.folder.join("crates");
        let built =
            Command::new("rt").arg("lib").current_dir(crates.join(&self.names[0])).output()?;
        if !built.status.success() {
            let [told, also] = [built.stdout, built.stderr]
                .map(|told| String::from_utf8_lossy(&told).into_owned());
            return Err(io::Error::other(told + &also));
        }
        let own = self
            .names
            .iter()
            .map(|name| crates.join(name).join(format!("out/rlib/{name}.rlib")));
        let rlibs = toolchain()?.join("rlibs");
        let below = TOOLCHAIN.iter().map(|name| rlibs.join(format!("{name}.rlib")));
        Ok(own.chain(below).collect())
    }
}

impl Drop for Copy {
    fn drop(&mut self) {
        let _ = fs::remove_dir_all(&self.folder);
    }
}

/// A crate need not have each part.
fn copy_folder(from: &Path, to: &Path) -> io::Result<()> {
    if !from.is_dir() {
        return Ok(());
    }
    fs::create_dir_all(to)?;
    for entry in fs::read_dir(from)? {
        let entry = entry?;
        let to = to.join(entry.file_name());
        if entry.file_type()?.is_dir() {
            copy_folder(&entry.path(), &to)?;
        } else {
            fs::copy(entry.path(), to)?;
        }
    }
    Ok(())
}
