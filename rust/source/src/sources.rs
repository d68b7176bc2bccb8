//! The texts of crates, and which crates each of them names.

use std::collections::BTreeMap;
use std::path::{Path, PathBuf};
use std::process::Command;
use std::{fs, io};

#[derive(Clone, Debug, Default)]
pub struct Sources {
    /// By crate and place in it: `plate/src/pass.rt`.
    files: BTreeMap<String, String>,
    needs: BTreeMap<String, Vec<String>>,
}

/// The folder of the repository, above this workspace.
pub fn repository() -> PathBuf {
    Path::new(env!("CARGO_MANIFEST_DIR")).join("../..")
}

impl Sources {
    /// The crates of the repository.
    pub fn installed() -> io::Result<Sources> {
        let mut sources = Sources::default();
        sources.read(&repository().join("crates.txt"), &repository().join("crates"))?;
        Ok(sources)
    }

    /// The crates of a list, `NAME: NEED NEED` in a line, from a folder with a folder for each.
    /// A word after the name says what kind of library it is.
    pub fn read(&mut self, list: &Path, folder: &Path) -> io::Result<()> {
        for line in fs::read_to_string(list)?.lines() {
            let line = line.split('#').next().unwrap_or(line);
            let Some((name, needs)) = line.split_once(':') else {
                continue;
            };
            let name = name.split_whitespace().next().unwrap_or_default();
            self.name(name, needs);
            self.read_folder(&folder.join(name).join("src"), &format!("{name}/src"))?;
        }
        Ok(())
    }

    fn read_folder(&mut self, folder: &Path, place: &str) -> io::Result<()> {
        for entry in fs::read_dir(folder)? {
            let path = entry?.path();
            let name = path.file_name().unwrap_or_default().to_string_lossy().into_owned();
            let place = format!("{place}/{name}");
            if path.is_dir() {
                self.read_folder(&path, &place)?;
            } else {
                self.add(&place, &fs::read_to_string(&path)?);
            }
        }
        Ok(())
    }

    /// A crate, and the crates that it may name.
    pub fn name(&mut self, name: &str, needs: &str) {
        let needs = needs.split_whitespace().map(str::to_string).collect();
        self.needs.insert(name.into(), needs);
    }

    pub fn add(&mut self, file: &str, text: &str) {
        self.files.insert(file.into(), text.into());
    }

    pub fn remove(&mut self, file: &str) {
        self.files.remove(file).expect("a file that is there");
    }

    pub fn text(&self, file: &str) -> Option<&str> {
        self.files.get(file).map(String::as_str)
    }

    pub fn needs(&self, name: &str) -> Option<&[String]> {
        self.needs.get(name).map(Vec::as_slice)
    }

    /// A copy in which `old`, which stands at a place of a file, is `new`.
    pub fn edited(&self, file: &str, at: usize, old: &str, new: &str) -> Sources {
        let mut copy = self.clone();
        let text = copy.files.get_mut(file).expect("a file that is there");
        assert!(text[at..].starts_with(old), "{file} has no {old} at {at}");
        text.replace_range(at..at + old.len(), new);
        copy
    }
}

/// The toolchain's folder: that of the page that `rt doc` names.
pub fn toolchain() -> io::Result<PathBuf> {
    let page = Command::new("rt").arg("doc").output()?.stdout;
    let page = PathBuf::from(String::from_utf8_lossy(&page).trim());
    Ok(page.parent().ok_or(io::ErrorKind::NotFound)?.to_path_buf())
}
