//! Links the proved engine, `liblens_c.a`, which `rt lib`, called in the repository's
//! crates/lens_c, writes to out/ there. `LENS_C_DIR`, an absolute path, names another folder.

use std::env;
use std::ffi::OsString;
use std::path::{Path, PathBuf};

const ARCHIVE: &str = "liblens_c.a";

fn main() {
    println!("cargo::rerun-if-env-changed=LENS_C_DIR");
    match folder(env::var_os("LENS_C_DIR")) {
        Ok(folder) => link(&folder),
        Err(wrong) => println!("cargo::error={wrong}"),
    }
}

/// Where the archive is looked for; an empty name is as good as none.
fn folder(named: Option<OsString>) -> Result<PathBuf, String> {
    let Some(named) = named.filter(|named| !named.is_empty()).map(PathBuf::from) else {
        let repository = Path::new(env!("CARGO_MANIFEST_DIR")).ancestors().nth(2);
        return Ok(repository.expect("this crate is rust/lens").join("crates/lens_c/out"));
    };
    if named.is_absolute() {
        return Ok(named);
    }
    Err(format!(
        "LENS_C_DIR is {}, a relative path, and a build script is not told where cargo was \
         called: name the folder of {ARCHIVE} by an absolute path",
        named.display()
    ))
}

/// Asks for the archive where it is missing, too: `cargo check`, `cargo clippy` and `cargo
/// doc` read no archive and need only be warned, and whatever does link fails.
fn link(folder: &Path) {
    let archive = folder.join(ARCHIVE);
    println!("cargo::rerun-if-changed={}", archive.display());
    if !archive.is_file() {
        println!(
            "cargo::warning=there is no {}, so nothing can be linked: run `rt lib` in \
             crates/lens_c first, or set LENS_C_DIR to the folder that has it",
            archive.display()
        );
    }
    println!("cargo::rustc-link-search=native={}", folder.display());
    println!("cargo::rustc-link-lib=static=lens_c");
}
