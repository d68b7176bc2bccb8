//! C programs of the repository: compiled with every warning an error, linked with the engine
//! and run.

use std::env;
use std::path::{Path, PathBuf};
use std::process::Command;

use crate::repository;

/// A language that `include/lens.h` is for, and the compiler's words for it.
#[derive(Clone, Copy, Debug)]
pub struct Language {
    pub name: &'static str,
    compiler: &'static str,
    words: &'static [&'static str],
    warnings: &'static [&'static str],
    /// For the header by itself: that it is a source, and what only a program may do.
    alone: &'static [&'static str],
}

pub const C99: Language = Language {
    name: "c99",
    compiler: "cc",
    words: &["-std=c99"],
    warnings: &["-Wstrict-prototypes", "-Wmissing-prototypes", "-Wold-style-definition"],
    alone: &["-x", "c"],
};

pub const C11: Language = Language { name: "c11", words: &["-std=c11"], ..C99 };

/// As C++ the same sources are compiled, so its compiler is told what they are; they cast as C
/// does, and the header does not.
pub const CPP: Language = Language {
    name: "c++11",
    compiler: "g++",
    words: &["-x", "c++", "-std=c++11"],
    warnings: &[],
    alone: &["-Wold-style-cast", "-Wzero-as-null-pointer-constant"],
};

pub const LANGUAGES: [Language; 3] = [C99, C11, CPP];

/// Every one of them stops the compiler.
const WARNINGS: [&str; 14] = [
    "-Werror",
    "-Wall",
    "-Wextra",
    "-Wpedantic",
    "-Wshadow",
    "-Wconversion",
    "-Wsign-conversion",
    "-Wcast-qual",
    "-Wcast-align",
    "-Wundef",
    "-Wswitch-default",
    "-Wwrite-strings",
    "-Wpointer-arith",
    "-Wformat=2",
];

/// What a program is built to be watched by.
#[derive(Clone, Copy, Debug, PartialEq, Eq)]
pub enum Watched {
    No,
    /// The compiler's checks of addresses and of undefined behaviour; the first finding ends
    /// the program.
    Sanitized,
}

impl Watched {
    fn words(self) -> &'static [&'static str] {
        match self {
            Watched::No => &[],
            Watched::Sanitized => {
                &["-g", "-fsanitize=address,undefined", "-fno-sanitize-recover=all"]
            }
        }
    }
}

impl Language {
    fn compile(self, watched: Watched) -> Command {
        let mut command = Command::new(self.compiler);
        command.args(self.words).args(WARNINGS).args(self.warnings).args(watched.words());
        command.arg("-I").arg(repository().join("include"));
        command
    }

    pub fn header_alone(self) {
        let header = repository().join("include/lens.h");
        done(self.compile(Watched::No).args(self.alone).arg("-fsyntax-only").arg(header));
    }

    /// The object file of a program, in a folder.
    pub fn object(self, watched: Watched, source: &Path, folder: &Path) -> PathBuf {
        let stem = source.file_stem().expect("a source has a name").to_string_lossy();
        let object = folder.join(format!("{stem}-{}-{watched:?}.o", self.name));
        done(self.compile(watched).arg("-c").arg(source).arg("-o").arg(&object));
        object
    }

    /// The program itself.
    pub fn program(self, watched: Watched, source: &Path, folder: &Path) -> PathBuf {
        let object = self.object(watched, source, folder);
        let program = object.with_extension("");
        let archive = archive_folder().join("liblens_c.a");
        let mut command = Command::new("cc");
        command.args(watched.words()).arg(&object).arg(archive);
        done(command.args(["-lm", "-o"]).arg(&program));
        program
    }
}

/// Where the engine's archive lies, as the wrapper's build finds it.
pub fn archive_folder() -> PathBuf {
    let named = env::var_os("LENS_C_DIR").filter(|named| !named.is_empty());
    named.map_or_else(|| repository().join("crates/lens_c/out"), PathBuf::from)
}

/// Runs a command that must end well, and gives what it writes.
pub fn done(command: &mut Command) -> String {
    let output =
        command.output().unwrap_or_else(|error| panic!("{command:?} does not start: {error}"));
    let said = String::from_utf8_lossy(&output.stderr);
    assert!(output.status.success(), "{command:?} ends with {}:\n{said}", output.status);
    String::from_utf8(output.stdout).expect("a program writes text")
}

/// A program on its way. The sanitizers' look for leaks asks the system for more than a sandbox
/// may give; valgrind looks for them.
pub fn start(program: &Path) -> Command {
    let mut command = Command::new(program);
    command.env("ASAN_OPTIONS", "detect_leaks=0");
    command
}

/// valgrind before a program, where it is installed: any finding, a leak too, is a failure.
pub fn valgrind(program: &Path) -> Option<Command> {
    Command::new("valgrind").arg("--version").output().ok()?;
    let mut command = Command::new("valgrind");
    command.args(["--quiet", "--leak-check=full", "--errors-for-leak-kinds=all"]);
    command.arg("--error-exitcode=9").arg(program);
    Some(command)
}
