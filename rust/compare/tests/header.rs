//! include/lens.h in C programs, compiled as C and as C++ with every warning an error; linked
//! with the engine and run where the engine is there, by themselves and watched.

use std::fs;
use std::path::{Path, PathBuf};

use compare::c::{C11, LANGUAGES, Watched};
use compare::repository;

fn source(name: &str) -> PathBuf {
    Path::new(env!("CARGO_MANIFEST_DIR")).join("tests/header").join(name)
}

/// A folder for what one test builds: another may build the same at once.
fn folder(test: &str) -> PathBuf {
    let folder = Path::new(env!("CARGO_TARGET_TMPDIR")).join(test);
    fs::create_dir_all(&folder).expect("the folder can be made");
    folder
}

#[test]
fn the_header_compiles_by_itself() {
    let folder = folder("alone");
    for language in LANGUAGES {
        language.header_alone();
        for program in ["plate.c", "helpers.c"] {
            language.object(Watched::No, &source(program), &folder);
        }
    }
    C11.object(Watched::Sanitized, &source("helpers.c"), &folder);
}

/// The version of header and workspace is README's.
#[test]
fn readme_names_the_version() {
    let readme = fs::read_to_string(repository().join("README.md")).expect("README.md");
    assert!(readme.contains(concat!("version ", env!("CARGO_PKG_VERSION"), ".")));
}

#[cfg(feature = "proved")]
mod with_engine {
    use std::collections::BTreeSet;
    use std::fmt::Write;
    use std::process::Command;

    use compare::c::{C11, LANGUAGES, Watched, archive_folder, done, start, valgrind};
    use compare::say;
    use lens::{Layer, Lens, Pixel, Plate, Refusal, Shape, Totals};

    use super::{folder, source};

    const PLATE: &str = "put 0 16 count 1\nput 0 16 count 2\nput 8 0 count 2\n\
        show 0: 46/255 100/28 100/28\n\
        total 0: 4278190080 299473305600\n\
        show 0: 100/28 100/28 100/28\n\
        total 0: 2139095040 213909504000\n\
        total 2: 0 0\n\
        fill 17\nfill 0\n\
        show 0: 7/255 8/255 9/255\n\
        show kept 0: 0/0 0/0 0/0\n\
        put kept 0: 100/28 100/28 100/28\n\
        put kept 0: 46/255 100/28 100/28\n\
        put kept 8: 46/255 100/28 100/28\n\
        undo kept 2: 46/255 100/28 100/28\n\
        undo kept 0: 100/28 100/28 100/28\n\
        sums 23767708500 237677085\n";

    fn in_every_language(name: &str, text: &str) {
        let folder = folder(name);
        for language in LANGUAGES {
            let program = language.program(Watched::No, &source(name), &folder);
            assert_eq!(done(&mut start(&program)), text, "{}", language.name);
        }
    }

    /// The two functions that README names: a program without a C library brings them itself.
    #[test]
    fn what_the_archive_calls() {
        let archive = archive_folder().join("liblens_c.a");
        let told = done(Command::new("nm").arg("--undefined-only").arg(archive));
        let called: BTreeSet<&str> =
            told.lines().filter_map(|line| line.trim().strip_prefix("U ")).collect();
        assert_eq!(called, BTreeSet::from(["memcpy", "memset"]));
    }

    #[test]
    fn a_plate() {
        in_every_language("plate.c", PLATE);
    }

    /// What the header names, limits, measures and says is what the Rust crate does.
    #[test]
    fn helpers_of_the_header() {
        in_every_language("helpers.c", &helpers());
    }

    #[test]
    fn watched() {
        let folder = folder("watched");
        for (name, text) in [("plate.c", PLATE.to_string()), ("helpers.c", helpers())] {
            let sanitized = C11.program(Watched::Sanitized, &source(name), &folder);
            assert_eq!(done(&mut start(&sanitized)), text);
            let plain = C11.program(Watched::No, &source(name), &folder);
            match valgrind(&plain) {
                Some(mut command) => assert_eq!(done(&mut command), text),
                None => say("valgrind is not installed: not run"),
            }
        }
    }

    fn helpers() -> String {
        let mut text = String::new();
        text.push_str(&limits());
        for number in 0..40 {
            let said = match Refusal::from_number(number) {
                None => "accepted",
                Some(Refusal::Other(_)) => {
                    "a number that this header has no name for: the archive is of another version"
                }
                Some(refusal) => refusal.text(),
            };
            writeln!(text, "number {number} {said}").unwrap();
        }
        text.push_str("lengths 2493556 34909784 2073600 7480668 2073600 4147200\n");
        text.push_str("lengths 0 0 0 0 0 0\nlengths 0 0 0 0 0 0\nlengths 0 0 1 0 1 2\n");
        text.push_str("taken 0 0\ntaken 0 0\ntaken 0 0\n");
        for shape in Shape::ALL {
            write!(text, "tops {}", shape.number()).unwrap();
            for reach in 0..=Plate::MAX_REACH {
                write!(text, " {}", shape.top_radius(reach)).unwrap();
            }
            text.push('\n');
        }
        text.push_str("no shape 0\npixel 2748 254 5 61\npixel 0 0 0 0\n");
        text.push_str("nothing lent 2 2 2 2 2 2 2 2 2\nno log 0 8 9\nlog 2\n");
        text
    }

    fn limits() -> String {
        let version: Vec<u32> =
            env!("CARGO_PKG_VERSION").split('.').map(|part| part.parse().unwrap()).collect();
        let [major, minor, patch] = version[..] else { panic!("three numbers") };
        let shapes = Shape::ALL.map(|shape| shape.number().to_string()).join(" ");
        format!(
            "version {}\nlimits {} {} {} {} {} {} {} {}\nwhole {}\nshapes {shapes}\n",
            10_000 * major + 100 * minor + patch,
            Plate::MAX_SIDE,
            Plate::MAX_PIXELS,
            Plate::MAX_REACH,
            Plate::MAX_UNDO_STEPS,
            Pixel::MAX_VALUE,
            Lens::MAX_OPENING,
            Layer::MAX_DEPTH,
            Lens::MAX_PITCH,
            Totals::WHOLE,
        )
    }
}
