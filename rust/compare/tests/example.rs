//! examples/paint.c, built by the line that README.md gives, and its pictures against the
//! reference.
#![cfg(feature = "proved")]

use std::fs;
use std::path::{Path, PathBuf};
use std::process::Command;

use compare::c::{C11, C99, Watched, archive_folder, done, start, valgrind};
use compare::{repository, say};
use reference::notebook::Notebook;
use reference::spread::{Pictures, pictures};
use reference::{Fill, Lens, Put};

const WIDTH: usize = 192;
const HEIGHT: usize = 108;
const STEPS: usize = 60;

const SAID: &str = "painted: 60 puts, 1920 marks moved\n\
    put: refused (8): the undo log is full\n\
    put: refused (4): the place lies outside the plate\n\
    undone: the pictures are as before\n";

fn folder(name: &str) -> PathBuf {
    let folder = Path::new(env!("CARGO_TARGET_TMPDIR")).join(name);
    fs::create_dir_all(&folder).expect("the folder can be made");
    folder
}

/// The line of README.md that builds the example, and the program that it builds.
fn readme_line() -> (String, PathBuf) {
    let readme = fs::read_to_string(repository().join("README.md")).expect("README.md");
    let mut lines = readme.lines().map(str::trim);
    let line = lines
        .find(|line| line.starts_with("cc ") && line.contains("examples/paint.c"))
        .expect("README.md says how the example is built");
    let program = line.rsplit_once("-o ").expect("the line names what it builds").1;
    (line.to_string(), repository().join(program))
}

/// What a reader types, in the repository's folder; another archive is looked for where
/// `LENS_C_DIR` says.
fn built_by_readme() -> PathBuf {
    let (line, program) = readme_line();
    fs::create_dir_all(program.parent().expect("a folder")).expect("it can be made");
    let archives = archive_folder();
    let line = line.replace("crates/lens_c/out", archives.to_str().expect("a plain path"));
    done(Command::new("sh").args(["-c", &line]).current_dir(repository()));
    program
}

/// The example's layer in a notebook.
fn layer() -> Notebook {
    let places = || (0..HEIGHT).flat_map(|y| (0..WIDTH).map(move |x| (x, y)));
    let values: Vec<u16> =
        places().map(|(x, y)| if (x / 12 + y / 12) % 2 == 0 { 3_600 } else { 400 }).collect();
    let opacities: Vec<u8> =
        places().map(|(_, y)| if y / 12 % 3 == 2 { 0 } else { 255 }).collect();
    let depths: Vec<u32> = places().map(|(x, _)| 12_000 + 100 * x as u32).collect();
    let lens = Lens { opening: 120, focal: 500, focus: 20_000, pitch: 100 };
    let mut notebook = Notebook::open(WIDTH, HEIGHT, 16, STEPS);
    let fill = Fill { lens, shape: 5, values: &values, opacities: &opacities, depths: &depths };
    assert_eq!(notebook.fill(&fill).number, 0);
    notebook
}

/// Its stroke, and the marks that moved.
fn stroke(notebook: &mut Notebook) -> u32 {
    let puts = (0..STEPS).map(|i| {
        let radius = (i / 12) as u8;
        Put { x: 60 + i, y: 20 + i, value: 4_095, opacity: 255, shape: 4, radius }
    });
    puts.map(|put| notebook.put(put).marks).sum()
}

/// Both pictures as PGM files.
fn files(pictures: &Pictures) -> [Vec<u8>; 2] {
    let head = |top: u32| format!("P5\n{WIDTH} {HEIGHT}\n{top}\n").into_bytes();
    let values = pictures.values.iter().flat_map(|value| value.to_be_bytes());
    let mattes = pictures.mattes.iter().copied();
    [
        head(4_095).into_iter().chain(values).collect(),
        head(255).into_iter().chain(mattes).collect(),
    ]
}

fn assert_written(folder: &Path, when: &str, pictures: &Pictures) {
    let [value, matte] = files(pictures);
    for (kind, expected) in [("value", value), ("matte", matte)] {
        let path = folder.join(format!("{when}-{kind}.pgm"));
        let written = fs::read(&path).expect("the example wrote its pictures");
        assert!(written == expected, "{} is not the reference's", path.display());
    }
}

#[test]
fn readme_builds_it_and_its_pictures_are_plain_spreading() {
    let written = folder("painted");
    let said = done(start(&built_by_readme()).arg(&written));
    assert_eq!(said, SAID);
    let mut notebook = layer();
    let before = pictures(&notebook.grid);
    assert_eq!(stroke(&mut notebook), 1_920);
    let painted = pictures(&notebook.grid);
    assert_ne!(before, painted);
    assert_written(&written, "before", &before);
    assert_written(&written, "painted", &painted);
    assert_written(&written, "undone", &before);
}

#[test]
fn watched() {
    let source = repository().join("examples/paint.c");
    let built = folder("paint");
    let written = folder("paint/pictures");
    for language in [C99, C11] {
        let sanitized = language.program(Watched::Sanitized, &source, &built);
        assert_eq!(done(start(&sanitized).arg(&written)), SAID);
    }
    match valgrind(&C11.program(Watched::No, &source, &built)) {
        Some(mut command) => assert_eq!(done(command.arg(&written)), SAID),
        None => say("valgrind is not installed: not run"),
    }
}

/// A folder that is not there is told, and ends the example.
#[test]
fn pictures_that_cannot_be_written() {
    let source = repository().join("examples/paint.c");
    let program = C99.program(Watched::No, &source, &folder("paint-nowhere"));
    let output = Command::new(program).arg("no such folder").output().expect("it starts");
    assert!(!output.status.success());
    let said = String::from_utf8_lossy(&output.stderr);
    assert_eq!(said, "paint: cannot write no such folder/before-value.pgm\n");
}
