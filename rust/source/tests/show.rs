//! No function that show or total runs through has an array, in any crate: sums are read and
//! raised in the cells that the caller lends, and no row or column of them is copied to the stack.

use source::form::Form;
use source::item::Item;
use source::mention::{How, Mention, mentions};
use source::program::{Placed, Program};
use source::sources::Sources;
use source::walk::{Fault, Walk, What};
use std::collections::BTreeSet;
use std::io::Write;
use std::sync::OnceLock;

/// Show in both forms, and total; and these from C.
const STARTS: [&str; 6] = [
    "plate::show::show",
    "lens_c::lens_show",
    "plate::kept::show_kept",
    "lens_c::lens_show_kept",
    "plate::total::total",
    "lens_c::lens_total",
];

/// The crate that reaches all of them.
const LAST: &str = "lens_c";

/// The texts, and what the compiler makes of them.
struct Engine {
    sources: Sources,
    program: Program,
    form: Form,
}

impl Engine {
    fn walk(&self) -> Walk<'_> {
        Walk::from(&self.program, &self.form, &STARTS).expect("show and total are there")
    }

    /// Of the plate's functions the one that is the most calls below a start.
    fn deepest(&self) -> (String, &Placed) {
        let walk = self.walk();
        let paths = walk.functions().map(|item| (item, self.program.path(item)));
        let (deepest, path) = paths
            .filter(|(_, path)| path.starts_with("plate::"))
            .max_by_key(|(item, _)| walk.way(*item).len())
            .expect("a function that is reached");
        (path, self.program.item(deepest))
    }

    fn placed(&self, path: &str) -> &Placed {
        self.program.item(self.program.function(path).expect("a function that is there"))
    }

    /// The functions that show and total run through and that run this one.
    fn callers(&self, path: &str) -> BTreeSet<String> {
        let walk = self.walk();
        let paths = walk.functions().map(|item| self.program.path(item));
        let runs = |caller: &String| self.form.get(caller).unwrap().runs.contains(path);
        paths.filter(runs).collect()
    }

    /// What is wrong with a copy that was edited: the form is that of the texts before.
    fn faults(&self, copy: &Sources) -> Result<Vec<Fault>, String> {
        let program = Program::read(copy, LAST)?;
        Ok(Walk::from(&program, &self.form, &STARTS)?.faults)
    }

    /// The one thing that is wrong with a copy, and the item that has it.
    fn only_fault(&self, copy: &Sources) -> (What, String) {
        let faults = self.faults(copy).expect("a copy that can be read");
        let [Fault { what, item, .. }] = faults.as_slice() else {
            panic!("one fault expected: {faults:#?}");
        };
        (what.clone(), item.clone())
    }

    /// A copy with words before the first one of a function's body or of a constant's value.
    fn with(&self, Placed { item, file, .. }: &Placed, words: &str) -> Sources {
        self.sources.edited(file, code_start(item), "", words)
    }
}

fn engine() -> &'static Engine {
    static ENGINE: OnceLock<Engine> = OnceLock::new();
    ENGINE.get_or_init(|| {
        let sources = Sources::installed().expect("the crates' texts");
        let program = Program::read(&sources, LAST).expect("crates that can be read");
        let form = Form::built(&sources, LAST).expect("the compiler's form of each crate");
        Engine { sources, program, form }
    })
}

fn code_start(item: &Item) -> usize {
    item.code.as_ref().and_then(|code| code.first()).expect("code that is not empty").at
}

fn calls(item: &Item) -> Vec<Mention> {
    let code = item.code.as_deref().expect("a function with a body");
    mentions(code).into_iter().filter(|mention| mention.how != How::Plain).collect()
}

fn last(path: &str) -> &str {
    path.rsplit("::").next().expect("a path with a name")
}

#[test]
fn no_function_of_a_show_or_a_total_has_an_array() {
    let engine = engine();
    let walk = engine.walk();
    let told: Vec<String> = walk.faults.iter().map(Fault::to_string).collect();
    assert!(told.is_empty(), "below show or total:\n{}", told.join("\n"));
    let run_through: BTreeSet<&str> =
        STARTS.iter().flat_map(|start| engine.form.run_through(start)).collect();
    for name in &run_through {
        assert!(!engine.form.get(name).unwrap().has_array, "{name} is compiled to an array");
    }

    let crates: BTreeSet<&str> =
        run_through.iter().filter_map(|path| path.split("::").next()).collect();
    let (count, crates) = (run_through.len(), Vec::from_iter(crates).join(", "));
    let written = walk.functions().count();
    writeln!(
        std::io::stderr(),
        "show and total run through {count} functions of {crates}, {written} of them in the texts"
    )
    .expect("standard error can be written");
}

/// Five calls or more below them.
#[test]
fn an_array_deep_below_them_is_found_and_named() {
    let engine = engine();
    let (deep, placed) = engine.deepest();
    let copy = engine.with(placed, "let row = [0; 4];\n    ");
    let faults = engine.faults(&copy).expect("a copy that can be read");
    let [fault] = faults.as_slice() else {
        panic!("one fault expected: {faults:#?}");
    };
    let file = &placed.file;
    let text = engine.sources.text(file).expect("the function's file");
    let line = 1 + text[..code_start(&placed.item)].matches('\n').count();
    let above = fault.through.join(", ");
    assert_eq!(fault.to_string(), format!("{deep} has an array ({file}:{line}), by {above}"));

    assert!(fault.through.len() >= 5, "{above}");
    assert!(STARTS.contains(&fault.through[0].as_str()), "{above}");
    let below = fault.through.iter().skip(1).chain([&deep]);
    for (above, below) in fault.through.iter().zip(below) {
        assert!(engine.callers(below).contains(above), "{above} does not run {below}");
    }
}

/// Methods and the functions of traits' impls are among them, and so is what a closure holds.
#[test]
fn an_array_in_any_of_these_functions_is_found_and_named() {
    let engine = engine();
    let mut of_types = 0;
    let mut of_traits = 0;
    for function in engine.walk().functions() {
        let placed = engine.program.item(function);
        let path = engine.program.path(function);
        for words in ["let row: &[u64] = &[0; 4]; ", "let row = |cell: u64| [cell; 4]; "] {
            assert_eq!(
                engine.only_fault(&engine.with(placed, words)),
                (What::Array, path.clone())
            );
        }
        of_traits += usize::from(placed.block.is_some());
        of_types += usize::from(placed.owner.is_some() && placed.block.is_none());
    }
    assert!(0 < of_types && 0 < of_traits, "{of_types} and {of_traits}");
}

/// Words before the first field's type of each type that show and total name, and others before the
/// value of each constant, are told there.
fn told_in_types_and_constants(in_type: (&str, What), in_constant: (&str, What)) {
    let engine = engine();
    let mut types = 0;
    let mut constants = 0;
    for item in engine.walk().items().filter(|item| !engine.program.is_function(*item)) {
        let placed @ Placed { item: named, file, .. } = engine.program.item(item);
        let (copy, what) = if named.code.is_some() {
            constants += 1;
            (engine.with(placed, in_constant.0), &in_constant.1)
        } else if let Some(field) = named.types.iter().position(|token| token.is(":")) {
            types += 1;
            let kind = named.types[field + 1].at;
            (engine.sources.edited(file, kind, "", in_type.0), &in_type.1)
        } else {
            continue;
        };
        assert_eq!(engine.only_fault(&copy), (what.clone(), engine.program.path(item)));
    }
    assert!(0 < types && 0 < constants, "{types} and {constants}");
}

#[test]
fn an_array_in_a_type_or_a_constant_that_they_name_is_found_and_named() {
    told_in_types_and_constants(
        ("[u64; 4], other: ", What::Array),
        ("[0; 4][0] + ", What::Array),
    );
}

/// A type, a constant and a function that is not run, in a body, and a type in a signature.
#[test]
fn what_std_has_is_not_found_in_any_of_these_functions() {
    let engine = engine();
    for function in engine.walk().functions() {
        let placed @ Placed { item, file, .. } = engine.program.item(function);
        let in_body = [
            ("std::array::IntoIter", "let copy: std::array::IntoIter<u64, 4096> = light; "),
            ("std::gone::Row", "let copy: std::gone::Row<4096> = light; "),
            ("std::gone::ROW", "let copy = std::gone::ROW; "),
            ("std::gone::row", "let copy = std::gone::row; "),
        ]
        .map(|(name, words)| (name, engine.with(placed, words)));
        let open = item.types.iter().find(|token| token.is("(")).expect("a signature").at;
        let words = "(copy: std::array::IntoIter<u64, 4096>, ";
        let in_signature = engine.sources.edited(file, open, "(", words);
        for (name, copy) in in_body.into_iter().chain([("std::array::IntoIter", in_signature)])
        {
            let lost = What::NotFound(name.into());
            assert_eq!(engine.only_fault(&copy), (lost, engine.program.path(function)));
        }
    }
}

#[test]
fn what_std_has_is_not_found_in_any_type_or_constant_that_they_name() {
    let lost = |name: &str| What::NotFound(name.into());
    told_in_types_and_constants(
        ("std::array::IntoIter<u64, 4096>, other: ", lost("std::array::IntoIter")),
        ("std::gone::ROW[0] + ", lost("std::gone::ROW")),
    );
}

/// A call that the compiler's form does not have, of the table of shares: by its path it is followed,
/// and by a method's name it is not found.
#[test]
fn a_call_of_a_function_with_an_array_is_told() {
    let engine = engine();
    let (deep, placed) = engine.deepest();
    let faults = engine.faults(&engine.with(placed, "kernels::share::shares(); "));
    let faults = faults.expect("a copy that can be read");
    assert!(!faults.is_empty() && faults.iter().all(|fault| fault.what == What::Array));
    assert!(faults.iter().all(|fault| fault.through.contains(&deep)), "{faults:#?}");

    let copy = engine.with(placed, "cell.fill_rows(); ");
    assert_eq!(engine.only_fault(&copy), (What::NotFound("fill_rows".into()), deep));
}

#[test]
fn a_call_that_is_renamed_is_not_found() {
    let engine = engine();
    let mut renamed = 0;
    for function in engine.walk().functions() {
        let Placed { item, file, .. } = engine.program.item(function);
        for Mention { mut path, at, .. } in calls(item) {
            let name = path.pop().expect("a path with a name");
            let other = format!("other_{name}");
            let copy = engine.sources.edited(file, at, &name, &other);
            path.push(other);
            let lost = What::NotFound(path.join("::"));
            assert_eq!(engine.only_fault(&copy), (lost, engine.program.path(function)));
            renamed += 1;
        }
    }
    assert!(renamed > 0);
}

/// Each function that runs one whose text is gone is told.
fn all_lose(copy: &Sources, path: &str, callers: &BTreeSet<String>) {
    let faults = engine().faults(copy).expect("a copy that can be read");
    for Fault { what, .. } in &faults {
        let What::NotFound(lost) = what else {
            panic!("{path}: {faults:#?}");
        };
        assert_eq!(last(lost), last(path), "{faults:#?}");
    }
    let told: BTreeSet<String> = faults.into_iter().map(|fault| fault.item).collect();
    assert_eq!(&told, callers, "{path}");
}

#[test]
fn a_function_that_is_renamed_is_not_found() {
    let engine = engine();
    for function in engine.walk().functions() {
        let path = engine.program.path(function);
        let Placed { item, file, .. } = engine.program.item(function);
        if !STARTS.contains(&path.as_str()) {
            let other = format!("other_{}", item.name);
            let copy = engine.sources.edited(file, item.at, &item.name, &other);
            all_lose(&copy, &path, &engine.callers(&path));
        }
    }
}

#[test]
fn a_function_that_is_not_brought_in_is_not_found() {
    let engine = engine();
    let walk = engine.walk();
    let placed = walk.functions().map(|function| engine.program.item(function));
    let modules: BTreeSet<(usize, &str)> =
        placed.map(|placed| (placed.module, placed.file.as_str())).collect();
    let mut lost = 0;
    for (module, file) in modules {
        for (at, function) in engine.program.brought_in(module) {
            let path = engine.program.path(function);
            let mut callers = engine.callers(&path);
            callers.retain(|caller| engine.placed(caller).module == module);
            lost += callers.len();
            let name = last(&path);
            let copy = engine.sources.edited(file, at, name, &format!("other_{name}"));
            all_lose(&copy, &path, &callers);
        }
    }
    assert!(lost > 0);
}

#[test]
fn a_file_or_a_start_that_is_gone_is_told() {
    let engine = engine();
    let (_, Placed { file, .. }) = engine.deepest();
    let mut copy = engine.sources.clone();
    copy.remove(file);
    assert_eq!(engine.faults(&copy).unwrap_err(), format!("there is no {file}"));

    for start in STARTS {
        let Placed { item, file, .. } = engine.placed(start);
        let copy = engine.sources.edited(file, item.at, &item.name, "shown");
        assert_eq!(engine.faults(&copy).unwrap_err(), format!("there is no {start}"));
    }
}
