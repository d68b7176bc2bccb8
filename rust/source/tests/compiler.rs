//! The texts are read as the compiler reads them: for each function of the crates that the C
//! library is made of, the functions that it runs through, and whether an array is among all that,
//! are the same by the walk and by the compiler's own form of the program.

use source::form::Form;
use source::mention::mentions;
use source::program::Program;
use source::sources::Sources;
use source::walk::{Walk, What};
use std::collections::BTreeSet;

const LIBRARY: &str = "lens_c";

#[test]
fn every_function_is_read_as_the_compiler_reads_it() {
    let sources = Sources::installed().expect("the crates' texts");
    let program = Program::read(&sources, LIBRARY).expect("crates that can be read");
    let form = Form::built(&sources, LIBRARY).expect("the compiler's form of each crate");
    let written = |name: &str| program.function(name).is_some();
    let lost: Vec<&String> =
        form.names().filter(|name| !written(name) && !program.is_made(name)).collect();
    assert!(lost.is_empty(), "functions without a text: {lost:?}");

    let all: BTreeSet<&str> = program.functions().collect();
    let mut with_arrays = 0;
    for &name in &all {
        let compiled = form.get(name).unwrap_or_else(|| panic!("{name} is not compiled"));
        let mentioned = mentioned(&program, name);
        for run in compiled.runs.iter().filter(|run| all.contains(run.as_str())) {
            let last = run.rsplit("::").next().expect("a path with a name");
            assert!(mentioned.contains(last) || program.is_of_trait(run), "{name} runs {run}");
        }

        let walk =
            Walk::from(&program, &form, &[name]).expect("a function that the texts have");
        let reached: Vec<String> = walk.functions().map(|item| program.path(item)).collect();
        let reached: BTreeSet<&str> =
            reached.iter().map(String::as_str).chain(walk.compiled()).collect();
        let run_through = form.run_through(name);
        assert_eq!(reached, run_through, "{name}");
        let has_array = run_through.iter().any(|name| form.get(name).unwrap().has_array);
        assert_eq!(!walk.faults.is_empty(), has_array, "{name}: {:#?}", walk.faults);
        assert!(walk.faults.iter().all(|fault| fault.what == What::Array), "{name}");
        with_arrays += usize::from(has_array);
    }
    let functions = all.len();
    assert!(0 < with_arrays && with_arrays < functions, "{with_arrays} of {functions}");
}

/// The last names of all that a function's text names.
fn mentioned(program: &Program, name: &str) -> BTreeSet<String> {
    let item = &program.item(program.function(name).expect("a function of a text")).item;
    let code = item.code.as_deref().unwrap_or_default();
    mentions(code).into_iter().filter_map(|mention| mention.path.last().cloned()).collect()
}
