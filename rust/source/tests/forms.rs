//! Small texts, one for each form: which are arrays and which are not, what a name names, what the
//! compiler adds to it, and what cannot be read.

use source::form::Form;
use source::program::Program;
use source::sources::Sources;
use source::walk::{Fault, Walk, What};

/// What is wrong below the function `start` of a crate `first` that needs a crate `second`, where
/// the compiler says nothing.
fn faults(files: &[(&str, &str)]) -> Result<Vec<Fault>, String> {
    let mut sources = Sources::default();
    sources.name("std", "");
    sources.add("std/src/lib.rt", "");
    faults_by(sources, files, &Form::default())
}

fn faults_by(
    mut sources: Sources,
    files: &[(&str, &str)],
    form: &Form,
) -> Result<Vec<Fault>, String> {
    for (name, needs) in [("first", "second"), ("second", ""), ("third", "")] {
        sources.name(name, needs);
        sources.add(&format!("{name}/src/lib.rt"), "");
    }
    for (file, text) in files {
        sources.add(file, text);
    }
    let program = Program::read(&sources, "first")?;
    Ok(Walk::from(&program, form, &["first::start"])?.faults)
}

/// A function as the compiler has it: its name, what it runs, and whether it has an array.
type Function<'a> = (&'a str, &'a str, bool);

/// What is wrong below `start` of one text, where the compiler says what its functions run.
fn compiled(text: &str, functions: &[Function]) -> Vec<Fault> {
    let bodies = functions.iter().map(|(name, runs, has_array)| {
        let runs = runs.split_whitespace().map(|run| format!("{{\"Fn\":[\"{run}\"]}}"));
        let array = has_array.then(|| "\"Array\"".to_string());
        (*name, Vec::from_iter(runs.chain(array)).join(","))
    });
    compiled_to(text, &Vec::from_iter(bodies))
}

/// The same, where the words of each function's body are given.
fn compiled_to(text: &str, bodies: &[(&str, String)]) -> Vec<Fault> {
    let form = bodies
        .iter()
        .map(|(name, body)| format!("[\"{name}\",{{\"lifetimes\":0,\"body\":[{body}]}}]"));
    let form = Form::read(&[format!("[{}]", Vec::from_iter(form).join(","))]);
    let read = faults_by(Sources::default(), &[("first/src/lib.rt", text)], &form);
    read.unwrap_or_else(|fault| panic!("{text}: {fault}"))
}

/// What is wrong below a `start` that is added to the text, of which the compiler says what it runs.
fn started(text: &str, functions: &[Function], runs: &str, body: &str) -> Vec<Fault> {
    let text = format!("{text} fn start(n: u64) {{ {body} }}");
    compiled(&text, &[functions, &[("first::start", runs, false)]].concat())
}

fn in_first(text: &str) -> Vec<Fault> {
    faults(&[("first/src/lib.rt", text)]).unwrap_or_else(|fault| panic!("{text}: {fault}"))
}

/// The only item below `start` that is wrong, and how.
fn only(faults: &[Fault]) -> (&str, &What) {
    let [Fault { item, what, .. }] = faults else {
        panic!("one fault expected: {faults:#?}");
    };
    (item, what)
}

fn unread(text: &str) -> String {
    faults(&[("first/src/lib.rt", text)]).expect_err(text)
}

#[test]
fn arrays_in_a_body() {
    for body in [
        "let row = [1, 2];",
        "let row = [0; 4];",
        "let row = [];",
        "let row: [u64; 4] = n;",
        "let row: &[[u64; 4]] = n;",
        "let row: &[u64] = &[n];",
        "let row = S { row: &[n] };",
        "let row = b\"abc\";",
        "let row = br\"abc\";",
        "let Some { row: part } = [n];",
        "if n { n } [1]",
        "return [n][0];",
        "let rows = |cell: u64| [cell; 4];",
        "let sum = |cells: &[u64]| n; sum(&[n])",
        "for cell in n.iter().rev() { |n| n == [cell] }",
        "let Some(row) = n else { return [n]; };",
        "start::<[u64; 4]>(n)",
        "#[inline] { [n] }",
        "start(&mut [0; 4])",
        "start([n][0])",
        "break 'rows [n];",
        "n == [n]",
        "for i in [n] { }",
        "match n { 0 => [n], }",
    ] {
        let text = "struct S { row: u64 } enum Some { N } pub fn start(n: u64) -> u64 { BODY }";
        let faults = in_first(&text.replace("BODY", body));
        assert!(!faults.is_empty(), "{body}");
        assert!(faults.iter().all(|fault| fault.what == What::Array), "{body}: {faults:#?}");
        assert!(faults.iter().all(|fault| fault.item == "first::start"), "{body}: {faults:#?}");
    }
}

#[test]
fn no_arrays_in_a_body() {
    for body in [
        "let cell = row[n];",
        "let part: &[u64] = &row[1..];",
        "let part = &mut row[..n];",
        "let cell = rows[n][row[0]] + (row)[1];",
        "row[n] = row[n - 1] + u64::MAX;",
        "start(&row[n..m]); // [0; 4]\n",
        "'rows: for i in 0..n { if row.len() < i { break 'rows; } }",
        "for i in 0..=row[n] { let byte = b'['; let quote = b'\\''; }",
        "let first = 0.5; let second = 1..2; let pair = p.0[n];",
        "let Some(cell) = first else { return; }; let Pair { left, .. } = row[n];",
        "let size = Size { high: n, wide, ..size }; if let Ok(cell) | Err(cell) = row[n] { }",
        "match n { 1 | 2 => row[0], 3..=9 if n < 5 => row[1], _ => first?[n], }",
        "let add = |cell: u64, &by| cell + by; let sum = add(row[n], n);",
        "for cell in row.iter_mut().rev() { *cell = cell.wrapping_add(n); }",
        "#[inline(always)] for (i, cell) in row.iter().enumerate() { row[i] << 2 >> 1; }",
    ] {
        let size = "struct Size { wide: u64, high: u64 } struct Pair { left: u64 }";
        let faults =
            in_first(&format!("{size} pub fn start(row: &[u64], n: usize) {{ {body} }}"));
        assert!(faults.is_empty(), "{body}: {faults:#?}");
    }
}

#[test]
fn arrays_in_signatures_types_and_constants() {
    for (item, text) in [
        ("start", "pub fn start(row: [u64; 4]) {}"),
        ("start", "pub fn start(row: &[u64; 4]) {}"),
        ("start", "pub fn start() -> &[[u64; N]] {} const N: usize = 4;"),
        ("ROW", "const ROW: [u64; 2] = [1, 2]; fn start() -> u64 { ROW[0] }"),
        ("ROW", "const ROW: Row = [1, 2]; type Row = u64; fn start() -> u64 { ROW[0] }"),
        ("Row", "type Row = [u64; 2]; fn start(row: Row) {}"),
        ("Row", "pub struct Row { pub cells: [u64; 2] } fn start(row: &Row) {}"),
        (
            "Row",
            "struct Row([u64; 2]); fn start(n: u64) { let row = Row(other(n)); } fn other() {}",
        ),
        ("Row", "enum Row { None, Some([u64; 2]) } fn start() { let row = Row::None; }"),
        ("Row", "enum Row { A { c: [u8; 2] }, B = 3 } fn start() { match n { Row::B => 0, } }"),
        ("Row", "struct Row { c: [u8; 2] } struct Two { row: Row } fn start(two: &mut Two) {}"),
        ("other", "fn start() { let row = other(); } fn other() -> [u64; 2] {}"),
        ("other", "fn start() { let row = other::<>(); } fn other() -> [u64; 2] {}"),
        ("start", "fn start<const N: usize>(row: &[u64; N]) {}"),
        ("start", "fn start<T: From<[u64; 2]>>(row: T) {}"),
        ("start", "fn start(each: impl FnMut([u64; 2])) {}"),
        ("Row", "struct Row<T> where T: From<[u8; 2]> { c: T } fn start(row: Row<u64>) {}"),
        ("Row", "struct Row { ghost is: { Lawful c }, c: [u8; 2] } fn start(row: &mut Row) {}"),
        ("Row", "enum Row<T> { A(T), B([u8; 2]) } fn start(row: Row<u64>) {}"),
        ("Row", "trait Row: From<[u8; 2]> { fn row(self); } fn start(row: impl Row) {}"),
        ("S::ROW", "struct S; impl S { const ROW: [u8; 1] = [1]; } fn start() { S::ROW; }"),
        (
            "ST::Row",
            "struct S; impl T for S { type Row = [u8; 1]; } trait T { type Row; } \
                    fn start(row: S::Row) {}",
        ),
    ] {
        let faults = in_first(text);
        let item = format!("first::{item}");
        assert!(!faults.is_empty(), "{text}");
        assert!(faults.iter().all(|fault| fault.what == What::Array), "{text}: {faults:#?}");
        assert!(faults.iter().all(|fault| fault.item == item), "{text}: {faults:#?}");
    }
}

/// Slices, what is not named, and what only the prover reads.
#[test]
fn no_arrays_in_signatures_types_and_constants() {
    for text in [
        "#[no_mangle] pub extern \"C\" fn start<'a>(row: &'a mut [u64]) -> &'a [u64] where 'a: 'b {}",
        "ghost use a.B.{c, _[_]}; fn start() requires { ⌜ [0; 4] ⌝ } ensures e { λ r. { [a] } } {}",
        "struct S { n: u64, ghost { [u8; 2] } } fn start(s: S) {}",
        "const ROW: [u64; 2] = [1, 2]; fn other() -> [u64; 2] { ROW } fn start() {}",
        "fn other() -> [u64; 2] {} fn start() { let other = 3; other }",
        "struct S { n: u64, ghost in_n: { n < length [0; 4] }, } fn start(s: S) {}",
        "struct S; impl S { ghost use a.{c, _[_]}; fn a() {} } fn start() { S::a() }",
        "impl From<S> for u8 { ghost from_gives = { λ s n. [n; 4] }; fn from(s: S) -> u8 { 0 } } \
         struct S; fn start(s: S) { u8::from(s) }",
        "trait T { ghost area: { Self → ℕ } = { λ s. [s] }; fn a(); } fn start(t: impl T) {}",
        "#[derive(Clone, Copy)] struct S; #[tactic(auto, using(a::[b; 4]))] fn start(s: S) {}",
        "fn start<'a, T, const N: usize>(s: &'a [T]) -> T where T: From<u8> { N; s[N] }",
        "pub(crate) const fn start() -> Option<u64> { None::<u64>; Some(3) }",
    ] {
        let faults = in_first(text);
        assert!(faults.is_empty(), "{text}: {faults:#?}");
    }
}

const DEEP: &str = "pub fn deep() { let row = [0; 4]; }";

/// Below `start` of each text lies the function of `DEEP`, which stands in a file of its own.
fn all_reach(item: &str, file: &str, texts: &[&str]) {
    for text in texts {
        let faults = faults(&[("first/src/lib.rt", text), (file, DEEP)]);
        let faults = faults.unwrap_or_else(|fault| panic!("{text}: {fault}"));
        assert_eq!(only(&faults), (item, &What::Array), "{text}");
    }
}

#[test]
fn names_of_other_modules() {
    let texts = [
        "mod a; fn start() { a::deep(); }",
        "mod a; fn start() { crate::a::deep(); }",
        "mod a; fn start() { self::a::deep(); }",
        "mod a; use a::deep; fn start() { deep(); }",
        "mod a; use crate::a::deep as other; fn start() { other(); }",
        "mod a; use a as b; fn start() { b::deep(); }",
        "mod a; use a::{self, deep}; fn start() { deep(); }",
        "mod a; use crate::{a::{deep as one}}; fn start() { one(); }",
        "mod a; use a::*; fn start() { deep(); }",
        "mod a; mod b { pub use super::a::deep; } fn start() { b::deep(); }",
        "mod a; mod b { pub use crate::a::*; } use b::*; fn start() { deep(); }",
        "mod a; mod b { pub fn c() { super::a::deep(); } } fn start() { b::c(); }",
    ];
    all_reach("first::a::deep", "first/src/a.rt", &texts);
}

#[test]
fn names_of_other_crates() {
    let texts = [
        "fn start() { second::deep(); }",
        "use second; fn start() { second::deep(); }",
        "use second as other; fn start() { other::deep(); }",
        "pub use second::deep; fn start() { crate::deep(); }",
        "mod a { use second::deep; pub fn b() { deep(); } } fn start() { a::b(); }",
    ];
    all_reach("second::deep", "second/src/lib.rt", &texts);
    let below = [
        ("first/src/lib.rt", "fn start() { std::num::below::deep(); }"),
        ("std/src/lib.rt", "pub mod num;"),
        ("std/src/num.rt", "pub mod below;"),
        ("std/src/num/below.rt", DEEP),
    ];
    let faults = faults(&below).expect("texts that can be read");
    assert_eq!(only(&faults), ("std::num::below::deep", &What::Array));
}

#[test]
fn functions_of_types() {
    for text in [
        "struct S; impl S { fn deep() { [0; 4] } } fn start() { S::deep(); }",
        "struct S; impl S { fn deep(self) { [0; 4] } } fn start(s: S) { s.deep(); }",
        "struct S; impl S { fn a() { Self::deep() } fn deep() { [0] } } fn start() { S::a(); }",
        "struct S<'a>(u8); impl<'a> S<'a> { pub fn deep(self) { [0] } } fn start() { n.deep() }",
        "struct T; struct S; impl T { fn deep() {} } impl S { fn deep(self) { [0] } } \
         fn start() { n.deep() }",
        "struct S<T>(T); impl<T: Into<u8>> S<T> { fn deep(&self) { [0] } } \
         fn start() { S::<u8>::deep(n) }",
        "struct S; impl S { fn a(&self) -> &Self { self.deep() } fn deep(&self) { [0] } } \
         fn start(s: S) { s.b.iter().len(|n| n.a()) }",
        "trait S { fn a(); fn deep(self) { [0] } } fn start(s: impl S) { s.deep() }",
        "trait S { fn deep() { [0] } } fn start<T: S>() { T::deep() }",
    ] {
        let faults = in_first(text);
        assert_eq!(only(&faults), ("first::S::deep", &What::Array), "{text}");
    }
}

/// The compiler's name for such an `impl` is part of the path.
#[test]
fn functions_of_traits() {
    let text = "struct S; struct Unknown; \
        impl TryFrom<u8> for S { type Error = Unknown; \
            fn try_from(n: u8) -> Result<Self, Self::Error> { Ok([S]) } } \
        impl From<&second::Other> for S { fn from(n: &second::Other) -> S { S } } \
        impl From<S> for u64 { fn from(s: S) -> u64 { [3][0] } } ";
    let other = ("second/src/lib.rt", "pub struct Other;");
    for (item, start) in [
        ("STryFromU8::try_from", "fn start() { S::try_from(3)?; }"),
        ("STryFromU8::try_from", "fn start(n: u8) -> Option<S> { n.try_into().len() }"),
        ("U64FromS::from", "fn start(s: S) -> u64 { s.into() }"),
        ("U64FromS::from", "fn start(s: S) -> u64 { u64::from(s) }"),
    ] {
        let text = format!("{text}{start}");
        let faults = faults(&[("first/src/lib.rt", &text), other]);
        let faults = faults.unwrap_or_else(|fault| panic!("{text}: {fault}"));
        assert_eq!(only(&faults), (&*format!("first::{item}"), &What::Array), "{start}");
    }
}

/// A call that no word names, one that a method's name leaves open, and what the toolchain has.
#[test]
fn what_the_compiler_runs() {
    let text = "#[derive(PartialEq)] struct T; struct S; impl T { fn deep() {} } \
        impl S { fn deep(self) { [0] } } impl From<T> for S { fn from(t: T) -> S { [S][0] } } ";
    let (deep, of_t) = (("first::S::deep", "", true), ("first::T::deep", "", false));
    let from = ("first::SFromT::from", "", true);
    let eq = ("first::TPartialEq::eq", "core::any", false);
    let (any, below) = (("core::any", "core::below", false), ("core::below", "", true));
    let functions = [deep, of_t, from, eq, any, below];
    for (item, runs, body) in [
        ("first::S::deep", "first::S::deep", "n.deep()"),
        ("", "first::T::deep", "n.deep()"),
        ("first::SFromT::from", "first::SFromT::from", "n?"),
        ("", "", "n?"),
        ("core::below", "core::any", "n.iter().any(|n| n < 3)"),
        ("core::below", "core::any", "u64::any(n)"),
        ("core::below", "first::TPartialEq::eq", "n == n"),
        ("core::below", "first::TPartialEq::eq", "T::eq(n, n)"),
    ] {
        let faults = started(text, &functions, runs, body);
        match item {
            "" => assert!(faults.is_empty(), "{body}: {faults:#?}"),
            _ => assert_eq!(only(&faults), (item, &What::Array), "{body}"),
        }
    }
}

/// A name that the compiler does not have run is not found; and neither is what it has run, where
/// no text and no derive has it.
#[test]
fn what_the_compiler_does_not_run() {
    let text = "struct T; impl T { fn deep(self) {} } struct S; ";
    let functions =
        ["core::any", "first::T::deep", "first::SFromT::from", "first::TClone::clone"]
            .map(|name| (name, "", false));
    for (name, runs, body) in [
        ("other_any", "core::any", "n.other_any()"),
        ("u64::other_any", "core::any", "u64::other_any(n)"),
        ("any", "", "n.any()"),
        ("deep", "", "n.deep()"),
        ("T::deep", "", "T::deep(n)"),
        ("T::any", "", "T::any(n)"),
        ("first::SFromT::from", "first::SFromT::from", "n?"),
        ("clone", "first::TClone::clone", "n.clone()"),
    ] {
        let faults = started(text, &functions, runs, body);
        assert_eq!(only(&faults), ("first::start", &What::NotFound(name.into())), "{body}");
    }
}

/// What the compiler has run and its form does not have is not found, and a function of C has no
/// text: called by name, handed on with an `impl`, or called by an address.
#[test]
fn what_the_compiler_does_not_have() {
    let called = |name| format!("{{\"Call\":[{{\"Fn\":[\"{name}\",{{\"types\":[]}}]}}]}}");
    let handed = |name| format!("{{\"methods\":[\"core::S::eq\",\"{name}\"]}}");
    let by_address = "{\"CallV\":[{\"Copy\":0}]}".to_string();
    let foreign = "{\"Foreign\":{\"symbol\":\"read\"}}".to_string();
    let below = |start: String, any: String| {
        let of_core = [("core::any", any), ("core::S::eq", String::new())];
        let others = [("first::start", start), ("libc::read", foreign.clone())];
        compiled_to("fn start(n: u64) { n == n }", &[of_core, others].concat())
    };

    let gone = What::NotFound("libc::gone".into());
    for body in [called("libc::gone"), handed("libc::gone")] {
        assert_eq!(only(&below(body.clone(), String::new())), ("first::start", &gone));
        assert_eq!(only(&below(called("core::any"), body)), ("core::any", &gone));
    }
    for body in [called("libc::read"), handed("libc::read")] {
        assert_eq!(only(&below(called("core::any"), body)), ("libc::read", &What::Foreign));
    }
    let faults = below(called("core::any"), by_address);
    assert_eq!(only(&faults), ("core::any", &What::NotFound("CallV".into())));
    for body in [called("core::S::eq"), handed("core::S::eq")] {
        assert!(below(called("core::any"), body.clone()).is_empty(), "{body}");
    }
}

/// A type that is known to hold no array, and functions that are run.
#[test]
fn names_of_std() {
    for (runs, body) in [
        ("", "fn start(n: std::ops::Range<u64>) { let m: std::ops::Range<u64> = n; }"),
        ("", "use std::ops::Range; fn start(n: Range<u64>) { Range { start: 0, end: 3 } }"),
        ("", "use std::ops::Range as Other; struct S(Other<u64>); fn start(s: S) {}"),
        ("", "use std::{ops}; fn start(n: ops::Range<u64>) {}"),
        ("", "use std::ops::*; fn start(n: Range<u64>) {}"),
        ("", "mod a { pub use std::ops::Range; } fn start(n: a::Range<u64>) {}"),
        ("core::any", "fn start() { std::gone::any(3); }"),
        ("core::any", "fn start() { std::ops::Range::any(3); std::ops::Range::<u64>::any(3) }"),
        ("core::any", "use std::gone::any; fn start() { any(3); other(any) } fn other() {}"),
        ("core::any", "fn start() { let each = std::gone::any; }"),
        ("", "use std::gone::any; fn start(any: u64) { any + 3 }"),
        ("", "use std::gone::any; fn start() { let any = |n: u64| n; any(3) }"),
    ] {
        let functions = [("core::any", "", false), ("first::start", runs, false)];
        let faults = compiled(body, &functions);
        assert!(faults.is_empty(), "{body}: {faults:#?}");
    }
}

/// Other types and constants, and functions not run, also where the compiler says nothing.
#[test]
fn names_of_std_that_are_not_found() {
    for (item, name, text) in [
        (
            "start",
            "std::array::IntoIter",
            "fn start() { let copy: std::array::IntoIter<u64, 4096> = light; }",
        ),
        ("start", "std::gone::Row", "fn start() { let copy: std::gone::Row<4096> = light; }"),
        ("start", "std::array::IntoIter", "fn start(n: &std::array::IntoIter<u64, 4096>) {}"),
        ("start", "std::gone::Row", "fn start<T: From<std::gone::Row>>() {}"),
        (
            "S",
            "std::array::IntoIter",
            "struct S { row: std::array::IntoIter<u64, 4096> } fn start(s: S) {}",
        ),
        ("S", "std::gone::Row", "enum S { N, Row(std::gone::Row<4>) } fn start() { S::N }"),
        ("ROW", "std::gone::ROW", "const ROW: u64 = std::gone::ROW[0]; fn start() { ROW }"),
        ("Row", "std::gone::Row", "type Row = std::gone::Row; fn start(row: &[Row]) {}"),
        ("start", "IntoIter", "use std::array::IntoIter; fn start(n: IntoIter<u64, 4>) {}"),
        ("start", "Row", "use std::array::IntoIter as Row; fn start(n: Row<u64, 4>) {}"),
        ("start", "array::IntoIter", "use std::array; fn start(n: array::IntoIter<u64, 4>) {}"),
        ("start", "IntoIter", "use std::array::*; fn start(n: IntoIter<u64, 4>) {}"),
        (
            "start",
            "a::Row",
            "mod a { pub use std::array::IntoIter as Row; } fn start(n: a::Row<u64, 4>) {}",
        ),
        ("start", "std::array::ROW", "fn start() { std::array::ROW[0] }"),
        ("start", "ROW", "use std::array::ROW; fn start() { let row = &ROW; }"),
        ("start", "std::ops::Range::ROW", "fn start() { std::ops::Range::ROW; }"),
        ("start", "other", "fn start() { std::ops::Range::<u64>::other(); }"),
        ("start", "std::array::any", "fn start() { std::array::any(3); }"),
        ("start", "std::array::any", "fn start() { other(std::array::any) } fn other() {}"),
        ("start", "any", "use std::array::any; fn start() { any(3) }"),
        ("start", "any", "use std::array::any; fn start() { let each = any; }"),
        ("start", "std::array::IntoIter::any", "fn start() { std::array::IntoIter::any(3) }"),
    ] {
        let item = format!("first::{item}");
        for functions in [&[][..], &[("first::start", "", false), ("core::any", "", false)]] {
            let faults = compiled(text, functions);
            assert_eq!(only(&faults), (&*item, &What::NotFound(name.into())), "{text}");
        }
    }

    let text = "impl From<u8> for std::gone::Row { fn from(n: u8) -> Self {} } \
        fn start(n: u8) { n.into() }";
    let gone = What::NotFound("std::gone::Row".into());
    assert_eq!(only(&compiled(text, &[])), ("first::RowFromU8::from", &gone));
}

#[test]
fn names_that_are_not_found() {
    for (name, text) in [
        ("other", "fn start() { other(); }"),
        ("a::other", "mod a { } fn start() { a::other(); }"),
        ("a", "mod a { } fn start() { a(); }"),
        ("b::other", "fn start() { b::other; }"),
        ("other", "use second::other; fn start() { other(); }"),
        ("other", "use other; fn start() { other(); }"),
        ("other", "use second::*; fn start() { other(); }"),
        ("third::deep", "fn start() { third::deep(); }"),
        ("other", "fn start() { n.other(); }"),
        ("other", "fn start() { other::<>(); }"),
        (")", "fn start() { (other)(); } fn other() {}"),
        ("Other", "fn start(n: Other) {}"),
        ("Other", "fn start() { let n = Other { n: 3 }; }"),
        ("OTHER", "fn start() { OTHER + 1 }"),
        ("S::Other", "enum S { One } fn start() { match n { S::Other => 0, } }"),
        ("Self::other", "fn start() { Self::other(); }"),
        ("T::other", "fn start<T>(n: T) { T::other(); }"),
        ("u64::from", "fn start(n: u8) { u64::from(n); }"),
        ("S::default", "struct S; fn start() { S::default(); }"),
        ("any", "fn start(n: &[u8]) { n.iter().any(|n| n < 3); }"),
    ] {
        let files =
            [("first/src/lib.rt", text), ("third/src/lib.rt", DEEP), ("second/src/lib.rt", "")];
        let faults = faults(&files).unwrap_or_else(|fault| panic!("{text}: {fault}"));
        assert_eq!(only(&faults), ("first::start", &What::NotFound(name.into())), "{text}");
    }
}

#[test]
fn a_fault_is_told_with_the_way_to_it() {
    let told = |text: &str| in_first(text).iter().map(Fault::to_string).collect::<Vec<_>>();
    assert_eq!(told("fn start() { [0]; }"), ["first::start has an array (first/src/lib.rt:1)"]);
    assert_eq!(
        told("fn start() { a(); }\nfn a() { b(); }\nfn b() { c(); }"),
        ["first::b names c, not found (first/src/lib.rt:3), by first::start, first::a"]
    );
}

#[test]
fn a_function_of_c_has_no_text() {
    let faults = in_first("extern \"C\" { fn read(n: i32) -> i32; } fn start() { read(0); }");
    assert_eq!(only(&faults), ("first::read", &What::Foreign));
}

#[test]
fn texts_that_cannot_be_read() {
    for (told, text) in [
        (
            "first/src/lib.rt: line 2: an item of an unknown form, static",
            "\nstatic N: u64 = 0;",
        ),
        ("first/src/lib.rt: line 1: an item of an unknown form, macro", "macro m() {}"),
        ("first/src/lib.rt: line 1: { is not closed", "fn start() {"),
        ("first/src/lib.rt: line 1: a bracket expected, not !", "#![a] fn start() {}"),
        ("first/src/lib.rt: the text ends inside an item", "use a::b"),
        ("first/src/lib.rt: line 1: a name expected, not 3", "const 3: u64 = 0;"),
        ("first/src/lib.rt: line 1: a comment of a form that is not read", "/* fn start() */"),
        ("first/src/lib.rt: line 1: an unknown sign λ", "fn start() { λ }"),
        ("first/src/lib.rt: line 1: an unknown sign '", "fn start() { b''' }"),
        ("first/src/lib.rt: line 1: a clause without an end", "fn start() requires { {} "),
        ("first/src/lib.rt: line 1: a quotation without an end", "fn start() { b\"\\\" }"),
        ("first/src/lib.rt: two items have the name a", "fn a() {} mod a {}"),
        ("first/src/lib.rt: there is no type S", "impl S { fn start() {} }"),
        ("first/src/lib.rt: there is no type u8", "impl u8 { fn start() {} }"),
        ("first/src/lib.rt: line 1: a name expected, not &", "impl From<u8> for &S {}"),
        (
            "two functions have the path first::S::a",
            "struct S; impl S { fn a() {} } impl S { fn a() {} }",
        ),
        (
            "first/src/lib.rt: line 1: an item of an unknown form, macro",
            "struct S; impl S { macro m() {} }",
        ),
        ("there is no first/src/a.rt", "mod a;"),
        ("there is no first::start", "fn other() {}"),
        ("there is no first::start", "mod start {}"),
    ] {
        assert_eq!(unread(text), told, "{text}");
    }
}
