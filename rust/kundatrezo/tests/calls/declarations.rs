//! The C interface is declared in include/kundatrezo.h and in src/sys.rs: the same calls, parameters and structs, by their names, order and types.

use std::collections::BTreeMap;

const HEADER: &str = include_str!("../../../../include/kundatrezo.h");
const SYS: &str = include_str!("../../src/sys.rs");

/// Names with their types, in order.
type Fields = Vec<(String, String)>;

fn words(text: &str) -> String {
    text.split_whitespace().collect::<Vec<&str>>().join(" ")
}

/// The parts of a list that are not empty, each read.
fn listed(list: &str, separator: char, read: fn(&str) -> (String, String)) -> Fields {
    list.split(separator).map(words).filter(|part| !part.is_empty()).map(|part| read(&part)).collect()
}

/// A text split in two.
fn two<'a>(text: &'a str, separator: &str) -> (&'a str, &'a str) {
    text.split_once(separator).unwrap_or_else(|| panic!("no '{separator}' in '{text}'"))
}

/// The header's declarations of structs and calls, without `struct` at their front: those that begin a line.
fn header() -> Vec<String> {
    let comments = HEADER.split("/*").map(|part| part.split_once("*/").map_or(part, |(_, after)| after));
    comments.collect::<String>().split("\nstruct ").skip(1).map(str::to_owned).collect()
}

/// A parameter or a field of C, with the type that Rust has for it; a struct has its name in C.
fn of_c(declared: &str) -> (String, String) {
    let (kind, name) = declared.rsplit_once(' ').expect("a type and a name");
    let rust = match kind.trim_start_matches("const ") {
        "uint8_t" => "u8",
        "uint64_t" => "u64",
        "size_t" => "usize",
        other => two(other, "struct ").1,
    };
    let pointer = match (name.starts_with('*'), kind.starts_with("const ")) {
        (false, _) => "",
        (true, true) => "*const ",
        (true, false) => "*mut ",
    };
    (name.trim_start_matches('*').to_owned(), format!("{pointer}{rust}"))
}

/// A parameter or a field of Rust; a struct has its name in C.
fn of_rust(declared: &str) -> (String, String) {
    let (name, kind) = two(declared.trim_start_matches("pub "), ": ");
    (name.to_owned(), in_c(kind))
}

/// The structs of sys.rs: the name in C, which a comment has, and what follows.
fn rust_structs() -> impl Iterator<Item = (&'static str, &'static str)> {
    SYS.split("/// `struct ").skip(1).map(|text| two(text, "`"))
}

/// What a type of Rust is called in C, if it is a struct.
fn in_c(kind: &str) -> String {
    let found = rust_structs().find(|(_, text)| two(two(text, "pub struct ").1, " {").0 == kind);
    found.map_or(kind, |(name, _)| name).to_owned()
}

#[test]
fn calls_are_declared_alike() {
    let of_header = |text: &String| {
        let (before, parameters) = two(text, "(");
        let (answer, name) = two(before, " ");
        (name.to_owned(), (listed(two(parameters, ")").0, ',', of_c), answer.to_owned()))
    };
    let is_call = |text: &&String| text.lines().next().is_some_and(|line| line.contains('('));
    let declared: BTreeMap<String, (Fields, String)> = header().iter().filter(is_call).map(of_header).collect();
    let of_block = |text: &str| {
        let (name, rest) = two(two(text, "fn ").1, "(");
        let (parameters, answer) = two(rest, ") -> ");
        (name.to_owned(), (listed(parameters, ',', of_rust), in_c(answer)))
    };
    let block = two(two(SYS, "unsafe extern \"C\" {").1, "\n}\n").0;
    let calls = block.split(';').filter(|text| text.contains("fn "));
    assert_eq!(declared, calls.map(of_block).collect());
    assert_eq!(declared.len(), 17);
}

#[test]
fn structs_are_declared_alike() {
    let of_header = |text: &String| text.split_once(" {\n").map(|(name, rest)| (name.to_owned(), rest.to_owned()));
    let found = header().iter().filter_map(of_header).filter(|(name, _)| !name.contains(' ')).collect::<Vec<_>>();
    let fields = |(name, rest): (String, String)| (name, listed(two(&rest, "\n}").0, ';', of_c));
    let declared: BTreeMap<String, Fields> = found.into_iter().map(fields).collect();
    let of_sys = |(name, text): (&str, &str)| {
        let body = two(two(text, " {\n").1, "\n}").0;
        (name.to_owned(), listed(body, ',', of_rust))
    };
    assert_eq!(declared, rust_structs().map(of_sys).collect());
    assert_eq!(declared.len(), 5);
}
