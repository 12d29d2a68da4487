//! That this crate and include/kundatrezo.h give the same names, words and limits.

use kundatrezo::{
    MAX_BYTES, MAX_CALLERS, MAX_CLIFFORD_QUBITS, MAX_GROUPS, MAX_OUTCOMES, MAX_QUBITS, MAX_SHOTS, Number,
};

const HEADER: &str = include_str!("../../../../include/kundatrezo.h");

/// What the header defines a name as, without its comment.
fn defined(name: &str) -> Option<&'static str> {
    let lines = HEADER.lines().filter_map(|line| line.strip_prefix("#define KUNDATREZO_")?.split_once(' '));
    lines.filter(|(own, _)| *own == name).map(|(_, value)| value.split("/*").next().unwrap_or(value).trim()).next()
}

#[test]
fn names_and_words_are_those_of_the_c_header() {
    for number in Number::ALL {
        assert_eq!(defined(number.name()), Some(number.get().to_string().as_str()), "{}", number.name());
        let text = format!("case KUNDATREZO_{}: return \"{}\";", number.name(), number.words());
        assert!(HEADER.contains(&text), "{text}");
    }
    assert_eq!(HEADER.matches("case KUNDATREZO_").count(), Number::ALL.len(), "the header has as many");
}

#[test]
fn limits_and_version_are_those_of_the_c_header() {
    let limits = [
        ("MAX_BYTES", MAX_BYTES),
        ("MAX_QUBITS", MAX_QUBITS),
        ("MAX_OUTCOMES", MAX_OUTCOMES),
        ("MAX_SHOTS", MAX_SHOTS),
        ("MAX_CLIFFORD_QUBITS", MAX_CLIFFORD_QUBITS),
        ("MAX_GROUPS", MAX_GROUPS),
        ("MAX_CALLERS", MAX_CALLERS),
    ];
    for (name, limit) in limits {
        assert_eq!(defined(name), Some(limit.to_string().as_str()), "{name}");
    }
    assert_eq!(defined("VERSION"), Some(concat!("\"", env!("CARGO_PKG_VERSION"), "\"")));
}

#[test]
fn every_number_has_words_of_its_own() {
    assert!(Number::ALL.is_sorted());
    for (place, number) in Number::ALL.iter().enumerate() {
        assert!(Number::ALL[..place].iter().all(|earlier| earlier.words() != number.words() && earlier != number));
        assert!(!number.words().contains("does not know"));
    }
}
